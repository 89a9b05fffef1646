//! Nets as bytes: random whole nets of several families, nets made for one purpose, and damaged ones; and blocks of
//! nets. The same seed gives the same nets.

mod blocks;
mod damage;
mod draft;
mod grown;
mod named;
mod random;
mod times;

pub use blocks::{block, every_line, fixed as fixed_blocks, large as large_blocks, random_block, some_net};
pub use damage::{
    around_longest, bits_turned, changed_b, damaged, heads, layer_counts, lines_around_limits, long, rubbish,
    scrambled, some_damaged, too_many, unreadable, unreadable_long,
};
pub use draft::{Draft, Kind, Node, LENGTH, MOST_LAYERS, MOST_NODES, MOST_STAGES, TIME, UNIT, VIA};
pub use grown::{at_limits, cheap, random_net, trading, LARGE_FAMILIES, SMALL_FAMILIES};
pub use named::{a_of_length, all_kinds, cheaper_from, costing, crossed, dear_b, equal_b, equal_on_three, even_line};
pub use named::{even_tree, full_tree, last_layer_cheapest, line, longest, net_a, net_b, no_delay, rounded_b, slowest};
pub use named::{of_bytes, slowest_met, star, turning_on_three, varied_line};
pub use random::Random;
pub use times::leave_slack;
