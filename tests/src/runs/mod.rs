//! The sets of calls that are compared.

pub mod blocks;
mod chart;
pub mod desk;
pub mod faults;
mod limits;
pub mod loads;
mod order;
mod planning;
mod reading;
pub mod rounds;
pub mod stored;
mod universe;

use crate::compare::{Comparison, Outcome};
use crate::nets::Random;
use crate::rows;

/// Everything: the rows of 01, the same nets every time, stored answers, then random nets, `count` of them small; and then
/// the same for planning by rounds; and runs of calls on desks.
pub fn all(c: &mut Comparison, seed: u64, count: usize) -> Outcome {
    rows::run(c)?;
    order::run(c)?;
    chart::fixed(c)?;
    blocks::fixed(c)?;
    limits::numbers(c)?;
    reading::fixed(c)?;
    universe::run(c)?;
    limits::nets(c)?;
    blocks::large(c)?;
    chart::served(c)?;
    stored::run(c)?;
    let mut random = Random::new(seed);
    chart::random(c, &mut Random::new(seed ^ 0xC4), 10 * count)?;
    blocks::random(c, &mut Random::new(seed ^ 0xB6), count / 2)?;
    reading::damaged(c, &mut random, 4 + count / 40)?;
    planning::small_nets(c, &mut random, count, planning::one_net)?;
    limits::random(c, &mut random, count / 100)?;
    planning::large_nets(c, &mut random, count / 4, planning::one_net)?;
    rounds::all(c, seed, count)?;
    desk::all(c, seed, count)
}
