//! Reports over blocks (02, wish 2).

use crate::block::Block;
use crate::compare::{Comparison, Outcome};
use crate::nets::{self, Random};
use std::sync::OnceLock;

/// The same blocks every time. What is told of them is worked out once, for every wrong planner is tried on them.
pub fn fixed(c: &mut Comparison) -> Outcome {
    static BLOCKS: OnceLock<Vec<Block>> = OnceLock::new();
    BLOCKS.get_or_init(|| worked_out(nets::fixed_blocks())).iter().try_for_each(|block| c.report(block))
}

/// Blocks of large nets, which take longer to plan: the same every time too.
pub fn large(c: &mut Comparison) -> Outcome {
    static BLOCKS: OnceLock<Vec<Block>> = OnceLock::new();
    BLOCKS.get_or_init(|| worked_out(nets::large_blocks())).iter().try_for_each(|block| c.report(block))
}

fn worked_out(blocks: Vec<(String, Vec<u8>)>) -> Vec<Block> {
    blocks.iter().map(|(name, bytes)| Block::new(name, bytes)).collect()
}

/// Random blocks, some of them damaged.
pub fn random(c: &mut Comparison, random: &mut Random, count: usize) -> Outcome {
    (0..count).try_for_each(|number| c.report(&random_block(number, random)))
}

/// So many blocks for the program `block_report`: those that meet every line of the report, then random ones.
pub fn for_program(seed: u64, count: usize) -> Vec<Block> {
    let mut random = Random::new(seed);
    let first = worked_out(nets::every_line());
    let more = (first.len()..count).map(|number| random_block(number, &mut random)).collect::<Vec<Block>>();
    first.into_iter().chain(more).take(count).collect()
}

fn random_block(number: usize, random: &mut Random) -> Block {
    let (what, bytes) = nets::random_block(random);
    Block::new(&format!("random block {number}: {what}"), &bytes)
}
