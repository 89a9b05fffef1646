//! Blocks of small nets: the report over a block beside planning its nets one by one, both through the C interface.

use crate::library::{self, Refusal, Totals};
use crate::measure::{self, Counted, Pair};
use vorphiel_tests::nets::line;

/// The longest block, in bytes.
pub const LONGEST: usize = 65_536;

/// The bytes of the blocks on which the bound is tried: few, as callgrind is slow.
const SHORT: usize = 2_048;

/// The report is to execute at most so many times the instructions of planning one by one.
const BOUND: f64 = 1.5;

/// Planning as the program does: the share, and the entries of the table.
const SHARE: (u64, u64) = (1, 4);
const ENTRIES: usize = 8_192;

/// A block, and its nets apart with the room that planning them is lent.
pub struct Block {
    pub name: &'static str,
    bytes: Vec<u8>,
    nets: Vec<Vec<u8>>,
    table: Vec<i64>,
    plan: [u8; 64],
}

impl Block {
    /// The block of some nets in turn, again and again as long as they fit.
    fn new(name: &'static str, kinds: &[&[u8]], longest: usize) -> Block {
        let (mut bytes, mut nets) = (vec![], vec![]);
        for &net in kinds.iter().cycle() {
            if bytes.len() + 3 + net.len() > longest {
                break;
            }
            bytes.push(6);
            bytes.extend((net.len() as u16).to_be_bytes());
            bytes.extend(net);
            nets.push(net.to_vec());
        }
        Block { name, bytes, nets, table: vec![0; ENTRIES], plan: [0; 64] }
    }

    pub fn nets(&self) -> usize {
        self.nets.len()
    }

    fn report(&self) -> Totals {
        library::report(&self.bytes).expect("a block")
    }

    /// What planning tells of the nets, added up: all totals but the lengths.
    fn one_by_one(&mut self) -> Totals {
        let mut totals = Totals { nets: self.nets.len() as u64, ..Totals::default() };
        for net in &self.nets {
            match library::plan(net, SHARE.0, SHARE.1, &mut self.table, &mut self.plan) {
                Ok(planned) => {
                    totals.planned += 1;
                    totals.cost += planned.cost;
                }
                Err(Refusal(number)) => totals.refused[number as usize] += 1,
            }
        }
        totals
    }
}

impl Pair for Block {
    fn run(&mut self, way: usize) {
        std::hint::black_box(if way == 0 { self.report() } else { self.one_by_one() });
    }
}

/// The bytes that a text of nets/ says: digits up to #, two for a byte.
pub fn bytes_of(text: &str) -> Vec<u8> {
    let said = text.lines().filter_map(|line| line.split('#').next());
    let digits: Vec<u32> = said.flat_map(str::chars).filter_map(|digit| digit.to_digit(16)).collect();
    digits.chunks(2).map(|pair| (16 * pair[0] + pair[1]) as u8).collect()
}

/// Blocks of at most so many bytes: of nets that are planned, and of nets that are refused late (11) and at once (1).
pub fn of_small_nets(longest: usize) -> Vec<Block> {
    let a = bytes_of(include_str!("../../nets/a.hex"));
    let b = bytes_of(include_str!("../../nets/b.hex"));
    let steiner = bytes_of(include_str!("../../nets/steiner.hex"));
    let infeasible = bytes_of(include_str!("../../nets/infeasible.hex"));
    vec![
        Block::new("net A", &[&a], longest),
        Block::new("net B", &[&b], longest),
        Block::new("net `steiner`", &[&steiner], longest),
        Block::new("the three in turn", &[&a, &b, &steiner], longest),
        Block::new("net A, required time 229", &[&infeasible], longest),
        Block::new("nets of no bytes", &[&[]], longest),
    ]
}

/// A block of nets that take the most stack, for their calls are nested the deepest: chains of 64 stages, at a cost so low that the program's table is enough.
pub fn deepest() -> Block {
    Block::new("chains of 64 stages", &[&line(63, 0).bytes()], LONGEST)
}

/// The instructions over the blocks of at most so many bytes, if there is valgrind.
pub fn counted(longest: usize, blocks: usize) -> Option<Counted> {
    measure::instructions(&["--once-blocks", &longest.to_string()], blocks, &[])
}

/// Both ways tell the same of short blocks, and the report keeps to its bound on them. Valgrind must be there.
pub fn keep_the_bound() {
    let mut blocks = of_small_nets(SHORT);
    for block in &mut blocks {
        let report = Totals { lengths: [0; 16], ..block.report() };
        assert_eq!(report, block.one_by_one(), "the report tells otherwise: {}", block.name);
    }
    let (counted, _) = counted(SHORT, blocks.len()).expect("valgrind, to count instructions");
    for (block, [report, one_by_one]) in blocks.iter().zip(counted) {
        let factor = report as f64 / one_by_one as f64;
        println!("report over a block of {}: {factor:.2} times the instructions of planning one by one", block.name);
        assert!(factor <= BOUND, "more than {BOUND} times");
    }
}
