//! A block, and what 02 says of it: each net planned by the plain search, "as 01's program does".

use crate::asked::Asked;
use crate::c_calls::Totals;
use crate::compare::{broken, Case};
use crate::plain::{self, PlannedNet};
use std::collections::BTreeSet;

/// A block with what the report tells of it.
pub struct Block {
    pub name: String,
    pub bytes: Vec<u8>,
    pub totals: Totals,
    /// The tags that the planned nets begin with: 1, or 7 where there are vias.
    pub editions: BTreeSet<u8>,
    /// The wire of its planned nets; 0 for bytes that are no block.
    wire: i128,
}

impl Block {
    pub fn new(name: &str, bytes: &[u8]) -> Block {
        let (totals, editions, wire) = match plain::read_block(bytes) {
            Err(refusal) => (Totals { refusal, ..Default::default() }, BTreeSet::new(), 0),
            Ok(nets) => {
                let planned: Vec<PlannedNet> = nets.iter().map(|net| planned_by_program(net)).collect();
                let editions = nets.iter().zip(&planned).filter(|(_, planned)| planned.is_ok()).map(|(net, _)| net[0]);
                (plain::totals(&planned), editions.collect(), plain::planned_wire(&planned))
            }
        };
        Block { name: String::from(name), bytes: bytes.to_vec(), totals, editions, wire }
    }

    /// What the report prints.
    pub fn text(&self) -> String {
        plain::report_text(&self.totals)
    }

    /// What is wrong with totals that were found.
    pub fn faults(&self, found: &Totals) -> Vec<String> {
        let wire: i128 = found.lengths.iter().map(|&length| length as i128).sum();
        let told = found.planned as i128 + found.refused.iter().map(|&count| count as i128).sum::<i128>();
        broken(&[
            (found == &self.totals, "the totals"),
            (wire == self.wire, "the lengths over layers do not add up to the wire of the planned nets"),
            (told == found.nets as i128, "planned and refused nets do not add up to the nets"),
        ])
    }
}

/// One net of a block, planned with the program's share, table and plan buffer.
fn planned_by_program(bytes: &[u8]) -> PlannedNet {
    let stages = plain::check(bytes).stages as usize;
    let case = Case::searched("of a block", bytes, plain::columns(plain::PROGRAM_TABLE, stages));
    let left = case.planned(&Asked::by_program());
    match (case.read, left.answer.refusal) {
        (Ok(net), 0) => Ok((net, left.buffer[..stages].to_vec())),
        (_, refusal) => Err(refusal),
    }
}
