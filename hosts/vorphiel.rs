//! The calls of `include/vorphiel.h` on slices: safe, as every call answers for every input, so that none of them has a condition of its own.
//!
//! Another program takes this file, with `c_calls.rs` beside it, by `#[path = "hosts/vorphiel.rs"] mod vorphiel;`, and is built with `-L` and the
//! folder of `libvorphiel.a`.
#![allow(dead_code)] // A host need not make every call.

#[path = "c_calls.rs"] // Beside this file, wherever it is taken from.
mod c_calls;

use c_calls::{Check, Judge, Plan, PlanRounds, Report, TableEntries, Version};
use c_calls::{DeskLock, DeskOpen, DeskRead, DeskRecord, DeskSet, DeskUnlock};
use std::fmt;

pub use c_calls::Totals;

// Links the library; its calls are declared in `c_calls.rs`.
#[link(name = "vorphiel", kind = "static")]
extern "C" {}

/// The largest p and the largest q of a share p/q.
pub const MOST_SHARE: u64 = 1_000;

/// The most rounds: one for each k from 28 down to 0.
pub const MOST_ROUNDS: u64 = 29;

/// A refusal by its number, 1 to 17; shown in words.
#[derive(Clone, Copy, Debug, PartialEq, Eq)]
pub struct Refusal(pub u8);

impl fmt::Display for Refusal {
    fn fmt(&self, f: &mut fmt::Formatter) -> fmt::Result {
        f.write_str(match self.0 {
            1 => "a field is due and fewer than three bytes are left, or its payload is not all there",
            2 => "a tag that is not allowed there, or a length that its kind does not have",
            3 => "a number outside its range",
            4 => "a 256th node after the driver, or a 64th buffer",
            5 => "a bad parent: not a lower number, a sink, or one that has two children already",
            6 => "a childless node that is no sink",
            7 => "the plan's length is not the number of stages; on a desk, a stage number that is not below it",
            8 => "a layer number that is not below the layer count",
            9 => "the share is out of range: P is at most 1,000 and Q is 1 to 1,000",
            10 => "the plan buffer is shorter than the number of stages",
            11 => "no plan of this net meets timing; allow more time, or change the net",
            12 => "the table has too few columns; lend a longer one, or ask for a larger share",
            13 => "no block: more than 65,536 bytes, a field of another tag than 6, or cut short",
            14 => "the number of rounds is outside 1 to 29",
            15 => "a net above 4,096 bytes, the most that a desk takes",
            16 => "the desk was never opened",
            17 => "the stage is locked",
            _ => "a refusal that this host does not know",
        })
    }
}

impl std::error::Error for Refusal {}

/// What a net has; the driver is one of its nodes.
#[derive(Clone, Copy, Debug, Default, PartialEq, Eq)]
pub struct Counts {
    pub nodes: u64,
    pub stages: u64,
    pub layers: u64,
}

/// A plan's cost, and its slack in ticks, which may be negative.
#[derive(Clone, Copy, Debug, Default, PartialEq, Eq)]
pub struct Judged {
    pub cost: u64,
    pub slack: i64,
}

/// What is said of the plan found: its cost and slack, the exponent of the grain 2^k, and the floor, 2^k times the least rounded cost of the plans that meet
/// timing: at most the cost of every one of them, never above `cost`, and equal to it at share 0.
#[derive(Clone, Copy, Debug, Default, PartialEq, Eq)]
pub struct Planned {
    pub cost: u64,
    pub slack: i64,
    pub k: u64,
    pub floor: u64,
}

/// What is said of the cheapest plan of some rounds: its cost and slack, the floor, which is the largest of the rounds and at most the cost of every plan that
/// meets timing, and how many rounds were run, at k = 28, 27 and down.
#[derive(Clone, Copy, Debug, Default, PartialEq, Eq)]
pub struct RoundsPlanned {
    pub cost: u64,
    pub slack: i64,
    pub floor: u64,
    pub rounds: u64,
}

fn accepted<T>(refusal: u8, answer: T) -> Result<T, Refusal> {
    if refusal == 0 {
        Ok(answer)
    } else {
        Err(Refusal(refusal))
    }
}

/// The version of the library that is linked: major, minor, patch.
pub fn version() -> (u64, u64, u64) {
    // SAFETY: the call takes nothing.
    let version = unsafe { Version {}.make() };
    (version / 10_000, version / 100 % 100, version % 100)
}

/// Reads a net, whose layers have tag 1, or tag 7 and a via resistance each: its counts, or the first fault met (1 to 6).
pub fn check(net: &[u8]) -> Result<Counts, Refusal> {
    let mut found = Counts::default();
    let Counts { nodes, stages, layers } = &mut found;
    let call = Check { net: net.as_ptr(), net_len: net.len(), nodes, stages, layers };
    // SAFETY: the slice's pointer is valid for its length: if it is empty, not null and never read. The results are fields of a local of
    // our own, so they overlap neither each other nor the net.
    let refusal = unsafe { call.make() };
    accepted(refusal, found)
}

/// Judges a plan, one layer number a stage; vias are counted where the net has them. Refusals: 1 to 6, 7, 8.
pub fn judge(net: &[u8], plan: &[u8]) -> Result<Judged, Refusal> {
    let mut found = Judged::default();
    let Judged { cost, slack } = &mut found;
    let call = Judge { net: net.as_ptr(), net_len: net.len(), plan: plan.as_ptr(), plan_len: plan.len(), cost, slack };
    // SAFETY: as in `check`, for both slices. The library only reads them, so it does no harm if the caller lends the same bytes twice.
    let refusal = unsafe { call.make() };
    accepted(refusal, found)
}

/// Plans a net with share p/q: on acceptance the plan opens the buffer `plan`, one layer number a stage. Refusals: 1 to 6, 9, 10, 11, 12.
pub fn plan(net: &[u8], p: u64, q: u64, table: &mut [i64], plan: &mut [u8]) -> Result<Planned, Refusal> {
    let mut found = Planned::default();
    let Planned { cost, slack, k, floor } = &mut found;
    let call = Plan {
        net: net.as_ptr(),
        net_len: net.len(),
        p,
        q,
        table: table.as_mut_ptr(),
        table_len: table.len(),
        plan: plan.as_mut_ptr(),
        plan_len: plan.len(),
        cost,
        slack,
        k,
        floor,
    };
    // SAFETY: each slice's pointer is valid for its length, as in `check`; table and plan buffer are lent by `&mut`, so Rust keeps them apart
    // from each other and from the net, and nobody else sees them during the call. The results are fields of a local of our own.
    let refusal = unsafe { call.make() };
    accepted(refusal, found)
}

/// Plans a net by at most r rounds: on acceptance the cheapest plan that they found opens the buffer `plan`. They end early, which is no refusal, before a round
/// that needs more columns than the table has; with `enough_for_rounds` entries all are run. Refusals: 1 to 6, 14, 10, 11, 12.
pub fn plan_rounds(net: &[u8], r: u64, table: &mut [i64], plan: &mut [u8]) -> Result<RoundsPlanned, Refusal> {
    let mut found = RoundsPlanned::default();
    let RoundsPlanned { cost, slack, floor, rounds } = &mut found;
    let call = PlanRounds {
        net: net.as_ptr(),
        net_len: net.len(),
        r,
        table: table.as_mut_ptr(),
        table_len: table.len(),
        plan: plan.as_mut_ptr(),
        plan_len: plan.len(),
        cost,
        slack,
        floor,
        rounds,
    };
    // SAFETY: as in `plan`.
    let refusal = unsafe { call.make() };
    accepted(refusal, found)
}

/// The totals over the nets of a block, each planned with share 1/4, a table of 8,192 entries and a plan buffer of 64; a net that is refused is counted in
/// `refused` by its number. The one refusal of a block is 13.
pub fn report(block: &[u8]) -> Result<Totals, Refusal> {
    // SAFETY: as in `check`; the answer comes by value.
    let totals = unsafe { Report { block: block.as_ptr(), block_len: block.len() }.make() };
    accepted(totals.refusal, totals)
}

/// A desk for hand changes: a copy of a net, a plan and a lock for each stage. A new one was never opened. A refused call keeps it as it was. It is plain data: a
/// clone is a desk by itself, and assigning an earlier clone puts that back.
#[derive(Clone)]
pub struct Desk(DeskRecord);

impl Default for Desk {
    fn default() -> Desk {
        Desk(DeskRecord::FRESH)
    }
}

impl Desk {
    /// Opens the desk with a net, of which it takes a copy: every stage is on layer 0, unlocked. What was on the desk is gone. Refusals: 15, 1 to 6.
    pub fn open(&mut self, net: &[u8]) -> Result<Counts, Refusal> {
        // SAFETY: the desk is lent by `&mut`, so that nobody else sees it during the call, and the net is apart from it; the net as in `check`; the answer
        // comes by value.
        let found = unsafe { DeskOpen { desk: &mut self.0, net: net.as_ptr(), net_len: net.len() }.make() };
        accepted(found.refusal, Counts { nodes: found.nodes, stages: found.stages, layers: found.layers })
    }

    /// Moves a stage to a layer. Refusals: 16, 7, 8, 17; the last also where the stage is on that layer already.
    pub fn set(&mut self, stage: u64, layer: u64) -> Result<(), Refusal> {
        // SAFETY: the desk as in `open`.
        let refusal = unsafe { DeskSet { desk: &mut self.0, stage, layer }.make() };
        accepted(refusal, ())
    }

    /// Locks a stage, so that it cannot be set; one that is locked stays so. Refusals: 16, 7.
    pub fn lock(&mut self, stage: u64) -> Result<(), Refusal> {
        // SAFETY: the desk as in `open`.
        let refusal = unsafe { DeskLock { desk: &mut self.0, stage }.make() };
        accepted(refusal, ())
    }

    /// Unlocks a stage; one that is unlocked stays so. Refusals: 16, 7.
    pub fn unlock(&mut self, stage: u64) -> Result<(), Refusal> {
        // SAFETY: the desk as in `open`.
        let refusal = unsafe { DeskUnlock { desk: &mut self.0, stage }.make() };
        accepted(refusal, ())
    }

    /// The cost and slack of the plan on the desk, as `judge` gives them. Refusal: 16.
    pub fn read(&self) -> Result<Judged, Refusal> {
        // SAFETY: the desk is lent by `&`, and the call only reads it; the answer comes by value.
        let found = unsafe { DeskRead { desk: &self.0 }.make() };
        accepted(found.refusal, Judged { cost: found.cost, slack: found.slack })
    }

    /// How many stages the net on the desk has; 0 if the desk was never opened.
    pub fn stages(&self) -> u64 {
        self.0.stages
    }

    /// How many layers the net on the desk has; 0 if the desk was never opened.
    pub fn layers(&self) -> u64 {
        self.0.layers
    }

    /// The plan on the desk, one layer number a stage; empty if the desk was never opened.
    pub fn plan(&self) -> &[u8] {
        &self.0.plan[..self.0.stages as usize]
    }

    /// Whether the desk has a stage of this number, and it is locked.
    pub fn is_locked(&self, stage: u64) -> bool {
        stage < self.0.stages && self.0.locks[stage as usize] != 0
    }
}

impl fmt::Debug for Desk {
    fn fmt(&self, f: &mut fmt::Formatter) -> fmt::Result {
        let locked: Vec<u64> = (0..self.stages()).filter(|&stage| self.is_locked(stage)).collect();
        f.debug_struct("Desk").field("layers", &self.layers()).field("plan", &self.plan()).field("locked", &locked).finish()
    }
}

/// The wall chart's number: the entries that always serve a net of this many stages, 1 to 64, at share 1/q, q from 1 to 10. None where the chart has none.
pub fn table_entries(stages: u64, q: u64) -> Option<u64> {
    // SAFETY: numbers only, and the call answers for all of them.
    let entries = unsafe { TableEntries { s: stages, q }.make() };
    (entries > 0).then_some(entries)
}

/// A table length that is never too short for a net of this many stages: the chart's number where it has one, else
/// (s + ceil(2qs / p)) * (s + 2). None where the share alone does not tell: at share 0, for which `enough_by_cost` is
/// there, and for shares out of range, which are refused whatever the table.
pub fn enough_entries(stages: u64, p: u64, q: u64) -> Option<usize> {
    let charted = if p == 1 { table_entries(stages, q) } else { None };
    if let Some(entries) = charted {
        return usize::try_from(entries).ok();
    }
    if !(1..=MOST_SHARE).contains(&p) || !(1..=MOST_SHARE).contains(&q) {
        return None;
    }
    let columns = stages.checked_mul(2 * q)?.div_ceil(p).checked_add(stages)?;
    usize::try_from(columns.checked_mul(stages.checked_add(2)?)?).ok()
}

/// A table length that is never too short for a net of this many stages, at share 0 as at any other, once a plan of
/// this cost is known that meets timing, such as that at share 1/4: (cost + 1) * (s + 2). At share 0 the search needs a
/// column for each cost up to the cheapest plan's, which is no dearer; at a larger share it needs no more.
pub fn enough_by_cost(stages: u64, cost: u64) -> Option<usize> {
    usize::try_from(cost.checked_add(1)?.checked_mul(stages.checked_add(2)?)?).ok()
}

/// A table length with which all of r rounds are run, r from 1 to 29, once a plan of this cost is known that meets
/// timing: (cost / 2^(29 - r) + 1) * (s + 2).
pub fn enough_for_rounds(stages: u64, r: u64, cost: u64) -> Option<usize> {
    enough_by_cost(stages, cost >> MOST_ROUNDS.checked_sub(r)?)
}
