//! The calls of include/vorphiel.h as a host in another language makes them: those of the linked library, or those of
//! a wrong planner.
//!
//! Every lent buffer is a copy with a margin of known values on both sides, and every result begins as rubbish. A
//! write outside a buffer, or into one that is only to be read, is reported by `complaint`.

use crate::c_calls::{Check, Judge, Plan, PlanRounds, Report, TableEntries, Totals};
use crate::c_calls::{
    DeskCounts, DeskFigures, DeskLock, DeskOpen, DeskRead, DeskRecord, DeskSet, DeskSize, DeskUnlock,
};
use crate::plain::{Checked, Judged, Planned, RoundsPlanned};
use std::mem::size_of;
use std::slice::from_raw_parts;

/// The calls of an implementation, each a function of the C function's parameters.
#[derive(Clone, Copy)]
pub struct Interface {
    pub check: unsafe fn(Check) -> u8,
    pub judge: unsafe fn(Judge) -> u8,
    pub plan: unsafe fn(Plan) -> u8,
    pub plan_rounds: unsafe fn(PlanRounds) -> u8,
    pub table_entries: unsafe fn(TableEntries) -> u64,
    pub report: unsafe fn(Report) -> Totals,
    pub desk_size: unsafe fn(DeskSize) -> u64,
    pub desk_open: unsafe fn(DeskOpen) -> DeskCounts,
    pub desk_set: unsafe fn(DeskSet) -> u8,
    pub desk_lock: unsafe fn(DeskLock) -> u8,
    pub desk_unlock: unsafe fn(DeskUnlock) -> u8,
    pub desk_read: unsafe fn(DeskRead) -> DeskFigures,
}

/// The linked library's.
#[cfg(feature = "library")]
pub fn linked() -> Option<Interface> {
    Some(Interface {
        check: Check::make,
        judge: Judge::make,
        plan: Plan::make,
        plan_rounds: PlanRounds::make,
        table_entries: TableEntries::make,
        report: Report::make,
        desk_size: DeskSize::make,
        desk_open: DeskOpen::make,
        desk_set: DeskSet::make,
        desk_lock: DeskLock::make,
        desk_unlock: DeskUnlock::make,
        desk_read: DeskRead::make,
    })
}

/// This build has none.
#[cfg(not(feature = "library"))]
pub fn linked() -> Option<Interface> {
    None
}

/// How many cells stand on either side of a lent buffer or result; odd, so that nothing is aligned by chance.
const MARGIN: usize = 25;

/// What stands there.
const NET_EDGE: u8 = 0xC3;
const PLAN_EDGE: u8 = 0x3C;
const TABLE_EDGE: i64 = 0x0123_4567_89AB_CDEF;
const RESULT_EDGE: u64 = 0xFEDC_BA98_7654_3210;
const DESK_EDGE: u64 = 0x89AB_CDEF_FEDC_BA98;

/// A result before the call.
const RUBBISH: u64 = 0x5A5A_A5A5_1234_8765;

/// A copy of a buffer with margins.
struct Lent<T> {
    name: &'static str,
    cells: Vec<T>,
    length: usize,
    edge: T,
}

impl<T: Copy + PartialEq> Lent<T> {
    fn new(name: &'static str, content: &[T], edge: T) -> Lent<T> {
        let margin = [edge; MARGIN];
        Lent { name, cells: [&margin[..], content, &margin[..]].concat(), length: content.len(), edge }
    }

    fn start(&mut self) -> *mut T {
        self.cells[MARGIN..].as_mut_ptr()
    }

    fn content(&self) -> &[T] {
        &self.cells[MARGIN..MARGIN + self.length]
    }

    /// A write beside the buffer.
    fn beside(&self) -> Option<String> {
        let (before, after) = (&self.cells[..MARGIN], &self.cells[MARGIN + self.length..]);
        let kept = before.iter().chain(after).all(|cell| *cell == self.edge);
        (!kept).then(|| format!("memory beside the {} was changed", self.name))
    }

    /// A write into or beside a buffer that is only to be read.
    fn written(&self, content: &[T]) -> Option<String> {
        let changed = (self.content() != content).then(|| format!("the {} was changed", self.name));
        changed.or_else(|| self.beside())
    }
}

/// A result of a call, rubbish at first.
fn result(name: &'static str) -> Lent<u64> {
    Lent::new(name, &[RUBBISH], RESULT_EDGE)
}

/// The size of a desk that include/vorphiel.h states.
pub const DESK_SIZE: usize = 4_248;

// A desk's record is whole words, and its numbers leave no gap: to compare them is to compare every byte.
const _: () =
    assert!(size_of::<DeskRecord>() == DESK_SIZE && DESK_SIZE == 3 * 8 + 4_096 + 2 * 64 && DESK_SIZE % 8 == 0);

/// A desk's record as raw bytes.
pub fn desk_bytes(desk: &DeskRecord) -> &[u8] {
    // Safe: as long as the record, which has no gap.
    unsafe { from_raw_parts((desk as *const DeskRecord).cast(), DESK_SIZE) }
}

/// A copy of a desk's record, in words as it must be aligned.
fn lent_desk(desk: &DeskRecord) -> Lent<u64> {
    // Safe: as above, and aligned as words are.
    let words = unsafe { from_raw_parts((desk as *const DeskRecord).cast(), DESK_SIZE / 8) };
    Lent::new("desk", words, DESK_EDGE)
}

/// What a planning call is lent.
struct LentToPlan {
    net: Lent<u8>,
    table: Lent<i64>,
    plan: Lent<u8>,
}

impl LentToPlan {
    fn new(net: &[u8], table: &[i64], plan: &[u8]) -> LentToPlan {
        LentToPlan {
            net: Lent::new("net", net, NET_EDGE),
            table: Lent::new("table", table, TABLE_EDGE),
            plan: Lent::new("plan buffer", plan, PLAN_EDGE),
        }
    }

    /// Gives table and plan buffer back as the call left them, and says what else was written.
    fn give_back(&self, net: &[u8], table: &mut [i64], plan: &mut [u8]) -> Option<String> {
        table.copy_from_slice(self.table.content());
        plan.copy_from_slice(self.plan.content());
        self.net.written(net).or_else(|| self.table.beside()).or_else(|| self.plan.beside())
    }
}

/// A planning call with what it is lent, beside its own parameters.
macro_rules! lending {
    ($lent:ident, $call:ident { $($own:tt)* }) => {
        $call {
            net: $lent.net.start(),
            net_len: $lent.net.length,
            table: $lent.table.start(),
            table_len: $lent.table.length,
            plan: $lent.plan.start(),
            plan_len: $lent.plan.length,
            $($own)*
        }
    };
}

/// Makes calls, and notes what was wrong with them besides their answers.
pub struct Host {
    interface: Interface,
    complaint: Option<String>,
}

impl Host {
    pub fn new(interface: Interface) -> Host {
        Host { interface, complaint: None }
    }

    /// What else was wrong with the last call.
    pub fn complaint(&mut self) -> Option<String> {
        self.complaint.take()
    }

    pub fn check(&mut self, net: &[u8]) -> Checked {
        let mut lent = Lent::new("net", net, NET_EDGE);
        let (mut nodes, mut stages, mut layers) = (result("nodes"), result("stages"), result("layers"));
        let call = Check {
            net: lent.start(),
            net_len: net.len(),
            nodes: nodes.start(),
            stages: stages.start(),
            layers: layers.start(),
        };
        // Safe: the pointers are to memory of the stated lengths that lives through the call.
        let refusal = unsafe { (self.interface.check)(call) };
        self.complaint = lent.written(net);
        let [nodes, stages, layers] = self.results([&nodes, &stages, &layers]);
        Checked { refusal, nodes, stages, layers }
    }

    pub fn judge(&mut self, net: &[u8], plan: &[u8]) -> Judged {
        let mut lent = Lent::new("net", net, NET_EDGE);
        let mut lent_plan = Lent::new("plan", plan, PLAN_EDGE);
        let (mut cost, mut slack) = (result("cost"), result("slack"));
        let call = Judge {
            net: lent.start(),
            net_len: net.len(),
            plan: lent_plan.start(),
            plan_len: plan.len(),
            cost: cost.start(),
            slack: slack.start().cast(),
        };
        // Safe: as above.
        let refusal = unsafe { (self.interface.judge)(call) };
        self.complaint = lent.written(net).or_else(|| lent_plan.written(plan));
        let [cost, slack] = self.results([&cost, &slack]);
        Judged { refusal, cost, slack: slack as i64 }
    }

    pub fn plan(&mut self, net: &[u8], p: u64, q: u64, table: &mut [i64], plan: &mut [u8]) -> Planned {
        let mut lent = LentToPlan::new(net, table, plan);
        let (mut cost, mut slack, mut k, mut floor) = (result("cost"), result("slack"), result("k"), result("floor"));
        let (cost_to, slack_to) = (cost.start(), slack.start().cast());
        let call = lending!(lent, Plan { p, q, cost: cost_to, slack: slack_to, k: k.start(), floor: floor.start() });
        // Safe: as above, and no two of the buffers overlap.
        let refusal = unsafe { (self.interface.plan)(call) };
        self.complaint = lent.give_back(net, table, plan);
        let [cost, slack, k, floor] = self.results([&cost, &slack, &k, &floor]);
        Planned { refusal, cost, slack: slack as i64, k, floor }
    }

    pub fn plan_rounds(&mut self, net: &[u8], r: u64, table: &mut [i64], plan: &mut [u8]) -> RoundsPlanned {
        let mut lent = LentToPlan::new(net, table, plan);
        let (mut cost, mut slack) = (result("cost"), result("slack"));
        let (mut floor, mut rounds) = (result("floor"), result("rounds"));
        let (cost_to, slack_to) = (cost.start(), slack.start().cast());
        let (floor_to, rounds_to) = (floor.start(), rounds.start());
        let call = lending!(lent, PlanRounds { r, cost: cost_to, slack: slack_to, floor: floor_to, rounds: rounds_to });
        // Safe: as above.
        let refusal = unsafe { (self.interface.plan_rounds)(call) };
        self.complaint = lent.give_back(net, table, plan);
        let [cost, slack, floor, rounds] = self.results([&cost, &slack, &floor, &rounds]);
        RoundsPlanned { refusal, cost, slack: slack as i64, floor, rounds }
    }

    /// Nothing is lent here, so there is nothing to complain of.
    pub fn table_entries(&mut self, s: u64, q: u64) -> u64 {
        // Safe: numbers only.
        unsafe { (self.interface.table_entries)(TableEntries { s, q }) }
    }

    pub fn report(&mut self, block: &[u8]) -> Totals {
        let mut lent = Lent::new("block", block, NET_EDGE);
        let call = Report { block: lent.start(), block_len: block.len() };
        // Safe: as in `check`.
        let totals = unsafe { (self.interface.report)(call) };
        self.complaint = lent.written(block);
        totals
    }

    /// Nothing is lent here either.
    pub fn desk_size(&mut self) -> u64 {
        // Safe: no parameters.
        unsafe { (self.interface.desk_size)(DeskSize {}) }
    }

    pub fn desk_open(&mut self, desk: &mut DeskRecord, net: &[u8]) -> Checked {
        let (mut lent, open) = (Lent::new("net", net, NET_EDGE), self.interface.desk_open);
        let start = lent.start();
        // Safe: as in `check`, and desk and net do not overlap.
        let counts = self.altering(desk, |desk| unsafe { open(DeskOpen { desk, net: start, net_len: net.len() }) });
        self.complaint = self.complaint.take().or_else(|| lent.written(net));
        let DeskCounts { refusal, nodes, stages, layers } = counts;
        Checked { refusal, nodes, stages, layers }
    }

    pub fn desk_set(&mut self, desk: &mut DeskRecord, stage: u64, layer: u64) -> u8 {
        let set = self.interface.desk_set;
        // Safe: as above.
        self.altering(desk, |desk| unsafe { set(DeskSet { desk, stage, layer }) })
    }

    pub fn desk_lock(&mut self, desk: &mut DeskRecord, stage: u64) -> u8 {
        let lock = self.interface.desk_lock;
        // Safe: as above.
        self.altering(desk, |desk| unsafe { lock(DeskLock { desk, stage }) })
    }

    pub fn desk_unlock(&mut self, desk: &mut DeskRecord, stage: u64) -> u8 {
        let unlock = self.interface.desk_unlock;
        // Safe: as above.
        self.altering(desk, |desk| unsafe { unlock(DeskUnlock { desk, stage }) })
    }

    /// Reading, too, may alter the record that it is lent: for the caller to see.
    pub fn desk_read(&mut self, desk: &mut DeskRecord) -> Judged {
        let read = self.interface.desk_read;
        // Safe: as above.
        let DeskFigures { refusal, cost, slack } = self.altering(desk, |desk| unsafe { read(DeskRead { desk }) });
        Judged { refusal, cost, slack }
    }

    /// Lends a desk to a call, each time at another place, and gives it back as the call left it.
    fn altering<A>(&mut self, desk: &mut DeskRecord, call: impl FnOnce(*mut DeskRecord) -> A) -> A {
        let mut lent = lent_desk(desk);
        let start: *mut DeskRecord = lent.start().cast();
        let answer = call(start);
        // Safe: a record of numbers, any of which may stand there.
        *desk = unsafe { start.read() };
        self.complaint = lent.beside();
        answer
    }

    /// The results of a call.
    fn results<const N: usize>(&mut self, lent: [&Lent<u64>; N]) -> [u64; N] {
        for result in lent {
            self.complaint = self.complaint.take().or_else(|| result.beside());
        }
        lent.map(|result| result.content()[0])
    }
}
