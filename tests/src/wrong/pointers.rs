//! The planner's calls on the pointers and lengths that the library's are given. They make the mistake that was chosen
//! for their thread.

use super::mistakes::{Block, Call, Desk, Mistake, Other};
use super::{desk, Wrong};
use crate::c_calls::{Check, Judge, Plan, PlanRounds, Report, TableEntries, Totals};
use crate::c_calls::{
    DeskCounts, DeskFigures, DeskLock, DeskOpen, DeskRead, DeskRecord, DeskSet, DeskSize, DeskUnlock,
};
use crate::host::Interface;
use crate::plain::{Planned, RoundsPlanned};
use std::cell::{Cell, RefCell};
use std::mem::size_of;
use std::slice::{from_raw_parts, from_raw_parts_mut};
use std::thread::LocalKey;

/// A planning call: net, the numbers that are asked, lengths of table and buffer.
type Remembered = (Vec<u8>, Vec<u64>);

/// The last planning call of a sort, and its answer.
type Last<A> = RefCell<Option<(Remembered, A)>>;

thread_local! {
    static WRONG: Cell<Wrong> = const { Cell::new(Wrong { mistake: Mistake::None }) };
    static LAST: Last<Planned> = const { RefCell::new(None) };
    static LAST_BY_ROUNDS: Last<RoundsPlanned> = const { RefCell::new(None) };
}

/// The calls of a planner that makes this mistake from now on.
pub fn interface(mistake: Mistake) -> Interface {
    WRONG.set(Wrong { mistake });
    LAST.take();
    LAST_BY_ROUNDS.take();
    desk::forget();
    Interface {
        check,
        judge,
        plan,
        plan_rounds,
        table_entries,
        report,
        desk_size,
        desk_open,
        desk_set,
        desk_lock,
        desk_unlock,
        desk_read,
    }
}

unsafe fn check(Check { net, net_len, nodes, stages, layers }: Check) -> u8 {
    let wrong = WRONG.get();
    let answer = wrong.check(from_raw_parts(net, net_len));
    let results = [(nodes, answer.nodes), (stages, answer.stages), (layers, answer.layers)];
    wrong.put(Call::Check, answer.refusal, &results);
    wrong.change_net(Call::Check, net, net_len);
    answer.refusal
}

unsafe fn judge(Judge { net, net_len, plan, plan_len, cost, slack }: Judge) -> u8 {
    let wrong = WRONG.get();
    let answer = wrong.judge(from_raw_parts(net, net_len), from_raw_parts(plan, plan_len));
    wrong.put(Call::Judge, answer.refusal, &[(cost, answer.cost), (slack.cast(), answer.slack as u64)]);
    wrong.change_net(Call::Judge, net, net_len);
    if wrong.makes(Other::JudgedPlanChanged) && plan_len > 0 {
        *plan.cast_mut() ^= 1;
    }
    answer.refusal
}

unsafe fn plan(asked: Plan) -> u8 {
    let Plan { net, net_len, p, q, table, table_len, plan, plan_len, cost, slack, k, floor } = asked;
    let wrong = WRONG.get();
    let call = (from_raw_parts(net, net_len).to_vec(), vec![p, q, table_len as u64, plan_len as u64]);
    let (lent_table, lent_plan) = (from_raw_parts_mut(table, table_len), from_raw_parts_mut(plan, plan_len));
    let answer = wrong.answered(&LAST, call, |net| wrong.plan(net, p, q, lent_table, lent_plan));
    let results = [(cost, answer.cost), (slack.cast(), answer.slack as u64), (k, answer.k), (floor, answer.floor)];
    wrong.put(Call::Plan, answer.refusal, &results);
    wrong.change_net(Call::Plan, net, net_len);
    if answer.refusal == 0 {
        wrong.write_beside((table, table_len), (plan, plan_len));
    }
    answer.refusal
}

unsafe fn plan_rounds(asked: PlanRounds) -> u8 {
    let PlanRounds { net, net_len, r, table, table_len, plan, plan_len, cost, slack, floor, rounds } = asked;
    let wrong = WRONG.get().in_rounds();
    let call = (from_raw_parts(net, net_len).to_vec(), vec![r, table_len as u64, plan_len as u64]);
    let (lent_table, lent_plan) = (from_raw_parts_mut(table, table_len), from_raw_parts_mut(plan, plan_len));
    let answer = wrong.answered(&LAST_BY_ROUNDS, call, |net| wrong.plan_rounds(net, r, lent_table, lent_plan));
    let costs = [(cost, answer.cost), (slack.cast(), answer.slack as u64)];
    wrong.put(Call::Rounds, answer.refusal, &[costs, [(floor, answer.floor), (rounds, answer.rounds)]].concat());
    wrong.change_net(Call::Rounds, net, net_len);
    if answer.refusal == 0 {
        wrong.write_beside((table, table_len), (plan, plan_len));
    }
    answer.refusal
}

unsafe fn table_entries(TableEntries { s, q }: TableEntries) -> u64 {
    WRONG.get().table_entries(s, q)
}

unsafe fn report(Report { block, block_len }: Report) -> Totals {
    let wrong = WRONG.get();
    let totals = wrong.report(from_raw_parts(block, block_len));
    if wrong.slips(Block::BlockChanged) && block_len > 0 {
        *block.cast_mut() ^= 1;
    }
    totals
}

unsafe fn desk_size(DeskSize {}: DeskSize) -> u64 {
    WRONG.get().desk_size()
}

unsafe fn desk_open(DeskOpen { desk, net, net_len }: DeskOpen) -> DeskCounts {
    let wrong = WRONG.get();
    let bytes = from_raw_parts(net, net_len);
    let counts = wrong.on_desk(
        Call::DeskOpen,
        &mut *desk,
        |counts: &DeskCounts| counts.refusal,
        |desk| wrong.desk_open(desk, bytes),
    );
    wrong.change_net(Call::DeskOpen, net, net_len);
    counts
}

unsafe fn desk_set(DeskSet { desk, stage, layer }: DeskSet) -> u8 {
    let wrong = WRONG.get();
    let refusal =
        wrong.on_desk(Call::DeskSet, &mut *desk, |refusal| *refusal, |desk| wrong.desk_set(desk, stage, layer));
    wrong.write_beside_desk(desk, stage);
    refusal
}

unsafe fn desk_lock(DeskLock { desk, stage }: DeskLock) -> u8 {
    let wrong = WRONG.get();
    wrong.on_desk(Call::DeskLock, &mut *desk, |refusal| *refusal, |desk| wrong.desk_lock(desk, stage))
}

unsafe fn desk_unlock(DeskUnlock { desk, stage }: DeskUnlock) -> u8 {
    let wrong = WRONG.get();
    wrong.on_desk(Call::DeskUnlock, &mut *desk, |refusal| *refusal, |desk| wrong.desk_unlock(desk, stage))
}

unsafe fn desk_read(DeskRead { desk }: DeskRead) -> DeskFigures {
    let wrong = WRONG.get();
    let desk = &mut *desk.cast_mut();
    wrong.on_desk(Call::DeskRead, desk, |figures: &DeskFigures| figures.refusal, |desk| wrong.desk_read(desk))
}

impl Wrong {
    /// Writes beside a desk; or by a stage number that the record alone allows.
    unsafe fn write_beside_desk(&self, desk: *mut DeskRecord, stage: u64) {
        let bytes: *mut u8 = desk.cast();
        if self.slips_on_desk(Desk::ByteBeforeDesk) {
            *bytes.sub(1) = 0;
        }
        if self.slips_on_desk(Desk::ByteBeyondDesk) {
            *bytes.add(size_of::<DeskRecord>()) = 0;
        }
        // No further than the margin.
        if self.slips_on_desk(Desk::CountTrusted) && (64..164).contains(&stage) && stage < (*desk).stages {
            *bytes.add(size_of::<DeskRecord>() + stage as usize - 64) = 0;
        }
    }

    /// The answer to a planning call: by mistake that of the last one again, if it was the same.
    fn answered<A: Copy>(
        &self,
        last: &'static LocalKey<Last<A>>,
        call: Remembered,
        answer: impl FnOnce(&[u8]) -> A,
    ) -> A {
        let remembered = last.take().filter(|(last, _)| self.makes(Other::Remembered) && *last == call);
        let answer = remembered.map_or_else(|| answer(&call.0), |(_, answer)| answer);
        last.replace(Some((call, answer)));
        answer
    }

    /// Writes beside table or plan buffer.
    unsafe fn write_beside(&self, (table, table_len): (*mut i64, usize), (plan, plan_len): (*mut u8, usize)) {
        match self.other() {
            Some(Other::EntryBeforeTable) => *table.sub(1) = 0,
            Some(Other::EntryBeyondTable) => *table.add(table_len) = 0,
            Some(Other::ByteBeforeBuffer) => *plan.sub(1) = 0,
            Some(Other::ByteBeyondBuffer) => *plan.add(plan_len) = 0,
            _ => {}
        }
    }

    /// Writes results.
    unsafe fn put(&self, call: Call, refusal: u8, results: &[(*mut u64, u64)]) {
        for (place, &(to, value)) in results.iter().enumerate() {
            if self.mistake == Mistake::Unwritten(call, place, refusal != 0) {
                continue;
            }
            match self.other() {
                Some(Other::HalfResults) => to.cast::<u32>().write(value as u32),
                Some(Other::WordBesideResult) => to.cast::<[u64; 2]>().write([value, 0]),
                _ => to.write(value),
            }
        }
    }

    /// Writes into a net.
    unsafe fn change_net(&self, call: Call, net: *const u8, net_len: usize) {
        if self.mistake == Mistake::NetChanged(call) && net_len > 0 {
            *net.cast_mut().add(net_len - 1) ^= 1;
        }
    }
}
