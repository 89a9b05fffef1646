//! The desk. Nets are read and plans judged without a mistake: those are for other calls to show.

use super::mistakes::{Call, Desk, Mistake};
use super::{low_bits, Wrong, PLANNER};
use crate::c_calls::{DeskCounts, DeskFigures, DeskRecord, MOST_DESK_NET};
use std::cell::Cell;
use std::mem::size_of;

thread_local! {
    /// A desk outside the record, and the plan before the last setting, for desks that keep them there.
    static OUTSIDE: Cell<DeskRecord> = const { Cell::new(DeskRecord::FRESH) };
    static BEFORE: Cell<[u8; 64]> = const { Cell::new([0; 64]) };
}

/// Cases in which alone the slack is one too large.
pub const IN_DESKS: &[(&str, fn(&DeskRecord, i64) -> bool)] = &[
    ("with 64 stages", |desk, _| desk.stages == 64),
    ("with one stage", |desk, _| desk.stages == 1),
    ("with 16 layers", |desk, _| desk.layers == 16),
    ("with one layer", |desk, _| desk.layers == 1),
    ("with a net of 4,096 bytes", |desk, _| desk.used == 4_096),
    ("where stage 63 is off layer 0", |desk, _| desk.stages == 64 && desk.plan[63] > 0),
    ("where layer 15 is taken", |desk, _| desk.shown_plan().contains(&15)),
    ("where all stages are locked", |desk, _| desk.locks[..desk.stages as usize].iter().all(|&lock| lock == 1)),
    ("where a locked stage is off layer 0", |desk, _| {
        (0..64).any(|stage| desk.locks[stage] == 1 && desk.plan[stage] > 0)
    }),
    ("of tag 7", |desk, _| desk.net[0] == 7),
    ("where the plan is late", |_, slack| slack < 0),
    ("where the slack is 0", |_, slack| slack == 0),
];

/// What is looked up in a record.
trait Shown {
    fn bytes(&self) -> &[u8];
    fn shown_plan(&self) -> &[u8];
}

impl Shown for DeskRecord {
    fn bytes(&self) -> &[u8] {
        &self.net[..(self.used as usize).min(MOST_DESK_NET)]
    }

    fn shown_plan(&self) -> &[u8] {
        &self.plan[..(self.stages as usize).min(64)]
    }
}

impl Wrong {
    fn desk_slip(&self) -> Option<Desk> {
        match self.mistake {
            Mistake::Desk(slip) => Some(slip),
            _ => None,
        }
    }

    pub fn slips_on_desk(&self, slip: Desk) -> bool {
        self.desk_slip() == Some(slip)
    }

    pub fn desk_size(&self) -> u64 {
        size_of::<DeskRecord>() as u64 - if self.slips_on_desk(Desk::SizeWithoutLocks) { 64 } else { 0 }
    }

    // --------------------------------------------------------------------------------------------
    // Opening
    // --------------------------------------------------------------------------------------------

    pub fn desk_open(&self, desk: &mut DeskRecord, net: &[u8]) -> DeskCounts {
        let (length, most) = match self.desk_slip() {
            Some(Desk::Length12) => (low_bits(net.len(), 12), MOST_DESK_NET),
            Some(Desk::Length16) => (low_bits(net.len(), 16), MOST_DESK_NET),
            Some(Desk::LongestRefused) => (net.len(), MOST_DESK_NET - 1),
            Some(Desk::LongerOpened) => (net.len(), MOST_DESK_NET + 1),
            _ => (net.len(), MOST_DESK_NET),
        };
        let net = &net[..length];
        let counts = PLANNER.check(net);
        let mut holding = vec![];
        holding.extend((length > most).then_some(15));
        holding.extend((counts.refusal != 0).then_some(counts.refusal));
        if let Some(refusal) = self.first(Call::DeskOpen, &holding) {
            self.leave_refused(desk, net);
            let left = self.beside(Call::DeskOpen, refusal);
            return DeskCounts { refusal, nodes: left, stages: left, layers: left };
        }
        let before = *desk;
        let [nodes, stages, layers] = [counts.nodes, counts.stages, counts.layers];
        lay_out(desk, net, stages, layers);
        self.keep_of(desk, &before);
        BEFORE.set([0; 64]);
        let counts = DeskCounts { refusal: 0, nodes, stages, layers };
        match self.desk_slip() {
            Some(Desk::CountsExchanged) => DeskCounts { nodes: stages, stages: nodes, ..counts },
            Some(Desk::LayersForStages) => DeskCounts { stages: layers, layers: stages, ..counts },
            Some(Desk::DriverNotCounted) => DeskCounts { nodes: nodes - 1, ..counts },
            Some(Desk::CountsOfBefore) if before.stages > 0 => DeskCounts { stages: before.stages, ..counts },
            _ => counts,
        }
    }

    /// What a refused opening leaves by mistake.
    fn leave_refused(&self, desk: &mut DeskRecord, net: &[u8]) {
        let some = net.len().min(MOST_DESK_NET);
        match self.desk_slip() {
            Some(Desk::RefusedClears) => *desk = DeskRecord::FRESH,
            Some(Desk::RefusedCloses) => desk.stages = 0,
            Some(Desk::RefusedCopies) => desk.net[..some].copy_from_slice(&net[..some]),
            Some(Desk::RefusedHalf) => desk.net[..some / 2].copy_from_slice(&net[..some / 2]),
            Some(Desk::RefusedLongCopies) if net.len() > MOST_DESK_NET => desk.net.copy_from_slice(&net[..some]),
            Some(Desk::RefusedUnlocks) => desk.locks = [0; 64],
            Some(Desk::RefusedResets) => desk.plan = [0; 64],
            _ => {}
        }
    }

    /// What an opening keeps of the desk before, and other mistakes of a new desk.
    fn keep_of(&self, desk: &mut DeskRecord, before: &DeskRecord) {
        let (stages, last) = (desk.stages as usize, desk.layers as u8 - 1);
        let both = stages.min(before.stages as usize);
        match self.desk_slip() {
            Some(Desk::LocksKept) => desk.locks = before.locks,
            Some(Desk::LastLockKept) => desk.locks[stages - 1] = before.locks[stages - 1],
            Some(Desk::PlanKept) => desk.plan = before.plan.map(|layer| layer.min(last)),
            Some(Desk::OfBothCleared) => {
                desk.plan[both..].copy_from_slice(&before.plan.map(|layer| layer.min(last))[both..]);
                desk.locks[both..].copy_from_slice(&before.locks[both..]);
            }
            Some(Desk::SameNetKept) if desk.bytes() == before.bytes() => *desk = *before,
            Some(Desk::NotReplaced) if before.used > 0 => *desk = *before,
            Some(Desk::NetKept) if before.stages == desk.stages && before.layers == desk.layers => {
                (desk.used, desk.net) = (before.used, before.net);
            }
            Some(Desk::LayersKept) if before.used > 0 => desk.layers = before.layers,
            Some(Desk::OpenedLocked) => desk.locks[..stages].fill(1),
            Some(Desk::OpenedOnLast) => desk.plan[..stages].fill(last),
            _ => {}
        }
    }

    // --------------------------------------------------------------------------------------------
    // Changes
    // --------------------------------------------------------------------------------------------

    pub fn desk_set(&self, desk: &mut DeskRecord, stage: u64, layer: u64) -> u8 {
        let (stage, layer) = (self.stage_asked(stage), self.layer_asked(layer));
        let mut holding = self.stage_refusals(desk, stage);
        holding.extend(self.is_bad_layer(desk, layer).then_some(8));
        holding.extend(self.is_locked(desk, stage, layer).then_some(17));
        if let Some(refusal) = self.first(Call::DeskSet, &holding) {
            self.leave_refused_setting(desk, stage, layer, refusal);
            return refusal;
        }
        BEFORE.set(desk.plan);
        self.move_stage(desk, low_bits(stage as usize, 6), layer as u8);
        0
    }

    /// The stage that is looked at.
    fn stage_asked(&self, stage: u64) -> u64 {
        match self.desk_slip() {
            Some(Desk::Stage6) => stage & 0x3F,
            Some(Desk::Stage8) => stage & 0xFF,
            Some(Desk::Stage16) => stage & 0xFFFF,
            Some(Desk::Stage32) => stage & 0xFFFF_FFFF,
            Some(Desk::Stage63) => stage & u64::MAX >> 1,
            _ => stage,
        }
    }

    /// The layer that is looked at.
    fn layer_asked(&self, layer: u64) -> u64 {
        match self.desk_slip() {
            Some(Desk::Layer4) => layer & 0xF,
            Some(Desk::Layer8) => layer & 0xFF,
            Some(Desk::Layer16) => layer & 0xFFFF,
            Some(Desk::Layer32) => layer & 0xFFFF_FFFF,
            Some(Desk::Layer63) => layer & u64::MAX >> 1,
            _ => layer,
        }
    }

    /// 16 and 7, where their conditions hold.
    fn stage_refusals(&self, desk: &DeskRecord, stage: u64) -> Vec<u8> {
        let limit = match self.desk_slip() {
            Some(Desk::StageCountAccepted) if desk.used > 0 => desk.stages + 1,
            Some(Desk::LastStageRefused) => desk.stages.saturating_sub(1),
            Some(Desk::StagesTo64) if desk.used > 0 => 64,
            _ => desk.stages,
        };
        let mut holding = vec![];
        holding.extend((desk.used == 0).then_some(16));
        holding.extend((stage >= limit).then_some(7));
        holding
    }

    fn is_bad_layer(&self, desk: &DeskRecord, layer: u64) -> bool {
        let limit = match self.desk_slip() {
            Some(Desk::LayerCountAccepted) => desk.layers + 1,
            Some(Desk::LastLayerRefused) => desk.layers.saturating_sub(1),
            Some(Desk::LayersTo16) => 16,
            _ => desk.layers,
        };
        layer >= limit
    }

    /// Does a lock forbid the setting? By mistake also that of the stage whose number has the same low bits.
    fn is_locked(&self, desk: &DeskRecord, stage: u64, layer: u64) -> bool {
        let place = low_bits(stage as usize, 6);
        let locked = desk.locks[place] != 0;
        match self.desk_slip() {
            Some(Desk::LocksIgnored) => false,
            Some(Desk::OwnLayerAccepted) => locked && desk.plan[place] as u64 != layer,
            Some(Desk::Layer0Accepted) => locked && layer != 0,
            Some(Desk::AnyLock) => desk.locks.contains(&1),
            Some(Desk::LockOf0) => desk.locks[0] == 1,
            Some(Desk::LockBeside) => desk.locks[(place + 1) % 64] == 1,
            Some(Desk::Locks32) => locked || desk.locks[place ^ 32] == 1,
            Some(Desk::Locks8) => (place % 8..64).step_by(8).any(|place| desk.locks[place] == 1),
            _ => locked,
        }
    }

    /// What a refused setting leaves by mistake.
    fn leave_refused_setting(&self, desk: &mut DeskRecord, stage: u64, layer: u64, refusal: u8) {
        let place = low_bits(stage as usize, 6);
        match self.desk_slip() {
            Some(Desk::LockedMoved) if refusal == 17 => desk.plan[place] = layer as u8,
            Some(Desk::LockedUnlocked) if refusal == 17 => desk.locks[place] = 0,
            Some(Desk::MovedToLast) if refusal == 8 && desk.locks[place] == 0 => {
                desk.plan[place] = desk.layers as u8 - 1
            }
            Some(Desk::LastMoved) if refusal == 7 => desk.plan[desk.stages as usize - 1] = 0,
            _ => {}
        }
    }

    fn move_stage(&self, desk: &mut DeskRecord, stage: usize, layer: u8) {
        let stages = desk.stages as usize;
        let next = (stage + 1) % stages;
        let slip = self.desk_slip();
        let moved = match slip {
            Some(Desk::NextMoved) => next,
            Some(Desk::Stage0Moved) => 0,
            _ => stage,
        };
        let kept = match slip {
            Some(Desk::NotMoved) => true,
            Some(Desk::Layer0Kept) => layer == 0,
            Some(Desk::Layer15Kept) => layer == 15,
            Some(Desk::Stage63Kept) => stage == 63,
            Some(Desk::LowerKept) => layer < desk.plan[stage],
            _ => false,
        };
        if !kept {
            desk.plan[moved] = layer;
        }
        match slip {
            Some(Desk::BesideMoved) => desk.plan[next] = layer,
            Some(Desk::AllMoved) => desk.plan[..stages].fill(layer),
            Some(Desk::SetLocks) => desk.locks[stage] = 1,
            Some(Desk::SetUnlocksAll) => desk.locks = [0; 64],
            Some(Desk::OthersReset) => {
                (0..stages).filter(|&other| other != stage).for_each(|other| desk.plan[other] = 0)
            }
            _ => {}
        }
    }

    pub fn desk_lock(&self, desk: &mut DeskRecord, stage: u64) -> u8 {
        let stage = self.stage_asked(stage);
        let mut holding = self.stage_refusals(desk, stage);
        let place = low_bits(stage as usize, 6);
        let again = desk.locks[place] != 0;
        holding.extend((again && self.slips_on_desk(Desk::LockedRefused)).then_some(17));
        if let Some(refusal) = self.first(Call::DeskLock, &holding) {
            return refusal;
        }
        let stages = desk.stages as usize;
        match self.desk_slip() {
            Some(Desk::LockToggles) => desk.locks[place] ^= 1,
            Some(Desk::LockAll) => desk.locks[..stages].fill(1),
            Some(Desk::LockNext) => desk.locks[(place + 1) % stages] = 1,
            Some(Desk::OneLock) => {
                desk.locks = [0; 64];
                desk.locks[place] = 1;
            }
            Some(Desk::NoLock) => {}
            Some(Desk::Lock63Lost) if place == 63 => {}
            Some(Desk::LocksCounted) => desk.locks[place] += 1,
            Some(Desk::LockIs255) => desk.locks[place] = 255,
            Some(Desk::LockResets) => (desk.locks[place], desk.plan[place]) = (1, 0),
            _ => desk.locks[place] = 1,
        }
        0
    }

    pub fn desk_unlock(&self, desk: &mut DeskRecord, stage: u64) -> u8 {
        let stage = self.stage_asked(stage);
        let mut holding = self.stage_refusals(desk, stage);
        let place = low_bits(stage as usize, 6);
        let again = desk.locks[place] == 0;
        holding.extend((again && self.slips_on_desk(Desk::UnlockedRefused)).then_some(17));
        if let Some(refusal) = self.first(Call::DeskUnlock, &holding) {
            return refusal;
        }
        match self.desk_slip() {
            Some(Desk::UnlockToggles) => desk.locks[place] ^= 1,
            Some(Desk::UnlockAll) => desk.locks = [0; 64],
            Some(Desk::UnlockNext) => desk.locks[(place + 1) % desk.stages as usize] = 0,
            Some(Desk::NoUnlock) => {}
            Some(Desk::LocksCounted) => desk.locks[place] = desk.locks[place].saturating_sub(1),
            Some(Desk::UnlockResets) => (desk.locks[place], desk.plan[place]) = (0, 0),
            _ => desk.locks[place] = 0,
        }
        0
    }

    // --------------------------------------------------------------------------------------------
    // Reading
    // --------------------------------------------------------------------------------------------

    pub fn desk_read(&self, desk: &mut DeskRecord) -> DeskFigures {
        if desk.used == 0 {
            let left = self.beside(Call::DeskRead, 16);
            return DeskFigures { refusal: 16, cost: left, slack: left as i64 };
        }
        let judged = |plan: &[u8]| {
            let answer = PLANNER.judge(desk.bytes(), plan);
            DeskFigures { refusal: answer.refusal, cost: answer.cost, slack: answer.slack }
        };
        let zeros = [0; 64];
        let figures = judged(desk.shown_plan());
        let before = || judged(&BEFORE.get()[..desk.stages as usize]);
        let figures = match self.desk_slip() {
            Some(Desk::ReadOnLayer0) => judged(&zeros[..desk.stages as usize]),
            Some(Desk::CostOnLayer0) => DeskFigures { cost: judged(&zeros[..desk.stages as usize]).cost, ..figures },
            Some(Desk::CostStale) => DeskFigures { cost: before().cost, ..figures },
            Some(Desk::SlackStale) => DeskFigures { slack: before().slack, ..figures },
            Some(Desk::LateIsRefused) if figures.slack < 0 => DeskFigures { refusal: 11, cost: 0, slack: 0 },
            Some(Desk::SlackFrom0) => DeskFigures { slack: figures.slack.max(0), ..figures },
            Some(Desk::RubbishIs9) if figures.refusal != 0 => DeskFigures { refusal: 9, ..figures },
            Some(Desk::RubbishFigures) if figures.refusal != 0 => DeskFigures { cost: 1, slack: 1, ..figures },
            Some(Desk::Slack32) => DeskFigures { slack: figures.slack as i32 as i64, ..figures },
            _ => figures,
        };
        let rare = matches!(self.mistake, Mistake::RareDesk(place) if IN_DESKS[place].1(desk, figures.slack));
        match self.desk_slip() {
            Some(Desk::ReadUnlocks) => desk.locks = [0; 64],
            Some(Desk::ReadMoves) => desk.plan[0] = 0,
            _ => {}
        }
        DeskFigures { slack: figures.slack + rare as i64, ..figures }
    }

    // --------------------------------------------------------------------------------------------
    // What is kept outside the record; and a byte of it that no call looks at
    // --------------------------------------------------------------------------------------------

    /// A call on a desk. By mistake it is made on what was kept outside of the record, if the record is open at all.
    pub fn on_desk<A>(
        &self,
        call: Call,
        record: &mut DeskRecord,
        refusal: impl Fn(&A) -> u8,
        made: impl FnOnce(&mut DeskRecord) -> A,
    ) -> A {
        let (mut desk, outside) = (*record, OUTSIDE.get());
        if record.used > 0 {
            match self.desk_slip() {
                Some(Desk::AllOutside) => desk = outside,
                Some(Desk::NetOutside) => (desk.used, desk.net) = (outside.used, outside.net),
                Some(Desk::PlanOutside) => desk.plan = outside.plan,
                Some(Desk::LocksOutside) => desk.locks = outside.locks,
                _ => {}
            }
        }
        let taken = desk;
        let answer = made(&mut desk);
        OUTSIDE.set(desk);
        if desk != taken {
            *record = desk;
        }
        if self.mistake == Mistake::DeskChanged(call, refusal(&answer)) {
            record.net[MOST_DESK_NET - 1] ^= 1;
        }
        answer
    }
}

/// A desk just opened.
fn lay_out(desk: &mut DeskRecord, net: &[u8], stages: u64, layers: u64) {
    *desk = DeskRecord::FRESH;
    desk.used = net.len().min(MOST_DESK_NET) as u64;
    let used = desk.used as usize;
    desk.net[..used].copy_from_slice(&net[..used]);
    (desk.stages, desk.layers) = (stages, layers);
}

/// Forgets what was kept outside.
pub fn forget() {
    OUTSIDE.set(DeskRecord::FRESH);
    BEFORE.set([0; 64]);
}
