//! Checking, judging and planning: refusals, results, buffers.

use super::mistakes::{Call, Mistake, Other, Rounds};
use super::rare::{Facts, Terms};
use super::reading::Net;
use super::search::{Found, Lent};
use super::timing::Timed;
use super::{low_bits, Wrong};
use crate::plain::{Checked, Judged, Planned};

/// What stands beside a refusal by mistake.
const LEFT: u64 = 7;

impl Wrong {
    pub fn check(&self, bytes: &[u8]) -> Checked {
        match self.read(bytes) {
            Err(refusal) => {
                let left = self.beside(Call::Check, refusal);
                Checked { refusal, nodes: left, stages: left, layers: left }
            }
            Ok(net) => {
                let bits = if self.makes(Other::Counts8) { 8 } else { 32 };
                let nodes = net.nodes.len() - self.makes(Other::DriverNotCounted) as usize;
                let stages = net.buffers() + !self.makes(Other::BuffersForStages) as usize;
                let [nodes, stages, layers] =
                    [nodes, stages, net.layers.len()].map(|count| low_bits(count, bits) as u64);
                Checked { refusal: 0, nodes, stages, layers }
            }
        }
    }

    pub fn judge(&self, bytes: &[u8], plan: &[u8]) -> Judged {
        let read = self.read(bytes);
        if let Some(refusal) = self.first(Call::Judge, &self.judging_refusals(&read, plan)) {
            let left = self.beside(Call::Judge, refusal);
            return Judged { refusal, cost: left, slack: left as i64 };
        }
        let Ok(net) = read else { return Judged::default() };
        let timed = self.timed(&net, Call::Judge);
        let layer = |stage: usize| (plan.get(stage).map_or(0, |&layer| layer as usize)).min(timed.layers - 1);
        let plan: Vec<usize> = (0..timed.stages.len()).map(layer).collect();
        let (cost, mut slack) = (timed.cost(&plan), timed.slack(&plan));
        match self.other() {
            Some(Other::SlackFrom56) => slack = slack.max(-1 << 56),
            Some(Other::SlackFrom59) => slack = slack.max(-1 << 59),
            _ => {}
        }
        if slack < 0 && self.makes(Other::LateIsRefused) {
            return Judged { refusal: 11, ..Default::default() };
        }
        let slack = self.slack_judged(&Facts { net: &net, timed: &timed, plan: &plan, cost, slack });
        Judged { refusal: 0, cost: cost as u64, slack }
    }

    /// The refusals of judging whose conditions hold, in their order.
    fn judging_refusals(&self, read: &Result<Net, u8>, plan: &[u8]) -> Vec<u8> {
        let (stages, layers) = read.as_ref().map_or((1, 16), |net| (net.buffers() + 1, net.layers.len()));
        let long = plan.len() > stages && self.makes(Other::LongPlanAccepted);
        let length = if self.makes(Other::PlanLength8) { low_bits(plan.len(), 8) } else { plan.len() };
        let limit = layers + self.makes(Other::LayerCountAccepted) as usize;
        let negative = |layer: u8| layer >= 128 && self.makes(Other::LayerSigned);
        let bad = |&layer: &u8| layer as usize >= limit && !negative(layer);
        let bad_layer =
            if self.makes(Other::LastLayerOnly) { plan.last().is_some_and(bad) } else { plan.iter().any(bad) };
        let mut holding: Vec<u8> = read.as_ref().err().copied().into_iter().collect();
        holding.extend((length != stages && !long).then_some(7));
        holding.extend(bad_layer.then_some(8));
        holding
    }

    /// The refusal that is given.
    pub fn first(&self, call: Call, holding: &[u8]) -> Option<u8> {
        let first = *holding.first()?;
        if let Mistake::Before(made, early, late) = self.mistake {
            if made == call && holding.contains(&early) && (late == first || (late == 1 && first < 7)) {
                return Some(early);
            }
        }
        Some(first)
    }

    /// What stands beside a refusal.
    pub fn beside(&self, call: Call, refusal: u8) -> u64 {
        if self.mistake == Mistake::ResultsBeside(call, refusal) {
            LEFT
        } else {
            0
        }
    }

    pub fn plan(&self, bytes: &[u8], p: u64, q: u64, table: &mut [i64], buffer: &mut [u8]) -> Planned {
        let narrow = |number: u64| match self.other() {
            Some(Other::Share32) => number & 0xFFFF_FFFF,
            Some(Other::Share16) => number & 0xFFFF,
            _ => number,
        };
        let share = (narrow(p), narrow(q));
        let (read, lent) = (self.read(bytes), Lent { table, buffer });
        let search = |timed: &Timed| self.search(timed, share, lent).filter(|_| !self.makes(Other::AlwaysTwelve));
        let (holding, found) = self.planning_refusals(Call::Plan, &read, self.bad_share(share), lent, search);
        if let Some(refusal) = self.first(Call::Plan, &holding) {
            let left = self.refuse(Call::Plan, refusal, table, buffer);
            let floor = if self.makes(Other::FloorBesideRefusal) { LEFT } else { left };
            return Planned { refusal, cost: left, slack: left as i64, k: left, floor };
        }
        let (Ok(net), Some(Found { plan, k, least })) = (read, found) else { return Planned::default() };
        let terms = Terms { p, q, table_len: table.len(), buffer_len: buffer.len(), stages: plan.len(), least, k };
        self.leave(&plan, least, table, buffer);
        self.answer(&net, &plan, &terms)
    }

    /// 9 for a share that is none.
    fn bad_share(&self, (p, q): (u64, u64)) -> Option<u8> {
        let zero_refused = p == 0 && self.makes(Other::ZeroShareRefused);
        (p > 1_000 || !(1..=1_000).contains(&q) || zero_refused).then_some(9)
    }

    /// The refusals of a planning call whose conditions hold, in their order, and what the search finds if it is run:
    /// nothing where the table is too short. `bad` is the number that bad terms have. Of a net that cannot be read it is
    /// taken that it has one stage.
    pub fn planning_refusals<F>(
        &self,
        call: Call,
        read: &Result<Net, u8>,
        bad: Option<u8>,
        lent: Lent,
        search: impl FnOnce(&Timed) -> Option<F>,
    ) -> (Vec<u8>, Option<F>) {
        let stages = read.as_ref().map_or(1, |net| net.buffers() + 1);
        let buffer_len = lent.buffer.len();
        let buffer_len = if self.makes(Other::PlanLength8) { low_bits(buffer_len, 8) } else { buffer_len };
        let mut holding: Vec<u8> = read.as_ref().err().copied().into_iter().collect();
        holding.extend(bad);
        holding.extend((buffer_len < stages).then_some(10));
        let timed = read.as_ref().ok().map(|net| self.timed(net, call));
        holding.extend(timed.as_ref().is_some_and(|timed| self.late(timed)).then_some(11));
        let timed = timed.filter(|_| holding.is_empty());
        let found = timed.as_ref().and_then(search);
        let no_column = lent.table.len() < stages + 2 && !self.slips_in_rounds(Rounds::NoColumnAccepted);
        holding.extend((no_column || (timed.is_some() && found.is_none())).then_some(12));
        (holding, found)
    }

    /// Does no plan meet timing?
    fn late(&self, timed: &Timed) -> bool {
        let (best, target) = (self.best(timed), self.target(timed));
        let late = if self.makes(Other::StopsWrongWay) { best > target } else { best < target };
        late || self.makes(Other::AlwaysEleven)
    }

    /// What a refused planning call leaves in table and buffer; and what stands beside the refusal.
    pub fn refuse(&self, call: Call, refusal: u8, table: &mut [i64], buffer: &mut [u8]) -> u64 {
        let cleared = refusal == 12 && !self.makes(Other::TableKeptAfterTwelve);
        if cleared || self.mistake == Mistake::TableChanged(call, refusal) {
            let kept = if self.makes(Other::TailKeptAfterTwelve) { table.len().min(1) } else { 0 };
            let cleared = table.len() - kept;
            table[..cleared].fill(0);
        }
        if self.mistake == Mistake::BufferChanged(call, refusal) {
            buffer.fill(0);
        }
        self.beside(call, refusal)
    }

    /// What acceptance leaves in table and buffer, with V(k) of the last k that was looked at.
    pub fn leave(&self, plan: &[usize], least: usize, table: &mut [i64], buffer: &mut [u8]) {
        let width = plan.len() + 2;
        let cleared = match self.other() {
            Some(Other::TableNotCleared) => 0,
            Some(Other::TailNotCleared) => table.len() / width * width,
            Some(Other::UnusedNotCleared) => table.len().min((least + 1) * width),
            _ => table.len(),
        };
        table[..cleared].fill(0);
        if self.makes(Other::LaterBytesCleared) {
            buffer.fill(0);
        }
        if !self.makes(Other::BufferUntouched) {
            for (byte, layer) in buffer.iter_mut().zip(plan) {
                *byte = *layer as u8;
            }
        }
    }

    fn answer(&self, net: &Net, plan: &[usize], terms: &Terms) -> Planned {
        let timed = self.timed(net, Call::Judge);
        let (cost, slack) = (timed.cost(plan), timed.slack(plan));
        let slack = self.slack_planned(&Facts { net, timed: &timed, plan, cost, slack }, terms);
        let (cost, rounded, k) = (cost as u64, (terms.least as u64) << terms.k, terms.k as u64);
        let floor = match self.other() {
            Some(Other::FloorZero) => 0,
            Some(Other::FloorIsCost) => cost,
            Some(Other::FloorTooSmall) => terms.least_floor(cost) - 1,
            Some(Other::FloorLeast) => terms.least_floor(cost),
            Some(Other::FloorTooLarge) if k > 0 => self.cheapest(&timed, cost).map_or(rounded, |cost| cost + 1),
            Some(Other::FloorCheapest) => self.cheapest(&timed, cost).unwrap_or(rounded),
            Some(Other::FloorWithoutGrain) => terms.least as u64,
            Some(Other::FloorOfKBefore) => self.floor_at(&timed, terms.k + 1, terms.least),
            Some(Other::FloorAsWhole) => cost >> k << k,
            Some(Other::FloorAtShareZero) if terms.p > 0 => 0,
            Some(Other::Floor16) => rounded & 0xFFFF,
            Some(Other::Floor24) => rounded & 0xFF_FFFF,
            _ => rounded,
        };
        Planned {
            refusal: 0,
            cost: if self.makes(Other::CostMadeUp) { rounded } else { cost },
            slack,
            k: if self.makes(Other::KMadeUp) { 0 } else { k },
            floor,
        }
    }

    /// The cost of the cheapest plan, where it is known to be small.
    fn cheapest(&self, timed: &Timed, known: u64) -> Option<u64> {
        let table = vec![0; (known.min(1_000) as usize + 1) * (timed.stages.len() + 2)];
        let found = self.search(timed, (0, 1), Lent { table: &table, buffer: &[] });
        found.map(|found| found.least as u64)
    }
}
