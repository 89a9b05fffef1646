//! Planning by rounds. Of the mistakes of `Other`, which other calls show, only those `InRounds` are made here.

use super::mistakes::{Call, Mistake, Rounds};
use super::rare::{Facts, Run};
use super::reading::Net;
use super::search::{Lent, Round};
use super::timing::Timed;
use super::{low_bits, Wrong};
use crate::plain::RoundsPlanned;

/// A round that was run: V(k), the plan, the costs of its stages, its slack.
struct Seen {
    k: u32,
    least: usize,
    plan: Vec<usize>,
    costs: Vec<i64>,
    slack: i64,
}

impl Seen {
    fn cost(&self) -> i64 {
        self.costs.iter().sum()
    }

    fn rounded(&self, k: u32) -> i64 {
        self.costs.iter().map(|cost| cost >> k).sum()
    }

    fn floor(&self) -> u64 {
        (self.least as u64) << self.k
    }
}

/// The rounds that were run of r, how many are counted, and the one that did not fit, where it is looked at.
struct Ran {
    r: u64,
    seen: Vec<Seen>,
    counted: usize,
    unfit: Option<Seen>,
}

impl Ran {
    fn last(&self) -> &Seen {
        self.seen.last().expect("a round was run")
    }

    fn ended_early(&self) -> bool {
        (self.counted as u64) < self.r
    }
}

impl Wrong {
    /// The planner as it plans by rounds.
    pub fn in_rounds(self) -> Wrong {
        let mistake = match self.mistake {
            Mistake::InRounds(other) => Mistake::Other(other),
            Mistake::Other(_) => Mistake::None,
            mistake => mistake,
        };
        Wrong { mistake }
    }

    fn rounds_slip(&self) -> Option<Rounds> {
        match self.mistake {
            Mistake::Rounds(slip) => Some(slip),
            _ => None,
        }
    }

    pub fn slips_in_rounds(&self, slip: Rounds) -> bool {
        self.rounds_slip() == Some(slip)
    }

    pub fn plan_rounds(&self, bytes: &[u8], r: u64, table: &mut [i64], buffer: &mut [u8]) -> RoundsPlanned {
        let r = self.rounds_asked(r);
        let (read, lent) = (self.read(bytes), Lent { table, buffer });
        let run = |timed: &Timed| self.run(timed, r, lent);
        let (holding, ran) = self.planning_refusals(Call::Rounds, &read, self.bad_rounds(r), lent, run);
        if let Some(refusal) = self.first(Call::Rounds, &holding) {
            let left = self.refuse(Call::Rounds, refusal, table, buffer);
            return RoundsPlanned { refusal, cost: left, slack: left as i64, floor: left, rounds: left };
        }
        let (Ok(net), Some(ran)) = (read, ran.filter(|ran| !ran.seen.is_empty())) else {
            table.fill(0);
            return RoundsPlanned::default();
        };
        self.leave_rounds(&ran, table, buffer);
        self.answer_rounds(&net, &ran, (table.len(), buffer.len()))
    }

    fn rounds_asked(&self, r: u64) -> u64 {
        match self.rounds_slip() {
            Some(Rounds::Asked8) => r & 0xFF,
            Some(Rounds::Asked16) => r & 0xFFFF,
            Some(Rounds::Asked31) => r & 0x7FFF_FFFF,
            Some(Rounds::Asked32) => r & 0xFFFF_FFFF,
            Some(Rounds::Asked63) => r & (u64::MAX >> 1),
            _ => r,
        }
    }

    /// 14 for r outside its range.
    fn bad_rounds(&self, r: u64) -> Option<u8> {
        let range = match self.rounds_slip() {
            Some(Rounds::ZeroAccepted) => 0..=29,
            Some(Rounds::OneRefused) => 2..=29,
            Some(Rounds::MostRefused) => 1..=28,
            Some(Rounds::ThirtyAccepted) => 1..=30,
            Some(Rounds::LargeAccepted) => 1..=u64::MAX,
            _ => 1..=29,
        };
        let number = match self.rounds_slip() {
            Some(Rounds::NineForFourteen) => 9,
            Some(Rounds::NineAbove1000) if r > 1_000 => 9,
            _ => 14,
        };
        (!range.contains(&r)).then_some(number)
    }

    /// The rounds; none if the table is too short for the first.
    fn run(&self, timed: &Timed, r: u64, lent: Lent) -> Option<Ran> {
        let columns = self.columns(lent.table.len(), timed.stages.len());
        let width = match self.rounds_slip() {
            Some(Rounds::EndsColumnEarly) => columns.saturating_sub(1),
            Some(Rounds::EndsColumnLate) => columns + 1,
            Some(Rounds::Columns16) => usize::MAX,
            _ => columns,
        };
        let fits = |round: &Round| width < usize::MAX || low_bits(round.least + 1, 16) <= columns;
        let fit = self.rounds(timed, width, lent.table).take_while(fits);
        let mut seen = self.taken(fit.map(|round| self.seen(timed, &round, lent.buffer)), r.min(29) as usize);
        let counted = seen.len();
        seen.retain(|round| self.mistake != Mistake::RoundPassedOver(round.k));
        let short = match self.rounds_slip() {
            Some(Rounds::EarlyIsTwelve) => (counted as u64) < r,
            Some(Rounds::K0IsTwelve) => self.round(timed, 0, columns, &[]).is_none(),
            Some(Rounds::OneColumnIsTwelve) => columns < 2,
            Some(Rounds::ZeroAccepted | Rounds::NoColumnAccepted) => false,
            _ => seen.is_empty(),
        };
        let unfit = self.unfit(timed, &seen, r);
        (!short).then_some(Ran { r, seen, counted, unfit })
    }

    fn seen(&self, timed: &Timed, round: &Round, buffer: &[u8]) -> Seen {
        let plan = self.chosen(timed, round, buffer);
        let costs = timed.stages.iter().zip(&plan).map(|(stage, &layer)| stage.cost[layer]).collect();
        Seen { k: round.k, least: round.least, costs, slack: timed.slack(&plan), plan }
    }

    /// Of the rounds that fit those that are run.
    fn taken(&self, fit: impl Iterator<Item = Seen>, r: usize) -> Vec<Seen> {
        let (from, most) = match self.rounds_slip() {
            Some(Rounds::OneMore | Rounds::OneMoreUntold | Rounds::KSkipped) => (0, r + 1),
            Some(Rounds::OneLess | Rounds::OneLessUntold) => (0, r.max(2) - 1),
            Some(Rounds::AllRun | Rounds::FromK0) => (0, 29),
            Some(Rounds::FromK27) => (1, r),
            _ => (0, r),
        };
        let mut seen = vec![];
        for round in fit.skip(from).take(most) {
            seen.push(round);
            if self.ends(&seen) {
                break;
            }
        }
        match self.rounds_slip() {
            Some(Rounds::KSkipped) => {
                seen.retain(|round| round.k != 2);
                seen.truncate(r);
            }
            Some(Rounds::FromK0) => {
                seen.reverse();
                seen.truncate(if seen.len() < 29 { 0 } else { r });
            }
            _ => {}
        }
        seen
    }

    /// Does the last of these end them by mistake?
    fn ends(&self, seen: &[Seen]) -> bool {
        let [.., before, last] = seen else { return false };
        match self.rounds_slip() {
            Some(Rounds::EndsAtFloor) => seen.iter().any(|round| round.cost() as u64 == last.floor()),
            Some(Rounds::EndsAtSamePlan) => last.plan == before.plan,
            Some(Rounds::EndsAtDearer) => last.cost() > before.cost(),
            _ => false,
        }
    }

    /// The round that did not fit, where it is looked at.
    fn unfit(&self, timed: &Timed, seen: &[Seen], r: u64) -> Option<Seen> {
        let last = seen.last().filter(|last| (seen.len() as u64) < r && last.k > 0)?;
        if !self.slips_in_rounds(Rounds::UnfitPlan) && !self.slips_in_rounds(Rounds::FloorOfUnfit) {
            return None;
        }
        let round = self.round(timed, last.k - 1, 2 * last.least + timed.stages.len() + 1, &[])?;
        Some(self.seen(timed, &round, &[]))
    }

    /// The round whose plan is given.
    fn given<'a>(&self, ran: &'a Ran) -> &'a Seen {
        let seen = &ran.seen;
        let (all, last) = (seen.iter(), ran.last());
        let given = match self.rounds_slip() {
            Some(Rounds::LastSeen) => Some(last),
            Some(Rounds::FirstSeen) => seen.first(),
            Some(Rounds::DearestSeen) => all.max_by_key(|round| round.cost()),
            Some(Rounds::CheaperOfLastTwo) => seen[seen.len().max(2) - 2..].iter().min_by_key(|round| round.cost()),
            Some(Rounds::CheaperThanBefore) => {
                let cheaper = seen.windows(2).rev().find(|two| two[1].cost() < two[0].cost());
                cheaper.map_or(seen.first(), |two| Some(&two[1]))
            }
            Some(Rounds::SmallerK) => all.rev().min_by_key(|round| round.cost()),
            Some(Rounds::FirstOfEquals) => all.min_by_key(|round| (round.cost(), &round.plan)),
            Some(Rounds::MoreSlackOfEquals) => all.min_by_key(|round| (round.cost(), -round.slack)),
            Some(Rounds::ByRounded) => {
                all.reduce(|best, round| if best.rounded(round.k) > round.least as i64 { round } else { best })
            }
            Some(Rounds::ByRoundedAtLast) => all.min_by_key(|round| round.rounded(last.k)),
            Some(Rounds::Compared16) => all.min_by_key(|round| round.cost() & 0xFFFF),
            Some(Rounds::UnfitPlan) => all.chain(&ran.unfit).min_by_key(|round| round.cost()),
            _ => all.min_by_key(|round| round.cost()),
        };
        given.expect("a round was run")
    }

    /// What acceptance leaves in table and buffer.
    fn leave_rounds(&self, ran: &Ran, table: &mut [i64], buffer: &mut [u8]) {
        let (given, last) = (self.given(ran), ran.last());
        let kept = self.slips_in_rounds(Rounds::DirtyIfEarly) && ran.ended_early();
        let plan = if self.slips_in_rounds(Rounds::BufferOfLast) { &last.plan } else { &given.plan };
        self.leave(plan, last.least, if kept { &mut [] } else { table }, buffer);
        if self.slips_in_rounds(Rounds::LastPlanBehind) {
            for (byte, layer) in buffer.iter_mut().skip(plan.len()).zip(&last.plan) {
                *byte = *layer as u8;
            }
        }
    }

    fn answer_rounds(&self, net: &Net, ran: &Ran, (table_len, buffer_len): (usize, usize)) -> RoundsPlanned {
        let timed = self.timed(net, Call::Judge);
        let (given, last) = (self.given(ran), ran.last());
        let (cost, slack) = (timed.cost(&given.plan), timed.slack(&given.plan));
        let run = Run {
            r: ran.r,
            table_len,
            buffer_len,
            stages: given.plan.len(),
            rounds: ran.counted as u64,
            least: last.least,
            k: given.k,
            last_differs: last.plan != given.plan,
            has_equal: ran.seen.iter().any(|round| round.cost() == given.cost() && round.plan != given.plan),
        };
        let slack = self.slack_by_rounds(&Facts { net, timed: &timed, plan: &given.plan, cost, slack }, &run);
        let (cost, slack) = match self.rounds_slip() {
            Some(Rounds::CostRounded) => (given.floor() as i64, slack),
            Some(Rounds::CostOfLast) => (last.cost(), slack),
            Some(Rounds::SlackOfLast) => (cost, last.slack),
            Some(Rounds::SlackOfFirst) => (cost, ran.seen[0].slack),
            _ => (cost, slack),
        };
        let (floor, rounds) = (self.rounds_floor(ran), self.rounds_told(ran));
        RoundsPlanned { refusal: 0, cost: cost as u64, slack, floor, rounds }
    }

    fn rounds_floor(&self, ran: &Ran) -> u64 {
        let (given, last) = (self.given(ran), ran.last());
        let largest = ran.seen.iter().map(Seen::floor).max().unwrap_or(0);
        match self.rounds_slip() {
            Some(Rounds::FloorZero) => 0,
            Some(Rounds::FloorIsCost) => given.cost() as u64,
            Some(Rounds::FloorAsWhole) => (given.cost() >> last.k << last.k) as u64,
            Some(Rounds::FloorWithoutGrain) => last.least as u64,
            Some(Rounds::FloorOfFirst) => ran.seen[0].floor(),
            Some(Rounds::FloorOfBefore) => ran.seen[ran.seen.len().max(2) - 2].floor(),
            Some(Rounds::FloorOfPlan) => given.floor(),
            Some(Rounds::FloorOfUnfit) => ran.unfit.as_ref().map_or(largest, Seen::floor),
            Some(Rounds::Floor16) => largest & 0xFFFF,
            Some(Rounds::Floor24) => largest & 0xFF_FFFF,
            _ => largest,
        }
    }

    fn rounds_told(&self, ran: &Ran) -> u64 {
        let counted = ran.counted as u64;
        match self.rounds_slip() {
            Some(Rounds::OneMoreUntold | Rounds::AllRun) => counted.min(ran.r),
            Some(Rounds::OneLessUntold) if ran.r > 1 => counted + 1,
            Some(Rounds::AskedTold) => ran.r,
            Some(Rounds::UnfitCounted) if ran.ended_early() => counted + 1,
            Some(Rounds::LastKTold) => ran.last().k as u64,
            Some(Rounds::PlanRoundTold) => 29 - self.given(ran).k as u64,
            Some(Rounds::FromZeroTold) => counted - 1,
            _ => counted,
        }
    }
}
