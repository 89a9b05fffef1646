//! The search by a table of budgets: for each stage and each budget the latest time at its root.

use super::mistakes::{Other, Timing};
use super::timing::{Stage, Timed};
use super::{low_bits, Wrong};

/// No required time.
const NONE: i64 = i64::MIN / 2;

/// No limit.
const FREE: i64 = i64::MAX / 2;

type Rows = Vec<Vec<i64>>;

/// One k worked out: its rows, and V(k).
pub struct Round {
    pub k: u32,
    rows: Rows,
    pub least: usize,
}

/// A plan that was found.
pub struct Found {
    pub plan: Vec<usize>,
    pub k: u32,
    pub least: usize,
}

/// What a planning call lends.
#[derive(Clone, Copy)]
pub struct Lent<'a> {
    pub table: &'a [i64],
    pub buffer: &'a [u8],
}

impl Wrong {
    /// From k = 28 down to the first that qualifies. None if the table is too short.
    pub fn search(&self, timed: &Timed, share: (u64, u64), lent: Lent) -> Option<Found> {
        let s = timed.stages.len();
        let columns = self.columns(lent.table.len(), s);
        let mut rounds = self.rounds(timed, columns, lent.table);
        let mut round = rounds.find(|round| self.qualifies(s, share, round.k, round.least))?;
        let given = match self.other() {
            Some(Other::KTooSmall) => round.k.saturating_sub(1),
            Some(Other::KTooLarge) => round.k + 1,
            _ => round.k,
        };
        if given != round.k {
            round = self.round(timed, given, columns, lent.table)?;
        }
        Some(Found { plan: self.chosen(timed, &round, lent.buffer), k: given, least: round.least })
    }

    /// At k = 28, 27 and down, as long as V(k) fits the columns.
    pub fn rounds<'a>(
        &'a self,
        timed: &'a Timed,
        columns: usize,
        table: &'a [i64],
    ) -> impl Iterator<Item = Round> + 'a {
        let mut bound = 0;
        (0..=28).rev().map_while(move |k| {
            let round = self.round(timed, k, columns.min(bound + 1), table)?;
            bound = 2 * round.least + timed.stages.len() - self.makes(Other::BoundShort) as usize;
            Some(round)
        })
    }

    /// g × V(k) for a k at which V(k) is no more than `most`.
    pub fn floor_at(&self, timed: &Timed, k: u32, most: usize) -> u64 {
        let round = self.round(timed, k, most + 1, &[]).expect("a plan that meets timing");
        (round.least as u64) << k
    }

    pub fn columns(&self, length: usize, s: usize) -> usize {
        let length = if self.makes(Other::Table16) { low_bits(length, 16) } else { length };
        let columns = length / (s + 2);
        match self.other() {
            Some(Other::ColumnsByOneMore) => length / (s + 1),
            Some(Other::ColumnsByThreeMore) => length / (s + 3),
            Some(Other::ColumnsRoundedUp) => length.div_ceil(s + 2),
            Some(Other::TwelveLate) if columns > 0 => columns + 1,
            Some(Other::TwelveEarly) => columns.saturating_sub(1),
            _ => columns,
        }
    }

    fn qualifies(&self, s: usize, (mut p, mut q): (u64, u64), k: u32, least: usize) -> bool {
        if self.makes(Other::ShareInThousandths) {
            (p, q) = (1_000 * p / q, 1_000);
        }
        let least = if self.makes(Other::GrainValue16) { low_bits(least, 16) } else { least };
        let s = if self.makes(Other::GrainWithoutStages) { 1 } else { s as u64 };
        let less = if self.makes(Other::GrainWithoutMinus) && k > 0 { 0 } else { 1 };
        let (left, right) = (q * s * ((1 << k) - less), (p * least as u64) << k);
        match self.other() {
            Some(Other::GrainLeft32) => left & 0xFFFF_FFFF <= right,
            Some(Other::GrainRight32) => left <= right & 0xFFFF_FFFF,
            Some(Other::StrictGrain) if k > 0 => left < right,
            Some(Other::KAtMost26) if k > 26 => false,
            _ => left <= right,
        }
    }

    /// The latest time at which the driver can be reached: one column at k = 28, where every rounded cost is 0.
    pub fn best(&self, timed: &Timed) -> i64 {
        self.rows(timed, 28, 1, &[])[0][0]
    }

    /// The time at which the driver must be reached.
    pub fn target(&self, timed: &Timed) -> i64 {
        timed.arrival + self.makes(Other::ZeroSlackMisses) as i64 - self.makes(Other::MinusOneMeets) as i64
    }

    /// One k, if V(k) fits the width.
    pub fn round(&self, timed: &Timed, k: u32, width: usize, table: &[i64]) -> Option<Round> {
        let rows = self.rows(timed, k, width, table);
        let least = least_for(&rows[0], self.target(timed))?;
        Some(Round { k, rows, least })
    }

    fn rows(&self, timed: &Timed, k: u32, width: usize, table: &[i64]) -> Rows {
        let mut rows: Rows = vec![vec![NONE; width]; timed.stages.len()];
        for i in (0..timed.stages.len()).rev() {
            if self.makes(Other::StaleTable) && table.len() >= (i + 1) * width {
                rows[i].copy_from_slice(&table[i * width..(i + 1) * width]);
            }
            for layer in 0..timed.layers {
                let own = self.rounded(&timed.stages[i], layer, k);
                let left = if own < width { self.branches(timed, &rows, i, layer, width - own) } else { vec![] };
                for (budget, time) in left.into_iter().enumerate() {
                    let entry = &mut rows[i][own + budget];
                    let keeps_less = self.makes(Other::SmallerTime) && *entry > NONE && time > NONE;
                    *entry = if keeps_less { time.min(*entry) } else { time.max(*entry) };
                }
            }
            if i == 0 && width > 0 && self.makes(Other::BudgetsFromOne) {
                rows[0][0] = NONE;
            }
            for budget in 1..width {
                rows[i][budget] = rows[i][budget].max(rows[i][budget - 1]);
            }
        }
        rows
    }

    fn rounded(&self, stage: &Stage, layer: usize, k: u32) -> usize {
        let rounded = match self.other() {
            Some(Other::RoundedByEdge) => stage.edges.iter().map(|costs| costs[layer] >> k).sum(),
            Some(Other::RoundedUp) => (stage.cost[layer] + (1 << k) - 1) >> k,
            _ => stage.cost[layer] >> k,
        };
        rounded as usize
    }

    /// What the stages below and the sinks of stage i on a layer leave for each budget.
    fn branches(&self, timed: &Timed, rows: &Rows, i: usize, layer: usize, width: usize) -> Vec<i64> {
        let ends = &timed.stages[i].ends;
        let sinks = ends.iter().filter(|end| end.stage.is_none()).map(|end| end.required - end.delay[layer]);
        let limit = if timed.makes(Timing::MaxOverTerminals) { sinks.max() } else { sinks.min() };
        let mut merged = vec![limit.unwrap_or(FREE); width];
        for end in ends {
            if let Some(j) = end.stage {
                merged = self.merge(&merged, &rows[j], end.delay[layer]);
            }
        }
        merged
    }

    /// Two branches: budgets add, the earlier time counts.
    fn merge(&self, one: &[i64], other: &[i64], delay: i64) -> Vec<i64> {
        let below = |j: usize| if other[j] <= NONE { NONE } else { other[j] - delay };
        if self.makes(Other::BranchesShare) {
            return one.iter().enumerate().map(|(budget, time)| (*time).min(below(budget))).collect();
        }
        let (mut i, mut j) = (0, 0);
        let mut merged = vec![];
        while merged.len() < one.len() {
            merged.push(one[i].min(below(j)));
            let steps_first = if self.makes(Other::BranchesInStep) { i <= j } else { one[i] < below(j) };
            i += steps_first as usize;
            j += !steps_first as usize;
        }
        merged
    }

    /// The plan that is given.
    pub fn chosen(&self, timed: &Timed, round: &Round, buffer: &[u8]) -> Vec<usize> {
        let mut plan = self.read_off(timed, &round.rows, round.k, buffer);
        match self.other() {
            Some(Other::FastestPlan) => plan = self.fastest(timed),
            Some(Other::StageZeroOnly) => plan[1..].fill(0),
            Some(Other::FixedPlan) => plan.fill(0),
            _ => {}
        }
        plan
    }

    /// The plan read off the rows, the stages in order: with the lowest layers that keep to the least.
    fn read_off(&self, timed: &Timed, rows: &Rows, k: u32, buffer: &[u8]) -> Vec<usize> {
        let mut reached = vec![self.target(timed); timed.stages.len()];
        let mut plan = vec![];
        let mut second_branch = vec![false; timed.stages.len()];
        for (i, stage) in timed.stages.iter().enumerate() {
            let least = least_for(&rows[i], reached[i]).unwrap_or(0);
            let serves =
                |layer: &usize| self.need(stage, rows, reached[i], *layer, k).is_some_and(|need| need <= least);
            let mut serving: Vec<usize> = (0..timed.layers).filter(serves).collect();
            if self.makes(Other::CheaperTie) {
                serving.sort_by_key(|&layer| stage.cost[layer]);
            }
            let layer = self.choose(&serving, i, timed.stages.len(), second_branch[i], buffer.get(i));
            let driven = stage.ends.iter().filter_map(|end| Some((end.stage?, end.delay[layer])));
            for (turn, (j, delay)) in driven.enumerate() {
                reached[j] = reached[i] + delay;
                second_branch[j] = turn > 0;
            }
            plan.push(layer);
        }
        plan
    }

    /// What a stage reached at a time needs on a layer, with all below it.
    fn need(&self, stage: &Stage, rows: &Rows, time: i64, layer: usize, k: u32) -> Option<usize> {
        let mut need = self.rounded(stage, layer, k);
        for end in &stage.ends {
            let time = time + end.delay[layer];
            match end.stage {
                None if time > end.required => return None,
                None => {}
                Some(j) => need += least_for(&rows[j], time)?,
            }
        }
        Some(need)
    }

    /// One of the layers that serve stage i.
    fn choose(&self, serving: &[usize], i: usize, s: usize, second_branch: bool, before: Option<&u8>) -> usize {
        let (Some(&first), Some(&last)) = (serving.first(), serving.last()) else { return 0 };
        let takes_last = match self.other() {
            Some(Other::LastPlan) => true,
            Some(Other::LastLayerOfRoot) => i == 0,
            Some(Other::LastLayerElsewhere) => i > 0,
            Some(Other::LastLayerAtEnd) => i > 0 && i + 1 == s,
            Some(Other::LastLayerInSecondBranch) => second_branch,
            Some(Other::FarTie) => !serving.contains(&(first + 1)),
            _ => false,
        };
        let kept = before.map(|&layer| layer as usize).filter(|layer| serving.contains(layer));
        match kept {
            Some(layer) if self.makes(Other::StaleBuffer) => layer,
            _ if takes_last => last,
            _ => first,
        }
    }

    /// The plan with the latest required time at the driver.
    fn fastest(&self, timed: &Timed) -> Vec<usize> {
        let mut best = vec![0; timed.stages.len()];
        let mut required = vec![0; timed.stages.len()];
        for (i, stage) in timed.stages.iter().enumerate().rev() {
            let on = |layer: usize| {
                let times =
                    stage.ends.iter().map(|end| end.stage.map_or(end.required, |j| required[j]) - end.delay[layer]);
                times.min().unwrap_or(0)
            };
            let layer = (0..timed.layers).max_by_key(|&layer| on(layer)).unwrap_or(0);
            (best[i], required[i]) = (layer, on(layer));
        }
        best
    }
}

/// The least budget whose entry is at least a time.
fn least_for(row: &[i64], time: i64) -> Option<usize> {
    let place = row.partition_point(|&entry| entry < time);
    (place < row.len()).then_some(place)
}
