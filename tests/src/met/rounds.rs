//! Planning by rounds (02, wish 7).

use super::{numbers, Kinds};
use crate::compare::Case;
use crate::plain::{self, Net, Round, RoundsPlanned};
use std::collections::BTreeSet;

/// A call that was accepted, with the rounds that were run.
struct Run<'a> {
    net: &'a Net,
    r: u64,
    table_len: usize,
    rounds: Vec<Round>,
    /// What the next round needs, in entries, where there is one.
    next: Option<i128>,
    answer: RoundsPlanned,
}

impl Run<'_> {
    /// The round whose plan is given.
    fn given(&self) -> &Round {
        plain::cheapest_seen(&self.rounds)
    }

    fn first(&self) -> &Round {
        self.rounds.first().expect("a round was run")
    }

    fn last(&self) -> &Round {
        self.rounds.last().expect("a round was run")
    }

    fn ends_early(&self) -> bool {
        self.answer.rounds < self.r
    }

    /// The last round's plan is dearer than the one that is given.
    fn last_is_dearer(&self) -> bool {
        self.given().cost < self.last().cost
    }

    /// The later rounds that give another plan of the same cost as the one that is given.
    fn equals(&self) -> impl Iterator<Item = &Round> {
        let given = self.given();
        self.rounds.iter().filter(|round| round.cost == given.cost && round.k < given.k && round.plan != given.plan)
    }

    /// What the last round needs, in entries.
    fn needed(&self) -> i128 {
        entries(self.net, self.last().least)
    }

    fn above_floor(&self) -> i128 {
        self.answer.cost as i128 - self.answer.floor as i128
    }
}

/// The entries of a table with V(k) + 1 columns.
fn entries(net: &Net, least: i128) -> i128 {
    (least + 1) * (plain::stage_count(net) as i128 + 2)
}

/// Kinds of calls that are accepted.
const KINDS: &[(&str, fn(&Run) -> bool)] = &[
    ("the cheapest plan is not the last round's", |run| run.last_is_dearer()),
    ("the cheapest plan is neither the first round's nor the last's", |run| {
        run.last_is_dearer() && run.given().cost < run.first().cost
    }),
    ("the plan given has the larger rounded cost at the last k, and the lower true cost", |run| {
        let rounded = |k| plain::rounded_cost(&plain::stage_costs(run.net, &run.given().plan), k);
        run.last_is_dearer() && rounded(run.last().k) > run.last().least
    }),
    ("a later round gives another plan of the same cost", |run| run.equals().next().is_some()),
    ("a later round gives another plan of the same cost, before it in plan order", |run| {
        run.equals().any(|round| round.plan < run.given().plan)
    }),
    ("rounds end early", |run| run.ends_early()),
    ("rounds end early for one entry", |run| run.ends_early() && run.next == Some(run.table_len as i128 + 1)),
    ("rounds end early with just the entries that the last needs", |run| {
        run.ends_early() && run.needed() == run.table_len as i128
    }),
    ("all r rounds are run with just the entries that the last needs", |run| {
        !run.ends_early() && run.needed() == run.table_len as i128
    }),
    ("the floor is the cost, and k = 0 is not reached", |run| run.above_floor() == 0 && run.last().k > 0),
    ("cost minus floor is all that is allowed, and k = 0 is not reached", |run| {
        let s = plain::stage_count(run.net);
        run.above_floor() == plain::most_above_floor(s, run.last().k) && run.last().k > 0
    }),
    ("stages pay vias", |run| run.given().plan.iter().any(|&layer| run.net.layers[layer as usize].via > 0)),
];

/// The numbers of the call's refusals.
const REFUSALS: [u64; 10] = [1, 2, 3, 4, 5, 6, 10, 11, 12, 14];

/// What was met.
#[derive(Default)]
pub struct Met {
    /// How often, for each of `KINDS`.
    kinds: [usize; KINDS.len()],
    refusals: BTreeSet<u64>,
    /// How many rounds were run; and how many where they ended early.
    run: BTreeSet<u64>,
    run_early: BTreeSet<u64>,
    /// At which k the plan was found.
    found_at: BTreeSet<u64>,
}

impl Met {
    /// Counts a call.
    pub fn count(&mut self, case: &Case, r: u64, table_len: usize, answer: RoundsPlanned) {
        let (Ok(net), Some(search), 0) = (&case.read, case.search(), answer.refusal) else {
            self.refusals.insert(answer.refusal as u64);
            return;
        };
        let rounds = plain::rounds(net, search, r, plain::columns(table_len, case.stages()));
        let next_k = plain::MOST_K.checked_sub(rounds.len() as u32);
        let next = next_k.map(|k| entries(net, search.least_rounded(k)));
        let run = Run { net, r, table_len, rounds, next, answer };
        for (often, (_, holds)) in self.kinds.iter_mut().zip(KINDS) {
            *often += holds(&run) as usize;
        }
        self.run.insert(answer.rounds);
        self.found_at.insert(run.given().k as u64);
        if run.ends_early() {
            self.run_early.insert(answer.rounds);
        }
    }

    /// What is due.
    pub fn kinds(&self) -> Kinds {
        let kinds = self.kinds.iter().zip(KINDS).map(|(&often, (words, _))| (format!("{words}: {often}"), often > 0));
        let due = |least: u64, most: u64| (least..=most).collect::<Vec<u64>>();
        let numbers = [
            numbers("refusals", &self.refusals, &REFUSALS),
            numbers("numbers of rounds run", &self.run, &due(1, 29)),
            numbers("numbers of rounds run where they ended early", &self.run_early, &due(1, 28)),
            numbers("k at which the plan was found", &self.found_at, &due(0, 28)),
        ];
        kinds.chain(numbers).collect()
    }
}
