//! Nets in records (02, wish 9).

use super::{numbers, Kinds};
use crate::c_calls::{DRIVER, SINK};
use crate::lists::Lists;
use crate::plain::{Checked, Judged, Planned};
use std::collections::BTreeSet;

/// The calls with their numbers, 0 for acceptance.
const ANSWERS: &[(&str, &[u8])] = &[
    ("check", &[0, 1, 2, 3, 4, 5, 6, 18]),
    ("judge", &[0, 1, 2, 3, 4, 5, 6, 7, 8, 18]),
    ("plan", &[0, 1, 2, 3, 4, 5, 6, 9, 10, 11, 12, 18]),
];

/// A check that was made.
struct Made<'a> {
    lists: &'a Lists,
    refusal: u8,
}

impl Made<'_> {
    fn is(&self, refusal: u8) -> bool {
        self.refusal == refusal
    }

    /// The kind of the driver's record, if there is one.
    fn first_kind(&self) -> u64 {
        self.lists.nodes.first().map_or(0, |node| node.kind)
    }
}

/// Kinds of checks.
const KINDS: &[(&str, fn(&Made) -> bool)] = &[
    ("256 records accepted", |made| made.is(0) && made.lists.nodes.len() == 256),
    ("257 records refused with 4", |made| made.is(4) && made.lists.nodes.len() == 257),
    ("258 records refused with 4", |made| made.is(4) && made.lists.nodes.len() == 258),
    ("16 layers accepted", |made| made.is(0) && made.lists.layers.len() == 16),
    ("17 layers refused", |made| made.is(2) && made.lists.layers.len() == 17),
    ("no layers refused", |made| made.is(2) && made.lists.layers.is_empty()),
    ("no records and no costs refused with 1", |made| made.is(1)),
    ("no records and a bad layer refused with 3", |made| made.is(3) && made.lists.nodes.is_empty()),
    ("no records and some costs refused with 18", |made| made.is(18) && made.lists.nodes.is_empty()),
    ("a cost too few refused with 18", |made| {
        made.is(18)
            && made.lists.costs.len() + 1
                == made.lists.layers.len() * made.lists.nodes.len().max(1) - made.lists.layers.len()
    }),
    ("no driver in place 0 refused with 2", |made| made.is(2) && made.first_kind() == SINK),
    ("a driver outside place 0 refused with 2", |made| {
        made.is(2) && made.lists.nodes.iter().skip(1).any(|node| node.kind == DRIVER)
    }),
    ("a length outside 64 bits of signed numbers in place 0 accepted", |made| {
        made.is(0) && made.lists.nodes[0].length > i64::MAX as u64
    }),
    ("a length beyond 32 bits refused with 3", |made| {
        made.is(3) && made.lists.nodes.iter().skip(1).any(|node| node.length >> 32 != 0)
    }),
    ("a parent beyond 16 bits refused with 5", |made| {
        made.is(5) && made.lists.nodes.iter().skip(1).any(|node| node.parent >> 16 != 0)
    }),
    ("a net that can be said in bytes refused", |made| !made.is(0) && made.lists.described().is_some()),
    ("a net that cannot be said in bytes refused", |made| {
        ![0, 18].contains(&made.refusal) && made.lists.described().is_none()
    }),
];

/// What was met.
#[derive(Default)]
pub struct Met {
    /// How often, for each of `KINDS`.
    kinds: [usize; KINDS.len()],
    /// For each of `ANSWERS`.
    answers: [BTreeSet<u8>; ANSWERS.len()],
}

impl Met {
    pub fn checked(&mut self, lists: &Lists, answer: Checked) {
        let made = Made { lists, refusal: answer.refusal };
        for (often, (_, holds)) in self.kinds.iter_mut().zip(KINDS) {
            *often += holds(&made) as usize;
        }
        self.answers[0].insert(answer.refusal);
    }

    pub fn judged(&mut self, answer: Judged) {
        self.answers[1].insert(answer.refusal);
    }

    pub fn planned(&mut self, answer: Planned) {
        self.answers[2].insert(answer.refusal);
    }

    /// What is due.
    pub fn kinds(&self) -> Kinds {
        let kinds = self.kinds.iter().zip(KINDS).map(|(&often, (words, _))| (format!("{words}: {often}"), often > 0));
        let of =
            |((words, due), met): (&(&str, &[u8]), &BTreeSet<u8>)| numbers(&format!("answers to {words}"), met, due);
        kinds.chain(ANSWERS.iter().zip(&self.answers).map(of)).collect()
    }
}
