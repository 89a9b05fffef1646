//! Desks (02, wish 8).

use super::{numbers, Kinds};
use crate::desk::{Answer, Desks, Run, Step};
use crate::plain::{Desk, Sheet, MOST_DESK_NET};
use std::collections::BTreeSet;

/// A call of a run: on which desk it was made, and what was answered.
struct Made<'a> {
    /// The run's length.
    calls: usize,
    on: Option<&'a Sheet>,
    step: &'a Step,
    answer: Answer,
}

impl Made<'_> {
    fn is(&self, refusal: u8) -> bool {
        self.answer.refusal() == refusal
    }

    /// The bytes that are opened, by an opening that was answered so.
    fn opens(&self, refusal: u8) -> Option<&[u8]> {
        match self.step {
            Step::Open(net) if self.is(refusal) => Some(&net.bytes),
            _ => None,
        }
    }

    /// A desk with a lock and with a stage off layer 0.
    fn on_changed(&self) -> bool {
        self.on.is_some_and(|sheet| sheet.locks.contains(&true) && sheet.plan.iter().any(|&layer| layer > 0))
    }

    /// Stage and layer of a setting that was answered so, on an open desk.
    fn sets(&self, refusal: u8) -> Option<(&Sheet, u64, u64)> {
        match *self.step {
            Step::Set(stage, layer) if self.is(refusal) => Some((self.on?, stage, layer)),
            _ => None,
        }
    }

    /// A setting that was accepted.
    fn moves(&self, holds: impl Fn(&Sheet, usize, u8) -> bool) -> bool {
        self.sets(0).is_some_and(|(sheet, stage, layer)| holds(sheet, stage as usize, layer as u8))
    }

    /// Whether the stage is locked that is locked or else unlocked.
    fn marks(&self, locks: bool) -> Option<bool> {
        let stage = match *self.step {
            Step::Lock(stage) if locks => stage,
            Step::Unlock(stage) if !locks => stage,
            _ => return None,
        };
        self.on?.locks.get(stage as usize).copied()
    }

    /// A reading that was accepted.
    fn reads(&self, holds: impl Fn(&Sheet, i64) -> bool) -> bool {
        match (self.answer, self.on) {
            (Answer::Figures(figures), Some(sheet)) => holds(sheet, figures.slack),
            _ => false,
        }
    }

    /// A number of which the low bits alone would be in range, for a stage or a layer: is one refused?
    fn refused_by_high_bits(&self, bits: u32) -> bool {
        let low = |number: u64, count: usize| number >> bits != 0 && (number & ((1 << bits) - 1)) < count as u64;
        let stage = self.sets(7).is_some_and(|(sheet, stage, _)| low(stage, sheet.plan.len()));
        stage || self.sets(8).is_some_and(|(sheet, _, layer)| low(layer, sheet.net.layers.len()))
    }
}

/// Kinds of calls.
const KINDS: &[(&str, fn(&Made) -> bool)] = &[
    ("calls in runs of 300 and more", |made| made.calls >= 300),
    ("a net of 4,096 bytes opened", |made| made.opens(0).is_some_and(|net| net.len() == MOST_DESK_NET)),
    ("a whole net of 4,097 bytes refused with 15", |made| {
        made.opens(15).is_some_and(|net| net.len() == MOST_DESK_NET + 1 && crate::plain::read(net).is_ok())
    }),
    ("bytes above 65,536 refused with 15", |made| made.opens(15).is_some_and(|net| net.len() > 65_536)),
    ("a desk with locks and a plan replaced", |made| made.opens(0).is_some() && made.on_changed()),
    ("a desk with locks and a plan kept by a refused opening", |made| {
        matches!(made.step, Step::Open(_)) && !made.is(0) && made.on_changed()
    }),
    ("stage 63 moved", |made| made.moves(|sheet, stage, layer| stage == 63 && sheet.plan[stage] != layer)),
    ("a stage moved to layer 15", |made| made.moves(|_, _, layer| layer == 15)),
    ("a stage set to the layer that it has", |made| made.moves(|sheet, stage, layer| sheet.plan[stage] == layer)),
    ("a locked stage set to the layer that it has", |made| {
        made.sets(17).is_some_and(|(sheet, stage, layer)| sheet.plan[stage as usize] as u64 == layer)
    }),
    ("a stage beside a locked one moved", |made| {
        made.moves(|sheet, stage, _| stage > 0 && sheet.locks[stage - 1] || sheet.locks.get(stage + 1) == Some(&true))
    }),
    ("a stage set to a number of layers, refused", |made| {
        made.sets(8).is_some_and(|(sheet, _, layer)| layer == sheet.net.layers.len() as u64)
    }),
    ("a locked stage locked", |made| made.marks(true) == Some(true)),
    ("an unlocked stage unlocked", |made| made.marks(false) == Some(false)),
    ("a locked stage off layer 0 unlocked", |made| made.marks(false) == Some(true) && made.on_changed()),
    ("a number in range by its low 4 bits refused", |made| made.refused_by_high_bits(4)),
    ("a number in range by its low 8 bits refused", |made| made.refused_by_high_bits(8)),
    ("a number in range by its low 16 bits refused", |made| made.refused_by_high_bits(16)),
    ("a number in range by its low 32 bits refused", |made| made.refused_by_high_bits(32)),
    ("a number in range by its low 63 bits refused", |made| made.refused_by_high_bits(63)),
    ("64 stages read", |made| made.reads(|sheet, _| sheet.plan.len() == 64)),
    ("16 layers read", |made| made.reads(|sheet, _| sheet.net.layers.len() == 16)),
    ("a plan that meets timing read", |made| made.reads(|_, slack| slack >= 0)),
    ("a plan that misses timing read", |made| made.reads(|_, slack| slack < 0)),
    ("vias read", |made| {
        made.reads(|sheet, _| sheet.plan.iter().any(|&layer| sheet.net.layers[layer as usize].via > 0))
    }),
];

/// The calls with their numbers, 0 for acceptance.
const ANSWERS: &[(&str, &[u8])] = &[
    ("open", &[0, 1, 2, 3, 4, 5, 6, 15]),
    ("set", &[0, 7, 8, 16, 17]),
    ("lock", &[0, 7, 16]),
    ("unlock", &[0, 7, 16]),
    ("read", &[0, 16]),
];

/// The call's place there, if the step is one.
fn call(step: &Step) -> Option<usize> {
    match step {
        Step::Open(_) => Some(0),
        Step::Set(..) => Some(1),
        Step::Lock(_) => Some(2),
        Step::Unlock(_) => Some(3),
        Step::Read => Some(4),
        Step::Copy(_) | Step::PutBack(_) => None,
    }
}

/// What was met.
#[derive(Default)]
pub struct Met {
    /// How often, for each of `KINDS`.
    kinds: [usize; KINDS.len()],
    /// For each of `ANSWERS`; and once more by the first call after a copy of the desk was put back.
    answers: [BTreeSet<u8>; ANSWERS.len()],
    after_copies: [BTreeSet<u8>; ANSWERS.len()],
}

impl Met {
    /// Counts the calls of a run.
    pub fn count(&mut self, run: &Run) {
        let (mut desks, mut put_back) = (Desks::new(Desk::default()), false);
        let calls = run.calls_before(run.steps.len());
        for (step, answer) in run.steps.iter().zip(run.answers()) {
            let made = Made { calls, on: desks.at_hand.sheet.as_ref(), step, answer };
            if let Some(place) = call(step) {
                for (often, (_, holds)) in self.kinds.iter_mut().zip(KINDS) {
                    *often += holds(&made) as usize;
                }
                self.answers[place].insert(answer.refusal());
                if put_back {
                    self.after_copies[place].insert(answer.refusal());
                }
            }
            put_back = matches!(step, Step::PutBack(_));
            // Reading alters nothing, and takes time.
            if !matches!(step, Step::Read) {
                desks.put_to_plain(step);
            }
        }
    }

    /// What is due.
    pub fn kinds(&self) -> Kinds {
        let kinds = self.kinds.iter().zip(KINDS).map(|(&often, (words, _))| (format!("{words}: {often}"), often > 0));
        let answers = |when: &str, met: &[BTreeSet<u8>]| -> Kinds {
            let of = |((words, due), met): (&(&str, &[u8]), &BTreeSet<u8>)| {
                numbers(&format!("answers to {words}{when}"), met, due)
            };
            ANSWERS.iter().zip(met).map(of).collect()
        };
        let after_copies = answers(", the first after a copy was put back", &self.after_copies);
        kinds.chain(answers("", &self.answers)).chain(after_copies).collect()
    }
}
