//! Which kinds of calls were made: each that is due must be met.

mod desks;
mod rounds;

use std::collections::BTreeSet;

/// What was met: by rounds, and on desks.
#[derive(Default)]
pub struct Met {
    pub rounds: rounds::Met,
    pub desks: desks::Met,
}

/// What is due, each in words with how often it was met, and whether that is enough.
type Kinds = Vec<(String, bool)>;

impl Met {
    /// What was met, a line for each kind, and whether it is all that is due.
    pub fn told(&self) -> (Vec<String>, bool) {
        let of = |calls: &str, kinds: Kinds| -> Kinds {
            kinds.into_iter().map(|(line, met)| (format!("{calls}, {line}"), met)).collect()
        };
        let kinds = [of("rounds", self.rounds.kinds()), of("desk", self.desks.kinds())].concat();
        let all = kinds.iter().all(|(_, met)| *met);
        (kinds.into_iter().map(|(line, met)| format!("{}{line}", if met { "" } else { "NOT MET: " })).collect(), all)
    }
}

/// Of numbers that are due, how many were met.
fn numbers<T: Ord>(words: &str, met: &BTreeSet<T>, due: &[T]) -> (String, bool) {
    let often = due.iter().filter(|number| met.contains(number)).count();
    (format!("{words}: {often} of {}", due.len()), often == due.len())
}
