//! Refusals whose conditions hold at once: "each is given just where its condition is the first to hold".

use crate::asked::{Planning, Rounds, Share};
use crate::compare::{Case, Comparison, Outcome};
use crate::desk::{Named, Run, Step};
use crate::nets::{self, net_b};
use crate::plain::{self, MOST_DESK_NET};

/// Every choice of some of these numbers.
fn choices(numbers: &[u8]) -> Vec<Vec<u8>> {
    let bits = 0..1 << numbers.len();
    bits.map(|bits: usize| (0..numbers.len()).filter(|&i| bits >> i & 1 == 1).map(|i| numbers[i]).collect()).collect()
}

/// Of a way of planning: terms that serve net B with 132 entries, terms that are refused and their number; and the most
/// entries that do not serve.
struct Sort<P> {
    good: P,
    bad: [P; 3],
    number: u8,
    short: usize,
}

const BY_SHARE: Sort<Share> = Sort {
    good: Share { p: 0, q: 1 },
    bad: [Share { p: 1_001, q: 1 }, Share { p: 0, q: 0 }, Share { p: 0, q: 1_001 }],
    number: 9,
    short: 131,
};

const BY_ROUNDS: Sort<Rounds> = Sort {
    good: Rounds { r: 29 },
    bad: [Rounds { r: 0 }, Rounds { r: 30 }, Rounds { r: u64::MAX }],
    number: 14,
    short: 3,
};

/// Of judging and of planning by a share.
pub fn run(c: &mut Comparison) -> Outcome {
    planned_each(c, &BY_SHARE)?;
    for (refusal, bytes) in nets::unreadable() {
        for others in choices(&[7, 8]) {
            judged(c, &bytes, &[&[refusal], &others[..]].concat())?;
        }
    }
    for holding in choices(&[7, 8]) {
        judged(c, &net_b().bytes(), &holding)?;
    }
    Ok(())
}

/// Of planning by rounds.
pub fn rounds(c: &mut Comparison) -> Outcome {
    planned_each(c, &BY_ROUNDS)
}

fn planned_each<P: Planning>(c: &mut Comparison, sort: &Sort<P>) -> Outcome {
    for (refusal, bytes) in nets::unreadable() {
        for others in choices(&[sort.number, 10, 12]) {
            planned(c, &bytes, &[&[refusal], &others[..]].concat(), sort)?;
        }
    }
    let whole = net_b().bytes();
    let late = nets::changed_b(|draft| {
        if let nets::Kind::Sink { required, .. } = &mut draft.nodes[1].kind {
            *required = 100;
        }
    });
    for holding in choices(&[sort.number, 10, 11, 12]) {
        planned(c, if holding.contains(&11) { &late } else { &whole }, &holding, sort)?;
    }
    Ok(())
}

/// Planned with good terms or bad ones, and with lengths that just serve net B or just do not.
fn planned<P: Planning>(c: &mut Comparison, bytes: &[u8], holding: &[u8], sort: &Sort<P>) -> Outcome {
    let case = Case::searched(&format!("refusals at once: {holding:?}"), bytes, 10_000);
    let either = |refusal: u8, bad: usize, good: usize| if holding.contains(&refusal) { bad } else { good };
    for terms in if holding.contains(&sort.number) { sort.bad } else { [sort.good; 3] } {
        c.plan_by(&case, terms, either(12, 0, 132), either(10, 0, 2))?;
        c.plan_by(&case, terms, either(12, sort.short, 132), either(10, 1, 2))?;
    }
    Ok(())
}

/// A plan of net B, or one of another length or with a layer number too high.
fn judged(c: &mut Comparison, bytes: &[u8], holding: &[u8]) -> Outcome {
    let case = Case::new(&format!("refusals at once: {holding:?}"), bytes);
    let layer = if holding.contains(&8) { 16 } else { 1 };
    if !holding.contains(&7) {
        c.judge(&case, &[0, layer])?;
        return c.judge(&case, &[layer, 0]);
    }
    c.judge(&case, &[layer])?;
    c.judge(&case, &[0, 1, layer])?;
    c.judge(&case, &[layer; 65])
}

/// Of desks: openings with bytes that are too long and no net besides; settings, lockings and unlockings on a desk never
/// opened and on an open one, of a stage that is none, to a layer that is none, of a locked stage.
pub fn desk(c: &mut Comparison) -> Outcome {
    let b = Named::new("B", net_b().bytes());
    let closed: Vec<Vec<Step>> = [vec![vec![]], openings().map(|opening| vec![opening]).collect()].concat();
    let locked = vec![Step::Open(b.clone()), Step::Set(1, 1), Step::Lock(0), Step::Lock(1)];
    let unlocked = vec![Step::Open(b), Step::Set(1, 1), Step::Lock(0), Step::Unlock(0)];
    let open = [locked.clone(), unlocked].into_iter();
    // A refused opening leaves an open desk with its locks, and a closed one closed.
    let kept = openings().map(|opening| [&locked[..], &[opening]].concat());
    for (number, before) in closed.into_iter().chain(open).chain(kept).enumerate() {
        for call in each_call() {
            let steps = [&before[..], &[call.clone(), Step::Read]].concat();
            c.desk_run(&Run::new(&format!("refusals at once {number}: {}", call.words()), &steps))?;
        }
    }
    Ok(())
}

/// Openings that are refused: with 1 to 6, with 15 where one of these holds too, and with 15 alone.
fn openings() -> impl Iterator<Item = Step> {
    let no_nets = nets::unreadable().into_iter().chain(nets::unreadable_long()).map(|(refusal, bytes)| {
        assert_eq!(plain::read(&bytes).err(), Some(refusal), "a net that has this refusal");
        (format!("no net: {refusal}"), bytes)
    });
    let too_long = (String::from("a whole net, too long"), nets::of_bytes(MOST_DESK_NET + 1).bytes());
    no_nets.chain([too_long]).map(|(name, bytes)| Step::Open(Named::new(&name, bytes)))
}

/// Calls on net B with numbers in range or not; both layers, so that one of them is the stage's own.
fn each_call() -> Vec<Step> {
    let (stages, layers) = ([0, 1, 2, 63, 64, u64::MAX], [0, 1, 2, 16, u64::MAX]);
    let sets = stages.into_iter().flat_map(|stage| layers.map(|layer| Step::Set(stage, layer)));
    let marks = stages.into_iter().flat_map(|stage| [Step::Lock(stage), Step::Unlock(stage)]);
    sets.chain(marks).chain([Step::Read]).collect()
}
