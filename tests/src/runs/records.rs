//! Nets in records (02, wish 9): "Checking, judging and planning are to take it with the same results as for the bytes
//! that describe the same net."

use super::planning::MOST_ENTRIES;
use super::reading::to_damage;
use crate::asked::Share;
use crate::compare::{Case, Comparison, Outcome};
use crate::lists::Lists;
use crate::nets::{self, Draft, Random};
use crate::plain;

/// All of it: the nets of 01, counts, damaged nets, limits; then random nets, whole and damaged.
pub fn all(c: &mut Comparison, seed: u64, count: usize) -> Outcome {
    fixed(c)?;
    let mut random = Random::new(seed ^ 0x4E);
    for number in 0..count {
        let family = nets::SMALL_FAMILIES[number % nets::SMALL_FAMILIES.len()];
        random_net(c, &format!("{family} {number}"), &nets::random_net(family, &mut random), &mut random)?;
    }
    for number in 0..count / 20 {
        let family = nets::LARGE_FAMILIES[number % nets::LARGE_FAMILIES.len()];
        let draft = nets::random_net(family, &mut random);
        one_net(c, &format!("{family} {number}"), &Lists::of(&draft).with_rubbish(&mut random), &mut random)?;
    }
    Ok(())
}

/// The same calls every time.
fn fixed(c: &mut Comparison) -> Outcome {
    let mut random = Random::new(9);
    nets::REFUSED_COUNTS.iter().try_for_each(|&counts| c.refused_by_counts(counts))?;
    all_calls_on(c, "", nets::two_faults(), &mut random, 1)?;
    for (of, draft) in to_damage() {
        let lists = Lists::of(&draft);
        one_net(c, of, &lists, &mut random)?;
        one_net(c, of, &lists.clone().with_rubbish(&mut random), &mut random)?;
        all_calls_on(c, of, nets::damaged_lists(&lists, &mut random, 200), &mut random, 2)?;
    }
    all_calls_on(c, "", nets::too_many_lists(), &mut random, 8)?;
    for (name, draft) in [
        ("the longest net", nets::longest()),
        ("file order is not tree order", nets::crossed()),
        ("64 stages", nets::varied_line(63, 0, 16, true)),
        ("the slowest line", nets::slowest_met()),
    ] {
        let lists = Lists::of(&draft);
        checked_and_judged(c, &Case::listed(name, &lists), &lists, &mut random)?;
    }
    Ok(())
}

/// Each of these checked; one in so many judged and planned too.
fn all_calls_on(
    c: &mut Comparison,
    of: &str,
    nets: Vec<(String, Lists)>,
    random: &mut Random,
    one_in: usize,
) -> Outcome {
    for (what, lists) in nets {
        let case = Case::listed(&format!("{of}{what}"), &lists);
        if !random.one_in(one_in) {
            c.check_records(&case, &lists)?;
            continue;
        }
        checked_and_judged(c, &case, &lists, random)?;
        if case.layers().saturating_pow(case.stages() as u32) <= 300 {
            let (p, q) = *random.pick(&[(1, 4), (0, 1), (1, 1), (0, 0), (1_001, 1)]);
            let buffer = *random.pick(&[case.stages(), 64, 0]);
            let case = case.with_search(100);
            c.plan_records(&case, &lists, Share { p, q }, random.below(200), buffer)?;
        }
    }
    Ok(())
}

/// Check, and judge of plans that are some, too long, too short, or on layers that there are not.
fn checked_and_judged(c: &mut Comparison, case: &Case, lists: &Lists, random: &mut Random) -> Outcome {
    c.check_records(case, lists)?;
    let (stages, layers) = (case.stages(), case.layers().max(1));
    let plan: Vec<u8> = (0..stages).map(|_| random.below(layers) as u8).collect();
    c.judge_records(case, lists, &plan)?;
    let bad = *random.pick(&[layers as u8, 16, 255]);
    let rest = &plan[plan.len().min(1)..];
    match random.below(4) {
        0 => c.judge_records(case, lists, &[&plan[..], &[bad]].concat()),
        1 => c.judge_records(case, lists, rest),
        2 => c.judge_records(case, lists, &[&[bad], rest].concat()),
        _ => c.judge_records(case, lists, &vec![0; stages + 256]),
    }
}

/// A random net: whole, and with some of its damages.
fn random_net(c: &mut Comparison, name: &str, draft: &Draft, random: &mut Random) -> Outcome {
    let lists = Lists::of(draft).with_rubbish(random);
    one_net(c, name, &lists, random)?;
    let damaged = nets::some_damaged_lists(&lists, random, 12);
    all_calls_on(c, &format!("{name}, "), damaged, random, 4)
}

/// One whole net: checked, judged, planned with tables around the exact length.
fn one_net(c: &mut Comparison, name: &str, lists: &Lists, random: &mut Random) -> Outcome {
    let case = Case::listed(name, lists).with_search(2_000);
    let s = case.stages();
    checked_and_judged(c, &case, lists, random)?;
    let any = (random.between(0, 1_000) as u64, random.between(1, 1_000) as u64);
    for (p, q) in [(0, 1), (1, 4), any, *random.pick(&[(2, 1), (1_000, 1), (1, 1_000)])] {
        let most = case.widest().min((MOST_ENTRIES / (s + 2)) as i128);
        let needed = case.needed_columns(p, q).filter(|&needed| needed <= most).map(|needed| needed as usize);
        let lengths = match needed {
            Some(columns) => vec![columns * (s + 2), columns * (s + 2) - 1, columns * (s + 2) + random.below(s + 2)],
            None => vec![random.below(most as usize * (s + 2) / 4 + 1)],
        };
        for length in lengths.into_iter().filter(|&length| plain::columns(length, s) <= case.widest()) {
            c.plan_records(&case, lists, Share { p, q }, length, *random.pick(&[s, s + 3, 64]))?;
        }
    }
    let (p, q) = *random.pick(&[(0, 0), (1_001, 1), (1, 1_001), (1 << 32, 1), (0, u64::MAX)]);
    c.plan_records(&case, lists, Share { p, q }, random.below(100), *random.pick(&[0, s - 1, s]))?;
    c.plan_records(&case, lists, Share { p: 1, q: 4 }, random.below(100), s - 1)
}
