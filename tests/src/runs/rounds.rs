//! Planning by rounds (02, wish 7).

use super::{limits, order, planning};
use crate::asked::Rounds;
use crate::compare::{Case, Comparison, Outcome};
use crate::nets::{self, Draft, Random};
use crate::plain::{MOST_K, MOST_ROUNDS};
use crate::rows;
use std::sync::OnceLock;

/// The most columns that nets are searched for, and nets at their limits.
const WIDEST: i128 = 2_000;
const WIDEST_AT_LIMITS: i128 = 200;

/// The most columns for one stage on one layer: a net of more costs a planner more, and gets fewer.
const MOST_COLUMNS: usize = 400_000;

/// Numbers of rounds that must be refused with 14.
const BAD: &[u64] = &[
    0,
    30,
    31,
    32,
    64,
    255,
    256,
    256 + 1,
    256 + 29,
    1_000,
    1_001,
    1 << 16,
    (1 << 16) + 1,
    (1 << 31) + 1,
    1 << 32,
    (1 << 32) + 1,
    (1 << 32) + 29,
    1 << 63,
    (1 << 63) + 1,
    (1 << 63) + 29,
    u64::MAX - 28,
    u64::MAX,
];

/// All of it: rows, refusals at once, the same nets every time, then random nets, `count` of them small.
pub fn all(c: &mut Comparison, seed: u64, count: usize) -> Outcome {
    rows::rounds(c)?;
    order::rounds(c)?;
    fixed(c)?;
    at_limits(c)?;
    let mut random = Random::new(seed ^ 0x57);
    trading_nets(c, &mut random, count / 4)?;
    planning::small_nets(c, &mut random, count, one_net)?;
    planning::large_nets(c, &mut random, count / 4, one_net)?;
    (0..count / 100).try_for_each(|number| {
        let bytes = nets::at_limits(&mut random).bytes();
        one_net(c, &Case::searched(&format!("at the limits {number}"), &bytes, WIDEST_AT_LIMITS), &mut random)
    })
}

/// The same calls every time.
fn fixed(c: &mut Comparison) -> Outcome {
    let mut random = Random::new(7);
    for (name, draft) in named() {
        each_round(c, &Case::searched(name, &draft.bytes(), WIDEST), &mut random)?;
    }
    law(c)?;
    trading_nets(c, &mut random, 20)?;
    for k in 0..=27 {
        let draft = nets::cheaper_from(k);
        around(c, &Case::searched(&format!("cheaper from k = {k} on"), &draft.bytes(), WIDEST), k)?;
    }
    // Two columns are needed at k = 27.
    around(c, &Case::searched("the dearest stage", &nets::costing(255_000_000).bytes(), WIDEST), 27)?;
    lengths(c)
}

/// Small nets.
fn named() -> [(&'static str, Draft); 12] {
    [
        ("B", nets::net_b()),
        ("B with vias", nets::dear_b(1, 1_143).with_vias(&[0, 2])),
        ("B, 2,100 times as dear", nets::dear_b(2_100, 1_063)),
        ("B, two plans of equal cost", nets::equal_b()),
        ("B, a dearer plan of lower rounded cost", nets::rounded_b()),
        ("B on three layers, two plans of equal cost", nets::equal_on_three()),
        ("B on three layers, dearer and cheaper by turns", nets::turning_on_three()),
        ("A, late", nets::net_a(229)),
        ("all kinds", nets::all_kinds()),
        ("file order is not tree order", nets::crossed()),
        ("file order is not tree order, with vias", nets::crossed().with_vias(&[0, 3])),
        ("a stage that drives 3", nets::star(3)),
    ]
}

/// "With both r from 1 to 29 and the rest of the call the same": small nets, with tables that serve all rounds or some.
pub fn law(c: &mut Comparison) -> Outcome {
    for (name, draft) in named() {
        let case = Case::searched(name, &draft.bytes(), WIDEST);
        for columns in [100, 9, 1, 0] {
            c.rounds_law(&case, columns * (case.stages() + 2), case.stages())?;
        }
    }
    Ok(())
}

/// Every r with one table; tables around what each round needs; every r that is refused.
fn each_round(c: &mut Comparison, case: &Case, random: &mut Random) -> Outcome {
    let s = case.stages();
    for r in 1..=MOST_ROUNDS {
        c.plan_rounds(case, r, 100 * (s + 2), s)?;
    }
    for k in steps(case) {
        around(c, case, k)?;
    }
    refused(c, case, BAD, random)
}

/// Nets whose stages trade time for cost: each number of rounds that needs a longer table, with one that serves them all.
fn trading_nets(c: &mut Comparison, random: &mut Random, count: usize) -> Outcome {
    for number in 0..count {
        let case = Case::searched(&format!("trading {number}"), &nets::trading(random).bytes(), WIDEST);
        let steps = steps(&case);
        let [_, longest, _] = lengths_around(&case, *steps.last().expect("a plan that meets timing"));
        for k in steps {
            c.plan_rounds(&case, last_at(k), longest, case.stages())?;
        }
        one_net(c, &case, random)?;
    }
    Ok(())
}

/// Tables of just what the round at k needs, one entry less and one more; r such that it is the last, and all.
fn around(c: &mut Comparison, case: &Case, k: u32) -> Outcome {
    for length in lengths_around(case, k) {
        for r in [last_at(k), MOST_ROUNDS] {
            c.plan_rounds(case, r, length, case.stages())?;
        }
    }
    Ok(())
}

/// The r with which the round at k is the last.
fn last_at(k: u32) -> u64 {
    MOST_ROUNDS - k as u64
}

/// What the round at k needs, in entries, and beside it.
fn lengths_around(case: &Case, k: u32) -> [usize; 3] {
    let needed = case.columns_at(k).expect("columns that are known") as usize;
    let exact = needed * (case.stages() + 2);
    [exact - 1, exact, exact + 1]
}

/// From k = 28 down each k that needs more columns than the one before, as far as such tables are made.
fn steps(case: &Case) -> Vec<u32> {
    let s = case.stages();
    let most = (planning::MOST_ENTRIES / (s + 2)).min(MOST_COLUMNS / (s * case.layers()));
    let columns = |k: u32| case.columns_at(k).filter(|&needed| needed <= most as i128);
    (0..=MOST_K).rev().filter(|&k| columns(k).is_some() && (k == MOST_K || columns(k) > columns(k + 1))).collect()
}

/// Long tables and buffers; and more columns needed than 16 bits can say.
fn lengths(c: &mut Comparison) -> Outcome {
    let case = Case::searched("B, long", &nets::net_b().bytes(), WIDEST);
    for table in limits::LONG_TABLES {
        c.plan_rounds(&case, MOST_ROUNDS, table, 2)?;
    }
    for buffer in limits::LONG_BUFFERS {
        c.plan_rounds(&case, MOST_ROUNDS, 132, buffer)?;
    }
    let case = Case::searched("B, 4,000 times as dear", &nets::dear_b(4_000, 1_063).bytes(), WIDEST);
    around(c, &case, 0)
}

/// Nets at their limits: the same every time. They are searched once, for every wrong planner is tried on them.
fn at_limits(c: &mut Comparison) -> Outcome {
    static CASES: OnceLock<Vec<Case>> = OnceLock::new();
    let mut random = Random::new(9);
    let cases = CASES.get_or_init(|| {
        let lines = (8..=64).map(|edges| (format!("{edges} edges of the largest length"), limits::line_in_time(edges)));
        let more = [
            ("an edge of length 1,000", nets::a_of_length(1_000)),
            ("64 stages, the last layer the cheapest, with vias", nets::last_layer_cheapest().with_vias(&[1; 16])),
        ];
        let more = more.map(|(name, draft)| (String::from(name), draft.bytes()));
        let nets = limits::each(&mut Random::new(2)).into_iter().chain(lines);
        let nets = nets.chain(limits::at_ends_of_time()).chain(more);
        nets.map(|(name, bytes)| Case::searched(&name, &bytes, WIDEST_AT_LIMITS)).collect()
    });
    cases.iter().try_for_each(|case| some_calls(c, case, 1, &mut random))
}

/// One whole net: tables around what some rounds need and with no column, r that is refused, buffers that are too short;
/// and sometimes the law between calls.
fn one_net(c: &mut Comparison, case: &Case, random: &mut Random) -> Outcome {
    some_calls(c, case, if case.stages() > 8 { 1 } else { 3 }, random)?;
    if random.one_in(4) {
        c.rounds_law(case, random.below(100) * (case.stages() + 2), case.stages())?;
    }
    let bad = [*random.pick(BAD), *random.pick(BAD), random.next() | 1 << 40];
    refused(c, case, &bad, random)
}

/// Tables around what so many rounds need; or of any length, where no plan meets timing. One without a column.
fn some_calls(c: &mut Comparison, case: &Case, rounds: usize, random: &mut Random) -> Outcome {
    let steps = steps(case);
    for _turn in 0..rounds {
        let (mut asked, mut lengths) = (vec![], [random.below(400), 0, 1]);
        if !steps.is_empty() {
            let k = *random.pick(&steps);
            asked = vec![last_at(k), (last_at(k) + 1).min(MOST_ROUNDS), MOST_ROUNDS];
            lengths = lengths_around(case, k);
        }
        asked.push(random.between(1, MOST_ROUNDS as i64) as u64);
        for length in lengths {
            planning::put(c, case, Rounds { r: *random.pick(&asked) }, length, random)?;
        }
    }
    let r = random.between(1, MOST_ROUNDS as i64) as u64;
    planning::put(c, case, Rounds { r }, random.below(case.stages() + 2), random)
}

/// These r, and buffers that are too short.
fn refused(c: &mut Comparison, case: &Case, bad: &[u64], random: &mut Random) -> Outcome {
    let good = [1, 24, MOST_ROUNDS].map(|r| Rounds { r });
    planning::refused(c, case, bad.iter().map(|&r| Rounds { r }), good, random)
}
