//! Random whole nets: checked, judged, planned.

use crate::asked::{Planning, Share};
use crate::compare::{Case, Comparison, Outcome};
use crate::nets::{self, Random};
use crate::plain::{self, Search};

/// Nets and shares for which the exact table would have more entries than this get shorter ones only.
pub const MOST_ENTRIES: usize = 60_000;

/// The calls on one net.
pub type OneNet = fn(&mut Comparison, &Case, &mut Random) -> Outcome;

/// Random nets whose plans can all be looked at.
pub fn small_nets(c: &mut Comparison, random: &mut Random, count: usize, one_net: OneNet) -> Outcome {
    random_nets(c, random, (nets::SMALL_FAMILIES, count, 100_000), one_net)
}

/// Random nets that need the search by fronts.
pub fn large_nets(c: &mut Comparison, random: &mut Random, count: usize, one_net: OneNet) -> Outcome {
    random_nets(c, random, (nets::LARGE_FAMILIES, count, 2_000), one_net)
}

/// So many nets of these families in turn, searched for tables of up to `widest` columns.
fn random_nets(
    c: &mut Comparison,
    random: &mut Random,
    (families, count, widest): (&[&str], usize, i128),
    one_net: OneNet,
) -> Outcome {
    for number in 0..count {
        let family = families[number % families.len()];
        let bytes = nets::random_net(family, random).bytes();
        one_net(c, &Case::searched(&format!("{family} {number}"), &bytes, widest), random)?;
    }
    Ok(())
}

/// One whole net: checked, judged, planned.
pub fn one_net(c: &mut Comparison, case: &Case, random: &mut Random) -> Outcome {
    c.check(case)?;
    judged(c, case, random)?;
    planned(c, case, random)?;
    let bad = BAD_SHARES.iter().map(|&(p, q)| Share { p, q });
    refused(c, case, bad, [(0, 1), (1, 4), (1_000, 1)].map(|(p, q)| Share { p, q }), random)
}

/// Judge: all plans of a small net, some of a large one; wrong lengths and wrong layers.
fn judged(c: &mut Comparison, case: &Case, random: &mut Random) -> Outcome {
    let (stages, layers) = (case.stages(), case.layers());
    let net = case.read.as_ref().expect("a whole net");
    if layers.saturating_pow(stages as u32) <= 32 {
        for plan in plain::all_plans(net) {
            c.judge(case, &plan)?;
        }
    }
    c.judge(case, &vec![0; stages])?;
    c.judge(case, &vec![layers as u8 - 1; stages])?;
    for _turn in 0..6 {
        let plan: Vec<u8> = (0..stages).map(|_| random.below(layers) as u8).collect();
        c.judge(case, &plan)?;
        let mut bad = plan.clone();
        bad[random.below(stages)] = *random.pick(&[layers as u8, layers as u8 + 1, 16, 128, 255]);
        c.judge(case, &bad)?;
        bad.push(0);
        c.judge(case, &bad)?;
        c.judge(case, &plan[1..])?;
        c.judge(case, &bad[2..])?;
    }
    for length in [0, stages - 1, stages + 1, stages + 256] {
        c.judge(case, &vec![0; length])?;
    }
    Ok(())
}

/// Plan: shares of all sorts, table lengths around the exact one.
fn planned(c: &mut Comparison, case: &Case, random: &mut Random) -> Outcome {
    for (p, q) in shares(case, random) {
        for length in lengths(case, p, q, random) {
            put(c, case, Share { p, q }, length, random)?;
        }
    }
    Ok(())
}

/// One call, or the same twice, with a plan buffer that is long enough.
pub fn put<P: Planning>(c: &mut Comparison, case: &Case, terms: P, table_len: usize, random: &mut Random) -> Outcome {
    let s = case.stages();
    let longer = s + random.below(70);
    let buffer = *random.pick(&[s, s, 64, longer, 256]);
    if random.one_in(8) {
        c.plan_twice(case, terms, table_len, buffer)
    } else {
        c.plan_by(case, terms, table_len, buffer)
    }
}

/// Shares for one net.
fn shares(case: &Case, random: &mut Random) -> Vec<(u64, u64)> {
    let mut shares = vec![(0, 1), (1, 1), (2, 1), (1_000, 1), (1, 1_000), (1, 4), (1_000, 1_000), (0, 1_000)];
    for _turn in 0..3 {
        shares.push((random.between(0, 1_000) as u64, random.between(1, 1_000) as u64));
        shares.push((random.between(0, 5) as u64, random.between(1, 12) as u64));
        shares.extend(case.search().map_or(vec![], |search| shares_at_edge(search, case.stages(), random)));
    }
    // A large net costs a planner more: fewer shares.
    let most = match case.stages() {
        0..=8 => shares.len(),
        9..=30 => 6,
        _ => 3,
    };
    while shares.len() > most {
        shares.swap_remove(random.below(shares.len()));
    }
    shares
}

/// For some k the least share at which it qualifies, and the largest at which it does not.
fn shares_at_edge(search: &dyn Search, s: usize, random: &mut Random) -> Vec<(u64, u64)> {
    let several: Vec<u32> = (1..plain::MOST_K).filter(|&k| search.least_rounded(k) > 0).collect();
    if several.is_empty() {
        return vec![];
    }
    let k = *random.pick(&several);
    let qualifies = |&(p, q): &(u64, u64)| plain::qualifies(s, p, q, k, search.least_rounded(k));
    let lower = |one: &(u64, u64), other: &(u64, u64)| (one.0 * other.1).cmp(&(other.0 * one.1));
    // For each q the first p that qualifies, by halving.
    let first = |q: u64| {
        let (mut low, mut high) = (0, 1_001);
        while low < high {
            let middle = (low + high) / 2;
            if qualifies(&(middle, q)) {
                high = middle;
            } else {
                low = middle + 1;
            }
        }
        low
    };
    let firsts: Vec<(u64, u64)> = (1..=1_000).map(|q| (first(q), q)).collect();
    let least = firsts.iter().copied().filter(|&(p, _)| p <= 1_000).min_by(lower);
    let largest = firsts.iter().map(|&(p, q)| (p - 1, q)).max_by(lower);
    least.into_iter().chain(largest).collect()
}

/// Table lengths for one share.
fn lengths(case: &Case, p: u64, q: u64, random: &mut Random) -> Vec<usize> {
    let s = case.stages();
    let most_columns = case.widest().min((MOST_ENTRIES / (s + 2)) as i128) as usize;
    let mut lengths = vec![*random.pick(&[0, 1, s, s + 1])];
    if case.search().is_some() {
        lengths.push(*random.pick(&[s + 2, 2 * s + 3, 2 * s + 4]));
    }
    match case.needed_columns(p, q) {
        Some(needed) if needed as usize <= most_columns => {
            let exact = needed as usize * (s + 2);
            lengths.extend([exact - 1, exact, exact + 1]);
            if random.one_in(2) && needed as usize + 1 < most_columns {
                lengths.extend([exact + s + 1, exact + s + 2 + random.below(s + 2)]);
            }
            if random.one_in(3) {
                lengths.push(random.below(exact) + exact / 2);
            }
        }
        Some(_) => lengths.push(most_columns * (s + 2)),
        None => lengths.push(random.below(most_columns * (s + 2) / 4 + 1)),
    }
    // Never too short: by the share, and at share 0 by the cost of a plan that meets timing.
    if p > 0 {
        lengths.push((s + (2 * q as usize * s).div_ceil(p as usize)) * (s + 2));
    } else if let Some(search) = case.search().filter(|search| search.any()) {
        let columns = search.known_cost() + 1;
        assert!(case.needed_columns(p, q).map_or(true, |needed| needed <= columns), "{}: a longer table", case.name);
        lengths.push(columns as usize * (s + 2));
    }
    lengths.retain(|&length| length / (s + 2) <= most_columns);
    lengths
}

/// Shares that must be refused with 9.
const BAD_SHARES: &[(u64, u64)] = &[
    (0, 0),
    (1, 0),
    (1_000, 0),
    (1_001, 1),
    (1, 1_001),
    (1_001, 1_001),
    (0, u64::MAX),
    (u64::MAX, 1),
    (1, 1 << 16),
    (1, (1 << 16) + 1),
    ((1 << 16) + 1, 1),
    (1, 1 << 32),
    ((1 << 32) + 1, 1),
    (1, (1 << 32) + 1),
    (1 << 63, 1),
    (1 << 63, 1 << 63),
    (1, (1 << 63) + 1),
];

/// Plan: bad terms, and with good ones buffers that are too short.
pub fn refused<P: Planning>(
    c: &mut Comparison,
    case: &Case,
    bad: impl Iterator<Item = P>,
    good: [P; 3],
    random: &mut Random,
) -> Outcome {
    let s = case.stages();
    for terms in bad {
        let buffer = *random.pick(&[0, s - 1, s, 64]);
        c.plan_by(case, terms, random.below(200), buffer)?;
    }
    for buffer in [0, s - 1, s / 2] {
        let terms = *random.pick(&good);
        c.plan_by(case, terms, *random.pick(&[0, s + 2, 100]), buffer)?;
    }
    Ok(())
}
