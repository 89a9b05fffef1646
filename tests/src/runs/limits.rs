//! Nets, shares and lengths at their limits.

use super::planning::one_net;
use crate::compare::{Case, Comparison, Outcome};
use crate::nets::{self, Draft, Random, LENGTH, MOST_NODES, TIME, UNIT};
use crate::plain;
use std::sync::OnceLock;

/// The most columns that nets with many stages are searched for.
const WIDEST: i128 = 2_000;

/// The least slack there is: from the latest arrival time to the earliest required time, with a delay of
/// 1,041,071,722,000,000,000 ticks. Of these the climbs take 2,041,000,000,000: 2 × 1,000 × 1,020,400,000 at the root, where
/// 255 edges and four sinks are borne, and 2 × 1,000 × 100,000 at the sink.
const LEAST_SLACK: i128 = -1_043_071_722_000_000_000;

/// The same for a net without vias, and for a line.
const LEAST_WITHOUT_VIAS: i128 = -1_043_069_681_000_000_000;
const LEAST_OF_LINE: i128 = -1_042_810_061_400_000_000;

/// Shares, lengths and times at their limits: the same calls every time.
pub fn numbers(c: &mut Comparison) -> Outcome {
    grains(c)?;
    times(c)?;
    lengths(c)?;
    columns(c)
}

/// Nets at their limits: the same every time.
pub fn nets(c: &mut Comparison) -> Outcome {
    let mut random = Random::new(2);
    for (name, bytes) in each(&mut random) {
        one_net(c, &Case::searched(&name, &bytes, WIDEST), &mut random)?;
    }
    lines(c)?;
    // V(k) beyond 16 bits in the grain's test.
    let case = Case::searched("34 stages of cost 1,000,000", &nets::even_line(34, 1_000_000).bytes(), 70_000);
    let needed = case.needed_columns(1, 1_000).filter(|&needed| needed > 65_536).expect("many columns");
    c.plan(&case, 1, 1_000, 36 * needed as usize, 34)
}

/// Each of them.
pub fn each(random: &mut Random) -> Vec<(String, Vec<u8>)> {
    slow().iter().chain(&shapes(random)).map(|(name, draft)| (name.clone(), draft.bytes())).collect()
}

/// Trees of a special form; as many stages, layers, nodes and terminals, and as large costs as there can be.
pub fn shapes(random: &mut Random) -> Vec<(String, Draft)> {
    let mut shapes = vec![
        (String::from("file order is not tree order"), nets::crossed()),
        (String::from("a stage that drives 3"), nets::star(3)),
        (String::from("a stage that drives 4"), nets::star(4)),
        (String::from("a stage that drives 63"), nets::star(63)),
        (String::from("a stage of 128 sinks"), nets::even_tree()),
        (String::from("the dearest stage"), nets::costing(255_000_000)),
        (String::from("64 stages, the last layer the cheapest"), nets::last_layer_cheapest()),
        (String::from("the longest net"), nets::longest()),
    ];
    for (name, mut draft) in [
        ("file order is not tree order, with vias", nets::crossed().with_vias(&[0, 3])),
        ("a stage that drives 63, with vias", nets::star(63).with_vias(&[2, 0, 5])),
        ("a stage of 128 sinks, with vias", nets::even_tree().with_vias(&[1, 0])),
    ] {
        nets::leave_slack(&mut draft, 40);
        shapes.push((String::from(name), draft));
    }
    // With only ones in binary, V(k) grows as much as it can from one k to the next.
    for cost in [1, 3, 15, 63] {
        shapes.push((format!("64 stages of cost {cost}"), nets::even_line(64, cost)));
    }
    for counts in [[1, 16, 255], [2, 16, 254], [64, 1, 255], [63, 2, 254], [64, 16, 255]] {
        let mut draft = nets::cheap(random, counts);
        nets::leave_slack(&mut draft, random.between(0, 1_000) as i128);
        let [stages, layers, nodes] = counts;
        shapes.push((format!("{stages} stages, {layers} layers, {nodes} nodes"), draft));
    }
    shapes
}

/// Delays and loads as large as there can be; and those that can just be met or just not, as large as that allows. Worked
/// out once, for every wrong planner is tried on them.
fn slow() -> &'static [(String, Draft)] {
    static SLOW: OnceLock<Vec<(String, Draft)>> = OnceLock::new();
    SLOW.get_or_init(|| [slowest(), just_met()].concat())
}

/// The slowest lines and edges, and the slowest net of all among its neighbours. With numbers one below their ends the
/// slack is none that 64 bits of floating point can hold.
fn slowest() -> Vec<(String, Draft)> {
    let mut slow = vec![(String::from("the slowest edge"), nets::full_tree(UNIT.1, LENGTH.1))];
    for (edges, buffers, less) in
        [(255, 0, 0), (255, 0, 1), (255, 1, 0), (255, 63, 0), (255, 63, 1), (2, 1, 0), (9, 4, 1), (11, 0, 0)]
    {
        let draft = nets::slowest(edges, buffers, 0, less);
        slow.push((format!("slowest line, {edges} edges, {buffers} buffers, less {less}"), draft));
    }
    let beside = slowest_beside();
    for (beside, less) in [(beside - 1, 0), (beside, 0), (beside + 1, 0), (beside, 1)] {
        let draft = nets::slowest(MOST_NODES, 0, beside, less);
        slow.push((format!("slowest net, {beside} sinks beside the way, less {less}"), draft));
    }
    slow.push((String::from("slowest net without vias"), slowest_without_vias(beside)));
    slow
}

/// The slowest net of the first edition.
fn slowest_without_vias(beside: usize) -> Draft {
    let draft = Draft { vias: None, ..nets::slowest(MOST_NODES, 0, beside, 0) };
    assert_eq!(slack_on_first(&draft), LEAST_WITHOUT_VIAS, "{beside} sinks beside the way");
    draft
}

/// The slack of a net of one stage, on layer 0.
fn slack_on_first(draft: &Draft) -> i128 {
    plain::slack(&plain::read(&draft.bytes()).expect("a whole net"), &[0])
}

/// Nets that are met with no time to spare, and late by one tick.
fn just_met() -> Vec<(String, Draft)> {
    let mut just_met = vec![];
    for (name, mut draft) in [
        ("the slowest line that is met", nets::slowest_met()),
        ("the largest load", nets::full_tree(UNIT.0, LENGTH.1)),
        ("a delay beyond 2^50 on one edge", nets::full_tree(UNIT.1, 600)),
    ] {
        for slack in [0, -1] {
            assert!(nets::leave_slack(&mut draft, slack), "{name} can be met");
            just_met.push((format!("{name}, best slack {slack}"), draft.clone()));
        }
    }
    just_met
}

/// How many sinks stand beside the way in the slowest net of all: the number is found by trying each.
///
/// That it is of this form: the delay to a sink rises with every number of the net, so all are at their upper ends. A
/// buffer on the way made a Steiner point takes its gate delay and its two climbs away, 2 × 100,000 × L + 10^9 and
/// 2 × 1,000 × (L + 100,000) where L is the load below it, but the edge above it then bears L, not 100,000, which adds
/// 2 × 4,000,000 × (L − 100,000), and L is at least 4,100,000; one beside the way only adds load. So there is one stage. Let
/// a branch beside the way have Steiner points: put into the way just below the point where the branch hangs, with its
/// sinks at that point and at them, they make the way longer, and no load is borne by fewer of its edges. So only sinks
/// are beside the way, each at a point of it; and the further down one hangs, the more edges bear it.
fn slowest_beside() -> usize {
    let slack = |beside: usize| slack_on_first(&nets::slowest(MOST_NODES, 0, beside, 0));
    let found = (0..=MOST_NODES / 2).min_by_key(|&beside| slack(beside)).expect("a number");
    assert_eq!((slack(found), slack(0)), (LEAST_SLACK, LEAST_OF_LINE), "{found} sinks beside the way, and none");
    found
}

/// Lines of edges of the largest length with as much time as there is. Up to 11 edges are met. Of the longer lines some
/// would be, if delays lost the bits from the 53rd on.
fn lines(c: &mut Comparison) -> Outcome {
    for edges in 1..=64 {
        let case = Case::searched(&format!("{edges} edges of the largest length"), &line_in_time(edges), WIDEST);
        c.judge(&case, &[0])?;
        c.plan(&case, 1, 4, plain::table_entries(1, 4) as usize, 1)?;
    }
    Ok(())
}

/// One of them.
pub fn line_in_time(edges: usize) -> Vec<u8> {
    let mut draft = nets::slowest(edges, 0, 0, 0);
    draft.arrival = TIME.0;
    draft.bytes()
}

/// For each k from 0 to 27 the least and the largest cost at which it is the grain's for the largest share.
fn grains(c: &mut Comparison) -> Outcome {
    for k in 0..=27 {
        for total in [1 << k, (1 << k) + 1, ((1 << (k + 1)) - 1).min(255_000_000)] {
            let case = Case::searched(&format!("cost {total}"), &nets::costing(total).bytes(), WIDEST);
            for (p, q) in [(1_000, 1), (1_000, 999), (1, 1), (999, 1_000), (1, 2), (1, 1_000)] {
                let exact = case.needed_columns(p, q).map_or(0, |needed| 3 * needed as usize);
                c.plan(&case, p, q, exact, 1)?;
                c.plan(&case, p, q, exact.saturating_sub(1), 1)?;
            }
        }
    }
    Ok(())
}

/// Longer than 8 or 16 bits can say; those of tables with and without the 132 entries that net B needs.
pub const LONG_TABLES: [usize; 6] = [65_535, 65_536, 65_537, 65_536 + 131, 65_536 + 132, 1_000_000];
pub const LONG_BUFFERS: [usize; 8] = [255, 256, 257, 258, 65_535, 65_536, 65_537, 65_538];

/// Long tables and buffers.
fn lengths(c: &mut Comparison) -> Outcome {
    let case = Case::searched("B, long", &nets::net_b().bytes(), WIDEST);
    for table in LONG_TABLES {
        c.plan(&case, 0, 1, table, 2)?;
        c.plan(&case, 1, 4, table, 64)?;
    }
    for buffer in LONG_BUFFERS {
        c.plan(&case, 0, 1, 132, buffer)?;
        c.judge(&case, &vec![0; buffer])?;
    }
    Ok(())
}

/// More columns needed than 16 bits can say.
fn columns(c: &mut Comparison) -> Outcome {
    for required in [1_063, 2_000] {
        let case = Case::searched("B, 4,000 times as dear", &nets::dear_b(4_000, required).bytes(), WIDEST);
        let exact = 4 * case.needed_columns(0, 1).expect("a plan that meets timing") as usize;
        c.plan(&case, 0, 1, exact, 2)?;
        c.plan(&case, 0, 1, exact - 1, 2)?;
        c.plan(&case, 1, 1_000, exact, 2)?;
    }
    Ok(())
}

/// Nets with arrival and required times at the ends of their range.
fn times(c: &mut Comparison) -> Outcome {
    for (name, bytes) in at_ends_of_time() {
        let case = Case::searched(&name, &bytes, WIDEST);
        c.judge(&case, &[0])?;
        c.plan(&case, 0, 1, 6, 1)?;
    }
    Ok(())
}

/// Each of them.
pub fn at_ends_of_time() -> Vec<(String, Vec<u8>)> {
    let times = [TIME.0, TIME.0 + 1, -1, 0, 1, TIME.1 - 1, TIME.1];
    let net = |arrival: i64, required: i64| {
        let name = format!("arrival {arrival}, required {required}, no delay");
        (name, nets::no_delay(arrival, required).bytes())
    };
    times.iter().flat_map(|&arrival| times.map(|required| net(arrival, required))).collect()
}

/// Random nets at the limits.
pub fn random(c: &mut Comparison, random: &mut Random, count: usize) -> Outcome {
    for number in 0..count {
        let draft = nets::at_limits(random);
        one_net(c, &Case::searched(&format!("at the limits {number}"), &draft.bytes(), WIDEST), random)?;
    }
    // A fine share needs a long table: once.
    loop {
        let draft = nets::random_net("middle", random);
        let case = Case::searched("a fine share", &draft.bytes(), 50_000);
        let Some(needed) = case.needed_columns(1, 1_000).filter(|&needed| needed > 5_000) else { continue };
        let entries = needed as usize * (case.stages() + 2);
        c.plan(&case, 1, 1_000, entries - 1, 64)?;
        return c.plan(&case, 1, 1_000, entries, 64);
    }
}
