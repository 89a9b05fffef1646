//! The library's speed beside the peer's: the same method, written in plain Rust and compiled with optimization. And the report over a block of small nets
//! beside planning them one by one, and the calls on a desk beside judging its net.
//!
//!     vorphiel-bench          prints the tables of docs/SPEED.md
//!     vorphiel-bench --same   only whether both give the same answers, and whether the report and reading a desk keep to their bounds
//!     vorphiel-bench --rounds   only the tables of planning by rounds
//!     vorphiel-bench --blocks   only the table of the blocks
//!     vorphiel-bench --desks   only the table of the desks
//!     vorphiel-bench --stack   only the table of the stack that each call takes
//!     vorphiel-bench --once   each measured call once, for callgrind; --once-rounds does so for planning by rounds, --once-desks for desks, --once-blocks BYTES
//!                             for blocks of at most so many bytes

mod blocks;
mod desks;
mod families;
#[path = "../../hosts/vorphiel.rs"]
mod library;
mod measure;
mod peer;
mod report;
mod stack;

use families::{Case, Shape, Size, Times, LIMITS};
use library::MOST_ROUNDS;
use measure::{Call, Job, Pair};
use report::Measured;
use std::hint::black_box;
use std::ops::Range;
use vorphiel_tests::c_calls::DeskSize;

/// The shares of the table.
const SHARES: [(u64, u64); 4] = [(1, 1), (1, 4), (1, 10), (1, 100)];

/// The rounds of which answers are compared: the first, some at coarse and at finer grains, all.
const ROUNDS: [u64; 4] = [1, 16, 22, MOST_ROUNDS];

/// The calls that are measured on each net at the limits, but for planning by rounds.
fn calls() -> Vec<Call> {
    let plans = SHARES.map(|(p, q)| Call::Plan { p, q });
    [vec![Call::Check, Call::Judge], plans.to_vec()].concat()
}

/// The nets on which they are measured, and which of them are at the limits with short edges, have vias, have long edges.
fn kinds_of_nets() -> (Vec<Case>, [Range<usize>; 3]) {
    let mut cases = families::at_the_limits();
    let short = cases.len();
    cases.extend(families::with_vias());
    let short_or_vias = cases.len();
    cases.extend(families::long_edges());
    let all = cases.len();
    (cases, [0..short, short..short_or_vias, short_or_vias..all])
}

/// Planning each net by r rounds.
fn by_rounds(cases: &[Case], r: u64) -> Vec<Job<'_>> {
    cases.iter().map(|case| Job::new(case, Call::Rounds { r })).collect()
}

/// The nets of which one size grows: what grows, to which size, and the share.
fn growing() -> Vec<(&'static str, usize, Case, Call)> {
    let net = |size| families::case("", Shape::Free, size, Times::Tight);
    let quarter = Call::Plan { p: 1, q: 4 };
    let mut rows = vec![];
    for q in [1, 2, 4, 8, 16, 32, 64, 128] {
        rows.push(("q/p", q, net(LIMITS), Call::Plan { p: 1, q: q as u64 }));
    }
    for stages in [4, 8, 16, 32, 64] {
        rows.push(("stages", stages, net(Size { stages, nodes: 4 * stages - 1, ..LIMITS }), quarter));
    }
    for layers in [2, 4, 8, 16] {
        rows.push(("layers", layers, net(Size { layers, ..LIMITS }), quarter));
    }
    rows
}

/// The jobs of which it is shown where the instructions go: judging and planning at 1/4.
fn profiled(cases: &[Case], calls: &[Call]) -> Vec<(String, usize)> {
    let job = |net: &str, call: Call| {
        let case = cases.iter().position(|case| case.name == net).expect("a net of that name");
        case * calls.len() + calls.iter().position(|&other| other == call).expect("a call that is measured")
    };
    let quarter = Call::Plan { p: 1, q: 4 };
    vec![
        (String::from("judge, free tree, tight"), job("free tree, tight", Call::Judge)),
        (String::from("plan 1/4, few layers, loose"), job("few layers, loose", quarter)),
    ]
}

/// What was counted, with the times of the same pairs.
fn beside_times(counted: Option<&measure::Counted>, pairs: &mut [impl Pair]) -> Vec<Measured> {
    let timed = pairs.iter_mut().map(|pair| measure::times(pair));
    timed.enumerate().map(|(place, times)| (counted.map(|counted| counted.0[place]), times)).collect()
}

/// Both sides answer alike; gives the number of answers.
fn compare(jobs: &mut [Job]) -> usize {
    for job in jobs.iter_mut() {
        assert_eq!(job.answer(&measure::LIBRARY), job.answer(&measure::PEER), "the peer answers otherwise");
    }
    jobs.len()
}

/// The tables of all rounds, for each kind of nets.
fn measure_rounds() {
    let (cases, kinds) = kinds_of_nets();
    let mut jobs = by_rounds(&cases, MOST_ROUNDS);
    compare(&mut jobs);
    let run: Vec<u64> = jobs.iter_mut().map(Job::rounds_run).collect();
    let counted = measure::instructions(&["--once-rounds"], jobs.len(), &[]);
    let measured = beside_times(counted.as_ref(), &mut jobs);
    for nets in kinds {
        report::rounds(&cases[nets.clone()], &run[nets.clone()], &measured[nets]);
    }
}

/// The table of the blocks.
fn measure_blocks() {
    let mut blocks = blocks::of_small_nets(blocks::LONGEST);
    let counted = blocks::counted(blocks::LONGEST, blocks.len());
    let measured = beside_times(counted.as_ref(), &mut blocks);
    report::blocks(&blocks, &measured);
}

/// The table of the desks.
fn measure_desks() {
    let nets = desks::nets();
    let mut jobs = desks::jobs(&nets);
    let counted = desks::counted(jobs.len());
    let measured = beside_times(counted.as_ref(), &mut jobs);
    report::desks(&nets, &measured);
}

/// The most stack of each call on a desk.
fn desk_stacks() -> [(&'static str, usize); 5] {
    let nets = desks::nets();
    desks::Call::ALL.map(|call| {
        let jobs = desks::jobs(&nets).into_iter().filter(|job| job.call == call);
        (call.name(), stack::most(jobs))
    })
}

/// The table of the stack: of each call the most, over all nets, shares, blocks and desks.
fn measure_stack() {
    let (cases, _) = kinds_of_nets();
    let most = |call| stack::most(cases.iter().map(|case| Job::new(case, call)));
    let plan = SHARES.map(|(p, q)| most(Call::Plan { p, q }));
    let blocks = blocks::of_small_nets(blocks::LONGEST).into_iter().chain([blocks::deepest()]);
    let of_nets = [
        ("check", most(Call::Check)),
        ("judge", most(Call::Judge)),
        ("plan", plan.into_iter().max().expect("a share")),
        ("plan_rounds", most(Call::Rounds { r: MOST_ROUNDS })),
        ("table_entries", stack::bytes(&mut || _ = black_box(library::table_entries(64, 4)))),
        ("report", stack::most(blocks)),
        // SAFETY: the call takes nothing.
        ("desk_size", stack::bytes(&mut || _ = black_box(unsafe { DeskSize {}.make() }))),
    ];
    let version = ("version", stack::bytes(&mut || _ = black_box(library::version())));
    report::stacks(&[&of_nets[..], &desk_stacks(), &[version]].concat());
}

fn main() {
    let arguments: Vec<String> = std::env::args().skip(1).collect();
    match &arguments.iter().map(String::as_str).collect::<Vec<_>>()[..] {
        ["--once-blocks", bytes] => measure::run_once(&mut blocks::of_small_nets(bytes.parse().expect("a number"))),
        ["--once-desks"] => measure::run_once(&mut desks::jobs(&desks::nets())),
        ["--once-rounds"] => measure::run_once(&mut by_rounds(&kinds_of_nets().0, MOST_ROUNDS)),
        ["--blocks"] => measure_blocks(),
        ["--desks"] => measure_desks(),
        ["--rounds"] => measure_rounds(),
        ["--stack"] => measure_stack(),
        asked => measure_calls(asked),
    }
}

/// What is asked for of the other calls on a net, and then of rounds, blocks and desks.
fn measure_calls(asked: &[&str]) {
    let ((cases, kinds), growing, calls) = (kinds_of_nets(), growing(), calls());
    let at_limits = cases.iter().flat_map(|case| calls.iter().map(move |&call| Job::new(case, call)));
    let mut jobs: Vec<Job> = at_limits.collect();
    jobs.extend(growing.iter().map(|(_, _, case, call)| Job::new(case, *call)));
    if asked == ["--once"] {
        measure::run_once(&mut jobs);
        return;
    }
    let same = compare(&mut jobs);
    if asked == ["--same"] {
        let by_rounds = ROUNDS.map(|r| compare(&mut by_rounds(&cases, r)));
        println!("{} answers the same", same + by_rounds.iter().sum::<usize>());
        blocks::keep_the_bound();
        desks::keep_the_bound();
        return;
    }
    let counted = measure::instructions(&["--once"], jobs.len(), &profiled(&cases, &calls));
    let measured = beside_times(counted.as_ref(), &mut jobs);
    let (limits, grown) = measured.split_at(cases.len() * calls.len());
    let short_or_vias = kinds[1].end;
    for nets in kinds {
        let rows = nets.start * calls.len()..nets.end * calls.len();
        report::ratios(&cases[nets], &calls, &limits[rows]);
    }
    measure_stack();
    report::profiles(counted.map_or(vec![], |counted| counted.1));
    report::growth(&growing, grown);
    // Not with long edges: share 0 would take a table of gigabytes, as they cost millions.
    report::excess(&cases[..short_or_vias], &SHARES);
    measure_rounds();
    measure_blocks();
    measure_desks();
}
