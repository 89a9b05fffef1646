//! The tables that are printed, in the form in which docs/SPEED.md shows them.

use crate::blocks::Block;
use crate::desks;
use crate::families::Case;
use crate::library::{self, Planned, Refusal, MOST_ROUNDS};
use crate::measure::{Call, Profile};
use std::time::Duration;

/// The instructions in each way, if they were counted, and the times; the first way is the library's.
pub type Measured = (Option<[u64; 2]>, [Duration; 2]);

fn name(call: Call) -> String {
    match call {
        Call::Check => String::from("check"),
        Call::Judge => String::from("judge"),
        Call::Plan { p, q } => format!("plan {p}/{q}"),
        Call::Rounds { r } => format!("{r} rounds"),
    }
}

fn micro(time: Duration) -> f64 {
    time.as_secs_f64() * 1e6
}

/// The first way over the second: by instructions, by time.
fn ratio((counted, timed): &Measured) -> (Option<f64>, f64) {
    let instructions = counted.map(|[library, peer]| library as f64 / peer as f64);
    (instructions, timed[0].as_secs_f64() / timed[1].as_secs_f64())
}

fn shown<T: std::fmt::Display>(value: Option<T>) -> String {
    value.map_or(String::from("-"), |value| value.to_string())
}

fn two_places(value: Option<f64>) -> String {
    shown(value.map(|value| format!("{value:.2}")))
}

/// One row for each net and call, then averages and the worst for each call.
pub fn ratios(cases: &[Case], calls: &[Call], measured: &[Measured]) {
    let names: Vec<String> = calls.iter().map(|&call| name(call)).collect();
    let labels = cases.iter().flat_map(|case| names.iter().map(move |call| (case.name.as_str(), call.clone())));
    rows(labels.zip(measured));
    averages(&names, measured);
}

/// All rounds are to execute at most so many times the peer's instructions, on the average of the nets of a kind.
const ROUNDS_BOUND: f64 = 1.2;

/// The same for all rounds; where they ended early, how many were run. Fails where the bound is not kept.
pub fn rounds(cases: &[Case], run: &[u64], measured: &[Measured]) {
    let all = name(Call::Rounds { r: MOST_ROUNDS });
    let ended = |run: u64| if run < MOST_ROUNDS { format!("{all}, {run} run") } else { all.clone() };
    let labels = cases.iter().zip(run).map(|(case, &run)| (case.name.as_str(), ended(run)));
    rows(labels.zip(measured));
    averages(&[all.clone()], measured);
    let counted: Option<Vec<f64>> = measured.iter().map(|row| ratio(row).0).collect();
    assert!(
        counted.map_or(true, |ratios| mean(&ratios) <= ROUNDS_BOUND),
        "more than {ROUNDS_BOUND} times the peer's instructions"
    );
}

fn rows<'a>(rows: impl Iterator<Item = ((&'a str, String), &'a Measured)>) {
    println!("| net | call | instructions, library | peer | ratio | µs, library | peer | ratio |");
    println!("|---|---|---:|---:|---:|---:|---:|---:|");
    for ((net, call), row) in rows {
        let (by_instructions, by_time) = ratio(row);
        let [library, peer] = [0, 1].map(|side| shown(row.0.map(|counted| counted[side])));
        let [fast, slow] = row.1.map(micro);
        let ratios = two_places(by_instructions);
        println!("| {net} | {call} | {library} | {peer} | {ratios} | {fast:.1} | {slow:.1} | {by_time:.2} |");
    }
    println!();
}

fn averages(calls: &[String], measured: &[Measured]) {
    println!("| call | instructions: average ratio | worst | time: average ratio | worst |");
    println!("|---|---:|---:|---:|---:|");
    for (place, call) in calls.iter().enumerate() {
        let of_call: Vec<_> = measured.iter().skip(place).step_by(calls.len()).map(ratio).collect();
        let counted: Option<Vec<f64>> = of_call.iter().map(|row| row.0).collect();
        let timed: Vec<f64> = of_call.iter().map(|row| row.1).collect();
        let (average, worst) = (counted.as_ref().map(|all| mean(all)), counted.as_ref().map(|all| most(all)));
        let (average, worst) = (two_places(average), two_places(worst));
        println!("| {call} | {average} | {worst} | {:.2} | {:.2} |", mean(&timed), most(&timed));
    }
    println!();
}

/// The geometric mean: ratios multiply.
fn mean(values: &[f64]) -> f64 {
    (values.iter().map(|value| value.ln()).sum::<f64>() / values.len() as f64).exp()
}

fn most(values: &[f64]) -> f64 {
    values.iter().copied().fold(0.0, f64::max)
}

/// The most stack that each call takes.
pub fn stacks(rows: &[(&str, usize)]) {
    println!("| call | bytes of stack, at most |");
    println!("|---|---:|");
    for (call, most) in rows {
        println!("| `vorphiel_{call}` | {most} |");
    }
    println!();
}

/// The report over each block beside planning its nets one by one.
pub fn blocks(rows: &[Block], measured: &[Measured]) {
    println!("| block of | nets | instructions, report | one by one | factor | µs, report | one by one | factor |");
    println!("|---|---:|---:|---:|---:|---:|---:|---:|");
    for (block, row) in rows.iter().zip(measured) {
        let (by_instructions, by_time) = ratio(row);
        let [report, apart] = [0, 1].map(|way| shown(row.0.map(|counted| counted[way])));
        let [report_time, apart_time] = row.1.map(micro);
        let (name, nets, factor) = (block.name, block.nets(), two_places(by_instructions));
        println!(
            "| {name} | {nets} | {report} | {apart} | {factor} | {report_time:.1} | {apart_time:.1} | {by_time:.2} |"
        );
    }
    println!();
}

/// The calls on the desk of each net, as `desks::Call::ALL` has them: by instructions, if they were counted, and by time.
pub fn desks(nets: &[Case], measured: &[Measured]) {
    let counted = measured.iter().map(|row| row.0.map(|both| both.map(|count| count as f64)));
    let timed: Vec<[f64; 2]> = measured.iter().map(|row| row.1.map(micro)).collect();
    if let Some(counted) = counted.collect::<Option<Vec<[f64; 2]>>>() {
        of_desks("instructions", nets, &counted, 0);
    }
    of_desks("µs", nets, &timed, 2);
}

/// A row for each net: opening beside checking it, the changes, and reading beside judging.
fn of_desks(unit: &str, nets: &[Case], numbers: &[[f64; 2]], places: usize) {
    println!("| net, {unit} | bytes | open | check | ratio | set | lock | unlock | read | judge | ratio |");
    println!("|---|{}", "---:|".repeat(10));
    for (net, calls) in nets.iter().zip(numbers.chunks(desks::Call::ALL.len())) {
        let alone = |[own, _]: [f64; 2]| format!("{own:.places$}");
        let beside = |[own, other]: [f64; 2]| format!("{own:.places$} | {other:.places$} | {:.3}", own / other);
        let changes: Vec<String> = calls[1..4].iter().map(|&change| alone(change)).collect();
        let (open, changes, read) = (beside(calls[0]), changes.join(" | "), beside(calls[4]));
        println!("| {} | {} | {open} | {changes} | {read} |", net.name, net.bytes.len());
    }
    println!();
}

/// Where the instructions of some calls go: every function that executes at least a hundredth of them.
pub fn profiles(shown: Vec<(String, [Profile; 2])>) {
    for (call, sides) in shown {
        println!("| {call} | function | instructions | share |");
        println!("|---|---|---:|---:|");
        for (side, profile) in ["library", "peer"].iter().zip(sides) {
            let whole: u64 = profile.iter().map(|(_, cost)| cost).sum();
            for (function, cost) in profile.iter().filter(|(_, cost)| 100 * cost >= whole) {
                println!("| {side} | `{function}` | {cost} | {:.0} % |", 100.0 * *cost as f64 / whole as f64);
            }
        }
        println!();
    }
}

/// How the library's work grows.
pub fn growth(rows: &[(&str, usize, Case, Call)], measured: &[Measured]) {
    println!("| what grows | to | instructions, library | per unit | µs, library | µs, peer |");
    println!("|---|---:|---:|---:|---:|---:|");
    for ((what, size, _, _), (counted, timed)) in rows.iter().zip(measured) {
        let library = counted.map(|counted| counted[0]);
        let per_unit = shown(library.map(|library| library / *size as u64));
        let [library_time, peer_time] = timed.map(micro);
        println!("| {what} | {size} | {} | {per_unit} | {library_time:.1} | {peer_time:.1} |", shown(library));
    }
    println!();
}

/// How far the plan for each share lies above the cheapest plan, which share 0 gives.
pub fn excess(cases: &[Case], shares: &[(u64, u64)]) {
    let promised: Vec<String> = shares.iter().map(|&(p, q)| format!("{p}/{q} ({:.0} %)", percent(p, q))).collect();
    println!("| net | cheapest | {} |", promised.join(" | "));
    println!("|---|---:|{}", "---:|".repeat(shares.len()));
    for case in cases {
        let cheapest = planned(case, 0, 1).cost;
        let found: Vec<String> = shares
            .iter()
            .map(|&(p, q)| {
                let plan = planned(case, p, q);
                let above = plan.cost - cheapest;
                assert!(plan.floor <= cheapest && q * above <= p * cheapest, "the promise is not kept");
                format!("{:.2} %", percent(above, cheapest))
            })
            .collect();
        println!("| {} | {cheapest} | {} |", case.name, found.join(" | "));
    }
    println!();
}

fn percent(part: u64, whole: u64) -> f64 {
    100.0 * part as f64 / whole as f64
}

/// The library's plan, with a table that is long enough.
fn planned(case: &Case, p: u64, q: u64) -> Planned {
    let mut entries = library::enough_entries(case.stages as u64, p, q).unwrap_or(1 << 16);
    loop {
        match library::plan(&case.bytes, p, q, &mut vec![0; entries], &mut [0; 64]) {
            Ok(planned) => return planned,
            Err(Refusal(12)) => entries *= 2,
            Err(refusal) => panic!("{refusal:?}"),
        }
    }
}
