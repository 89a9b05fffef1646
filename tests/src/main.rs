//! Compares the library's answers with a plain search written apart from it.
//!
//!     vorphiel-tests                  a fixed set of calls
//!     vorphiel-tests SEED [COUNT]     other random nets, more of them
//!     vorphiel-tests --self [SEED [COUNT]]
//!                                     no library: the plain search, the search by fronts and a third one, compared with
//!                                     each other and with the stored answers; loads and edges of stages in several ways;
//!                                     and whether every kind of call by rounds and on desks was made
//!     vorphiel-tests --mutants        no library: wrong planners in its place; says which call exposed each. Wrong desks,
//!                                     each once more by long runs of calls alone, cut down to a few lines. And wrong walks
//!                                     in the place of try_loads; says which net exposed each
//!     vorphiel-tests --answers FILE   stored answers (see `stored`) with those of the library in their place
//!     vorphiel-tests --blocks DIR COUNT
//!                                     no library: writes blocks for the program block_report, each with its text
//!     vorphiel-tests --loads DIR COUNT
//!                                     no library: writes nets for the program try_loads, each with its text
//!     vorphiel-tests --faults FILE COUNT
//!                                     writes damaged nets and blocks for nets/hex.py explain, each with what the
//!                                     library answers
//!     --trace before these            says each call on standard error before it is made: if the library breaks off or
//!                                     does not come back, the last one is to blame

use std::collections::BTreeSet;
use std::process::ExitCode;
use std::{fs, io};
use vorphiel_tests::compare::{hex, Comparison, Failure, Outcome};
use vorphiel_tests::host::{linked, Host, Interface};
use vorphiel_tests::met::Met;
use vorphiel_tests::plain::{self, Search};
use vorphiel_tests::runs::stored::{Stored, LENGTHS_TO_1000, WITHOUT_VIAS};
use vorphiel_tests::wrong::{self, Mistake, Walk};
use vorphiel_tests::{by_front, cut, nets, runs, stored};

/// Without arguments: this seed and this many random nets; fewer for wrong planners, which must be exposed soon.
const SEED: u64 = 1;
const COUNT: usize = 900;
const MUTANTS_COUNT: usize = 200;

/// Long runs of calls on desks, of which some must expose each wrong desk.
const LONG_RUNS: usize = 200;

/// What the command line asks.
struct Options {
    trace: bool,
    mutants: bool,
    own: bool,
    seed: u64,
    count: usize,
}

fn options(mut arguments: Vec<String>) -> Option<Options> {
    let mut take = |flag: &str| {
        let found = arguments.first().is_some_and(|first| first == flag);
        if found {
            arguments.remove(0);
        }
        found
    };
    let (trace, mutants, own) = (take("--trace"), take("--mutants"), take("--self"));
    let numbers: Option<Vec<u64>> = arguments.iter().map(|argument| argument.parse().ok()).collect();
    let numbers = numbers.filter(|numbers| numbers.len() <= 2)?;
    let seed = numbers.first().copied().unwrap_or(SEED);
    let usual = if mutants { MUTANTS_COUNT } else { COUNT };
    let count = numbers.get(1).map_or(usual, |&count| count as usize);
    Some(Options { trace, mutants, own, seed, count })
}

fn main() -> ExitCode {
    let arguments: Vec<String> = std::env::args().skip(1).collect();
    match writing_asked(&arguments) {
        Some(("--blocks", folder, count)) => return written(write_blocks(folder, count)),
        Some(("--loads", folder, count)) => return written(write_loads(folder, count)),
        Some(("--faults", file, count)) => return written(write_faults(file, count)),
        _ => {}
    }
    if let [flag, file] = &arguments[..] {
        if flag == "--answers" {
            return ended(print_answers(file));
        }
    }
    let Some(options) = options(arguments) else {
        eprintln!(
            "usage: vorphiel-tests [--trace] [--mutants | --self] [SEED [COUNT]] | --blocks DIR COUNT | --loads DIR COUNT | \
             --faults FILE COUNT | --answers FILE"
        );
        return ExitCode::from(2);
    };
    ended(if options.mutants {
        all_exposed(&options)
    } else if options.own {
        compare_ourselves(&options)
    } else {
        compare_library(&options)
    })
}

fn ended(well: bool) -> ExitCode {
    if well {
        ExitCode::SUCCESS
    } else {
        ExitCode::FAILURE
    }
}

/// --blocks DIR COUNT, --loads DIR COUNT, --faults FILE COUNT.
fn writing_asked(arguments: &[String]) -> Option<(&str, &str, usize)> {
    match arguments {
        [flag, to, count] => Some((flag, to, count.parse().ok()?)),
        _ => None,
    }
}

/// Whether what was due was met in the files that were written.
fn written(met: io::Result<bool>) -> ExitCode {
    match met {
        Ok(met) => ended(met),
        Err(error) => {
            eprintln!("vorphiel-tests: {error}");
            ExitCode::from(2)
        }
    }
}

/// Writes an input for a program, NAME-0.bin and so on, and beside it the text that is expected, NAME-0.text.
fn write_input(folder: &str, name: &str, number: usize, (bytes, text): (&[u8], &str)) -> io::Result<()> {
    fs::write(format!("{folder}/{name}-{number}.bin"), bytes)?;
    fs::write(format!("{folder}/{name}-{number}.text"), text)
}

/// Writes blocks, and sees which kinds of line their texts have, each by its words and number, without what was counted;
/// and how many blocks have planned nets of both editions.
fn write_blocks(folder: &str, count: usize) -> io::Result<bool> {
    let (mut met, mut both) = (BTreeSet::new(), 0);
    for (number, block) in runs::blocks::for_program(SEED, count).iter().enumerate() {
        let text = block.text();
        write_input(folder, "block", number, (&block.bytes, &text))?;
        met.extend(text.lines().map(|line| if line == "refused 13" { line } else { counted(line) }).map(String::from));
        both += (block.editions == BTreeSet::from([1, 7])) as usize;
    }
    println!("{both} blocks of {count} with planned nets of both editions");
    Ok(every_line_met(&met) && 10 * both >= count)
}

/// A line without its last number.
fn counted(line: &str) -> &str {
    line.rsplit_once(' ').expect("a word and a number").0
}

/// Says how many kinds of line were met: all of them must be.
fn every_line_met(met: &BTreeSet<String>) -> bool {
    let numbers = [1, 2, 3, 4, 5, 6, 11, 12, 13].map(|number| format!("refused {number}"));
    let layers = (0..16).map(|layer| format!("length {layer}"));
    let due: BTreeSet<String> =
        ["nets", "planned", "cost"].map(String::from).into_iter().chain(numbers).chain(layers).collect();
    println!("{} kinds of line met of {} in the texts of blocks", met.len(), due.len());
    if *met != due {
        println!("not met: {:?}; not due: {:?}", &due - met, met - &due);
    }
    *met == due
}

/// Writes nets and damaged ones, and says what they have: everything that is due must be among it.
fn write_loads(folder: &str, count: usize) -> io::Result<bool> {
    let nets = runs::loads::for_program(SEED, count);
    for (number, net) in nets.iter().enumerate() {
        write_input(folder, "net", number, (&net.bytes, &net.text))?;
    }
    let agreement = runs::loads::agreement(&nets);
    let met = all_met(&runs::loads::met(&nets), "the nets for try_loads");
    println!("{}; {}", runs::loads::extent(&nets), agreement.as_ref().unwrap_or_else(|fault| fault));
    Ok(met && agreement.is_ok())
}

/// Says how often each of the kinds that are due was met: all of them must be.
fn all_met(kinds: &[(String, usize)], among: &str) -> bool {
    for (words, often) in kinds {
        println!("{words}: {}{often}", if *often == 0 { "NOT MET: " } else { "" });
    }
    let met = kinds.iter().filter(|(_, often)| *often > 0).count();
    println!("{met} kinds met of {} in {among}", kinds.len());
    met == kinds.len()
}

/// Writes damaged nets and blocks, a line each with what the library answers; everything that is due must be among it.
fn write_faults(file: &str, count: usize) -> io::Result<bool> {
    let Some(library) = linked() else {
        eprintln!("vorphiel-tests: no library is linked");
        return Ok(false);
    };
    let mut host = Host::new(library);
    let inputs = runs::faults::for_explaining(SEED, count);
    let lines: Vec<String> = inputs.iter().map(|input| runs::faults::line(&mut host, input)).collect();
    fs::write(file, lines.join("\n") + "\n")?;
    Ok(all_met(&runs::faults::met(&lines), &format!("{count} inputs for nets/hex.py explain")))
}

/// --answers FILE.
fn print_answers(file: &str) -> bool {
    match (linked(), fs::read_to_string(file)) {
        (Some(library), Ok(text)) => {
            print!("{}", stored::answered_by(&mut Host::new(library), &text));
            return true;
        }
        (None, _) => eprintln!("vorphiel-tests: no library is linked"),
        (_, Err(error)) => eprintln!("vorphiel-tests: {file}: {error}"),
    }
    false
}

/// A set of calls.
type Set = fn(&mut Comparison, &Options) -> Outcome;

const ALL: Set = |comparison, options| runs::all(comparison, options.seed, options.count);

/// Of these, planning by rounds; and the law between its calls.
const ROUNDS: Set = |comparison, options| runs::rounds::all(comparison, options.seed, options.count);
const ROUNDS_LAW: Set = |comparison, _| runs::rounds::law(comparison);

/// And runs of calls on desks.
const DESKS: Set = |comparison, options| runs::desk::all(comparison, options.seed, options.count);

/// A file of stored answers, its calls, and the mistakes that they must expose alone.
type StoredSet = (Stored, Set, fn() -> Vec<Mistake>);

const STORED: [StoredSet; 2] = [
    (LENGTHS_TO_1000, |comparison, _| LENGTHS_TO_1000.run(comparison), Mistake::on_lengths_to_1000),
    (WITHOUT_VIAS, |comparison, _| WITHOUT_VIAS.run(comparison), Mistake::on_without_vias),
];

/// One run over an implementation: how many calls passed, and the first that did not.
fn run(interface: Interface, set: Set, options: &Options) -> (u64, Option<Failure>) {
    run_over(&mut Comparison::new(interface, options.trace), set, options)
}

fn run_over(comparison: &mut Comparison, set: Set, options: &Options) -> (u64, Option<Failure>) {
    let outcome = set(comparison, options);
    (comparison.passed, outcome.err())
}

fn told((passed, failure): (u64, Option<Failure>), options: &Options) -> bool {
    let Some(failure) = failure else {
        println!("{passed} passed, 0 failed");
        return true;
    };
    println!("{}", failure.report);
    println!("{passed} passed, 1 failed (seed {}, {} random nets)", options.seed, options.count);
    false
}

/// The library.
fn compare_library(options: &Options) -> bool {
    let Some(library) = linked() else {
        println!("no library is linked: --self and --mutants can be run");
        return false;
    };
    told(run(library, ALL, options), options)
}

/// The search by fronts against the plain search; stored answers against both; loads and edges of stages, found in
/// several ways; a third planner, by a table of budgets, against all of them, and which kinds of calls it was asked.
fn compare_ourselves(options: &Options) -> bool {
    print!("fronts against the plain search: ");
    let Some(met) = fronts_agree(options) else { return false };
    println!("{} nets agree, {met} of them have a plan that meets timing", options.count);
    let mut stored = true;
    for (file, ..) in &STORED {
        let agreement = file.agreement();
        println!("stored answers, {}, against both: {}", file.name, agreement.as_ref().unwrap_or_else(|fault| fault));
        stored &= agreement.is_ok();
    }
    let loads = runs::loads::agreement(&runs::loads::for_program(options.seed, options.count));
    println!("loads and edges from above, from below, in one pass: {}", loads.as_ref().unwrap_or_else(|fault| fault));
    print!("a table of budgets against all: ");
    let mut comparison = Comparison::new(wrong::interface(Mistake::None), options.trace);
    comparison.met = Some(Met::default());
    let right = told(run_over(&mut comparison, ALL, options), options);
    let (lines, met) = comparison.met.unwrap_or_default().told();
    lines.iter().for_each(|line| println!("{line}"));
    let cutting = cut::agreement();
    println!("cutting runs down: {}", cutting.as_ref().unwrap_or_else(|fault| fault));
    right && met && stored && loads.is_ok() && cutting.is_ok()
}

/// V(k) and the first plan for every k, by both searches, whole and stopped early; and the plan after some rounds, with
/// few columns. How many nets can be met.
fn fronts_agree(options: &Options) -> Option<usize> {
    let mut random = nets::Random::new(options.seed ^ 0xF0);
    let mut met = 0;
    for number in 0..options.count {
        let family = nets::SMALL_FAMILIES[number % nets::SMALL_FAMILIES.len()];
        let bytes = nets::random_net(family, &mut random).bytes();
        let net = plain::read(&bytes).expect("a whole net");
        let each = plain::Enumeration::new(&net);
        met += each.any() as usize;
        if each.any() && !columns_bounded(&each, plain::stage_count(&net)) {
            println!("net {number} ({family}) needs more columns than 01 says: {}", hex(&bytes));
            return None;
        }
        for widest in [i128::MAX, 5] {
            let fronts = by_front::Fronts::new(&net, widest);
            if !agrees(&each, &fronts, widest) || rounds_by(&net, &each) != rounds_by(&net, &fronts) {
                println!("net {number} ({family}) differs: {}", hex(&bytes));
                return None;
            }
        }
    }
    Some(met)
}

fn agrees(each: &plain::Enumeration, fronts: &by_front::Fronts, widest: i128) -> bool {
    if !each.any() || !fronts.any() {
        return each.any() == fronts.any();
    }
    let reach = fronts.reach();
    let stopped_rightly = reach == 0 || each.least_rounded(reach) > widest;
    let mut reached = reach..=plain::MOST_K;
    stopped_rightly
        && fronts.known_cost() >= each.known_cost()
        && reached
            .all(|k| each.least_rounded(k) == fronts.least_rounded(k) && each.first_plan(k) == fronts.first_plan(k))
}

/// For 1 to 5 columns, which end the rounds early or not: the answer and the plan.
fn rounds_by(net: &plain::Net, search: &dyn Search) -> Vec<(plain::RoundsPlanned, Vec<u8>)> {
    let s = plain::stage_count(net);
    let planned = |columns: usize| {
        let (mut table, mut plan) = (vec![0; columns * (s + 2)], vec![0; s]);
        (plain::plan_rounds_net(net, search, plain::MOST_ROUNDS, &mut table, &mut plan), plan)
    };
    (1..=5).map(planned).collect()
}

/// "With p at least 1 the needed columns never exceed s plus 2qs/p rounded up."
fn columns_bounded(each: &plain::Enumeration, s: usize) -> bool {
    let shares = [(1, 1), (2, 1), (1_000, 1), (1, 1_000), (1, 4), (3, 7), (999, 1_000)];
    shares.iter().all(|&(p, q)| {
        let needed = each.least_rounded(plain::grain(each, s, p, q)) + 1;
        needed <= (s as u64 + (2 * q * s as u64).div_ceil(p)) as i128
    })
}

/// Each wrong planner must be exposed, and the one without a mistake must not; and so each wrong desk and each wrong walk.
fn all_exposed(options: &Options) -> bool {
    let planners =
        |mistakes: Vec<Mistake>, set: Set| mistakes.into_iter().map(move |mistake| planner(mistake, set, options));
    let whole = exposed("", "planners", planners(Mistake::all(), ALL));
    let mut stored = true;
    for (file, set, mistakes) in STORED {
        let by = format!("by stored answers alone ({}), ", file.name);
        stored &= exposed(&by, "planners", planners(mistakes(), set));
    }
    let rounds = exposed("by rounds alone, ", "planners", planners(Mistake::of_rounds(), ROUNDS))
        & exposed("by the law between rounds alone, ", "planners", planners(Mistake::on_rounds_law(), ROUNDS_LAW));
    let desks = exposed("on desks, ", "desks", planners(Mistake::of_desks(), DESKS))
        & exposed("on desks by long runs, ", "desks", by_long_runs(options));
    print!("no mistake: ");
    let right = told(run(wrong::interface(Mistake::None), ALL, options), options);
    let nets = runs::loads::for_program(options.seed, options.count);
    let walk = |walk: Walk| (walk.words(), runs::loads::exposure(walk, &nets));
    let walks = exposed("loads, ", "walks", Walk::wrong().into_iter().map(walk));
    let agreement = runs::loads::agreement(&nets);
    println!("loads, no mistake: {}", agreement.as_ref().unwrap_or_else(|fault| fault));
    whole && stored && rounds && desks && right && walks && agreement.is_ok()
}

/// A mistake in words, and by what it was exposed or what it passed.
type Tried = (String, Result<String, String>);

/// A planner with this mistake. Of the call that exposes it one line is enough.
fn planner(mistake: Mistake, set: Set, options: &Options) -> Tried {
    let mut comparison = Comparison::new(wrong::interface(mistake), options.trace);
    comparison.cuts = false;
    let (passed, failure) = run_over(&mut comparison, set, options);
    let call = failure.map(|failure| format!("call {}: {}", passed + 1, failure.call));
    (mistake.words(), call.ok_or(format!("{passed} calls passed")))
}

/// Each wrong desk on the same long runs, and the one that exposes it cut down.
fn by_long_runs(options: &Options) -> impl Iterator<Item = Tried> {
    let runs = runs::desk::long_runs(options.seed, LONG_RUNS);
    let tried = move |mistake: Mistake| (mistake.words(), runs::desk::exposure(wrong::interface(mistake), &runs));
    Mistake::of_desk_runs().into_iter().map(tried)
}

/// Was each of these exposed?
fn exposed(by: &str, what: &str, tried: impl Iterator<Item = Tried>) -> bool {
    let (mut exposed, mut missed) = (0, 0);
    for (words, outcome) in tried {
        match outcome {
            Ok(call) => {
                println!("{by}exposed: {words}: {call}");
                exposed += 1;
            }
            Err(passed) => {
                println!("{by}NOT EXPOSED: {words}: {passed}");
                missed += 1;
            }
        }
    }
    println!("{by}{exposed} wrong {what} exposed, {missed} not");
    missed == 0
}
