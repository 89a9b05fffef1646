//! The same done in two ways, measured: the instructions by callgrind, the time by the clock. And the calls on a net in two ways:
//! by the library and by the peer.

use crate::families::Case;
use crate::library::{self, Counts, Judged, Planned, Refusal, RoundsPlanned};
use crate::peer;
use std::collections::HashMap;
use std::path::Path;
use std::process::Command;
use std::time::{Duration, Instant};

/// What is done in two ways that are held against each other.
pub trait Pair {
    /// Does it in the first way (0) or in the second (1). Only this is counted and timed.
    fn run(&mut self, way: usize);
}

/// The calls of an implementation on a net.
pub struct Side {
    check: fn(&[u8]) -> Result<Counts, Refusal>,
    judge: fn(&[u8], &[u8]) -> Result<Judged, Refusal>,
    plan: fn(&[u8], u64, u64, &mut [i64], &mut [u8]) -> Result<Planned, Refusal>,
    rounds: fn(&[u8], u64, &mut [i64], &mut [u8]) -> Result<RoundsPlanned, Refusal>,
}

pub const LIBRARY: Side =
    Side { check: library::check, judge: library::judge, plan: library::plan, rounds: library::plan_rounds };
pub const PEER: Side = Side { check: peer::check, judge: peer::judge, plan: peer::plan, rounds: peer::plan_rounds };

#[derive(Clone, Copy, PartialEq)]
pub enum Call {
    Check,
    /// Of the plan for share 1/4.
    Judge,
    Plan {
        p: u64,
        q: u64,
    },
    Rounds {
        r: u64,
    },
}

/// A call on a net with the room it is lent.
pub struct Job<'a> {
    net: &'a [u8],
    call: Call,
    table: Vec<i64>,
    plan: Vec<u8>,
}

#[derive(Debug, PartialEq)]
pub enum Answer {
    Checked(Result<Counts, Refusal>),
    Judged(Result<Judged, Refusal>),
    Planned(Result<Planned, Refusal>),
    ByRounds(Result<RoundsPlanned, Refusal>),
}

/// The longest table lent for rounds, in entries: 128 MiB.
const MOST_ENTRIES: usize = 1 << 24;

impl<'a> Job<'a> {
    /// The table is as long as is never too short for the share; for rounds as long as they need, or where that is too
    /// long, as for share 1/100.
    pub fn new(case: &'a Case, call: Call) -> Job<'a> {
        let (p, q) = match call {
            Call::Check | Call::Judge => (1, 4),
            Call::Plan { p, q } => (p, q),
            Call::Rounds { .. } => (1, 100),
        };
        let stages = case.stages as u64;
        let entries = library::enough_entries(stages, p, q).expect("a share above 0");
        let mut job = Job { net: &case.bytes, call, table: vec![0; entries], plan: vec![0; case.stages] };
        if matches!(call, Call::Check | Call::Plan { .. }) {
            return job;
        }
        let first = library::plan(job.net, p, q, &mut job.table, &mut job.plan).expect("a net that can be planned");
        if let Call::Rounds { r } = call {
            let enough = library::enough_for_rounds(stages, r, first.cost).filter(|&enough| enough <= MOST_ENTRIES);
            job.table = vec![0; enough.unwrap_or(entries)];
        }
        job
    }

    fn call(&mut self, side: &Side) -> Answer {
        match self.call {
            Call::Check => Answer::Checked((side.check)(self.net)),
            Call::Judge => Answer::Judged((side.judge)(self.net, &self.plan)),
            Call::Plan { p, q } => Answer::Planned((side.plan)(self.net, p, q, &mut self.table, &mut self.plan)),
            Call::Rounds { r } => Answer::ByRounds((side.rounds)(self.net, r, &mut self.table, &mut self.plan)),
        }
    }

    /// What the call answers, with the plan that is in the buffer then.
    pub fn answer(&mut self, side: &Side) -> (Answer, Vec<u8>) {
        (self.call(side), self.plan.clone())
    }

    /// How many rounds the library runs; none for another call.
    pub fn rounds_run(&mut self) -> u64 {
        match self.call(&LIBRARY) {
            Answer::ByRounds(Ok(found)) => found.rounds,
            _ => 0,
        }
    }
}

impl Pair for Job<'_> {
    fn run(&mut self, way: usize) {
        std::hint::black_box(self.call(&[LIBRARY, PEER][way]));
    }
}

/// The shortest time of several runs in each way, made in turn.
pub fn times(pair: &mut dyn Pair) -> [Duration; 2] {
    let mut least = [Duration::MAX; 2];
    let begin = Instant::now();
    while begin.elapsed() < Duration::from_millis(60) {
        for (way, least) in least.iter_mut().enumerate() {
            let start = Instant::now();
            pair.run(way);
            *least = start.elapsed().min(*least);
        }
    }
    least
}

/// Callgrind counts from the beginning of this function to its end.
#[no_mangle]
#[inline(never)]
fn measured(pair: &mut dyn Pair, way: usize) {
    pair.run(way);
}

/// Each pair once in each way, for callgrind.
pub fn run_once(pairs: &mut [impl Pair]) {
    for pair in pairs {
        measured(pair, 0);
        measured(pair, 1);
    }
}

/// Where the instructions of a call go: functions with those executed in their own code, the most first.
pub type Profile = Vec<(String, u64)>;

/// The instructions of each pair in each way, and the profiles of the pairs asked for.
pub type Counted = (Vec<[u64; 2]>, Vec<(String, [Profile; 2])>);

/// What callgrind counts: this program is run again under it with arguments that let it call `run_once` with the same pairs, so
/// many of them. None where there is no valgrind.
pub fn instructions(arguments: &[&str], pairs: usize, shown: &[(String, usize)]) -> Option<Counted> {
    let folder = std::env::temp_dir().join(format!("vorphiel-bench-{}", std::process::id()));
    std::fs::create_dir_all(&folder).expect("a folder for callgrind");
    let dump = |number: usize| {
        std::fs::read_to_string(folder.join(format!("callgrind.{number}"))).expect("a dump for each call")
    };
    let counted = called(&folder, arguments).map(|()| {
        let totals = (0..pairs).map(|pair| [2 * pair + 1, 2 * pair + 2].map(|number| total(&dump(number)))).collect();
        let profile = |(name, pair): &(String, usize)| {
            (name.clone(), [2 * pair + 1, 2 * pair + 2].map(|number| profile(&dump(number))))
        };
        (totals, shown.iter().map(profile).collect())
    });
    std::fs::remove_dir_all(&folder).expect("the folder removed");
    counted
}

fn called(folder: &Path, arguments: &[&str]) -> Option<()> {
    let own = std::env::current_exe().expect("the name of this program");
    let status = Command::new("valgrind")
        .args(["--quiet", "--tool=callgrind", "--zero-before=measured", "--dump-after=measured"])
        .arg(format!("--callgrind-out-file={}", folder.join("callgrind").display()))
        .arg(own)
        .args(arguments)
        .status()
        .ok()?;
    assert!(status.success(), "callgrind failed");
    Some(())
}

/// What was executed within the count. (The line `totals` adds up the rest of the dump, where a block of a function that
/// was called before the count began may stand with all that it executed since the start.)
fn total(dump: &str) -> u64 {
    let summary = dump.lines().find_map(|line| line.strip_prefix("summary: ")).expect("a summary");
    summary.trim().parse().expect("a number of instructions")
}

/// A dump names functions once, as `fn=(7) name`, and by number after that. A line with a place and a number is the cost
/// of the function named last, but not after `calls=`, where it is that of the function called.
fn profile(dump: &str) -> Profile {
    let (mut names, mut costs) = (HashMap::new(), HashMap::new());
    let (mut function, mut of_call) = ("", false);
    for line in dump.lines() {
        if let Some((kind, rest)) = line.split_once("fn=(") {
            let (number, name) = rest.split_once(')').expect("a number in brackets");
            if !name.is_empty() {
                names.insert(number, name.trim());
            }
            if kind.is_empty() {
                function = number;
            }
        } else if line.starts_with("calls=") {
            of_call = true;
        } else if line.starts_with(|first: char| first.is_ascii_digit() || "+-*".contains(first)) {
            let cost: u64 = line.split(' ').nth(1).map_or(0, |cost| cost.parse().expect("a number of instructions"));
            *costs.entry(function).or_insert(0) += if of_call { 0 } else { cost };
            of_call = false;
        }
    }
    let name =
        |number: &str| names.get(number).map_or(String::from("other"), |name| name.replace("vorphiel_bench::", ""));
    let mut profile: Profile = costs.into_iter().map(|(number, cost)| (name(number), cost)).collect();
    profile.sort_by_key(|(_, cost)| std::cmp::Reverse(*cost));
    profile
}
