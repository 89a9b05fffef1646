//! Desks: each call on a desk beside judging the net and the plan that it has, or beside checking the net; all through
//! the C interface.

use crate::blocks::bytes_of;
use crate::families::{self, Case};
use crate::library::{self, Desk};
use crate::measure::{self, Counted, Pair};
use std::hint::black_box;

/// Reading is to execute at most so many times the instructions of judging the same net and plan.
const BOUND: f64 = 1.05;

#[derive(Clone, Copy, PartialEq)]
pub enum Call {
    Open,
    Set,
    Lock,
    Unlock,
    Read,
}

impl Call {
    pub const ALL: [Call; 5] = [Call::Open, Call::Set, Call::Lock, Call::Unlock, Call::Read];

    pub fn name(self) -> &'static str {
        match self {
            Call::Open => "desk_open",
            Call::Set => "desk_set",
            Call::Lock => "desk_lock",
            Call::Unlock => "desk_unlock",
            Call::Read => "desk_read",
        }
    }
}

/// A call on a desk of its own: a net, and a plan that has all its layers in turn.
pub struct Job<'a> {
    net: &'a Case,
    pub call: Call,
    desk: Desk,
    plan: Vec<u8>,
}

impl<'a> Job<'a> {
    fn new(net: &'a Case, call: Call) -> Job<'a> {
        let mut desk = Desk::default();
        let counts = desk.open(&net.bytes).expect("a net that a desk takes");
        let plan: Vec<u8> = (0..counts.stages).map(|stage| (stage % counts.layers) as u8).collect();
        for (stage, &layer) in plan.iter().enumerate() {
            desk.set(stage as u64, layer as u64).expect("a stage and a layer of the net");
        }
        Job { net, call, desk, plan }
    }

    /// The stage that is set to the layer it has, locked or unlocked: the last.
    fn stage(&self) -> (u64, u64) {
        let last = self.plan.len() - 1;
        (last as u64, self.plan[last] as u64)
    }

    fn on_desk(&mut self) {
        let (stage, layer) = self.stage();
        match self.call {
            Call::Open => _ = black_box(self.desk.open(&self.net.bytes)),
            Call::Set => _ = black_box(self.desk.set(stage, layer)),
            Call::Lock => _ = black_box(self.desk.lock(stage)),
            Call::Unlock => _ = black_box(self.desk.unlock(stage)),
            Call::Read => _ = black_box(self.desk.read()),
        }
    }

    fn beside(&self) {
        match self.call {
            Call::Open => _ = black_box(library::check(&self.net.bytes)),
            _ => _ = black_box(library::judge(&self.net.bytes, &self.plan)),
        }
    }
}

impl Pair for Job<'_> {
    fn run(&mut self, way: usize) {
        if way == 0 {
            self.on_desk();
        } else {
            self.beside();
        }
    }
}

/// The smallest nets, of one stage and of two, and the largest that a desk takes.
pub fn nets() -> Vec<Case> {
    let case = |name, text, stages| Case { name: String::from(name), bytes: bytes_of(text), stages };
    let a = case("net A", include_str!("../../nets/a.hex"), 1);
    let b = case("net B", include_str!("../../nets/b.hex"), 2);
    [a, b].into_iter().chain(families::for_desks()).collect()
}

/// Every call on each net.
pub fn jobs(nets: &[Case]) -> Vec<Job<'_>> {
    nets.iter().flat_map(|net| Call::ALL.map(|call| Job::new(net, call))).collect()
}

/// The instructions of all these jobs, if there is valgrind.
pub fn counted(jobs: usize) -> Option<Counted> {
    measure::instructions(&["--once-desks"], jobs, &[])
}

/// Reading a desk tells what judging tells, and keeps to its bound. Valgrind must be there.
pub fn keep_the_bound() {
    let nets = nets();
    let jobs = jobs(&nets);
    let (counted, _) = counted(jobs.len()).expect("valgrind, to count instructions");
    for (job, [reading, judging]) in jobs.iter().zip(counted).filter(|(job, _)| job.call == Call::Read) {
        let (name, ratio) = (&job.net.name, reading as f64 / judging as f64);
        assert_eq!(job.desk.read(), library::judge(&job.net.bytes, &job.plan), "a desk tells otherwise: {name}");
        println!("reading a desk with {name}: {ratio:.3} times the instructions of judging");
        assert!(ratio <= BOUND, "more than {BOUND} times");
    }
}
