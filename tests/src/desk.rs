//! A run of calls on one desk (02, wish 8), from a fresh one: what the second implementation answers and has on its desk
//! after each, and what is wrong with an implementation's answers and with the record that it leaves.

use crate::c_calls::DeskRecord;
use crate::compare::hex;
use crate::cut::{cut, smaller};
use crate::host::{desk_bytes, Host};
use crate::nets::{net_a, net_b};
use crate::plain::{self, Checked, Judged, Sheet};
use std::collections::BTreeMap;
use std::sync::Arc;

/// Bytes for an opening, and their name.
pub struct Named {
    pub name: String,
    pub bytes: Vec<u8>,
}

impl Named {
    pub fn new(name: &str, bytes: Vec<u8>) -> Arc<Named> {
        Arc::new(Named { name: String::from(name), bytes })
    }
}

/// A call on a desk; or what a host does with the record between two calls.
#[derive(Clone)]
pub enum Step {
    Open(Arc<Named>),
    Set(u64, u64),
    Lock(u64),
    Unlock(u64),
    Read,
    /// Keeps a copy of the desk under a number.
    Copy(usize),
    /// Goes on with the copy of a number; with a fresh desk, if there is none. So steps may be left out, and the numbers of
    /// other copies stay.
    PutBack(usize),
}

impl Step {
    pub fn words(&self) -> String {
        match self {
            Step::Open(net) => format!("open {}, {} bytes", net.name, net.bytes.len()),
            Step::Set(stage, layer) => format!("set stage {stage} to layer {layer}"),
            Step::Lock(stage) => format!("lock stage {stage}"),
            Step::Unlock(stage) => format!("unlock stage {stage}"),
            Step::Read => String::from("read cost and slack"),
            Step::Copy(number) => format!("keep copy {number} of the desk"),
            Step::PutBack(number) => format!("put copy {number} back, or a fresh desk if there is none"),
        }
    }

    /// The bytes that are opened.
    pub fn net(&self) -> &[u8] {
        match self {
            Step::Open(net) => &net.bytes,
            _ => &[],
        }
    }

    pub fn is_call(&self) -> bool {
        !matches!(self, Step::Copy(_) | Step::PutBack(_))
    }

    /// Simpler ones: with a shorter net, with smaller numbers.
    fn simpler(&self) -> Vec<Step> {
        match self {
            Step::Open(net) => {
                let small = [Named::new("A", net_a(830).bytes()), Named::new("B", net_b().bytes())];
                small.into_iter().filter(|small| small.bytes.len() < net.bytes.len()).map(Step::Open).collect()
            }
            &Step::Set(stage, layer) => {
                let stages = smaller(stage).map(move |stage| Step::Set(stage, layer));
                stages.chain(smaller(layer).map(|layer| Step::Set(stage, layer))).collect()
            }
            &Step::Lock(stage) => smaller(stage).map(Step::Lock).collect(),
            &Step::Unlock(stage) => smaller(stage).map(Step::Unlock).collect(),
            Step::Read | Step::Copy(_) | Step::PutBack(_) => vec![],
        }
    }
}

/// What a call answers; nothing, if the step is none.
#[derive(Clone, Copy, Debug, PartialEq)]
pub enum Answer {
    Counts(Checked),
    Number(u8),
    Figures(Judged),
    Nothing,
}

impl Answer {
    /// The number of a refusal, 0 for acceptance.
    pub fn refusal(self) -> u8 {
        match self {
            Answer::Counts(counts) => counts.refusal,
            Answer::Number(refusal) => refusal,
            Answer::Figures(figures) => figures.refusal,
            Answer::Nothing => 0,
        }
    }

    /// "a refusal carries its number with all other results 0".
    pub fn is_bare(self) -> bool {
        let refusal = self.refusal();
        let bare = [
            Answer::Counts(Checked { refusal, ..Default::default() }),
            Answer::Number(refusal),
            Answer::Figures(Judged { refusal, ..Default::default() }),
        ];
        bare.contains(&self)
    }
}

/// A desk and its copies by number: the second implementation's, or records.
pub struct Desks<D> {
    pub at_hand: D,
    fresh: D,
    copies: BTreeMap<usize, D>,
}

impl<D: Clone> Desks<D> {
    pub fn new(fresh: D) -> Desks<D> {
        Desks { at_hand: fresh.clone(), fresh, copies: BTreeMap::new() }
    }

    fn copy(&mut self, number: usize) -> Answer {
        self.copies.insert(number, self.at_hand.clone());
        Answer::Nothing
    }

    fn put_back(&mut self, number: usize) -> Answer {
        self.at_hand = self.copies.get(&number).unwrap_or(&self.fresh).clone();
        Answer::Nothing
    }
}

impl Desks<plain::Desk> {
    /// What the second implementation answers.
    pub fn put_to_plain(&mut self, step: &Step) -> Answer {
        let desk = &mut self.at_hand;
        match step {
            Step::Open(net) => Answer::Counts(desk.open(&net.bytes)),
            &Step::Set(stage, layer) => Answer::Number(desk.set(stage, layer)),
            &Step::Lock(stage) => Answer::Number(desk.lock(stage)),
            &Step::Unlock(stage) => Answer::Number(desk.unlock(stage)),
            Step::Read => Answer::Figures(desk.read()),
            &Step::Copy(number) => self.copy(number),
            &Step::PutBack(number) => self.put_back(number),
        }
    }
}

impl Desks<DeskRecord> {
    /// What an implementation answers.
    pub fn put_to(&mut self, host: &mut Host, step: &Step) -> Answer {
        let desk = &mut self.at_hand;
        match step {
            Step::Open(net) => Answer::Counts(host.desk_open(desk, &net.bytes)),
            &Step::Set(stage, layer) => Answer::Number(host.desk_set(desk, stage, layer)),
            &Step::Lock(stage) => Answer::Number(host.desk_lock(desk, stage)),
            &Step::Unlock(stage) => Answer::Number(host.desk_unlock(desk, stage)),
            Step::Read => Answer::Figures(host.desk_read(desk)),
            &Step::Copy(number) => self.copy(number),
            &Step::PutBack(number) => self.put_back(number),
        }
    }
}

/// What a host may see of an open desk.
struct Seen {
    stages: u64,
    layers: u64,
    plan: Vec<u8>,
    /// "1 if it is locked, else 0".
    locks: Vec<u8>,
}

impl Seen {
    fn of_sheet(sheet: &Sheet) -> Seen {
        let locks = sheet.locks.iter().map(|&lock| lock as u8).collect();
        let (stages, layers) = (sheet.plan.len() as u64, sheet.net.layers.len() as u64);
        Seen { stages, layers, plan: sheet.plan.clone(), locks }
    }

    fn of_record(record: &DeskRecord) -> Seen {
        let shown = |list: &[u8; 64]| list[..(record.stages as usize).min(64)].to_vec();
        let DeskRecord { stages, layers, .. } = *record;
        Seen { stages, layers, plan: shown(&record.plan), locks: shown(&record.locks) }
    }

    /// What is wrong with what is seen: counts, and the first stage that is not as it should be.
    fn faults(&self, found: &Seen) -> Vec<String> {
        let mut faults = vec![];
        for (what, expected, found) in [("stages", self.stages, found.stages), ("layers", self.layers, found.layers)] {
            faults
                .extend((found != expected).then(|| format!("{what} of the desk: {expected} expected, {found} found")));
        }
        for (what, expected, found) in [("plan", &self.plan, &found.plan), ("locks", &self.locks, &found.locks)] {
            let wrong = expected.iter().zip(found).position(|(expected, found)| found != expected);
            faults.extend(wrong.map(|stage| {
                format!("{what} of the desk at stage {stage}: {} expected, {} found", expected[stage], found[stage])
            }));
        }
        faults
    }
}

/// What is due from a step: the answer; and of a change that is accepted what then is seen. After every other the record is
/// as it was: "A refused call keeps the desk."
struct Due {
    answer: Answer,
    seen: Option<Seen>,
}

impl Due {
    /// What is wrong with an answer, and with a record that was so before.
    fn faults(&self, found: Answer, before: &DeskRecord, after: &DeskRecord) -> Vec<String> {
        let mut faults = vec![];
        if found != self.answer {
            faults.push(String::from("the answer"));
        }
        match &self.seen {
            Some(due) => faults.extend(due.faults(&Seen::of_record(after))),
            None => faults.extend(changed(before, after)),
        }
        faults
    }
}

/// The first byte of a record that is not as it was.
fn changed(before: &DeskRecord, after: &DeskRecord) -> Option<String> {
    let (before, after) = (desk_bytes(before), desk_bytes(after));
    let place = (0..before.len()).find(|&place| before[place] != after[place])?;
    Some(format!("the desk was changed, first at byte {place}: {} before, {} found", before[place], after[place]))
}

/// A run as it is written: its steps so far, and the second implementation's desk after them.
pub struct Course {
    steps: Vec<Step>,
    due: Vec<Due>,
    desks: Desks<plain::Desk>,
}

impl Course {
    pub fn new() -> Course {
        Course { steps: vec![], due: vec![], desks: Desks::new(plain::Desk::default()) }
    }

    pub fn add(&mut self, step: Step) {
        let answer = self.desks.put_to_plain(&step);
        let changes = !matches!(step, Step::Read | Step::Copy(_) | Step::PutBack(_)) && answer.refusal() == 0;
        let seen = self.sheet().filter(|_| changes).map(Seen::of_sheet);
        self.steps.push(step);
        self.due.push(Due { answer, seen });
    }

    pub fn open(&mut self, net: &Arc<Named>) {
        self.add(Step::Open(net.clone()));
    }

    /// What is on the desk.
    pub fn sheet(&self) -> Option<&Sheet> {
        self.desks.at_hand.sheet.as_ref()
    }

    /// How many copies there are.
    pub fn copies(&self) -> usize {
        self.desks.copies.len()
    }

    pub fn answer(&self) -> Answer {
        self.due.last().map_or(Answer::Nothing, |due| due.answer)
    }

    pub fn run(self, name: &str) -> Run {
        Run { name: String::from(name), steps: self.steps, due: self.due }
    }
}

/// A run of calls on one desk, with what is due from each.
pub struct Run {
    pub name: String,
    pub steps: Vec<Step>,
    due: Vec<Due>,
}

/// What was wrong with a step of a run.
pub struct Fault {
    pub place: usize,
    faults: Vec<String>,
    expected: Answer,
    found: Answer,
}

impl Run {
    pub fn new(name: &str, steps: &[Step]) -> Run {
        let mut course = Course::new();
        steps.iter().for_each(|step| course.add(step.clone()));
        course.run(name)
    }

    /// How many of the steps before a place are calls.
    pub fn calls_before(&self, place: usize) -> usize {
        self.steps[..place].iter().filter(|step| step.is_call()).count()
    }

    /// The answers that are due.
    pub fn answers(&self) -> impl Iterator<Item = Answer> + '_ {
        self.due.iter().map(|due| due.answer)
    }

    /// Makes the calls of an implementation, each said before it is made: the first with which something is wrong.
    pub fn fault(&self, host: &mut Host, say: impl Fn(&Step)) -> Option<Fault> {
        let mut desks = Desks::new(DeskRecord::FRESH);
        for (place, (step, due)) in self.steps.iter().zip(&self.due).enumerate() {
            say(step);
            let before = desks.at_hand;
            let found = desks.put_to(host, step);
            if !step.is_call() {
                continue;
            }
            let mut faults = due.faults(found, &before, &desks.at_hand);
            faults.extend(host.complaint());
            if !faults.is_empty() {
                return Some(Fault { place, faults, expected: due.answer, found });
            }
        }
        None
    }

    /// A run that fails at a place, cut down to a short one that fails too; none, if it does not fail each time.
    pub fn cut(&self, place: usize, host: &mut Host) -> Option<(Run, Fault)> {
        let fails = |steps: &[Step]| Run::new("", steps).fault(host, |_| {}).is_some();
        let steps = cut(&self.steps[..=place], Step::simpler, fails);
        let short = Run::new(&format!("{}, {} lines cut to {}", self.name, place + 1, steps.len()), &steps);
        let fault = short.fault(host, |_| {})?;
        Some((short, fault))
    }

    /// The run up to a fault in words, a line for each step; what was expected and what was found; and the nets.
    pub fn report(&self, fault: &Fault) -> String {
        let steps = &self.steps[..=fault.place];
        let lines: String =
            steps.iter().enumerate().map(|(place, step)| format!("{:5}  {}\n", place + 1, step.words())).collect();
        let mut nets: Vec<&Arc<Named>> = vec![];
        for step in steps {
            match step {
                Step::Open(net) if nets.iter().all(|other| other.bytes != net.bytes) => nets.push(net),
                _ => {}
            }
        }
        let nets: String = nets.iter().map(|net| format!("\nnet:      {}: {}", net.name, hex(&net.bytes))).collect();
        let Fault { faults, expected, found, .. } = fault;
        let wrong = faults.join("; ");
        format!("{}:\n{lines}wrong:    {wrong}\nexpected: {expected:?}\nfound:    {found:?}{nets}", self.name)
    }
}
