//! A planning call, by a share or by some rounds: what is asked besides the net, and what is answered and left in the
//! lent table and plan buffer.

use crate::compare::Case;
use crate::host::Host;
use crate::met::Met;
use crate::nets::Random;
use crate::plain::{self, Net, Planned, RoundsPlanned, Search};
use std::fmt::Debug;

/// A way of planning, with what it asks besides net, table and plan buffer.
pub trait Planning: Copy {
    /// The call's name.
    const CALL: &'static str;
    /// Its results.
    type Answer: Copy + Debug + PartialEq;

    /// What is asked, in words.
    fn words(self) -> String;
    /// "a refusal carries its number with all other results 0".
    fn refused(refusal: u8) -> Self::Answer;
    /// The number of a refusal, 0 for acceptance.
    fn refusal(answer: Self::Answer) -> u8;
    /// The plain search's answer for a net that was read.
    fn put_to_plain(self, net: &Net, search: &dyn Search, table: &mut [i64], buffer: &mut [u8]) -> Self::Answer;
    /// An implementation's answer.
    fn put_to(self, host: &mut Host, net: &[u8], table: &mut [i64], buffer: &mut [u8]) -> Self::Answer;
    /// Counts a call that passed, where kinds of calls are counted.
    fn count(self, _met: &mut Met, _case: &Case, _table_len: usize, _answer: Self::Answer) {}
}

/// By a share, p/q.
#[derive(Clone, Copy)]
pub struct Share {
    pub p: u64,
    pub q: u64,
}

/// By rounds, r of them (02, wish 7).
#[derive(Clone, Copy)]
pub struct Rounds {
    pub r: u64,
}

impl Planning for Share {
    const CALL: &'static str = "plan";
    type Answer = Planned;

    fn words(self) -> String {
        format!("share {}/{}", self.p, self.q)
    }

    fn refused(refusal: u8) -> Planned {
        Planned { refusal, ..Default::default() }
    }

    fn refusal(answer: Planned) -> u8 {
        answer.refusal
    }

    fn put_to_plain(self, net: &Net, search: &dyn Search, table: &mut [i64], buffer: &mut [u8]) -> Planned {
        plain::plan_net(net, search, self.p, self.q, table, buffer)
    }

    fn put_to(self, host: &mut Host, net: &[u8], table: &mut [i64], buffer: &mut [u8]) -> Planned {
        host.plan(net, self.p, self.q, table, buffer)
    }
}

impl Planning for Rounds {
    const CALL: &'static str = "plan by rounds";
    type Answer = RoundsPlanned;

    fn words(self) -> String {
        format!("r {}", self.r)
    }

    fn refused(refusal: u8) -> RoundsPlanned {
        RoundsPlanned { refusal, ..Default::default() }
    }

    fn refusal(answer: RoundsPlanned) -> u8 {
        answer.refusal
    }

    fn put_to_plain(self, net: &Net, search: &dyn Search, table: &mut [i64], buffer: &mut [u8]) -> RoundsPlanned {
        plain::plan_rounds_net(net, search, self.r, table, buffer)
    }

    fn put_to(self, host: &mut Host, net: &[u8], table: &mut [i64], buffer: &mut [u8]) -> RoundsPlanned {
        host.plan_rounds(net, self.r, table, buffer)
    }

    fn count(self, met: &mut Met, case: &Case, table_len: usize, answer: RoundsPlanned) {
        met.rounds.count(case, self.r, table_len, answer);
    }
}

/// What a planning call asks besides the net, and what table and buffer hold beforehand.
pub struct Asked<P> {
    pub terms: P,
    pub table: Vec<i64>,
    pub buffer: Vec<u8>,
    /// The garbage in the table: its kind and seed. None: what the same call left there.
    garbage: Option<(usize, u64)>,
}

/// What a planning call answers, and what table and buffer hold afterwards.
pub struct Left<A> {
    pub answer: A,
    pub table: Vec<i64>,
    pub buffer: Vec<u8>,
}

impl<P: Planning> Asked<P> {
    /// With nothing in table and buffer.
    pub fn empty(terms: P, table_len: usize, buffer_len: usize) -> Asked<P> {
        Asked { terms, table: vec![0; table_len], buffer: vec![0; buffer_len], garbage: None }
    }

    /// With garbage in table and buffer.
    pub fn with_garbage(terms: P, table_len: usize, buffer_len: usize, noise: &mut Random) -> Asked<P> {
        let (kind, seed) = (noise.below(GARBAGE.len()), noise.next());
        // The buffer holds no layer numbers, or some that may be a plan.
        let no_layers = noise.one_in(2);
        let byte = |random: &mut Random| if no_layers { random.next() as u8 | 0x80 } else { random.below(4) as u8 };
        let buffer = (0..buffer_len).map(|_| byte(noise)).collect();
        Asked { terms, table: garbage(kind, seed, table_len), buffer, garbage: Some((kind, seed)) }
    }

    /// The same call again, with what it left in table and buffer.
    pub fn again(&self, left: Left<P::Answer>) -> Asked<P> {
        Asked { terms: self.terms, table: left.table, buffer: left.buffer, garbage: None }
    }

    /// What is left beside an answer and its plan, where there is one: "The plan's s bytes open the buffer; later bytes
    /// keep their values. The table is all zero after acceptance and after 12, and unchanged after 1 to 11." Of rounds (02,
    /// wish 7): "Table and plan buffer are left as in planning", unchanged after 14 too.
    pub fn left_beside(&self, answer: P::Answer, plan: &[u8]) -> Left<P::Answer> {
        self.left_by(|table, buffer| {
            buffer[..plan.len()].copy_from_slice(plan);
            if [0, 12].contains(&P::refusal(answer)) {
                table.fill(0);
            }
            answer
        })
    }

    /// What a call makes of copies of table and buffer.
    pub fn left_by(&self, call: impl FnOnce(&mut [i64], &mut [u8]) -> P::Answer) -> Left<P::Answer> {
        let (mut table, mut buffer) = (self.table.clone(), self.buffer.clone());
        let answer = call(&mut table, &mut buffer);
        Left { answer, table, buffer }
    }

    pub fn words(&self) -> String {
        format!("{}, table {}, buffer {}", self.terms.words(), self.table.len(), self.buffer.len())
    }

    /// What table and buffer hold.
    pub fn contents(&self) -> String {
        let table = match self.garbage {
            Some((kind, seed)) => format!("garbage {:?} of seed {seed}", GARBAGE[kind]),
            None => String::from("what the same call has left there"),
        };
        format!("table {table}, buffer {:?}", self.buffer)
    }

    /// What is wrong with what a call gave and left.
    pub fn faults(&self, expected: &Left<P::Answer>, found: &Left<P::Answer>) -> Vec<String> {
        let mut faults = vec![];
        if found.answer != expected.answer {
            faults.push(String::from("the answer"));
        }
        if found.buffer != expected.buffer {
            faults.push(String::from("the plan buffer"));
        }
        if let Some(place) = (0..found.table.len()).find(|&place| found.table[place] != expected.table[place]) {
            let (before, wanted, there) = (self.table[place], expected.table[place], found.table[place]);
            faults
                .push(format!("the table, first at entry {place}: {before} before, {wanted} expected, {there} found"));
        }
        faults
    }

    /// The report of a call: parameters, expected, found.
    pub fn details(&self, expected: &Left<P::Answer>, found: &Left<P::Answer>) -> String {
        let said = |left: &Left<P::Answer>| format!("{:?}, buffer {:?}", left.answer, left.buffer);
        format!("before:   {}\nexpected: {}\nfound:    {}", self.contents(), said(expected), said(found))
    }
}

impl Asked<Share> {
    /// As 01's program plans a net.
    pub fn by_program() -> Asked<Share> {
        let (p, q) = plain::PROGRAM_SHARE;
        Asked::empty(Share { p, q }, plain::PROGRAM_TABLE, plain::PROGRAM_BUFFER)
    }
}

/// What a host may have left in a table.
const GARBAGE: &[&str] = &["any", "ends of the range", "small", "like times", "-1", "0", "largest", "least"];

fn garbage(kind: usize, seed: u64, length: usize) -> Vec<i64> {
    let mut random = Random::new(seed);
    let mut entry = || match kind {
        0 => random.next() as i64,
        1 => *random.pick(&[i64::MIN, i64::MAX, -1, 1]),
        2 => random.between(1, 1_000),
        3 => random.between(-1_000_000_000_000_000, 1_000_000_000_000_000),
        _ => [-1, 0, i64::MAX, i64::MIN][kind - 4],
    };
    (0..length).map(|_| entry()).collect()
}
