//! Stored answers: nets, calls on them, and what a library answered. As text, a line for each:
//!
//!     # a comment
//!     net BYTES
//!     check = REFUSAL NODES STAGES LAYERS
//!     judge PLAN = REFUSAL COST SLACK
//!     plan P/Q TABLE BUFFER = REFUSAL COST SLACK K FLOOR PLAN
//!
//! A call is made on the net above it. Bytes and plans are hexadecimal, TABLE and BUFFER are lengths, and no plan is `-`.

use crate::asked::{Asked, Share};
use crate::compare::{from_hex, hex, Case};
use crate::host::Host;
use crate::plain::{Checked, Judged, Planned};

/// A call on a net.
pub enum Question {
    Check,
    Judge(Vec<u8>),
    Plan { p: u64, q: u64, table_len: usize, buffer_len: usize },
}

/// What was answered; with planning, the plan too.
#[derive(Debug, PartialEq)]
pub enum Answer {
    Check(Checked),
    Judge(Judged),
    Plan(Planned, Vec<u8>),
}

/// A net, and the calls on it with their answers.
pub struct Net {
    pub bytes: Vec<u8>,
    pub calls: Vec<(Question, Answer)>,
}

/// The nets of a text.
pub fn nets(text: &str) -> Vec<Net> {
    let mut nets: Vec<Net> = vec![];
    for line in text.lines().filter(|line| !line.starts_with('#')) {
        match line.strip_prefix("net ") {
            Some(bytes) => nets.push(Net { bytes: from_hex(bytes), calls: vec![] }),
            None => {
                let (asked, answered) = line.split_once(" = ").expect("a call and its answer");
                let question = Question::new(asked);
                let answer = question.answer(answered);
                nets.last_mut().expect("a net above its calls").calls.push((question, answer));
            }
        }
    }
    nets
}

/// The same text with a library's answers; those that stand in it are not looked at.
pub fn answered_by(host: &mut Host, text: &str) -> String {
    let mut net = vec![];
    let mut answered = |line: &str| {
        if let Some(bytes) = line.strip_prefix("net ") {
            net = from_hex(bytes);
        }
        if line.starts_with('#') || line.starts_with("net ") {
            return format!("{line}\n");
        }
        let asked = line.split(" =").next().unwrap_or(line);
        let answer = Question::new(asked).put_to(host, &net);
        assert_eq!(host.complaint(), None, "{asked}");
        format!("{asked} = {}\n", answer.words())
    };
    text.lines().map(&mut answered).collect()
}

/// A number of a line.
fn number<T: std::str::FromStr>(word: &str) -> T {
    word.parse().ok().unwrap_or_else(|| panic!("no number: {word}"))
}

/// The bytes of a plan, or none.
fn plan(word: &str) -> Vec<u8> {
    if word == "-" {
        vec![]
    } else {
        from_hex(word)
    }
}

impl Question {
    fn new(asked: &str) -> Question {
        match asked.split([' ', '/']).collect::<Vec<&str>>()[..] {
            ["check"] => Question::Check,
            ["judge", judged] => Question::Judge(plan(judged)),
            ["plan", p, q, table_len, buffer_len] => Question::Plan {
                p: number(p),
                q: number(q),
                table_len: number(table_len),
                buffer_len: number(buffer_len),
            },
            _ => panic!("no call: {asked}"),
        }
    }

    /// The answer in these words.
    fn answer(&self, words: &str) -> Answer {
        match (self, &words.split(' ').collect::<Vec<&str>>()[..]) {
            (Question::Check, [refusal, nodes, stages, layers]) => Answer::Check(Checked {
                refusal: number(refusal),
                nodes: number(nodes),
                stages: number(stages),
                layers: number(layers),
            }),
            (Question::Judge(_), [refusal, cost, slack]) => {
                Answer::Judge(Judged { refusal: number(refusal), cost: number(cost), slack: number(slack) })
            }
            (Question::Plan { .. }, [refusal, cost, slack, k, floor, found]) => {
                let (refusal, cost, slack) = (number(refusal), number(cost), number(slack));
                Answer::Plan(Planned { refusal, cost, slack, k: number(k), floor: number(floor) }, plan(found))
            }
            _ => panic!("no answer: {words}"),
        }
    }

    /// A library's answer.
    fn put_to(&self, host: &mut Host, net: &[u8]) -> Answer {
        match self {
            Question::Check => Answer::Check(host.check(net)),
            Question::Judge(plan) => Answer::Judge(host.judge(net, plan)),
            &Question::Plan { p, q, table_len, buffer_len } => {
                let stages = host.check(net).stages as usize;
                let mut asked = Asked::empty(Share { p, q }, table_len, buffer_len);
                let answer = host.plan(net, p, q, &mut asked.table, &mut asked.buffer);
                Answer::planned(answer, &asked.buffer, stages)
            }
        }
    }

    /// The plain search's answer.
    pub fn put_to_plain(&self, case: &Case) -> Answer {
        match self {
            Question::Check => Answer::Check(case.checked()),
            Question::Judge(plan) => Answer::Judge(case.judged(plan)),
            &Question::Plan { p, q, table_len, buffer_len } => {
                let left = case.planned(&Asked::empty(Share { p, q }, table_len, buffer_len));
                Answer::planned(left.answer, &left.buffer, case.stages())
            }
        }
    }
}

impl Answer {
    pub fn refusal(&self) -> u8 {
        match self {
            Answer::Check(Checked { refusal, .. }) => *refusal,
            Answer::Judge(Judged { refusal, .. }) => *refusal,
            Answer::Plan(Planned { refusal, .. }, _) => *refusal,
        }
    }

    /// The plan opens the buffer, if there is one.
    fn planned(answer: Planned, buffer: &[u8], stages: usize) -> Answer {
        let plan = if answer.refusal == 0 { buffer[..stages].to_vec() } else { vec![] };
        Answer::Plan(answer, plan)
    }

    fn words(&self) -> String {
        match self {
            Answer::Check(Checked { refusal, nodes, stages, layers }) => format!("{refusal} {nodes} {stages} {layers}"),
            Answer::Judge(Judged { refusal, cost, slack }) => format!("{refusal} {cost} {slack}"),
            Answer::Plan(Planned { refusal, cost, slack, k, floor }, plan) => {
                let plan = if plan.is_empty() { String::from("-") } else { hex(plan) };
                format!("{refusal} {cost} {slack} {k} {floor} {plan}")
            }
        }
    }
}
