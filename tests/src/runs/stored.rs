//! The answers of the library before a wish of 02, on files that were read then. Wish 3: "Plans and bounds are wanted as
//! before on all files that were accepted." Wish 5: "a tag 1 file has via resistance 0".

use crate::asked::Share;
use crate::compare::{hex, Case, Comparison, Outcome};
use crate::plain;
use crate::stored::{self, Answer, Net, Question};
use std::collections::BTreeSet;
use std::sync::OnceLock;

/// A file of stored answers.
pub struct Stored {
    pub name: &'static str,
    nets: fn() -> &'static [Net],
    /// Says what is in it, and whether that is enough.
    content: fn(&Content) -> (String, bool),
}

/// Of before edges could be longer than 1,000.
pub const LENGTHS_TO_1000: Stored = Stored { name: "lengths to 1,000", nets: nets_to_1000, content: enough_to_1000 };

/// Of before vias counted.
pub const WITHOUT_VIAS: Stored = Stored { name: "without vias", nets: nets_without_vias, content: enough_without_vias };

fn nets_to_1000() -> &'static [Net] {
    static NETS: OnceLock<Vec<Net>> = OnceLock::new();
    NETS.get_or_init(|| stored::nets(include_str!("../../stored/lengths-to-1000.txt")))
}

fn nets_without_vias() -> &'static [Net] {
    static NETS: OnceLock<Vec<Net>> = OnceLock::new();
    NETS.get_or_init(|| stored::nets(include_str!("../../stored/without-vias.txt")))
}

/// Every call of both files.
pub fn run(c: &mut Comparison) -> Outcome {
    LENGTHS_TO_1000.run(c)?;
    WITHOUT_VIAS.run(c)
}

impl Stored {
    /// Every stored call, with garbage in table and buffer.
    pub fn run(&self, c: &mut Comparison) -> Outcome {
        for (number, net) in (self.nets)().iter().enumerate() {
            let case = Case::new(&format!("stored net {number}, {}", self.name), &net.bytes);
            for call in &net.calls {
                match (&call.0, &call.1) {
                    (Question::Check, Answer::Check(answer)) => c.check_gives(&case, *answer)?,
                    (Question::Judge(plan), Answer::Judge(answer)) => c.judge_gives(&case, plan, *answer)?,
                    (&Question::Plan { p, q, table_len, buffer_len }, Answer::Plan(answer, plan)) => {
                        let asked = c.asked(Share { p, q }, table_len, buffer_len);
                        c.plan_gives(&case, &asked, &asked.left_beside(*answer, plan))?;
                    }
                    _ => panic!("an answer to another call"),
                }
            }
        }
        Ok(())
    }

    /// The stored answers against those of the plain search. Says how many there are, or which differs.
    pub fn agreement(&self) -> Result<String, String> {
        let mut answers = 0;
        for (number, net) in (self.nets)().iter().enumerate() {
            let stages = plain::check(&net.bytes).stages as usize;
            let columns = |question: &Question| match question {
                Question::Plan { table_len, .. } => plain::columns(*table_len, stages),
                _ => 0,
            };
            let widest = net.calls.iter().map(|(question, _)| columns(question)).max().unwrap_or(0);
            let case = Case::searched(&format!("stored net {number}"), &net.bytes, widest);
            for (question, answer) in &net.calls {
                let expected = question.put_to_plain(&case);
                if expected != *answer {
                    let net = hex(&net.bytes);
                    return Err(format!("{}: expected {expected:?}, stored {answer:?}\nnet: {net}", case.name));
                }
                answers += 1;
            }
        }
        let (content, enough) = (self.content)(&Content::new((self.nets)()));
        if enough {
            Ok(format!("{content}; {answers} answers agree"))
        } else {
            Err(content)
        }
    }
}

/// What is in a file.
struct Content {
    /// Nets, each once.
    distinct: bool,
    nets: usize,
    /// Those of tag 1; and those that are read, by the length of their longest edge.
    of_tag_1: usize,
    longest: Vec<i128>,
    /// The numbers that were given, by any call; and how often by planning.
    refusals: BTreeSet<u8>,
    planned: [usize; 13],
}

impl Content {
    fn new(nets: &[Net]) -> Content {
        let longest = |net: &Net| {
            let nodes = plain::read(&net.bytes).ok()?.nodes;
            nodes.iter().map(|node| node.length).max()
        };
        let calls = || nets.iter().flat_map(|net| &net.calls).map(|(_, answer)| answer);
        let mut planned = [0; 13];
        for answer in calls() {
            if let Answer::Plan(answer, _) = answer {
                planned[answer.refusal as usize] += 1;
            }
        }
        Content {
            distinct: nets.iter().map(|net| &net.bytes).collect::<BTreeSet<_>>().len() == nets.len(),
            nets: nets.len(),
            of_tag_1: nets.iter().filter(|net| net.bytes.first() == Some(&1)).count(),
            longest: nets.iter().filter_map(longest).collect(),
            refusals: calls().map(Answer::refusal).collect(),
            planned,
        }
    }

    /// How many of those that are read have a longest edge of this length.
    fn longest(&self, length: i128) -> usize {
        self.longest.iter().filter(|&&longest| longest == length).count()
    }

    /// How often a plan was found, none met timing, the table was too short; and whether that is enough.
    fn outcomes(&self) -> (String, bool) {
        let [met, late, short] = [0, 11, 12].map(|refusal| self.planned[refusal]);
        let words = format!("{met} plans found, {late} refused with 11, {short} with 12");
        (words, [met, late, short].iter().all(|&count| count >= 200))
    }
}

/// Enough nets, all of them accepted, enough with an edge of the length that was the largest and none with a longer one;
/// and enough plans of each outcome.
fn enough_to_1000(content: &Content) -> (String, bool) {
    let (nets, at) = (content.nets, content.longest(1_000));
    let above = content.longest.iter().filter(|&&longest| longest > 1_000).count();
    let (outcomes, planned) = content.outcomes();
    let words =
        format!("{nets} nets, {at} of them with an edge of length 1,000, {above} with a longer one; {outcomes}");
    let serves = content.distinct && content.longest.len() == nets && nets >= 500 && at >= 250 && above == 0;
    (words, serves && planned)
}

/// Enough files, all of tag 1, enough of them accepted and enough of these with an edge of the largest length; every
/// refusal, and enough plans of each outcome.
fn enough_without_vias(content: &Content) -> (String, bool) {
    let (nets, accepted, at) = (content.nets, content.longest.len(), content.longest(4_000));
    let numbers = content.refusals.iter().filter(|&&refusal| refusal > 0).count();
    let (outcomes, planned) = content.outcomes();
    let words = format!(
        "{nets} files of tag 1, {accepted} of them nets, {at} with an edge of length 4,000; {numbers} numbers of refusal; \
         {outcomes}"
    );
    let serves = content.distinct && content.of_tag_1 == nets && accepted >= 500 && at >= 150 && numbers == 12;
    (words, serves && planned)
}
