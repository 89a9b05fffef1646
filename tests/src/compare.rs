//! One call, compared: what an implementation answers and leaves in the lent buffers, against what 01 says.

use crate::asked::{Asked, Left, Planning, Rounds, Share};
use crate::block::Block;
use crate::by_front::Fronts;
use crate::c_calls::DeskRecord;
use crate::desk::{Desks, Run, Step};
use crate::host::{desk_bytes, Host, Interface, DESK_SIZE};
use crate::met::Met;
use crate::nets::Random;
use crate::plain::{self, Checked, Enumeration, Judged, Net, RoundsPlanned, Search};

/// Bytes in hexadecimal.
pub fn hex(bytes: &[u8]) -> String {
    bytes.iter().map(|byte| format!("{byte:02x}")).collect()
}

/// Bytes from hexadecimal digits.
pub fn from_hex(text: &str) -> Vec<u8> {
    let digits: Vec<char> = text.chars().filter(|c| !c.is_whitespace()).collect();
    digits.chunks(2).map(|two| u8::from_str_radix(&two.iter().collect::<String>(), 16).expect("hexadecimal")).collect()
}

/// The first call that was answered wrongly.
pub struct Failure {
    /// The call in one line.
    pub call: String,
    /// Everything: net, parameters, expected, found.
    pub report: String,
}

pub type Outcome = Result<(), Failure>;

// ------------------------------------------------------------------------------------------------
// A net and what is known about it
// ------------------------------------------------------------------------------------------------

/// A net with all that is known about it.
pub struct Case {
    pub name: String,
    pub bytes: Vec<u8>,
    pub read: Result<Net, u8>,
    search: Option<Box<dyn Search + Send + Sync>>,
    /// The most columns for which the search decides; without limit if every k was worked out.
    widest: i128,
}

/// Nets with no more plans than this, each plan counted once for each node, are searched by looking at each.
const MOST_PLANS: u128 = 60_000;

impl Case {
    /// For check and judge.
    pub fn new(name: &str, bytes: &[u8]) -> Case {
        let read = plain::read(bytes);
        Case { name: String::from(name), bytes: bytes.to_vec(), read, search: None, widest: i128::MAX }
    }

    /// For planning too, with tables of up to `widest` columns.
    pub fn searched(name: &str, bytes: &[u8], widest: i128) -> Case {
        let mut case = Case::new(name, bytes);
        if let Ok(net) = &case.read {
            let plans = (net.layers.len() as u128).saturating_pow(plain::stage_count(net) as u32);
            if plans.saturating_mul(net.nodes.len() as u128) <= MOST_PLANS {
                case.search = Some(Box::new(Enumeration::new(net)));
            } else {
                let fronts = Fronts::new(net, widest);
                if fronts.any() && fronts.reach() > 0 {
                    case.widest = widest;
                }
                case.search = Some(Box::new(fronts));
            }
        }
        case
    }

    pub fn stages(&self) -> usize {
        self.read.as_ref().map_or(0, plain::stage_count)
    }

    pub fn layers(&self) -> usize {
        self.read.as_ref().map_or(0, |net| net.layers.len())
    }

    pub fn widest(&self) -> i128 {
        self.widest
    }

    /// What is known about the plans that meet timing; nothing if there is none.
    pub fn search(&self) -> Option<&dyn Search> {
        let search: &dyn Search = self.search.as_deref()?;
        search.any().then_some(search)
    }

    /// The columns needed for a share, if they are known.
    pub fn needed_columns(&self, p: u64, q: u64) -> Option<i128> {
        self.columns_at(plain::grain(self.search()?, self.stages(), p, q))
    }

    /// The columns needed at k, if they are known.
    pub fn columns_at(&self, k: u32) -> Option<i128> {
        let needed = self.search()?.least_rounded(k) + 1;
        (needed <= self.widest).then_some(needed)
    }

    /// What check answers.
    pub fn checked(&self) -> Checked {
        match &self.read {
            Err(refusal) => Checked { refusal: *refusal, ..Default::default() },
            Ok(net) => plain::check_net(net),
        }
    }

    /// What judge answers.
    pub fn judged(&self, plan: &[u8]) -> Judged {
        match &self.read {
            Err(refusal) => Judged { refusal: *refusal, ..Default::default() },
            Ok(net) => plain::judge_net(net, plan),
        }
    }

    /// What planning answers and leaves in table and buffer.
    pub fn planned<P: Planning>(&self, asked: &Asked<P>) -> Left<P::Answer> {
        asked.left_by(|table, buffer| match &self.read {
            Err(refusal) => P::refused(*refusal),
            Ok(net) => {
                let columns = plain::columns(table.len(), self.stages());
                assert!(columns <= self.widest, "the search decides no such table");
                let search = self.search.as_deref().expect("a searched net");
                asked.terms.put_to_plain(net, search, table, buffer)
            }
        })
    }
}

// ------------------------------------------------------------------------------------------------
// The comparison
// ------------------------------------------------------------------------------------------------

/// Compares call after call, and counts.
pub struct Comparison {
    host: Host,
    pub passed: u64,
    noise: Random,
    /// Says each call on standard error before it is made.
    trace: bool,
    /// The kinds of calls that were made, where they are counted.
    pub met: Option<Met>,
    /// Whether runs on desks that fail are cut down.
    pub cuts: bool,
}

impl Comparison {
    pub fn new(interface: Interface, trace: bool) -> Comparison {
        Comparison { host: Host::new(interface), passed: 0, noise: Random::new(77), trace, met: None, cuts: true }
    }

    /// Check, against the plain search.
    pub fn check(&mut self, case: &Case) -> Outcome {
        self.check_gives(case, case.checked())
    }

    /// Check, against a given answer.
    pub fn check_gives(&mut self, case: &Case, expected: Checked) -> Outcome {
        let call = || format!("check, {}", case.name);
        self.say(call, &case.bytes);
        let found = self.host.check(&case.bytes);
        let faults = if found == expected { vec![] } else { vec![String::from("the answer")] };
        self.settle(call, &case.bytes, faults, || format!("expected: {expected:?}\nfound:    {found:?}"))
    }

    /// Judge, against the plain search.
    pub fn judge(&mut self, case: &Case, plan: &[u8]) -> Outcome {
        self.judge_gives(case, plan, case.judged(plan))
    }

    /// Judge, against a given answer.
    pub fn judge_gives(&mut self, case: &Case, plan: &[u8], expected: Judged) -> Outcome {
        let call = || format!("judge, {}, plan {plan:?}", case.name);
        self.say(call, &case.bytes);
        let found = self.host.judge(&case.bytes, plan);
        let faults = if found == expected { vec![] } else { vec![String::from("the answer")] };
        self.settle(call, &case.bytes, faults, || format!("expected: {expected:?}\nfound:    {found:?}"))
    }

    /// Plan by a share, against the plain search.
    pub fn plan(&mut self, case: &Case, p: u64, q: u64, table_len: usize, buffer_len: usize) -> Outcome {
        self.plan_by(case, Share { p, q }, table_len, buffer_len)
    }

    /// Plan by rounds, against the plain search.
    pub fn plan_rounds(&mut self, case: &Case, r: u64, table_len: usize, buffer_len: usize) -> Outcome {
        self.plan_by(case, Rounds { r }, table_len, buffer_len)
    }

    /// Plan, against the plain search: the answer, every byte of the buffer, every entry of the table.
    pub fn plan_by<P: Planning>(&mut self, case: &Case, terms: P, table_len: usize, buffer_len: usize) -> Outcome {
        let asked = self.asked(terms, table_len, buffer_len);
        self.plan_gives(case, &asked, &case.planned(&asked))
    }

    /// The same call twice, the second time with what the first left in table and buffer.
    pub fn plan_twice<P: Planning>(&mut self, case: &Case, terms: P, table_len: usize, buffer_len: usize) -> Outcome {
        let first = self.asked(terms, table_len, buffer_len);
        let left = case.planned(&first);
        self.plan_gives(case, &first, &left)?;
        let again = first.again(left);
        self.plan_gives(case, &again, &case.planned(&again))
    }

    /// Plan, against a given answer.
    pub fn plan_gives<P: Planning>(&mut self, case: &Case, asked: &Asked<P>, expected: &Left<P::Answer>) -> Outcome {
        let found = self.put(case, asked);
        let faults = asked.faults(expected, &found);
        let call = || planning_call(case, asked);
        self.settle(call, &case.bytes, faults, || asked.details(expected, &found))?;
        if let Some(met) = &mut self.met {
            asked.terms.count(met, case, asked.table.len(), found.answer);
        }
        Ok(())
    }

    /// Makes a planning call.
    fn put<P: Planning>(&mut self, case: &Case, asked: &Asked<P>) -> Left<P::Answer> {
        self.say(|| format!("{}\n  {}", planning_call(case, asked), asked.contents()), &case.bytes);
        asked.left_by(|table, buffer| asked.terms.put_to(&mut self.host, &case.bytes, table, buffer))
    }

    /// "With both r from 1 to 29 and the rest of the call the same, a larger r never gives a dearer plan or a lower
    /// floor": of the answers that are found, whatever the plain search says. Nor is one call refused and another not.
    pub fn rounds_law(&mut self, case: &Case, table_len: usize, buffer_len: usize) -> Outcome {
        let mut asked = self.asked(Rounds { r: 1 }, table_len, buffer_len);
        let mut fewer: Option<RoundsPlanned> = None;
        for r in 1..=plain::MOST_ROUNDS {
            asked.terms.r = r;
            let found = self.put(case, &asked).answer;
            let faults = fewer.map_or(vec![], |fewer| law_faults(&fewer, &found));
            let call = || format!("{}, beside a smaller r", planning_call(case, &asked));
            self.settle(call, &case.bytes, faults, || format!("fewer:    {fewer:?}\nfound:    {found:?}"))?;
            fewer = Some(found);
        }
        Ok(())
    }

    /// The chart's number, against the rule of 02. No net has a part in it.
    pub fn table_entries(&mut self, s: u64, q: u64) -> Outcome {
        let call = || format!("table_entries, s {s}, q {q}");
        self.say(call, &[]);
        let (expected, found) = (plain::table_entries(s, q), self.host.table_entries(s, q));
        let faults = if found == expected { vec![] } else { vec![String::from("the answer")] };
        self.settle(call, &[], faults, || format!("expected: {expected}\nfound:    {found}"))
    }

    /// The report over a block, against 02: the whole struct, and its laws.
    pub fn report(&mut self, block: &Block) -> Outcome {
        let call = || format!("report, {}", block.name);
        self.say(call, &block.bytes);
        let (expected, found) = (&block.totals, self.host.report(&block.bytes));
        let faults = block.faults(&found);
        self.settle(call, &block.bytes, faults, || format!("expected: {expected:?}\nfound:    {found:?}"))
    }

    /// The size of a desk, against the header.
    pub fn desk_size(&mut self) -> Outcome {
        let call = || String::from("desk size");
        self.say(call, &[]);
        let found = self.host.desk_size();
        let faults = if found == DESK_SIZE as u64 { vec![] } else { vec![String::from("the answer")] };
        self.settle(call, &[], faults, || format!("expected: {DESK_SIZE}\nfound:    {found}"))
    }

    /// A run of calls on a desk, against the second implementation's desk. Every call counts; a run that fails is cut down.
    pub fn desk_run(&mut self, run: &Run) -> Outcome {
        let trace = self.trace;
        let say = |step: &Step| {
            if trace {
                eprintln!("desk, {}: {}\n  net {}", run.name, step.words(), hex(step.net()));
            }
        };
        let Some(fault) = run.fault(&mut self.host, say) else {
            self.passed += run.calls_before(run.steps.len()) as u64;
            if let Some(met) = &mut self.met {
                met.desks.count(run);
            }
            return Ok(());
        };
        self.passed += run.calls_before(fault.place) as u64;
        let call = format!("desk, {}, line {}: {}", run.name, fault.place + 1, run.steps[fault.place].words());
        let short = if self.cuts { run.cut(fault.place, &mut self.host) } else { None };
        let told = short.map_or_else(|| run.report(&fault), |(short, fault)| short.report(&fault));
        Err(Failure { report: format!("FAILED call {}: {call}\n{told}", self.passed + 1), call })
    }

    /// A call on a record with anything in it: "whatever else a host wrote there, no call reads or writes beyond the desk,
    /// and each answers with results or with one of 1 to 8 and 15 to 17".
    pub fn desk_of_rubbish(&mut self, name: &str, record: &DeskRecord, step: &Step) -> Outcome {
        let call = || format!("desk, {name}: {}", step.words());
        self.say(call, step.net());
        let found = Desks::new(*record).put_to(&mut self.host, step);
        let faults = broken(&[
            (matches!(found.refusal(), 0..=8 | 15..=17), "a number that no call on a desk gives"),
            (found.refusal() == 0 || found.is_bare(), "results beside a refusal"),
        ]);
        let details = || format!("desk:     {}\nfound:    {found:?}", hex(desk_bytes(record)));
        self.settle(call, step.net(), faults, details)
    }

    /// The parameters of a planning call, with garbage in table and buffer.
    pub fn asked<P: Planning>(&mut self, terms: P, table_len: usize, buffer_len: usize) -> Asked<P> {
        Asked::with_garbage(terms, table_len, buffer_len, &mut self.noise)
    }

    /// Counts a call that passed, or reports one that did not.
    fn settle(
        &mut self,
        call: impl Fn() -> String,
        net: &[u8],
        mut faults: Vec<String>,
        details: impl Fn() -> String,
    ) -> Outcome {
        faults.extend(self.host.complaint());
        if faults.is_empty() {
            self.passed += 1;
            return Ok(());
        }
        let (call, wrong, net) = (call(), faults.join("; "), hex(net));
        let report =
            format!("FAILED call {}: {call}\nwrong:    {wrong}\nnet:      {net}\n{}", self.passed + 1, details());
        Err(Failure { call, report })
    }

    fn say(&self, call: impl Fn() -> String, net: &[u8]) {
        if self.trace {
            eprintln!("{}\n  net {}", call(), hex(net));
        }
    }
}

/// A planning call in one line.
fn planning_call<P: Planning>(case: &Case, asked: &Asked<P>) -> String {
    format!("{}, {}, {}", P::CALL, case.name, asked.words())
}

/// What is wrong with the answer to a call of more rounds.
fn law_faults(fewer: &RoundsPlanned, found: &RoundsPlanned) -> Vec<String> {
    broken(&[
        (found.refusal == fewer.refusal, "another refusal than with a smaller r"),
        (found.cost <= fewer.cost, "a dearer plan than with a smaller r"),
        (found.floor >= fewer.floor, "a lower floor than with a smaller r"),
    ])
}

/// Of laws, each with what is wrong otherwise: what is wrong.
pub fn broken(laws: &[(bool, &str)]) -> Vec<String> {
    laws.iter().filter(|(holds, _)| !holds).map(|(_, otherwise)| String::from(*otherwise)).collect()
}
