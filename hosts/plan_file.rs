//! A host in Rust: plans the net that a file holds, with a share or by rounds. It takes the arguments of
//! `plan_file.c`, prints the same text and messages, and ends with the same status: `HELP` says which.
//!
//! Build: `rustc -O --edition 2021 -D warnings -L target/staticlib hosts/plan_file.rs`

mod vorphiel;

use std::ffi::{OsStr, OsString};
use std::fmt::Write as _;
use std::fs::File;
use std::io::{self, Read, Write as _};
use std::process::ExitCode;
use vorphiel::{Planned, Refusal, RoundsPlanned, MOST_SHARE};

const HELP: &str = "\
usage: plan_file NET [SHARE]
       plan_file --rounds R NET
       plan_file --help | --version

Plans the net in the file NET: a layer for each stage, so that every sink is reached in time at little cost. A net
is bytes; nets/hex.py makes them of text. NET may be - for standard input; a file -NAME is given as ./-NAME.

  SHARE       P/Q or P Q, with P from 0 to 1,000 and Q from 1 to 1,000: the plan costs at most P/Q more than the
              cheapest. 1/4 if none is given; 0/1 asks for the cheapest plan
  --rounds R  in the place of a share: the cheapest plan that R rounds find, R from 1 to 29
  --help      prints this
  --version   prints the version of the library

Printed are, with a share, the plan (the layer of each stage) and a floor under the cost of every plan:

  cost 35 grain 4 slack 0 plan 0 1
  floor 32: no plan that meets timing costs less

with rounds one line, which says fewer than R where the longest table lent is too short for all of them:

  cost 32 slack 0 floor 32 rounds 29 plan 1 0

and for a refusal its number, with what that means on standard error:

  refused 11

Exit status: 0 planned; 1 refused; 2 not tried: wrong use, a file that cannot be read, output that cannot be
written, no memory, or a share of 0 that may take a table of more than 512 MiB.
";

/// The exit statuses.
const DONE: u8 = 0;
const REFUSED: u8 = 1;
const NOT_TRIED: u8 = 2;

/// The longest table lent for share 0 or for rounds: 512 MiB, about eight times what any share above 0 can need
/// (64 stages, share 1/1,000: 8,452,224 entries).
const MOST_ENTRIES: usize = 1 << 26;

/// How many bytes are read at most. Those that follow change no answer: 20,598 bytes settle what is wrong with a net.
/// They are more so that a long text is known as one.
const MOST_BYTES: u64 = 1 << 20;

/// The most arguments beside the file that are no options: a share as two numbers.
const MOST_GIVEN: usize = 2;

/// The tag with which a block begins.
const BLOCK_TAG: u8 = 6;

/// What is asked for.
enum Asked {
    Share { p: u64, q: u64 },
    Rounds { r: u64 },
}

/// The arguments, sorted.
#[derive(Default)]
struct Given {
    file: Option<OsString>,
    share: Vec<String>,
    rounds: Option<u64>,
}

/// What was read, with the argument that says where, and the name for that in messages.
struct Input {
    argument: String,
    name: String,
    bytes: Vec<u8>,
}

/// Why nothing was planned: a refusal, or a message why it was not tried.
enum Failure {
    Refused(Refusal),
    NotTried(String),
}

impl From<Refusal> for Failure {
    fn from(refusal: Refusal) -> Failure {
        Failure::Refused(refusal)
    }
}

/// Says something on standard error, each line with this host's name. A fault in writing there can be told nowhere.
fn say(message: &str) {
    for line in message.lines() {
        let _ = writeln!(io::stderr(), "plan_file: {line}");
    }
}

/// What the system says of an error, without the number that Rust puts behind it.
fn reason(error: io::Error) -> String {
    let text = error.to_string();
    text.split(" (os error").next().unwrap_or(&text).to_string()
}

/// A number of 64 bits: digits only, as `parse` alone also takes a sign.
fn number(text: &str) -> Option<u64> {
    if text.bytes().all(|byte| byte.is_ascii_digit()) {
        text.parse().ok()
    } else {
        None
    }
}

/// The number that follows `--rounds`.
fn rounds_of(argument: Option<OsString>) -> Result<u64, String> {
    let text = argument.map(|argument| argument.to_string_lossy().into_owned());
    text.as_deref().and_then(number).ok_or_else(|| {
        let found = text.map_or(String::new(), |text| format!(" {text}"));
        format!("--rounds{found}: a number from 1 to 29 is due, and then the file")
    })
}

/// A share as one argument, such as 1/4, or as two.
fn share_of(given: &[String]) -> Option<Asked> {
    let (p, q) = match given {
        [share] => share.split_once('/')?,
        [p, q] => (p.as_str(), q.as_str()),
        _ => return None,
    };
    Some(Asked::Share { p: number(p)?, q: number(q)? })
}

/// Sorts the arguments, or says which cannot stand there.
fn sort(mut arguments: impl Iterator<Item = OsString>) -> Result<Given, String> {
    let mut given = Given::default();
    while let Some(argument) = arguments.next() {
        let text = argument.to_string_lossy().into_owned();
        if text == "--rounds" {
            given.rounds = Some(rounds_of(arguments.next())?);
        } else if text.starts_with('-') && text != "-" {
            return Err(format!(
                "{text}: no such option; see plan_file --help (a file of this name is given as ./{text})"
            ));
        } else if given.file.is_none() {
            given.file = Some(argument);
        } else if given.share.len() < MOST_GIVEN {
            given.share.push(text);
        } else {
            return Err(format!("{text}: one argument too many; see plan_file --help"));
        }
    }
    Ok(given)
}

/// The file's name, and what is asked for; or what is wrong with the arguments.
fn read_arguments(arguments: Vec<OsString>) -> Result<(OsString, Asked), String> {
    let Given { file, share, rounds } = sort(arguments.into_iter())?;
    let file = file.ok_or("no file is given; see plan_file --help")?;
    let wrong = |words| format!("{}: {words}", share.join(" "));
    let asked = match rounds {
        Some(r) if share.is_empty() => Asked::Rounds { r },
        Some(_) => return Err(wrong("no share is taken with --rounds")),
        None if share.is_empty() => Asked::Share { p: 1, q: 4 },
        None => share_of(&share)
            .ok_or_else(|| wrong("no share; one is written after the file, as 1/4 or as two numbers, 1 4"))?,
    };
    Ok((file, asked))
}

/// Reads a file, or standard input for -.
fn read_input(file: &OsStr) -> Result<Input, String> {
    let argument = file.to_string_lossy().into_owned();
    let mut bytes = Vec::new();
    let (name, read) = if argument == "-" {
        (String::from("standard input"), io::stdin().take(MOST_BYTES).read_to_end(&mut bytes))
    } else {
        (argument.clone(), File::open(file).and_then(|file| file.take(MOST_BYTES).read_to_end(&mut bytes)))
    };
    match read {
        Ok(_) => Ok(Input { argument, name, bytes }),
        Err(error) => Err(format!("{name}: {}", reason(error))),
    }
}

/// The room that a table takes, rounded up.
fn mebibytes(entries: usize) -> usize {
    entries.div_ceil((1 << 20) / size_of::<i64>())
}

/// A table of zeros, or a message where there is no memory for it.
fn table_of(net: &Input, entries: usize) -> Result<Vec<i64>, Failure> {
    let mut table = Vec::new();
    table.try_reserve_exact(entries).map_err(|_| {
        let (name, size) = (&net.name, mebibytes(entries));
        Failure::NotTried(format!("{name}: no memory for a table of {entries} entries ({size} MiB)"))
    })?;
    table.resize(entries, 0);
    Ok(table)
}

/// A table length that is never too short at share 0, by the cost of a plan at share 1/4; or a message where that is
/// more than is lent here. The plan buffer has that plan afterwards.
fn entries_for_cheapest(net: &Input, plan: &mut [u8]) -> Result<usize, Failure> {
    let cost = plan_by_share(net, 1, 4, plan)?.cost;
    let entries = vorphiel::enough_by_cost(plan.len() as u64, cost).unwrap_or(usize::MAX);
    if entries <= MOST_ENTRIES {
        return Ok(entries);
    }
    let (name, size, most) = (&net.name, mebibytes(entries), mebibytes(MOST_ENTRIES));
    Err(Failure::NotTried(format!(
        "{name}: share 0 may take a table of {entries} entries ({size} MiB); \
         this host lends {MOST_ENTRIES} ({most} MiB) at most\n\
         at share 1/4 the plan costs {cost}; ask for a share such as 1/100, or lend more in a host of your own"
    )))
}

/// Plans a net with a share; the buffer is as long as the plan. At share 0 the table is sized by the cost of a plan at
/// another share. A share that is out of range is refused before the table is looked at, so any length will do.
fn plan_by_share(net: &Input, p: u64, q: u64, plan: &mut [u8]) -> Result<Planned, Failure> {
    let entries = match vorphiel::enough_entries(plan.len() as u64, p, q) {
        Some(entries) => entries,
        None if p == 0 && (1..=MOST_SHARE).contains(&q) => entries_for_cheapest(net, plan)?,
        None => 1,
    };
    Ok(vorphiel::plan(&net.bytes, p, q, &mut table_of(net, entries)?, plan)?)
}

/// Plans a net by rounds; the buffer is as long as the plan. Where a small table ends them early, the second is as
/// long as they need, if that may be.
fn plan_by_rounds(net: &Input, r: u64, plan: &mut [u8]) -> Result<RoundsPlanned, Failure> {
    let stages = plan.len() as u64;
    let first = vorphiel::plan_rounds(&net.bytes, r, &mut table_of(net, 64 * (plan.len() + 2))?, plan)?;
    if first.rounds == r {
        return Ok(first);
    }
    let enough = vorphiel::enough_for_rounds(stages, r, first.cost).unwrap_or(MOST_ENTRIES);
    Ok(vorphiel::plan_rounds(&net.bytes, r, &mut table_of(net, enough.min(MOST_ENTRIES))?, plan)?)
}

/// The line for a plan: what is said of it, then its layers.
fn line(said: String, plan: &[u8]) -> String {
    let mut text = said + " plan";
    for layer in plan {
        write!(text, " {layer}").expect("a string grows");
    }
    text + "\n"
}

/// Plans a net, and gives the text to print.
fn plan_net(net: &Input, asked: &Asked) -> Result<String, Failure> {
    let mut plan = vec![0; vorphiel::check(&net.bytes)?.stages as usize];
    Ok(match *asked {
        Asked::Share { p, q } => {
            let Planned { cost, slack, k, floor } = plan_by_share(net, p, q, &mut plan)?;
            let first = line(format!("cost {cost} grain {} slack {slack}", 1u64 << k), &plan);
            first + &format!("floor {floor}: no plan that meets timing costs less\n")
        }
        Asked::Rounds { r } => {
            let RoundsPlanned { cost, slack, floor, rounds } = plan_by_rounds(net, r, &mut plan)?;
            line(format!("cost {cost} slack {slack} floor {floor} rounds {rounds}"), &plan)
        }
    })
}

/// Whether bytes that were refused are all printable ASCII or white space: then a text was perhaps given by mistake.
fn looks_like_text(bytes: &[u8]) -> bool {
    !bytes.is_empty() && bytes.iter().all(|byte| matches!(byte, b' '..=b'~' | b'\t'..=b'\r'))
}

/// The command that makes a net of a text. The file it makes has the text's name, with another ending for .hex.
fn command(text: &str) -> String {
    if text == "-" {
        return String::from("nets/hex.py bytes - | plan_file -");
    }
    let stem = text.strip_suffix(".hex").unwrap_or(text);
    format!("nets/hex.py bytes {text} > {stem}.net")
}

/// What a refusal means, and what to do: bytes that are no net are perhaps text, or a block.
fn about(refusal: Refusal, net: &Input, asked: &Asked) -> String {
    let Input { argument, name, bytes } = net;
    match (refusal.0, asked) {
        (1..=6, _) if looks_like_text(bytes) => {
            format!("{name}: looks like text, and a net is bytes\nto make them: {}", command(argument))
        }
        (1..=6, _) if bytes.first() == Some(&BLOCK_TAG) => format!(
            "{name}: begins with tag 6, as a block of nets does, and a net with 1 or 7\n\
             report_file {argument} reports over a block"
        ),
        (1..=6, _) => format!("{name}: {refusal}\nnets/hex.py explain {argument} says where"),
        (9, Asked::Share { p, q }) => format!("{p}/{q}: {refusal}"),
        (14, Asked::Rounds { r }) => format!("--rounds {r}: {refusal}"),
        _ => format!("{name}: {refusal}"),
    }
}

/// Reads the file and plans: the text to print and the status, or a message why that was not tried.
fn planned(arguments: Vec<OsString>) -> Result<(String, u8), String> {
    let (file, asked) = read_arguments(arguments)?;
    let net = read_input(&file)?;
    match plan_net(&net, &asked) {
        Ok(text) => Ok((text, DONE)),
        Err(Failure::Refused(refusal)) => {
            say(&about(refusal, &net, &asked));
            Ok((format!("refused {}\n", refusal.0), REFUSED))
        }
        Err(Failure::NotTried(message)) => Err(message),
    }
}

/// What the arguments ask for: `--help` and `--version`, wherever they stand, or a plan.
fn answer(arguments: Vec<OsString>) -> Result<(String, u8), String> {
    if arguments.iter().any(|argument| argument == "--help") {
        return Ok((String::from(HELP), DONE));
    }
    if arguments.iter().any(|argument| argument == "--version") {
        let (major, minor, patch) = vorphiel::version();
        return Ok((format!("vorphiel {major}.{minor}.{patch}\n"), DONE));
    }
    planned(arguments)
}

fn main() -> ExitCode {
    let answered = answer(std::env::args_os().skip(1).collect()).and_then(|(text, status)| {
        let mut out = io::stdout();
        let written = out.write_all(text.as_bytes()).and_then(|()| out.flush());
        written.map(|()| status).map_err(|error| format!("standard output: {}", reason(error)))
    });
    ExitCode::from(answered.unwrap_or_else(|message| {
        say(&message);
        NOT_TRIED
    }))
}
