//! Runs of calls on desks (02, wish 8): "From a fresh desk, every run of calls must do what a list of layers and locks
//! would do".

use super::order;
use super::reading::to_damage;
use crate::c_calls::DeskRecord;
use crate::compare::{Comparison, Outcome};
use crate::desk::{Course, Named, Run, Step};
use crate::host::{Host, Interface};
use crate::nets::{self, Draft, Random, MOST_LAYERS, MOST_STAGES};
use crate::plain::MOST_DESK_NET;
use crate::rows;
use std::sync::{Arc, OnceLock};

/// The steps of random runs.
const SHORT: usize = 30;
const LONG: usize = 400;
const LONGEST: usize = 4_000;

/// All of it: rows, refusals at once, the same runs every time, then desks of rubbish and random runs.
pub fn all(c: &mut Comparison, seed: u64, count: usize) -> Outcome {
    static FIXED: OnceLock<Vec<Run>> = OnceLock::new();
    c.desk_size()?;
    rows::desk(c)?;
    order::desk(c)?;
    FIXED.get_or_init(fixed).iter().try_for_each(|run| c.desk_run(run))?;
    let mut random = Random::new(seed ^ 0xDE);
    rubbish(c, &mut random, count)?;
    (0..count).try_for_each(|number| c.desk_run(&random_run(number, SHORT, &mut random)))?;
    (0..count / 3).try_for_each(|number| c.desk_run(&random_run(number, LONG, &mut random)))?;
    (0..count / 90).try_for_each(|number| c.desk_run(&random_run(number, LONGEST, &mut random)))
}

/// The same runs every time.
fn fixed() -> Vec<Run> {
    let mut runs = vec![every_desk()];
    runs.extend(at_limits().iter().map(ends_of_range));
    runs.extend(at_limits().iter().map(every_stage));
    runs.extend([openings("nets after each other", whole_nets()), openings("lengths", lengths())]);
    let damaged = to_damage().into_iter().map(|(of, draft)| openings(of, damaged(of, &draft)));
    runs.extend(damaged);
    runs
}

// ------------------------------------------------------------------------------------------------
// The same runs every time
// ------------------------------------------------------------------------------------------------

/// Every call on every desk that nets A and B lead to, with numbers that are in range on one of them, on both or on none,
/// and with every sort of opening that is refused.
fn every_desk() -> Run {
    let numbers = || 0..=2;
    let mut calls: Vec<Step> = a_and_b().iter().chain(refused()).map(|net| Step::Open(net.clone())).collect();
    calls.extend(numbers().flat_map(|stage| numbers().map(move |layer| Step::Set(stage, layer))));
    calls.extend(numbers().flat_map(|stage| [Step::Lock(stage), Step::Unlock(stage)]));
    calls.push(Step::Read);
    let mut course = Course::new();
    let lists = |course: &Course| course.sheet().map(|sheet| (sheet.plan.clone(), sheet.locks.clone()));
    // The desk at a place is the copy of that number, and the first a fresh one.
    let (mut met, mut place) = (vec![lists(&course)], 0);
    while place < met.len() {
        for call in &calls {
            course.add(Step::PutBack(place));
            course.add(call.clone());
            if !met.contains(&lists(&course)) {
                course.add(Step::Copy(met.len()));
                met.push(lists(&course));
            }
        }
        place += 1;
    }
    // One never opened; each stage of A or B on either layer, locked or not.
    assert_eq!(met.len(), 1 + 4 + 16, "the desks of A and B");
    course.run("every desk of A and B")
}

/// Nets at the limits of a desk: as many bytes, stages and layers as there can be, and as few.
fn at_limits() -> &'static [Arc<Named>] {
    static NETS: OnceLock<Vec<Arc<Named>>> = OnceLock::new();
    NETS.get_or_init(nets_at_limits)
}

fn nets_at_limits() -> Vec<Arc<Named>> {
    let named = |(name, draft): (&str, Draft)| Named::new(name, draft.bytes());
    let nets = [
        ("4,096 bytes", nets::of_bytes(MOST_DESK_NET)),
        ("4,095 bytes", nets::of_bytes(MOST_DESK_NET - 1)),
        ("64 stages on 10 layers", nets::varied_line(MOST_STAGES - 1, 0, 10, false)),
        ("64 stages on 9 layers, with vias", nets::varied_line(MOST_STAGES - 1, 2, 9, true)),
        ("48 stages on 16 layers", nets::varied_line(47, 0, MOST_LAYERS, false)),
        ("one stage on 16 layers, with vias", nets::varied_line(0, 3, MOST_LAYERS, true)),
        ("one stage on one layer", nets::varied_line(0, 0, 1, false)),
        ("64 stages on one layer", nets::varied_line(MOST_STAGES - 1, 0, 1, false)),
        ("a stage that drives 35", nets::star(35)),
        ("file order is not tree order", nets::crossed()),
        ("255 nodes", nets::line(3, 251)),
        ("the slowest line that is met", nets::slowest_met()),
        ("the latest line", nets::slowest(MOST_STAGES, 30, 0, 0)),
    ];
    let nets: Vec<Arc<Named>> = nets.map(named).to_vec();
    assert!(nets.iter().all(|net| net.bytes.len() <= MOST_DESK_NET), "nets that a desk takes");
    nets
}

/// Settings, lockings and unlockings with numbers at the ends of their ranges, beyond, and in range by their low bits.
fn ends_of_range(net: &Arc<Named>) -> Run {
    let mut course = Course::new();
    course.open(net);
    let (stages, layers) = counts(&course);
    let numbers = |count: u64| {
        let mut numbers =
            vec![0, count / 2, count - 1, count, count + 1, 15, 16, 63, 64, 65, 255, 256, 1 << 32, u64::MAX];
        numbers.extend([4, 6, 8, 16, 31, 32, 63].map(|bits| (1 << bits) + count - 1));
        numbers
    };
    for stage in numbers(stages) {
        for layer in numbers(layers) {
            course.add(Step::Set(stage, layer));
        }
        course.add(Step::Read);
        course.add(Step::Lock(stage));
        course.add(Step::Set(stage, layers - 1));
        course.add(Step::Set(stages - 1, 0));
        course.add(Step::Unlock(stage));
        course.add(Step::Set(stages - 1, layers / 2));
    }
    course.run(&format!("ends of ranges, {}", net.name))
}

/// Every stage on every layer; then each locked, tried, unlocked and moved again; and all of it gone by a new opening.
fn every_stage(net: &Arc<Named>) -> Run {
    let mut course = Course::new();
    course.open(net);
    let (stages, layers) = counts(&course);
    for layer in 0..layers {
        (0..stages).for_each(|stage| course.add(Step::Set(stage, (layer + stage) % layers)));
        course.add(Step::Read);
    }
    for stage in 0..stages {
        course.add(Step::Lock(stage));
        course.add(Step::Set(stage, stage % layers));
        course.add(Step::Set((stage + 1) % stages, (stage + 1) % layers));
    }
    course.add(Step::Copy(0));
    for stage in (0..stages).step_by(2) {
        course.add(Step::Unlock(stage));
        course.add(Step::Set(stage, (stage + 2) % layers));
        course.add(Step::Set(stages - 1 - stage, 0));
    }
    course.add(Step::Read);
    course.open(net);
    course.add(Step::Read);
    (0..stages).for_each(|stage| course.add(Step::Set(stage, layers - 1)));
    course.add(Step::PutBack(0));
    course.add(Step::Read);
    (0..stages).for_each(|stage| course.add(Step::Set(stage, 0)));
    course.run(&format!("every stage, {}", net.name))
}

/// Stages and layers on the desk; of a desk never opened one of each.
fn counts(course: &Course) -> (u64, u64) {
    course.sheet().map_or((1, 1), |sheet| (sheet.plan.len() as u64, sheet.net.layers.len() as u64))
}

/// These opened one after the other. After each a stage is moved and locked, so that the next finds a plan and a lock.
fn openings(name: &str, nets: Vec<Arc<Named>>) -> Run {
    let mut course = Course::new();
    for (number, net) in nets.iter().enumerate() {
        course.open(net);
        course.add(Step::Read);
        let (stages, layers) = counts(&course);
        let stage = number as u64 % stages;
        course.add(Step::Set(stage, layers - 1));
        course.add(Step::Lock(stage));
        course.add(Step::Lock(stages - 1));
        course.add(Step::Set(stage, 0));
    }
    course.run(&format!("openings, {name}"))
}

/// Nets that are read, of many counts of stages and layers: each stage that the next net has not, and each that the one
/// before had not.
fn whole_nets() -> Vec<Arc<Named>> {
    let mut random = Random::new(8);
    let limits = at_limits();
    let mut nets = vec![];
    for net in limits {
        let family = *random.pick(nets::SMALL_FAMILIES);
        nets.push(Named::new(family, nets::random_net(family, &mut random).bytes()));
        nets.extend([net.clone(), net.clone()]);
    }
    // Few stages between many, and many between few.
    for number in [0, 2, 6, 2, 6, 7, 6, 0, 5, 2, 5, 4, 3, 8] {
        nets.push(limits[number].clone());
    }
    nets
}

/// Nets and bytes that are none, of 4,096 bytes, a little more, and much more.
fn lengths() -> Vec<Arc<Named>> {
    let whole = nets::net_b().bytes();
    let mut lengths = vec![];
    for bytes in [0, 1, 4_094, 4_095, 4_096, 4_097, 4_098, 8_192, 65_535, 65_536, 65_537, 100_000] {
        lengths.push((format!("{bytes} zeros"), vec![0; bytes]));
        // In range by its low bits.
        lengths.push((format!("B and {bytes} zeros"), [&whole[..], &vec![0; bytes]].concat()));
    }
    for bytes in [4_093, 4_094, 4_095, 4_096, 4_097, 4_098, 4_099, 5_000] {
        lengths.push((format!("a net of {bytes} bytes"), nets::of_bytes(bytes).bytes()));
    }
    lengths.extend(nets::around_longest());
    lengths.extend(nets::lines_around_limits());
    lengths.extend(nets::layer_counts());
    lengths.into_iter().map(|(name, bytes)| Named::new(&name, bytes)).collect()
}

/// A net with some of its damages, and whole between them.
fn damaged(of: &str, draft: &Draft) -> Vec<Arc<Named>> {
    let damaged = nets::damaged(draft, &mut Random::new(5), 20).into_iter().step_by(3);
    let whole = Named::new(&format!("{of}whole"), draft.bytes());
    damaged.flat_map(|(what, bytes)| [whole.clone(), Named::new(&format!("{of}{what}"), bytes)]).collect()
}

// ------------------------------------------------------------------------------------------------
// Random runs
// ------------------------------------------------------------------------------------------------

/// A random run of so many steps: calls with numbers in range for the most part, refused openings between others, copies.
fn random_run(number: usize, steps: usize, random: &mut Random) -> Run {
    let nets = random_nets(random);
    let mut course = Course::new();
    // The stage that was looked at last, which is often looked at again.
    let mut last = 0;
    for _step in 0..steps {
        let (stages, layers) = counts(&course);
        let stage = if random.one_in(3) { last } else { some_number(stages, random) };
        course.add(match random.below(20) {
            0..=6 => Step::Set(stage, some_number(layers, random)),
            7..=9 => Step::Lock(stage),
            10..=12 => Step::Unlock(stage),
            13..=15 => Step::Read,
            16 => Step::Open(random.pick(&nets).clone()),
            17 | 18 => Step::Copy(course.copies()),
            // One beyond the last: a fresh desk.
            _ => Step::PutBack(random.below(course.copies() + 1)),
        });
        last = stage;
    }
    course.run(&format!("random run {number} of {steps} steps"))
}

/// A number of a stage or layer where there are so many: most often in range; else about its end, or in range by its low
/// bits.
fn some_number(count: u64, random: &mut Random) -> u64 {
    let in_range = random.below(count as usize) as u64;
    match random.below(12) {
        0 => *random.pick(&[0, count, count + 1, 15, 16, 63, 64, 255, 256, 1 << 32, u64::MAX]),
        1 => in_range + (1 << *random.pick(&[4, 6, 8, 16, 31, 32, 63])),
        2 => random.next() >> random.below(64),
        3 => count - 1,
        _ => in_range,
    }
}

/// The nets of a run: two small ones, one of many stages, one at the limits, one that may be none, two that are refused.
fn random_nets(random: &mut Random) -> [Arc<Named>; 7] {
    let mut grown = |which: &str, families: &[&str]| {
        let family = *random.pick(families);
        Named::new(&format!("the {which} net, {family}"), nets::random_net(family, random).bytes())
    };
    let small = [grown("first", nets::SMALL_FAMILIES), grown("second", nets::SMALL_FAMILIES)];
    let large = grown("third", nets::LARGE_FAMILIES);
    let any = if random.one_in(2) {
        ("scrambled", nets::scrambled(&nets::random_net("tiny", random), random))
    } else {
        ("of any sort", nets::some_net(random))
    };
    let [limit, refused, other] = [at_limits(), refused(), refused()].map(|nets| random.pick(nets).clone());
    let [first, second] = small;
    [first, second, large, limit, Named::new(any.0, any.1), refused, other]
}

/// Bytes that are refused with each number, with 15 for a net or for none, in range by the low bits of their length.
fn refused() -> &'static [Arc<Named>] {
    static NETS: OnceLock<Vec<Arc<Named>>> = OnceLock::new();
    NETS.get_or_init(|| {
        let none = nets::unreadable().into_iter().chain(nets::unreadable_long());
        let none = none.map(|(refusal, bytes)| Named::new(&format!("no net: {refusal}"), bytes));
        let by_bits = [nets::net_b().bytes(), vec![0; 1 << 16]].concat();
        let long = [("a net of 4,097 bytes", nets::of_bytes(4_097).bytes()), ("B and 65,536 zeros", by_bits)];
        none.chain(long.map(|(name, bytes)| Named::new(name, bytes))).collect()
    })
}

// ------------------------------------------------------------------------------------------------
// Desks that no call left so
// ------------------------------------------------------------------------------------------------

/// Calls on records with anything in them: with each of these counts, and so many at random.
fn rubbish(c: &mut Comparison, random: &mut Random, count: usize) -> Outcome {
    let counts = [0, 1, 63, 64, 65, 100, 128, 164, 255, 256, 4_096, 4_097, 1 << 16, 1 << 32, 1 << 63, u64::MAX];
    for net in a_and_b() {
        for count in counts {
            for (part, stage) in
                [0, 1, 2].into_iter().flat_map(|part| counts.map(|stage| (part, stage.wrapping_sub(1))))
            {
                let mut record = laid_out(&net);
                *[&mut record.used, &mut record.stages, &mut record.layers][part] = count;
                each_call(c, &format!("{}, count {part} is {count}", net.name), &record, (stage, 0))?;
            }
        }
    }
    for number in 0..count {
        let nets = random_nets(random);
        let record = some_record(random.pick(&nets).clone(), random);
        let numbers = (some_number(256, random), some_number(16, random));
        each_call(c, &format!("rubbish {number}"), &record, numbers)?;
        c.desk_of_rubbish(&format!("rubbish {number}"), &record, &Step::Open(random.pick(&nets).clone()))?;
    }
    Ok(())
}

/// Every call but opening, with this stage and layer.
fn each_call(c: &mut Comparison, name: &str, record: &DeskRecord, (stage, layer): (u64, u64)) -> Outcome {
    let calls = [Step::Read, Step::Set(stage, layer), Step::Lock(stage), Step::Unlock(stage)];
    calls.iter().try_for_each(|step| c.desk_of_rubbish(name, record, step))
}

/// Nets A and B.
fn a_and_b() -> [Arc<Named>; 2] {
    [("A", nets::net_a(830).bytes()), ("B", nets::net_b().bytes())].map(|(name, bytes)| Named::new(name, bytes))
}

/// A record with as much of these bytes as it has room for, and with the largest counts.
fn laid_out(net: &Named) -> DeskRecord {
    let mut record = DeskRecord::FRESH;
    let used = net.bytes.len().min(MOST_DESK_NET);
    record.net[..used].copy_from_slice(&net.bytes[..used]);
    [record.used, record.stages, record.layers] = [used, MOST_STAGES, MOST_LAYERS].map(|count| count as u64);
    record
}

/// An open desk with some of its numbers changed, or one with nothing but rubbish.
fn some_record(net: Arc<Named>, random: &mut Random) -> DeskRecord {
    let mut record = laid_out(&net);
    let part = random.below(6);
    let mut number = || if random.one_in(3) { random.next() } else { some_number(70, random) };
    let all = part == 0;
    if all || part == 1 {
        record.used = number();
    }
    if all || part == 2 {
        [record.stages, record.layers] = [number(), number()];
    }
    if all || part == 3 {
        record.net.fill_with(|| number() as u8);
    }
    if all || part == 4 {
        record.plan.fill_with(|| number() as u8);
    }
    if all || part == 5 {
        record.locks.fill_with(|| number() as u8);
    }
    record
}

// ------------------------------------------------------------------------------------------------
// Wrong desks
// ------------------------------------------------------------------------------------------------

/// The most lines of a run that exposes a wrong desk, once it is cut down.
const MOST_LINES: usize = 8;

/// Of so many runs the one is cut down that fails latest: the most is left out there.
const LATEST_OF: usize = 8;

/// So many long random runs, which must expose every wrong desk alone.
pub fn long_runs(seed: u64, count: usize) -> Vec<Run> {
    let mut random = Random::new(seed ^ 0x10);
    (0..count).map(|number| random_run(number, LONG, &mut random)).collect()
}

/// One of these runs that exposes an implementation, cut down; or what is wrong with that.
pub fn exposure<'a>(interface: Interface, runs: &'a [Run]) -> Result<String, String> {
    let mut host = Host::new(interface);
    let mut failing = |run: &'a Run| Some((run, run.fault(&mut host, |_| {})?.place));
    let (first, others) = runs.split_at(LATEST_OF.min(runs.len()));
    let latest = first.iter().filter_map(&mut failing).max_by_key(|(_, place)| *place);
    let (run, place) =
        latest.or_else(|| others.iter().find_map(failing)).ok_or(format!("{} runs passed", runs.len()))?;
    let (short, _) = run.cut(place, &mut host).ok_or(format!("{} did not fail again", run.name))?;
    let lines = short.steps.iter().map(Step::words).collect::<Vec<String>>().join("; ");
    let told = format!("{}: {lines}", short.name);
    if short.steps.len() <= MOST_LINES {
        Ok(told)
    } else {
        Err(format!("more than {MOST_LINES} lines: {told}"))
    }
}
