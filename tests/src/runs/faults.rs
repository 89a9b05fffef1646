//! Damaged nets and blocks for `nets/hex.py explain`: what an implementation answers for each, and where the fault is,
//! as its answers for parts of the same bytes tell it.

use super::limits::shapes;
use super::reading::to_damage;
use crate::compare::hex;
use crate::host::Host;
use crate::nets::{self, Random};

/// Bytes that are read as a net, or as a block.
pub enum Input {
    Net(Vec<u8>),
    Block(Vec<u8>),
}

/// So many inputs: the same ones first, then random ones.
pub fn for_explaining(seed: u64, count: usize) -> Vec<Input> {
    let mut random = Random::new(seed);
    let mut inputs = fixed();
    while inputs.len() < count {
        inputs.extend(some_nets(&mut random).into_iter().map(Input::Net));
        inputs.push(Input::Block(nets::random_block(&mut random).1));
    }
    inputs.truncate(count);
    inputs
}

/// Nets with every damage, at the limits and beyond; and blocks.
fn fixed() -> Vec<Input> {
    let mut random = Random::new(1);
    let mut fixed = [nets::layer_counts(), nets::heads(), nets::lines_around_limits(), nets::long()].concat();
    // Large nets, and many of them are much alike.
    fixed.extend(nets::too_many().into_iter().step_by(5));
    for (_, draft) in to_damage() {
        fixed.extend(nets::damaged(&draft, &mut random, 200));
        fixed.extend(nets::bits_turned(&draft));
    }
    for (name, draft) in shapes(&mut Random::new(2)) {
        fixed.push((name, draft.bytes()));
        fixed.extend(nets::some_damaged(&draft, &mut random, 4));
    }
    let nets = fixed.into_iter().map(|(_, bytes)| Input::Net(bytes));
    nets.chain(nets::fixed_blocks().into_iter().map(|(_, bytes)| Input::Block(bytes))).collect()
}

/// A random net, whole and with some of its damages, and bytes that were never a net.
fn some_nets(random: &mut Random) -> Vec<Vec<u8>> {
    let family = *random.pick(nets::SMALL_FAMILIES);
    let draft = nets::random_net(family, random);
    let damaged = nets::some_damaged(&draft, random, 20).into_iter().map(|(_, bytes)| bytes);
    let mut nets: Vec<Vec<u8>> = damaged.chain([draft.bytes()]).collect();
    nets.extend([nets::scrambled(&draft, random), nets::rubbish(random)]);
    nets
}

/// What is answered for an input, as a line for `.ci/faults`:
///
///     net 0 NODES STAGES LAYERS BYTES     it is accepted, with these counts
///     net R FIELD SETTLED NUMBER BYTES    it is refused with R, in the place of `Place`; - for what is not known
///     block R NETS N1 .. N6 BYTES         0, and how many nets there are, refused with 1, to 6; or 13 and zeros
pub fn line(host: &mut Host, input: &Input) -> String {
    match input {
        Input::Net(bytes) => {
            let checked = host.check(bytes);
            let numbers = match checked.refusal {
                0 => [checked.nodes, checked.stages, checked.layers].map(|count| count.to_string()),
                refusal => Place::new(host, bytes, refusal).words(),
            };
            format!("net {} {} {}", checked.refusal, numbers.join(" "), hex(bytes))
        }
        Input::Block(bytes) => {
            let totals = host.report(bytes);
            let refused = totals.refused[1..=6].iter().map(|count| count.to_string()).collect::<Vec<String>>();
            format!("block {} {} {} {}", totals.refusal, totals.nets, refused.join(" "), hex(bytes))
        }
    }
}

/// Where the fault of a net is, as far as answers tell it.
#[derive(Default)]
struct Place {
    /// Where its field begins: there ends the longest cut before the fault that is accepted or refused with 6. It is
    /// not known in the layers and driver fields, which are due in every cut.
    field: Option<usize>,
    /// For 2 to 5: from how many bytes on the answer is this one, whatever follows. There ends the head that has the
    /// fault (2), or the field.
    settled: Option<usize>,
    /// For 3: a byte of the first number out of range. If the field goes on harmlessly from it, the answer is another.
    number: Option<usize>,
}

impl Place {
    fn new(host: &mut Host, bytes: &[u8], refusal: u8) -> Place {
        let mut answer = |bytes: &[u8]| host.check(bytes).refusal;
        let end = match refusal {
            1 => bytes.len(),
            2..=5 => {
                let cuts: Vec<usize> = (0..=bytes.len()).collect();
                cuts.partition_point(|&cut| answer(&bytes[..cut]) != refusal)
            }
            _ => return Place::default(),
        };
        let field = (0..end).rev().find(|&cut| [0, 6].contains(&answer(&bytes[..cut])));
        let shows = |from: &usize| answer(&harmless_from(*from, &bytes[..end])) == 3;
        let number = if refusal == 3 { (0..=end).rev().take_while(shows).last().map(|from| from - 1) } else { None };
        Place { field, settled: (refusal > 1).then_some(end), number }
    }

    fn words(self) -> [String; 3] {
        [self.field, self.settled, self.number].map(|byte| byte.map_or(String::from("-"), |byte| byte.to_string()))
    }
}

/// Bytes up to the end of a field, from some byte on 00 01 again and again. As numbers of two, four or eight bytes
/// these are 1, 65,537 and 281,479,271,743,489, within the range of every number of that width; no width is odd.
fn harmless_from(from: usize, bytes: &[u8]) -> Vec<u8> {
    let end = bytes.len();
    bytes[..from].iter().copied().chain((from..end).map(|place| ((end - place) % 2) as u8)).collect()
}

/// What must be among the lines, and how often it is: nets of each edition with each answer, blocks that are none, and
/// blocks of nets with each refusal.
pub fn met(lines: &[String]) -> Vec<(String, usize)> {
    let often = |holds: &dyn Fn(&[&str], &str) -> bool| {
        let words = lines.iter().map(|line| line.split(' ').collect::<Vec<&str>>());
        words.filter(|words| holds(&words[..words.len() - 1], words[words.len() - 1])).count()
    };
    let mut met = vec![];
    for (tag, refusal) in ["01", "07"].into_iter().flat_map(|tag| (0..=6).map(move |refusal| (tag, refusal))) {
        let number = refusal.to_string();
        let nets = often(&|words, hex| words[0] == "net" && words[1] == number && hex.starts_with(tag));
        met.push((format!("nets that begin with {tag}, answered with {refusal}"), nets));
    }
    met.push((String::from("no blocks, answered with 13"), often(&|words, _| words[..2] == ["block", "13"])));
    for refusal in 1..=6 {
        let blocks = often(&|words, _| words[0] == "block" && words[2 + refusal] != "0");
        met.push((format!("blocks with nets refused with {refusal}"), blocks));
    }
    met
}
