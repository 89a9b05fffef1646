//! Blocks (02, wish 2): nets put together, blocks made for one purpose, and damaged ones.

use super::damage::{around_longest, rubbish, scrambled, unreadable};
use super::draft::{Draft, LENGTH, MOST_LAYERS, MOST_NODES, MOST_STAGES, VIA};
use super::grown::{cheap, random_net, SMALL_FAMILIES};
use super::named::{costing, crossed, even_line, last_layer_cheapest, line, net_a, net_b, star};
use super::Random;
use crate::plain::MOST_BLOCK;

/// A name and bytes that need not be a block.
type Named = (String, Vec<u8>);

/// The bytes of a field's head.
const HEAD: usize = 3;

/// The block of these nets: a field of tag 6 for each.
pub fn block(nets: &[Vec<u8>]) -> Vec<u8> {
    let field = |net: &Vec<u8>| {
        let length = u16::try_from(net.len()).expect("a net that a field can hold");
        [&[6], &length.to_be_bytes()[..], net].concat()
    };
    nets.iter().flat_map(field).collect()
}

/// The same with a name.
fn named(name: &str, nets: &[Vec<u8>]) -> Named {
    (String::from(name), block(nets))
}

/// For each number that a net of a block can be refused with, a net that is.
fn refused() -> Vec<(u8, Vec<u8>)> {
    let mut nets = unreadable();
    nets.push((11, net_a(229).bytes()));
    nets.push((12, even_line(MOST_STAGES, 4).bytes()));
    nets
}

/// 62 stages, for which the program's table has just 128 columns: at grain 2 they need so many, and `more`.
fn just_served(more: usize) -> Draft {
    let mut draft = line(61, 0);
    for (stage, node) in draft.nodes.iter_mut().enumerate() {
        node.costs = if stage < 3 + more { vec![6, 7] } else { vec![4, 5] };
    }
    draft
}

/// Blocks that meet every line of the report: the example of 02, no nets, every number at once, every layer, the
/// longest block, and 13 in each of its ways.
pub fn every_line() -> Vec<Named> {
    let example = [net_b().bytes(), net_a(229).bytes()];
    let numbers: Vec<Vec<u8>> = refused().into_iter().map(|(_, net)| net).chain([net_b().bytes(), vec![]]).collect();
    let full = block(&filled(MOST_BLOCK, &net_b().bytes()));
    let mut other_tag = block(&example);
    other_tag[0] = 5;
    vec![
        named("B, then A with required time 229", &example),
        (String::from("no nets"), vec![]),
        named("every number at once", &numbers),
        named("every layer", &on_layers()),
        named("both editions", &both_editions()),
        (String::from("65,536 bytes"), full.clone()),
        (String::from("a byte beyond 65,536"), [&full[..], &[6]].concat()),
        named("65,537 bytes", &filled(MOST_BLOCK + 1, &net_b().bytes())),
        named("200,000 bytes", &filled(200_000, &net_b().bytes())),
        (String::from("another tag"), other_tag),
        (String::from("cut short"), full[..full.len() - 1].to_vec()),
    ]
}

/// Nets with and without vias, one after the other: met, just met, late by the vias, refused with 2 and with 3.
fn both_editions() -> Vec<Vec<u8>> {
    let with = |vias: [i64; 2], draft: Draft| draft.with_vias(&vias).bytes();
    let mut wrong_tag = net_b().bytes();
    wrong_tag[0] = 7;
    vec![
        net_b().bytes(),
        with([0, 2], net_b()),
        net_a(310).bytes(),
        with([0, 2], net_a(310)),
        with([0, 2], net_a(309)),
        with([0, 0], net_a(309)),
        wrong_tag,
        with([VIA.1, VIA.1 + 1], net_b()),
        net_b().bytes(),
    ]
}

/// A net for each layer that takes it for all its stages, with as many layers as it takes for that, of another length
/// each.
fn on_layers() -> Vec<Vec<u8>> {
    let on = |layer: usize| {
        let mut draft = line(1, 1);
        draft.layers = vec![(1, 1); layer + 1];
        for node in &mut draft.nodes {
            node.length = 1 + layer as i64;
            node.costs = (0..=layer).map(|other| if other == layer { 1 } else { 9 }).collect();
        }
        draft.bytes()
    };
    (0..MOST_LAYERS).map(on).collect()
}

/// Nets for a block of just so many bytes: the net, again and again, and one of zeros to fill it up.
fn filled(length: usize, net: &[u8]) -> Vec<Vec<u8>> {
    let times = (length - HEAD) / (HEAD + net.len());
    let rest = length - HEAD - times * (HEAD + net.len());
    [vec![net.to_vec(); times], vec![vec![0; rest]]].concat()
}

/// The same blocks every time: those of every line, nets that differ, blocks at the limits, and damaged ones.
pub fn fixed() -> Vec<Named> {
    let mut blocks = every_line();
    for (number, net) in refused() {
        let (b, net) = (net_b().bytes(), || net.clone());
        blocks.push(named(&format!("refused with {number}"), &[net()]));
        blocks.push(named(&format!("B, refused with {number} twice, B"), &[b.clone(), net(), net(), b]));
    }
    blocks.push(named("B, a net of no bytes, B", &[net_b().bytes(), vec![], net_b().bytes()]));
    blocks.push(named("a net of no bytes", &[vec![]]));
    blocks.push(named("trees", &[crossed(), star(3), star(9), line(5, 7)].map(|draft| draft.bytes())));
    let mut random = Random::new(6);
    let small: Vec<Vec<u8>> =
        (0..90).map(|number| random_net(SMALL_FAMILIES[number % 3], &mut random).bytes()).collect();
    blocks.push(named("90 small nets", &small));
    for more in 0..=1 {
        blocks.push(named(&format!("62 stages, 128 columns and {more}"), &[just_served(more).bytes()]));
    }
    blocks.extend(at_limits());
    blocks.extend(around_most());
    blocks.extend(damaged(&[net_b().bytes(), vec![], net_a(830).bytes()]));
    blocks
}

/// Blocks with as many nets, as large costs and as much wire as there can be.
fn at_limits() -> Vec<Named> {
    let empty = MOST_BLOCK / HEAD;
    let mut dearest = costing(255_000_000);
    dearest.layers.truncate(1);
    for node in &mut dearest.nodes {
        node.length = LENGTH.1;
        node.costs.truncate(1);
    }
    let dearest = dearest.bytes();
    vec![
        named(&format!("{empty} nets of no bytes"), &vec![vec![]; empty]),
        named("64 stages that are served", &[line(MOST_STAGES - 1, 0).bytes()]),
        named("a cost beyond 32 bits", &vec![dearest.clone(); MOST_BLOCK / (HEAD + dearest.len())]),
    ]
}

/// Blocks of nets as large as they can be: those of up to 29 stages are always served, those of 64 with so many edges
/// never.
pub fn large() -> Vec<Named> {
    let mut random = Random::new(7);
    let mut of_stages = |stages: usize| {
        let nets = [(); 3].map(|_| cheap(&mut random, [stages, MOST_LAYERS, MOST_NODES]).bytes());
        named(&format!("three nets of {stages} stages, 16 layers, 255 nodes"), &nets)
    };
    let grown = [1, 29, MOST_STAGES].map(&mut of_stages);
    let cheapest = named("64 stages, the last layer the cheapest", &[last_layer_cheapest().bytes()]);
    let longest = around_longest().into_iter().map(|(name, bytes)| named(&name, &[net_b().bytes(), bytes]));
    grown.into_iter().chain([cheapest]).chain(longest).collect()
}

/// Blocks of about 65,536 bytes and much longer ones, whole but for their length.
fn around_most() -> Vec<Named> {
    let mut blocks = vec![];
    for length in [MOST_BLOCK, MOST_BLOCK + 1] {
        blocks.push(named(&format!("{length} bytes of nets of no bytes"), &filled(length, &[])));
    }
    blocks.push(named("one net of 65,533 bytes", &[vec![0; MOST_BLOCK - HEAD]]));
    blocks.push(named("one net of 65,535 bytes", &[vec![0; MOST_BLOCK - 1]]));
    blocks.push(named("one net of 40,000 bytes", &[[net_b().bytes(), vec![0; 40_000]].concat()]));
    let b = block(&[net_b().bytes()]);
    for times in [1, 2] {
        // Its low 16 bits are the length of a block of one net.
        let longer = block(&filled(times * MOST_BLOCK, &[]));
        blocks.push((format!("{times} x 65,536 bytes after B"), [&b[..], &longer].concat()));
    }
    blocks
}

/// A block with each of its fields of another tag, cut at each length, lengthened, and with other lengths in its heads.
fn damaged(nets: &[Vec<u8>]) -> Vec<Named> {
    let whole = block(nets);
    let mut blocks = vec![];
    for length in 0..whole.len() {
        blocks.push((format!("cut to {length} bytes"), whole[..length].to_vec()));
    }
    for tail in [&[6][..], &[0], &[10], &[6, 0], &[6, 0, 1], &[6, 0, 2, 1], &[5, 0, 0], &[14, 0, 0], &[6, 0, 0]] {
        blocks.push((format!("followed by {tail:02x?}"), [&whole[..], tail].concat()));
    }
    for place in 0..nets.len() {
        let at = block(&nets[..place]).len();
        for tag in [0, 1, 2, 5, 7, 14, 22, 134, 255] {
            let mut block = whole.clone();
            block[at] = tag;
            blocks.push((format!("field {place} of tag {tag}"), block));
        }
        for change in [-256, -3, -1, 1, 3, 256] {
            blocks.push((format!("field {place} with a length off by {change}"), lengthened(&whole, at, change)));
        }
    }
    blocks
}

/// The length in the head at a place changed, modulo 2^16.
fn lengthened(whole: &[u8], at: usize, change: i16) -> Vec<u8> {
    let mut block = whole.to_vec();
    let length = u16::from_be_bytes([block[at + 1], block[at + 2]]).wrapping_add_signed(change);
    block[at + 1..at + HEAD].copy_from_slice(&length.to_be_bytes());
    block
}

/// A net of any sort: whole, refused with some number, scrambled, cut, empty, or never a net.
pub fn some_net(random: &mut Random) -> Vec<u8> {
    let family = *random.pick(SMALL_FAMILIES);
    match random.below(8) {
        0 => random.pick(&refused()).1.clone(),
        1 => scrambled(&random_net(family, random), random),
        2 => rubbish(random),
        3 if random.one_in(2) => vec![],
        3 => {
            let whole = random_net(family, random).bytes();
            whole[..random.below(whole.len())].to_vec()
        }
        _ => random_net(family, random).bytes(),
    }
}

/// A random block, one in four of them damaged.
pub fn random_block(random: &mut Random) -> Named {
    let most = *random.pick(&[2, 6, 6, 20]);
    let nets: Vec<Vec<u8>> = (0..random.below(most + 1)).map(|_| some_net(random)).collect();
    let whole = block(&nets);
    let name = format!("{} nets", nets.len());
    if nets.is_empty() || !random.one_in(4) {
        return (name, whole);
    }
    let place = random.below(nets.len());
    let (at, payload) = (block(&nets[..place]).len(), nets[place].len());
    let (how, damaged) = match random.below(5) {
        0 => {
            let mut block = whole;
            block[at] = random.next() as u8;
            ("another tag", block)
        }
        1 => ("cut in the head", whole[..at + 1 + random.below(HEAD - 1)].to_vec()),
        2 => ("cut in the payload", whole[..at + HEAD + random.below(payload.max(1))].to_vec()),
        3 => ("another length", lengthened(&whole, at, random.between(-300, 300) as i16)),
        _ => ("bytes behind", [&whole[..], &vec![6; 1 + random.below(4)]].concat()),
    };
    (format!("{name}, field {place}: {how}"), damaged)
}
