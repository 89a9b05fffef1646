//! Damaged nets.

use super::draft::{Draft, Kind, Node, Place, Role, MOST_LAYERS, VIA};
use super::named::{line, longest, net_a, net_b, varied_line};
use super::Random;

/// Bytes to be written over others.
#[derive(Clone)]
pub struct Edit {
    pub what: String,
    at: usize,
    bytes: Vec<u8>,
}

impl Edit {
    fn new(what: String, place: &Place, value: i128) -> Edit {
        let bytes = value.to_be_bytes()[16 - place.width..].to_vec();
        Edit { what, at: place.at, bytes }
    }

    pub fn apply(&self, net: &mut [u8]) {
        for (place, byte) in self.bytes.iter().enumerate() {
            if self.at + place < net.len() {
                net[self.at + place] = *byte;
            }
        }
    }
}

/// Every single fault (and some harmless change) that writes over one number of a whole net.
pub fn edits(draft: &Draft) -> Vec<Edit> {
    let (bytes, places) = draft.written();
    let mut edits = vec![];
    for place in &places {
        let old = bytes[place.at..place.at + place.width].iter().fold(0i128, |n, &byte| n * 256 + byte as i128);
        let values: Vec<i128> = match place.role {
            Role::Tag => vec![0, 1, 2, 3, 4, 5, 6, 7, 8, 255],
            Role::Length => {
                let near = [-6, -4, -2, -1, 1, 2, 4, 6, 12, 256].map(|change| old + change);
                [&[0, 1, 4, 6, 12, 16, 60, 64, 65, 66, 68, 90, 96, 97, 102, 65_535], &near[..]].concat()
            }
            Role::Parent => parents_to_try(draft, place.field - 1),
            Role::Number { low, high } => {
                let (low, high) = (low as i128, high as i128);
                let widest = (1i128 << (8 * place.width - 1)) - 1;
                vec![low - 1, low, low + 1, high - 1, high, high + 1, -1, -2, widest, widest + 1, high + (1 << 16), 0]
            }
        };
        let role = match place.role {
            Role::Tag => "tag",
            Role::Length => "length",
            Role::Parent => "parent",
            Role::Number { .. } => "number",
        };
        for value in values {
            let what = format!("{role} {value} at byte {}", place.at);
            edits.push(Edit::new(what, place, value));
        }
    }
    edits
}

/// For a node: its own number, higher ones, every lower one (among them sinks and those that have two children).
fn parents_to_try(draft: &Draft, number: usize) -> Vec<i128> {
    let mut parents: Vec<i128> = (0..=draft.nodes.len() as i128 + 1).collect();
    parents.retain(|&parent| parent <= number as i128 + 2 || parent >= draft.nodes.len() as i128);
    parents.extend([255, 256, 257, 256 + number as i128 - 1, 65_535]);
    parents
}

/// Net B with a change.
pub fn changed_b(change: impl Fn(&mut Draft)) -> Vec<u8> {
    let mut draft = net_b();
    change(&mut draft);
    draft.bytes()
}

/// For each of the refusals 1 to 6 a net that has it.
pub fn unreadable() -> Vec<(u8, Vec<u8>)> {
    let whole = net_b().bytes();
    let of_tag = |tag: u8| [&[tag], &whole[1..]].concat();
    vec![
        (1, whole[..whole.len() - 1].to_vec()),
        (2, of_tag(9)),
        // 8 bytes are no layers with vias.
        (2, of_tag(7)),
        (3, changed_b(|draft| draft.nodes[1].costs[1] = 0)),
        (3, changed_b(|draft| draft.vias = Some(vec![0, VIA.1 + 1]))),
        (4, line(64, 0).bytes()),
        (5, changed_b(|draft| draft.nodes[1].parent = 2)),
        (6, changed_b(|draft| draft.nodes.truncate(1))),
    ]
}

/// The same with nets that a desk does not take: above 4,096 bytes.
pub fn unreadable_long() -> Vec<(u8, Vec<u8>)> {
    let long = || varied_line(63, 0, MOST_LAYERS, false);
    let changed = |change: fn(&mut Node)| {
        let mut draft = long();
        draft.nodes.last_mut().into_iter().for_each(change);
        draft.bytes()
    };
    let whole = long().bytes();
    let childless = Draft { nodes: long().nodes[..60].to_vec(), ..long() };
    vec![
        (1, whole[..whole.len() - 1].to_vec()),
        (2, [&[9], &whole[1..]].concat()),
        (3, changed(|node| node.costs[1] = 0)),
        (4, changed(|node| node.kind = Kind::Buffer { capacitance: 1, resistance: 1, intrinsic: 1 })),
        (5, changed(|node| node.parent = 100)),
        (6, childless.bytes()),
    ]
}

/// A name and bytes that need not be a net.
type Named = (String, Vec<u8>);

/// One net with each of its single faults, cut at each length, lengthened, and with several faults at once.
pub fn damaged(draft: &Draft, random: &mut Random, several: usize) -> Vec<Named> {
    let whole = draft.bytes();
    let mut nets = vec![];
    for length in 0..whole.len() {
        nets.push((format!("cut to {length} bytes"), whole[..length].to_vec()));
    }
    for tail in tails(draft) {
        nets.push((format!("followed by {tail:02x?}"), [&whole[..], &tail].concat()));
    }
    let edits = edits(draft);
    for edit in &edits {
        let mut net = whole.clone();
        edit.apply(&mut net);
        // A wrong length shows also where the payload is gone.
        if edit.what.starts_with("length") || edit.what.starts_with("tag") {
            nets.push((format!("{}, cut after it", edit.what), net[..(edit.at + 3).min(net.len())].to_vec()));
        }
        nets.push((edit.what.clone(), net));
    }
    nets.extend((0..several).map(|_| several_edits(&whole, &edits, random)));
    nets.extend((0..several).map(|_| two_edits_near(draft, &edits, random)));
    nets.extend(records_dropped(draft));
    nets
}

/// So many damaged nets of one: with a single fault, two in the same record, or several anywhere.
pub fn some_damaged(draft: &Draft, random: &mut Random, count: usize) -> Vec<Named> {
    let (whole, edits) = (draft.bytes(), edits(draft));
    let single = |random: &mut Random| {
        let (edit, mut net) = (random.pick(&edits), whole.clone());
        edit.apply(&mut net);
        (edit.what.clone(), net)
    };
    let one = |_| match random.below(4) {
        0 => several_edits(&whole, &edits, random),
        1 => two_edits_near(draft, &edits, random),
        _ => single(random),
    };
    (0..count).map(one).collect()
}

/// Some edits anywhere, and sometimes a cut.
fn several_edits(whole: &[u8], edits: &[Edit], random: &mut Random) -> Named {
    let mut net = whole.to_vec();
    let mut what = String::from("several:");
    for _fault in 0..random.between(2, 4) {
        let edit = random.pick(edits);
        what += &format!(" {};", edit.what);
        edit.apply(&mut net);
    }
    if random.one_in(3) {
        let length = random.below(net.len() + 1);
        what += &format!(" cut to {length} bytes");
        net.truncate(length);
    }
    (what, net)
}

/// Two edits in the same node record: the order 3, 5 and the order of the bytes.
fn two_edits_near(draft: &Draft, edits: &[Edit], random: &mut Random) -> Named {
    let (mut net, places) = draft.written();
    let field = random.between(2, draft.nodes.len() as i64 + 1) as usize;
    let here: Vec<usize> = places.iter().filter(|place| place.field == field).map(|place| place.at).collect();
    let near: Vec<&Edit> = edits.iter().filter(|edit| here.contains(&edit.at)).collect();
    let (one, two) = (*random.pick(&near), *random.pick(&near));
    one.apply(&mut net);
    two.apply(&mut net);
    (format!("both: {}; {}", one.what, two.what), net)
}

/// One net with each of its bits turned.
pub fn bits_turned(draft: &Draft) -> Vec<Named> {
    let whole = draft.bytes();
    let turned = |bit: usize| {
        let mut net = whole.clone();
        net[bit / 8] ^= 1 << (bit % 8);
        (format!("bit {} of byte {} turned", bit % 8, bit / 8), net)
    };
    (0..8 * whole.len()).map(turned).collect()
}

/// What may follow a whole net.
fn tails(draft: &Draft) -> Vec<Vec<u8>> {
    let layers = draft.layers.len();
    let steiner = (4 + 4 * layers) as u8;
    let sink = steiner + 12;
    let payload = |length: u8| vec![0; length as usize];
    vec![
        vec![0],
        vec![10],
        vec![5],
        vec![255],
        vec![3, 0],
        vec![9, 9],
        vec![0, 0, 0],
        vec![1, 0, 4],
        vec![7, 0, 6],
        vec![2, 0, 16],
        vec![3, 0, steiner],
        vec![4, 0, sink],
        vec![5, 0, sink],
        vec![5, 0, steiner],
        vec![5, 1, sink],
        vec![6, 0, steiner],
        [vec![3, 0, steiner], payload(steiner - 1)].concat(),
        [vec![3, 0, steiner], payload(steiner)].concat(),
        [vec![5, 0, sink], payload(sink)].concat(),
        draft.bytes(),
    ]
}

/// Records left out, put twice, exchanged, and of another kind: childless nodes, moved numbers.
fn records_dropped(draft: &Draft) -> Vec<Named> {
    let mut nets = vec![];
    for place in 0..draft.nodes.len() {
        let mut fewer = draft.clone();
        fewer.nodes.remove(place);
        nets.push((format!("without node {}", place + 1), fewer.bytes()));
        let mut more = draft.clone();
        more.nodes.insert(place, draft.nodes[place].clone());
        nets.push((format!("node {} twice", place + 1), more.bytes()));
        for kind in [
            Kind::Steiner,
            Kind::Buffer { capacitance: 1, resistance: 2, intrinsic: 3 },
            Kind::Sink { capacitance: 1, required: 5 },
        ] {
            let mut other = draft.clone();
            other.nodes[place].kind = kind;
            nets.push((format!("node {} of another kind", place + 1), other.bytes()));
        }
        if place > 0 {
            let mut swapped = draft.clone();
            swapped.nodes.swap(place - 1, place);
            nets.push((format!("nodes {} and {} exchanged", place, place + 1), swapped.bytes()));
        }
    }
    let mut alone = draft.clone();
    alone.nodes.clear();
    nets.push((String::from("layers and driver alone"), alone.bytes()));
    nets
}

/// Lines at the limits of nodes and buffers, and beyond.
pub fn lines_around_limits() -> Vec<Named> {
    let lines = [(0, 253), (0, 254), (0, 255), (0, 256), (62, 0), (63, 0), (63, 10), (63, 191), (63, 192)];
    let named = |(buffers, steiner)| {
        let name = format!("a line of {buffers} buffers, {steiner} Steiner points, 1 sink");
        (name, line(buffers, steiner).bytes())
    };
    lines.into_iter().chain([(64, 0), (64, 10), (65, 0)]).map(named).collect()
}

/// Lines at the limits of nodes and buffers, and one record beyond, whole and with a further fault in that record.
pub fn too_many() -> Vec<Named> {
    let mut nets = lines_around_limits();
    let buffer = Kind::Buffer { capacitance: 1, resistance: 1, intrinsic: 1 };
    let sink = Kind::Sink { capacitance: 1, required: 1 };
    nets.extend(one_more("64th buffer", line(63, 0), buffer.clone()));
    nets.extend(one_more("Steiner point after the 63rd buffer", line(63, 0), Kind::Steiner));
    nets.extend(one_more("256th node, a sink", line(0, 254), sink));
    nets.extend(one_more("256th node, a Steiner point", line(0, 254), Kind::Steiner));
    nets.extend(one_more("256th node and 64th buffer", line(63, 191), buffer));
    nets
}

/// A line with one more node, whole, cut, and with each fault in its record. The driver has room for a second child.
fn one_more(name: &str, base: Draft, kind: Kind) -> Vec<Named> {
    let start = base.bytes().len();
    let mut beyond = base;
    beyond.nodes.push(Node { parent: 0, length: 1, costs: vec![1, 2], kind });
    let bytes = beyond.bytes();
    // A fault further on is not met.
    let mut nets =
        vec![(String::from(name), bytes.clone()), (format!("{name}, rubbish"), [&bytes[..], &[9, 9, 9]].concat())];
    for length in start..bytes.len() {
        nets.push((format!("{name}, cut to {length} bytes"), bytes[..length].to_vec()));
    }
    for edit in edits(&beyond).iter().filter(|edit| edit.at >= start) {
        let mut net = bytes.clone();
        edit.apply(&mut net);
        nets.push((format!("{name}, {}", edit.what), net));
    }
    nets
}

/// Whole nets with a long tail: the first fault is met all the same, also where a length of 16 bits would end the net.
pub fn long() -> Vec<Named> {
    let mut nets = vec![];
    for (name, net) in [("A", net_a(830).bytes()), ("a line of 255 nodes", line(63, 191).bytes())] {
        for tail in [65_535, 65_536, 65_537, 100_000] {
            nets.push((format!("{name} and {tail} zeros"), [&net[..], &vec![0; tail]].concat()));
        }
    }
    nets.extend(around_longest());
    nets
}

/// The longest net, whole, and with a 256th node that is cut by so many bytes: no first fault lies further on.
pub fn around_longest() -> Vec<Named> {
    let mut draft = longest();
    let whole = draft.bytes();
    assert_eq!(whole.len(), 20_515, "the longest net");
    let kind = Kind::Sink { capacitance: 1, required: 1 };
    draft.nodes.push(Node { parent: 0, length: 1, costs: vec![1; MOST_LAYERS], kind });
    let beyond = draft.bytes();
    let cut = |less: usize| (format!("256 nodes, cut by {less} bytes"), beyond[..beyond.len() - less].to_vec());
    let cuts = [0, 1, 31, 32, 33].map(cut);
    let rubbish = (String::from("256 nodes, rubbish"), [&beyond[..], &[9, 9, 9]].concat());
    [(String::from("the longest net"), whole), rubbish].into_iter().chain(cuts).collect()
}

/// Where the layers field, the driver field and a node field are due: each tag, with the head cut or whole and no payload.
pub fn heads() -> Vec<Named> {
    let net = net_a(830).bytes();
    let (layers, driver) = (11, 11 + 19);
    let mut nets = vec![];
    for (due, front, lengths) in [
        ("layers", 0, &[8, 6, 12][..]),
        ("driver", layers, &[16, 12]),
        ("a node", driver, &[24]),
        ("no more", net.len(), &[24]),
    ] {
        for tag in 0..=255 {
            let whole = lengths.iter().map(|&length| vec![tag, 0, length]);
            for head in [vec![tag], vec![tag, 0]].into_iter().chain(whole) {
                nets.push((format!("where {due} is due: {head:02x?}"), [&net[..front], &head].concat()));
            }
        }
    }
    nets
}

/// Layers fields of either edition and every count from 0 to 18, with no node, and one sink that fits.
pub fn layer_counts() -> Vec<Named> {
    let mut nets = vec![];
    for (count, vias) in (0..=18).flat_map(|count| [(count, None), (count, Some(vec![1; count]))]) {
        let name = format!("{count} layers{}", if vias.is_some() { " with vias" } else { "" });
        let mut draft = net_a(830);
        draft.layers = vec![(2, 3); count];
        draft.vias = vias;
        draft.nodes[0].costs = vec![7; count];
        nets.push((name.clone(), draft.bytes()));
        draft.nodes[0].costs = vec![7; count + 1];
        nets.push((format!("{name}, a cost too many"), draft.bytes()));
        draft.nodes.clear();
        nets.push((format!("{name} and no node"), draft.bytes()));
    }
    nets
}

/// Bytes that were never a net.
pub fn rubbish(random: &mut Random) -> Vec<u8> {
    let length = random.below(80);
    let mut bytes: Vec<u8> = (0..length).map(|_| random.next() as u8).collect();
    // Often the beginning of one.
    if random.one_in(2) {
        let whole = if random.one_in(2) { net_b() } else { net_b().with_vias(&[0, 2]) }.bytes();
        let kept = random.below(whole.len());
        bytes = [&whole[..kept], &bytes].concat();
    }
    bytes
}

/// A few random bytes of a net set to random values.
pub fn scrambled(draft: &Draft, random: &mut Random) -> Vec<u8> {
    let mut bytes = draft.bytes();
    for _change in 0..random.between(1, 3) {
        let at = random.below(bytes.len());
        bytes[at] = if random.one_in(2) { random.next() as u8 } else { bytes[at] ^ (1 << random.below(8)) };
    }
    bytes
}
