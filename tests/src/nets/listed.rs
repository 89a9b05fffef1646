//! Damaged nets in records (02, wish 9).

use super::draft::{Draft, Kind, Node, COST, GATE, INTRINSIC, LENGTH, TIME, UNIT, VIA};
use super::named::{line, net_a, net_b};
use super::Random;
use crate::c_calls::{Layer, BUFFER, DRIVER, SINK};
use crate::lists::Lists;

/// A name and lists that need not be a net.
type Named = (String, Lists);

/// A number of the lists: of a layer or a node by its place in the record, or a cost.
#[derive(Clone, Copy, Debug)]
enum Spot {
    Layer(usize, usize),
    Node(usize, usize),
    Cost(usize),
}

/// The places of a node's numbers.
const KIND: usize = 0;
const PARENT: usize = 1;
const TIME_PLACE: usize = 6;

/// The range of a number, by its place in the record. Kind and parent have none.
const LAYER_RANGES: [(i64, i64); 3] = [UNIT, UNIT, VIA];
const NODE_RANGES: [(i64, i64); 7] = [(0, 0), (0, 0), LENGTH, GATE, GATE, INTRINSIC, TIME];

impl Spot {
    fn read(self, lists: &Lists) -> u64 {
        match self {
            Spot::Layer(layer, place) => {
                let Layer { unit_res, unit_cap, via_res } = lists.layers[layer];
                [unit_res, unit_cap, via_res][place]
            }
            Spot::Node(node, place) => {
                let node = lists.nodes[node];
                let numbers = [node.kind, node.parent, node.length, node.input_cap, node.gate_res, node.intrinsic];
                numbers.get(place).copied().unwrap_or(node.time as u64)
            }
            Spot::Cost(place) => lists.costs[place],
        }
    }

    /// Writes there, if the lists are still so long.
    fn write(self, lists: &mut Lists, value: u64) {
        match self {
            Spot::Layer(layer, place) => {
                let Some(layer) = lists.layers.get_mut(layer) else { return };
                *[&mut layer.unit_res, &mut layer.unit_cap, &mut layer.via_res][place] = value;
            }
            Spot::Node(node, TIME_PLACE) => {
                lists.nodes.iter_mut().skip(node).take(1).for_each(|node| node.time = value as i64)
            }
            Spot::Node(node, place) => {
                let Some(node) = lists.nodes.get_mut(node) else { return };
                let (parent, length, input) = (&mut node.parent, &mut node.length, &mut node.input_cap);
                *[&mut node.kind, parent, length, input, &mut node.gate_res, &mut node.intrinsic][place] = value;
            }
            Spot::Cost(place) => lists.costs.iter_mut().skip(place).take(1).for_each(|cost| *cost = value),
        }
    }

    /// What is tried there: the ends of its range and what lies beyond, the ends of 64 bits, and the number that stands
    /// there with one more high bit.
    fn values(self, lists: &Lists) -> Vec<u64> {
        let old = self.read(lists);
        let high_bits = [8, 16, 32, 63].map(|bit| old ^ (1 << bit));
        let (low, high) = match self {
            Spot::Node(_, KIND) => return [&[0, 1, 2, 3, 4, 5, 6, 7, u64::MAX], &high_bits[..]].concat(),
            Spot::Node(node, PARENT) => {
                let (node, all) = (node as u64, lists.nodes.len() as u64);
                let lower = (0..node.min(12)).chain(node.saturating_sub(3)..node + 3);
                return lower.chain([all, 255, 256, 257, 65_535, 70_000, u64::MAX]).chain(high_bits).collect();
            }
            Spot::Layer(_, place) => LAYER_RANGES[place],
            Spot::Node(_, place) => NODE_RANGES[place],
            Spot::Cost(_) => COST,
        };
        let ends = [low.wrapping_sub(1), low, high, high + 1, 0, -1, i64::MIN, i64::MAX].map(|value| value as u64);
        [&ends[..], &high_bits].concat()
    }
}

/// Every number of the lists.
fn spots(lists: &Lists) -> Vec<Spot> {
    let layers = (0..lists.layers.len()).flat_map(|layer| (0..3).map(move |place| Spot::Layer(layer, place)));
    let nodes = (0..lists.nodes.len()).flat_map(|node| (0..7).map(move |place| Spot::Node(node, place)));
    layers.chain(nodes).chain((0..lists.costs.len()).map(Spot::Cost)).collect()
}

/// Another number in a spot.
#[derive(Clone)]
struct Edit {
    spot: Spot,
    value: u64,
}

impl Edit {
    fn apply(&self, lists: &mut Lists) {
        self.spot.write(lists, self.value);
    }

    fn words(&self) -> String {
        match self.spot {
            Spot::Node(node, TIME_PLACE) => format!("time {} of node {node}", self.value as i64),
            spot => format!("{} at {spot:?}", self.value),
        }
    }

    /// The node whose record or row it changes; none for a layer.
    fn node(&self, layers: usize) -> Option<usize> {
        match self.spot {
            Spot::Layer(..) => None,
            Spot::Node(node, _) => Some(node),
            Spot::Cost(place) => Some(1 + place / layers),
        }
    }
}

fn edits(lists: &Lists) -> Vec<Edit> {
    let of = |spot: Spot| spot.values(lists).into_iter().map(move |value| Edit { spot, value });
    spots(lists).into_iter().flat_map(of).collect()
}

/// A layer that is good, or one that is not.
const GOOD: Layer = Layer { unit_res: 3, unit_cap: 2, via_res: 1 };
const BAD: Layer = Layer { unit_res: 0, ..GOOD };

/// Lists of other lengths. With a cost for each layer and node, or not.
const SHAPES: &[(&str, fn(&mut Lists))] = &[
    ("a cost too many", |lists| lists.costs.push(7)),
    ("a cost too few", |lists| _ = lists.costs.pop()),
    ("a row too many", |lists| lists.costs.extend(vec![7; lists.layers.len()])),
    ("a row too few", |lists| lists.costs.truncate(lists.costs.len().saturating_sub(lists.layers.len()))),
    ("a bad cost too many", |lists| lists.costs.push(0)),
    ("no costs", |lists| lists.costs.clear()),
    ("twice the costs", |lists| lists.costs.extend(lists.costs.clone())),
    ("a layer too many", |lists| lists.layers.push(GOOD)),
    ("a bad layer too many", |lists| lists.layers.push(BAD)),
    ("a layer too few", |lists| _ = lists.layers.pop()),
    ("no layers", |lists| lists.layers.clear()),
    ("no layers and no costs", |lists| (lists.layers, lists.costs) = (vec![], vec![])),
    ("17 layers", |lists| on_layers(lists, 17)),
    ("17 layers and the old costs", |lists| lists.layers = vec![BAD; 17]),
    ("16 layers", |lists| on_layers(lists, 16)),
    ("one layer", |lists| on_layers(lists, 1)),
    ("no records", |lists| lists.nodes.clear()),
    ("no records and no costs", |lists| (lists.nodes, lists.costs) = (vec![], vec![])),
    ("no records and a row", |lists| (lists.nodes, lists.costs) = (vec![], vec![7; lists.layers.len()])),
    ("no records and a cost", |lists| (lists.nodes, lists.costs) = (vec![], vec![7])),
    ("the driver alone", |lists| (lists.nodes, lists.costs) = (lists.nodes[..1].to_vec(), vec![])),
    ("the driver alone and a row", |lists| {
        (lists.nodes, lists.costs) = (lists.nodes[..1].to_vec(), vec![7; lists.layers.len()])
    }),
    ("nothing", |lists| *lists = Lists::default()),
    ("no driver", |lists| _ = lists.nodes.remove(0)),
    ("no driver and a row less", |lists| {
        lists.nodes.remove(0);
        lists.costs.truncate(lists.costs.len() - lists.layers.len());
    }),
    ("two drivers", |lists| {
        lists.nodes.insert(0, lists.nodes[0]);
        lists.costs.extend(vec![7; lists.layers.len()]);
    }),
    ("a driver at the end", |lists| {
        lists.nodes.push(lists.nodes[0]);
        lists.costs.extend(vec![7; lists.layers.len()]);
    }),
    ("the last node without its row", |lists| _ = lists.nodes.pop()),
    ("the last node left out", |lists| {
        lists.nodes.pop();
        lists.costs.truncate(lists.costs.len() - lists.layers.len());
    }),
    ("the last node twice", |lists| {
        lists.nodes.extend(lists.nodes.last().copied());
        lists.costs.extend(vec![7; lists.layers.len()]);
    }),
    ("the last node twice with one row", |lists| lists.nodes.extend(lists.nodes.last().copied())),
    ("the first two nodes exchanged", |lists| lists.nodes.swap(0, 1)),
    ("costs from the last on", |lists| lists.costs.reverse()),
];

/// On so many layers, with a cost for each.
fn on_layers(lists: &mut Lists, count: usize) {
    lists.layers = vec![GOOD; count];
    lists.costs = vec![7; count * lists.nodes.len().saturating_sub(1)];
}

/// One net with each of its single faults, with two at once, and two in the same record.
pub fn damaged_lists(lists: &Lists, random: &mut Random, several: usize) -> Vec<Named> {
    let edits = edits(lists);
    let changed = |what: String, change: &dyn Fn(&mut Lists)| {
        let mut other = lists.clone();
        change(&mut other);
        (what, other)
    };
    let mut nets: Vec<Named> = edits.iter().map(|edit| changed(edit.words(), &|lists| edit.apply(lists))).collect();
    nets.extend(SHAPES.iter().map(|(what, shape)| changed(String::from(*what), shape)));
    for _turn in 0..several {
        nets.push(several_edits(lists, &edits, random));
        let (edit, (what, shape)) = (random.pick(&edits), random.pick(SHAPES));
        let both = |lists: &mut Lists| {
            shape(lists);
            edit.apply(lists);
        };
        nets.push(changed(format!("{what}; {}", edit.words()), &both));
        let node = random.below(lists.nodes.len());
        let near: Vec<Edit> =
            edits.iter().filter(|edit| edit.node(lists.layers.len()) == Some(node)).cloned().collect();
        nets.push(several_edits(lists, &near, random));
    }
    nets
}

/// So many damaged nets of one.
pub fn some_damaged_lists(lists: &Lists, random: &mut Random, count: usize) -> Vec<Named> {
    let edits = edits(lists);
    (0..count).map(|_| several_edits(lists, &edits, random)).collect()
}

/// One to three of these edits.
fn several_edits(lists: &Lists, edits: &[Edit], random: &mut Random) -> Named {
    let (mut other, mut what) = (lists.clone(), String::from("several:"));
    for _edit in 0..random.between(1, 3) {
        let edit = random.pick(edits);
        what += &format!(" {};", edit.words());
        edit.apply(&mut other);
    }
    (what, other)
}

/// As many nodes and buffers as there may be, and one and two more; the last of them also with each fault of its own.
pub fn too_many_lists() -> Vec<Named> {
    let buffer = Kind::Buffer { capacitance: 1, resistance: 1, intrinsic: 1 };
    let sink = Kind::Sink { capacitance: 1, required: 5 };
    let mut nets = vec![];
    for (name, base, kind) in [
        ("64th buffer", line(63, 0), buffer.clone()),
        ("64th buffer, sink beyond", line(63, 0), sink.clone()),
        ("256th node, a sink", line(0, 254), sink.clone()),
        ("256th node, a Steiner point", line(0, 254), Kind::Steiner),
        ("256th node and 64th buffer", line(63, 191), buffer),
    ] {
        let mut draft: Draft = base;
        nets.push((format!("before the {name}"), Lists::of(&draft)));
        draft.nodes.push(Node { parent: 0, length: 1, costs: vec![1, 2], kind });
        let lists = Lists::of(&draft);
        let last = lists.nodes.len() - 1;
        nets.push((String::from(name), lists.clone()));
        for edit in edits(&lists).into_iter().filter(|edit| edit.node(lists.layers.len()) == Some(last)) {
            let mut other = lists.clone();
            edit.apply(&mut other);
            nets.push((format!("{name}, {}", edit.words()), other));
        }
        for more in [1, 2, 44, 512] {
            draft.nodes.extend(vec![Node { parent: 0, length: 1, costs: vec![1, 2], kind: sink.clone() }; more]);
            nets.push((format!("{name} and {more} more"), Lists::of(&draft)));
        }
    }
    nets
}

/// Two faults in different places at once: in a layer, in the driver, in each of two nodes, in the costs, in the counts,
/// and a childless node; and the same net on every count of layers from 0 to 18, with costs that are right or one off.
pub fn two_faults() -> Vec<Named> {
    type Fault = (&'static str, fn(&mut Lists));
    let faults: [Fault; 17] = [
        ("a layer's via", |lists| lists.layers[1].via_res = 1_001),
        ("driver's numbers", |lists| lists.nodes[0].gate_res = u64::MAX),
        ("no driver in place 0", |lists| lists.nodes[0].kind = SINK),
        ("place 0's length", |lists| lists.nodes[0].length = u64::MAX),
        ("place 0's parent", |lists| lists.nodes[0].parent = 70_000),
        ("a driver in place 1", |lists| lists.nodes[1].kind = DRIVER),
        ("length of node 1", |lists| lists.nodes[1].length = 4_001),
        ("cost of node 1", |lists| lists.costs[1] = 0),
        ("parent of node 1", |lists| lists.nodes[1].parent = 1),
        ("a kind that there is not in place 2", |lists| lists.nodes[2].kind = 6),
        ("a driver in place 2", |lists| lists.nodes[2].kind = DRIVER),
        ("time of node 2", |lists| lists.nodes[2].time = i64::MIN),
        ("cost of node 2", |lists| lists.costs[3] = 1_000_001),
        ("parent of node 2", |lists| lists.nodes[2].parent = (1 << 16) + 1),
        ("a buffer at the end", |lists| lists.nodes[2].kind = BUFFER),
        ("a cost too many", |lists| lists.costs.push(1)),
        ("no records", |lists| (lists.nodes, lists.costs) = (vec![], vec![])),
    ];
    let mut nets = vec![];
    for (place, (what, fault)) in faults.iter().enumerate() {
        for (other, second) in &faults[..=place] {
            let mut lists = Lists::of(&net_b());
            second(&mut lists);
            if lists.nodes.len() == 3 {
                fault(&mut lists);
            }
            nets.push((format!("{what}; {other}"), lists));
        }
    }
    for count in 0..=18 {
        for (what, costs) in [("", count), (", a cost less", count.max(1) - 1), (", a cost more", count + 1)] {
            for layer in [GOOD, BAD] {
                let nodes = Lists::of(&net_a(830)).nodes;
                let name = format!("{count} layers{}{what}", if layer == BAD { ", bad ones" } else { "" });
                nets.push((name, Lists { layers: vec![layer; count], nodes, costs: vec![7; costs] }));
            }
        }
    }
    nets
}

/// Counts of layers, records and costs that are refused before any list is looked at: none that a list could have, and
/// some of which a product in 32 or 64 bits would be right.
pub const REFUSED_COUNTS: &[[usize; 3]] = &[
    [0, 0, 0],
    [17, 1, 0],
    [1 << 63, 2, 1 << 63],
    [1 << 63, 3, 0],
    [(1 << 32) + 2, 3, 4],
    [(1 << 8) + 2, 3, 4],
    [usize::MAX, usize::MAX, usize::MAX],
    [2, 3, 3],
    [2, 3, 5],
    [2, 3, 6],
    [2, 3, 1 << 63],
    [2, 3, (1 << 32) + 4],
    [2, 0, 1],
    [2, 0, usize::MAX - 1],
    [16, 0, 0usize.wrapping_sub(16)],
    [16, (1 << 60) + 1, 0],
    [16, (1 << 60) + 3, 32],
    [16, (1 << 28) + 1, 0],
    [2, (1 << 63) + 3, 4],
    [2, (1 << 31) + 3, 4],
    [1, 1 << 63, 0],
    [1, 257, 255],
    [1, 258, 255],
    [1, 1 << 60, 1 << 60],
];
