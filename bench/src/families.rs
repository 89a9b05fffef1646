//! Nets at the limits, in several shapes, with required times from tight to loose. The same nets every time.

use crate::library::Refusal;
use crate::peer;
use vorphiel_tests::c_calls::MOST_DESK_NET;
use vorphiel_tests::nets::{Draft, Kind, Node, Random};

/// A net to be measured.
pub struct Case {
    pub name: String,
    pub bytes: Vec<u8>,
    pub stages: usize,
}

/// How the nodes of a net hang together.
#[derive(Clone, Copy)]
pub enum Shape {
    /// Each stage drives the next.
    Chain,
    /// Each stage drives two.
    Balanced,
    /// The driver's stage drives all others.
    Wide,
    /// Each stage hangs from any earlier one that has room.
    Free,
}

/// Where the common required time of all sinks lies between that of the fastest plan and that of layer 0 throughout.
#[derive(Clone, Copy)]
pub enum Times {
    Tight,
    Middle,
    Loose,
}

/// A net's size: nodes after the driver, stages, layers; the shortest and the longest that an edge may be; and whether
/// the climb to a layer counts.
#[derive(Clone, Copy)]
pub struct Size {
    pub nodes: usize,
    pub stages: usize,
    pub layers: usize,
    pub lengths: (i64, i64),
    pub vias: bool,
}

/// As many nodes, stages and layers as there may be, and short edges.
pub const LIMITS: Size = Size { nodes: 255, stages: 64, layers: 16, lengths: (1, 20), vias: false };

/// The nets at the limits that the table lists.
pub fn at_the_limits() -> Vec<Case> {
    let one_stage = Size { stages: 1, ..LIMITS };
    let shapes = [
        ("long chain", Shape::Chain, LIMITS),
        ("balanced tree", Shape::Balanced, LIMITS),
        ("wide stage", Shape::Wide, LIMITS),
        ("free tree", Shape::Free, LIMITS),
        ("one stage", Shape::Free, one_stage),
        ("few layers", Shape::Free, Size { layers: 3, ..LIMITS }),
    ];
    shapes.into_iter().flat_map(|(name, shape, size)| family(name, shape, size)).collect()
}

/// Nets with long edges, up to the limit of length; apart, so that averages over the others stay comparable.
pub fn long_edges() -> Vec<Case> {
    let lengths = (1_001, peer::MOST_LENGTH as i64);
    family("long edges", Shape::Free, Size { lengths, ..LIMITS })
}

/// The free trees in the second edition; apart as well.
pub fn with_vias() -> Vec<Case> {
    family("vias", Shape::Free, Size { vias: true, ..LIMITS })
}

/// Of each shape the largest net of 64 stages that a desk takes.
pub fn for_desks() -> Vec<Case> {
    let shapes = [
        ("long chain", Shape::Chain),
        ("balanced tree", Shape::Balanced),
        ("wide stage", Shape::Wide),
        ("free tree", Shape::Free),
    ];
    shapes.map(|(name, shape)| case(name, shape, largest_for_desk(shape), Times::Middle)).into()
}

/// As many layers as there is room for with as few nodes as such a net can have, then as many nodes.
fn largest_for_desk(shape: Shape) -> Size {
    let fits = |&size: &Size| grown(shape, size, &mut Random::new(SEED)).bytes().len() <= MOST_DESK_NET;
    let few = Size { nodes: LIMITS.stages, ..LIMITS };
    let layers =
        (1..=LIMITS.layers).rev().map(|layers| Size { layers, ..few }).find(fits).expect("a net with one layer");
    (few.nodes..=LIMITS.nodes).rev().map(|nodes| Size { nodes, ..layers }).find(fits).expect("the net found before")
}

/// Nets of one shape and size, one for each choice of times.
fn family(name: &str, shape: Shape, size: Size) -> Vec<Case> {
    let times = [("tight", Times::Tight), ("middle", Times::Middle), ("loose", Times::Loose)];
    times.map(|(times_name, times)| case(&format!("{name}, {times_name}"), shape, size, times)).into()
}

const SEED: u64 = 7;

pub fn case(name: &str, shape: Shape, size: Size, times: Times) -> Case {
    let mut random = Random::new(SEED);
    let mut draft = grown(shape, size, &mut random);
    set_times(&mut draft, times);
    Case { name: String::from(name), bytes: draft.bytes(), stages: size.stages }
}

// ------------------------------------------------------------------------------------------------
// The tree
// ------------------------------------------------------------------------------------------------

/// A higher layer has less resistance and costs more: from 901 down to 32 units, from 4 up to 61 a unit of length. However many
/// layers there are, they lie evenly between the same first and last.
fn layer(number: usize, layers: usize) -> (i64, i64) {
    let height = 15.0 * number as f64 / (layers - 1).max(1) as f64;
    ((900.0 * 0.8f64.powf(height)) as i64 + 1, (4.0 * 1.2f64.powf(height)) as i64)
}

/// The climb to a layer, the longer the higher it is: from 10 up to 160 units, beside gate resistances of 20 to 400.
fn via(number: usize) -> i64 {
    10 * (number as i64 + 1)
}

struct Growing<'a> {
    nodes: Vec<Node>,
    children: Vec<usize>,
    layers: usize,
    lengths: (i64, i64),
    random: &'a mut Random,
}

impl Growing<'_> {
    fn hang(&mut self, parent: usize, kind: Kind) -> usize {
        let length = self.random.between(self.lengths.0, self.lengths.1);
        let costs = (0..self.layers).map(|number| length * layer(number, self.layers).1).collect();
        self.nodes.push(Node { parent, length, costs, kind });
        self.children[parent] += 1;
        self.children.push(0);
        self.nodes.len()
    }

    fn buffer(&mut self, parent: usize) -> usize {
        let kind = Kind::Buffer {
            capacitance: self.random.between(20, 200),
            resistance: self.random.between(20, 400),
            intrinsic: self.random.between(1_000, 50_000),
        };
        self.hang(parent, kind)
    }

    fn sink(&mut self, parent: usize) -> usize {
        let capacitance = self.random.between(20, 400);
        self.hang(parent, Kind::Sink { capacitance, required: 0 })
    }

    /// A node with room for a child, from `first` on.
    fn with_room(&mut self, first: usize) -> usize {
        loop {
            let node = first + self.random.below(self.children.len() - first);
            let is_sink = node > 0 && matches!(self.nodes[node - 1].kind, Kind::Sink { .. });
            if self.children[node] < 2 && !is_sink {
                return node;
            }
        }
    }
}

/// Buffers by the shape, then sinks below what is childless, then Steiner points until the nodes are as many as asked.
fn grown(shape: Shape, size: Size, random: &mut Random) -> Draft {
    let layers: Vec<(i64, i64)> = (0..size.layers).map(|number| (layer(number, size.layers).0, 10)).collect();
    let mut tree = Growing { nodes: vec![], children: vec![0], layers: layers.len(), lengths: size.lengths, random };
    let mut ends = vec![0];
    for stage in 1..size.stages {
        let parent = match shape {
            Shape::Chain => stage - 1,
            Shape::Balanced => (stage - 1) / 2,
            Shape::Free => tree.with_room(0),
            Shape::Wide if stage + 1 < size.stages => {
                ends.push(tree.hang(ends[ends.len() - 1], Kind::Steiner));
                ends[ends.len() - 1]
            }
            Shape::Wide => ends[ends.len() - 1],
        };
        tree.buffer(parent);
    }
    for node in 0..tree.children.len() {
        if tree.children[node] == 0 {
            tree.sink(node);
        }
    }
    while tree.nodes.len() + 1 < size.nodes && size.stages < 64 {
        let parent = tree.with_room(0);
        let point = tree.hang(parent, Kind::Steiner);
        tree.sink(point);
    }
    let mut nodes = tree.nodes;
    lengthen(&mut nodes, size.nodes, tree.random);
    let vias = size.vias.then(|| (0..size.layers).map(via).collect());
    Draft { layers, vias, resistance: 100, intrinsic: 10_000, arrival: 0, nodes }
}

/// Puts Steiner points into edges until there are `wanted` nodes.
fn lengthen(nodes: &mut Vec<Node>, wanted: usize, random: &mut Random) {
    while nodes.len() < wanted {
        let place = random.below(nodes.len());
        for node in nodes.iter_mut() {
            node.parent += (node.parent > place) as usize;
        }
        let point = Node { kind: Kind::Steiner, ..nodes[place].clone() };
        nodes[place].parent = place + 1;
        nodes.insert(place, point);
    }
}

// ------------------------------------------------------------------------------------------------
// Required times
// ------------------------------------------------------------------------------------------------

fn require(draft: &mut Draft, time: i64) {
    for node in &mut draft.nodes {
        if let Kind::Sink { required, .. } = &mut node.kind {
            *required = time;
        }
    }
}

/// The earliest common required time that some plan meets, by halving.
fn fastest(draft: &mut Draft, slowest: i64) -> i64 {
    let (mut low, mut high) = (0, slowest);
    while low < high {
        let middle = (low + high) / 2;
        require(draft, middle);
        // No table: 12 if some plan meets timing, else 11.
        match peer::plan(&draft.bytes(), 1, 1, &mut [], &mut [0; 64]) {
            Err(Refusal(12)) => high = middle,
            Err(Refusal(11)) => low = middle + 1,
            other => unreachable!("{other:?}"),
        }
    }
    low
}

fn set_times(draft: &mut Draft, times: Times) {
    let stages = 1 + draft.nodes.iter().filter(|node| matches!(node.kind, Kind::Buffer { .. })).count();
    let on_layer_0 = peer::judge(&draft.bytes(), &vec![0; stages]).expect("a whole net");
    let slowest = -on_layer_0.slack;
    let fastest = fastest(draft, slowest);
    let part = match times {
        Times::Tight => 5,
        Times::Middle => 40,
        Times::Loose => 100,
    };
    require(draft, fastest + (slowest - fastest) * part / 100);
}
