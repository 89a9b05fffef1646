//! Wrong walks, in the place of the program `try_loads`: one pass over the edges, from the last node's to the first's,
//! that adds up loads and counts; and lists of mistakes, of which it makes one at a time. The net is read without a
//! mistake: those of reading are for the calls to show.

use super::reading::{Net, Node, BUFFER, SINK, STEINER};
use super::{low_bits, PLANNER};
use crate::loads::{text, Line};

/// A walk, by the mistake that it makes: each stands at a place of one of the lists below.
#[derive(Clone, Copy)]
pub enum Walk {
    Right,
    /// `EDGES`, and `TIMES`.
    Edges(usize, usize),
    /// `IN_COUNTS`.
    Counts(usize),
    /// `IN_LOADS`.
    Loads(usize),
    /// `IN_LINES`.
    Lines(usize),
    /// `IN_TEXT`.
    Text(usize),
}

/// The edge above a node.
struct Edge<'a> {
    net: &'a Net,
    /// For each node the stage of the wire below it.
    below: &'a [usize],
    node: usize,
}

impl Edge<'_> {
    fn lower(&self) -> &Node {
        &self.net.nodes[self.node]
    }

    fn parent(&self) -> usize {
        self.lower().parent
    }

    fn upper(&self) -> &Node {
        &self.net.nodes[self.parent()]
    }

    fn stage(&self) -> usize {
        self.below[self.parent()]
    }

    fn is_first_child(&self) -> bool {
        self.upper().children[0] == self.node
    }

    /// From the root over first children alone.
    fn is_on_first_way(&self) -> bool {
        self.is_first_child() && (self.upper().is_root() || Edge { node: self.parent(), ..*self }.is_on_first_way())
    }

    fn root(&self) -> usize {
        if self.upper().is_root() {
            self.parent()
        } else {
            Edge { node: self.parent(), ..*self }.root()
        }
    }

    fn wire(&self, layer: usize) -> i128 {
        self.lower().length as i128 * self.net.layers[layer].1 as i128
    }

    fn input(&self) -> i128 {
        self.lower().capacitance as i128
    }

    /// At the lower end.
    fn load(&self, loads: &[i128]) -> i128 {
        if self.lower().is_terminal() {
            self.input()
        } else {
            loads[self.node]
        }
    }
}

/// Some of the edges.
const EDGES: &[(&str, fn(&Edge) -> bool)] = &[
    ("edges that add nothing", |edge| edge.lower().length == 0 && edge.lower().is_terminal() && edge.input() == 0),
    ("edges of length 0", |edge| edge.lower().length == 0),
    ("edges longer than 1,000", |edge| edge.lower().length > 1_000),
    ("edges to terminals", |edge| edge.lower().is_terminal()),
    ("edges to buffers", |edge| edge.lower().tag == BUFFER),
    ("edges to sinks", |edge| edge.lower().tag == SINK),
    ("edges to Steiner points", |edge| edge.lower().tag == STEINER),
    ("edges to first children", |edge| edge.is_first_child()),
    ("edges to second children", |edge| !edge.is_first_child()),
    ("edges to only children", |edge| edge.upper().children.len() == 1),
    ("edges to nodes with two children", |edge| edge.lower().children.len() == 2),
    ("the first node's edge", |edge| edge.node == 1),
    ("the last node's edge", |edge| edge.node + 1 == edge.net.nodes.len()),
    ("edges at the root", |edge| edge.upper().is_root()),
    ("edges at the driver", |edge| edge.parent() == 0),
    ("edges at buffers", |edge| edge.upper().tag == BUFFER),
    ("edges not at the root", |edge| !edge.upper().is_root()),
    ("edges beside the first way down", |edge| !edge.is_on_first_way()),
    ("edges of stage 0", |edge| edge.stage() == 0),
    ("edges of the last stage", |edge| edge.stage() == edge.net.buffers()),
    ("edges of stage 63", |edge| edge.stage() == 63),
    ("node 255's edge", |edge| edge.node == 255),
    ("edges in nets of one layer", |edge| edge.net.layers.len() == 1),
    ("edges in nets of 16 layers", |edge| edge.net.layers.len() == 16),
    ("edges in nets with vias", |edge| edge.net.second),
    ("edges in nets of 16 layers with vias", |edge| edge.net.second && edge.net.layers.len() == 16),
];

/// The place of those that add nothing.
const ADD_NOTHING: usize = 0;

/// How often these are counted, and how often added: wire, and load at the lower end.
const TIMES: &[(&str, i128, i128)] =
    &[("not counted", 0, 1), ("counted twice", 2, 1), ("counted and not added", 1, 0), ("left out", 0, 0)];

/// Adds one to the counts. There is room for a count for each node.
const IN_COUNTS: &[(&str, fn(&Edge, &mut [i128]))] = &[
    ("the edge above a buffer counted to the buffer's own stage", |edge, counts| counts[edge.below[edge.node]] += 1),
    ("the edge above a buffer counted to both stages", |edge, counts| {
        counts[edge.stage()] += 1;
        counts[edge.below[edge.node]] += (edge.lower().tag == BUFFER) as i128;
    }),
    ("the edges at a buffer counted to the stage above it", |edge, counts| {
        counts[edge.below[if edge.upper().tag == BUFFER { edge.upper().parent } else { edge.parent() }]] += 1
    }),
    ("all edges counted to stage 0", |_, counts| counts[0] += 1),
    ("all edges counted to the last stage", |edge, counts| counts[edge.net.buffers()] += 1),
    ("edges counted by the node above them", |edge, counts| counts[edge.parent()] += 1),
    ("edges counted by the node at their root", |edge, counts| counts[edge.root()] += 1),
    ("edges counted to the stage of the last buffer before them in the file", |edge, counts| {
        counts[edge.net.nodes[..edge.node].iter().filter(|node| node.tag == BUFFER).count()] += 1
    }),
    ("length counted, not edges", |edge, counts| counts[edge.stage()] += edge.lower().length as i128),
    ("branches counted, not edges", |edge, counts| {
        counts[edge.stage()] += (edge.upper().children.len() == 2 && edge.is_first_child()) as i128
    }),
];

/// Adds an edge to the loads on a layer, one for each node.
const IN_LOADS: &[(&str, fn(&Edge, usize, &mut [i128]))] = &[
    ("the load below a buffer added to the stage above", |edge, layer, loads| {
        let through = if edge.lower().tag == BUFFER { loads[edge.node] } else { 0 };
        loads[edge.parent()] += edge.wire(layer) + edge.load(loads) + through
    }),
    ("the load below a buffer for its input capacitance", |edge, layer, loads| {
        let load = if edge.lower().tag == BUFFER { loads[edge.node] } else { edge.load(loads) };
        loads[edge.parent()] += edge.wire(layer) + load
    }),
    ("the wire above a buffer added to the buffer's own stage", |edge, layer, loads| {
        loads[edge.parent()] += edge.load(loads);
        loads[if edge.lower().tag == BUFFER { edge.node } else { edge.parent() }] += edge.wire(layer)
    }),
    ("the wire above a buffer added to both stages", |edge, layer, loads| {
        loads[edge.parent()] += edge.wire(layer) + edge.load(loads);
        loads[edge.node] += if edge.lower().tag == BUFFER { edge.wire(layer) } else { 0 }
    }),
    ("a buffer's input capacitance in its own stage too", |edge, layer, loads| {
        loads[edge.parent()] += edge.wire(layer) + edge.load(loads);
        loads[edge.node] += edge.input()
    }),
    ("terminals without input capacitance", |edge, layer, loads| {
        loads[edge.parent()] += edge.wire(layer) + if edge.lower().is_terminal() { 0 } else { edge.load(loads) }
    }),
    ("buffers without input capacitance", |edge, layer, loads| {
        loads[edge.parent()] += edge.wire(layer) + if edge.lower().tag == BUFFER { 0 } else { edge.load(loads) }
    }),
    ("sinks without input capacitance", |edge, layer, loads| {
        loads[edge.parent()] += edge.wire(layer) + if edge.lower().tag == SINK { 0 } else { edge.load(loads) }
    }),
    ("edges to terminals without wire", |edge, layer, loads| {
        loads[edge.parent()] += edge.load(loads) + if edge.lower().is_terminal() { 0 } else { edge.wire(layer) }
    }),
    ("edges at the root without wire", |edge, layer, loads| {
        loads[edge.parent()] += edge.load(loads) + if edge.upper().is_root() { 0 } else { edge.wire(layer) }
    }),
    ("input capacitances without wire", |edge, _, loads| loads[edge.parent()] += edge.load(loads)),
    ("wire without what is below it", |edge, layer, loads| loads[edge.parent()] += edge.wire(layer)),
    ("of a stage's terminals the last alone", |edge, layer, loads| {
        let later = &edge.net.nodes[edge.node + 1..];
        let is_last = !later.iter().any(|node| node.is_terminal() && edge.below[node.parent] == edge.stage());
        let load = if is_last || !edge.lower().is_terminal() { edge.load(loads) } else { 0 };
        loads[edge.parent()] += edge.wire(layer) + load
    }),
    ("edges at the root added twice", |edge, layer, loads| {
        let times = if edge.upper().is_root() { 2 } else { 1 };
        loads[edge.parent()] += times * (edge.wire(layer) + edge.load(loads))
    }),
    ("edges to terminals added twice", |edge, layer, loads| {
        let times = if edge.lower().is_terminal() { 2 } else { 1 };
        loads[edge.parent()] += times * (edge.wire(layer) + edge.load(loads))
    }),
    ("wire added twice", |edge, layer, loads| loads[edge.parent()] += 2 * edge.wire(layer) + edge.load(loads)),
    ("an edge's load to the root and to the point above it", |edge, layer, loads| {
        loads[edge.parent()] += edge.wire(layer) + edge.load(loads);
        if !edge.upper().is_root() {
            loads[edge.root()] += edge.wire(layer)
        }
    }),
    ("unit resistance for capacitance", |edge, layer, loads| {
        loads[edge.parent()] += (edge.lower().length * edge.net.layers[layer].0) as i128 + edge.load(loads)
    }),
    ("vias counted as load of each edge", |edge, layer, loads| {
        loads[edge.parent()] += edge.wire(layer) + edge.load(loads) + edge.net.vias[layer] as i128
    }),
    ("vias counted as load of each terminal", |edge, layer, loads| {
        let via = if edge.lower().is_terminal() { edge.net.vias[layer] as i128 } else { 0 };
        loads[edge.parent()] += edge.wire(layer) + edge.load(loads) + via
    }),
    ("vias for unit capacitances where there are some", |edge, layer, loads| {
        let via = edge.lower().length as i128 * edge.net.vias[layer] as i128;
        loads[edge.parent()] += if edge.net.second { via } else { edge.wire(layer) } + edge.load(loads)
    }),
    ("length without unit capacitance", |edge, _, loads| {
        loads[edge.parent()] += edge.lower().length as i128 + edge.load(loads)
    }),
    ("costs for lengths", |edge, layer, loads| {
        let wire = edge.lower().costs[layer] * edge.net.layers[layer].1;
        loads[edge.parent()] += wire as i128 + edge.load(loads)
    }),
    ("lengths above 1,000 as 1,000", |edge, layer, loads| {
        let wire = edge.lower().length.min(1_000) * edge.net.layers[layer].1;
        loads[edge.parent()] += wire as i128 + edge.load(loads)
    }),
    ("an edge's wire by its low 21 bits", |edge, layer, loads| {
        loads[edge.parent()] += low(edge.wire(layer), 21) + edge.load(loads)
    }),
    ("the load of a node by its low 29 bits", |edge, layer, loads| {
        let parent = edge.parent();
        loads[parent] = low(loads[parent] + edge.wire(layer) + edge.load(loads), 29)
    }),
];

fn low(number: i128, bits: u32) -> i128 {
    low_bits(number as usize, bits) as i128
}

/// What the walk found: counts by stage, and for each layer the loads by node.
struct Walked<'a> {
    net: &'a Net,
    counts: Vec<i128>,
    loads: Vec<Vec<i128>>,
}

impl Walked<'_> {
    fn roots(&self) -> Vec<usize> {
        (0..self.net.nodes.len()).filter(|&node| self.net.nodes[node].is_root()).collect()
    }

    /// The loads at a node, on each layer.
    fn loads_at(&self, node: usize) -> Vec<i128> {
        self.loads.iter().map(|loads| loads[node]).collect()
    }

    fn lines(&self) -> Vec<Line> {
        let line = |(stage, root): (usize, usize)| {
            let (edges, loads) = (self.counts[stage], self.loads_at(root));
            Line { stage, edges, loads }
        };
        self.roots().into_iter().enumerate().map(line).collect()
    }

    /// Each line changed.
    fn each(&self, change: impl Fn(&mut Line)) -> Vec<Line> {
        let mut lines = self.lines();
        lines.iter_mut().for_each(change);
        lines
    }

    /// Each load changed.
    fn each_load(&self, change: impl Fn(i128) -> i128) -> Vec<Line> {
        self.each(|line| line.loads.iter_mut().for_each(|load| *load = change(*load)))
    }

    /// The stages in another order, by what is given for the root and the line of each.
    fn ordered<T: Ord>(&self, key: impl Fn(usize, &Line) -> T) -> Vec<Line> {
        let roots = self.roots();
        let mut lines = self.lines();
        lines.sort_by_key(|line| key(roots[line.stage], line));
        lines.iter_mut().enumerate().for_each(|(stage, line)| line.stage = stage);
        lines
    }

    /// Edges between a node and the driver.
    fn depth(&self, node: usize) -> usize {
        if node == 0 {
            0
        } else {
            1 + self.depth(self.net.nodes[node].parent)
        }
    }
}

/// Tells what the walk found.
const IN_LINES: &[(&str, fn(&Walked) -> Vec<Line>)] = &[
    ("the root counted with its edges", |walked| walked.each(|line| line.edges += 1)),
    ("the driver counted with its edges", |walked| walked.each(|line| line.edges += (line.stage == 0) as i128)),
    ("edges counted anew on each layer", |walked| walked.each(|line| line.edges *= line.loads.len() as i128)),
    ("counts not begun anew for a stage", |walked| {
        walked.each(|line| line.edges = walked.counts[..=line.stage].iter().sum())
    }),
    ("counts from the last stage on not begun anew", |walked| {
        walked.each(|line| line.edges = walked.counts[line.stage..].iter().sum())
    }),
    ("all edges of the net counted for each stage", |walked| {
        walked.each(|line| line.edges = walked.counts.iter().sum())
    }),
    ("counts given from the last stage to the first", |walked| {
        walked.each(|line| line.edges = walked.counts[walked.net.buffers() - line.stage])
    }),
    ("the next stage's count", |walked| walked.each(|line| line.edges = walked.counts[line.stage + 1])),
    ("counts in a signed byte", |walked| walked.each(|line| line.edges = line.edges as i8 as i128)),
    ("loads not begun anew for a layer", |walked| {
        walked.each(|line| (1..line.loads.len()).for_each(|layer| line.loads[layer] += line.loads[layer - 1]))
    }),
    ("loads not begun anew for a stage", |walked| {
        let roots = walked.roots();
        let upto = |stage: usize, loads: &Vec<i128>| roots[..=stage].iter().map(|&root| loads[root]).sum();
        walked.each(|line| line.loads = walked.loads.iter().map(|loads| upto(line.stage, loads)).collect())
    }),
    ("the load on layer 0 on every layer", |walked| {
        walked.each(|line| line.loads = vec![line.loads[0]; line.loads.len()])
    }),
    ("layers from the last to the first", |walked| walked.each(|line| line.loads.reverse())),
    ("layer 0 left out", |walked| walked.each(|line| line.loads = line.loads[1..].to_vec())),
    ("layer 15 left out", |walked| walked.each(|line| line.loads.truncate(15))),
    ("16 layers always", |walked| walked.each(|line| line.loads.resize(16, 0))),
    ("loads doubled", |walked| walked.each_load(|load| 2 * load)),
    ("loads by their low 16 bits", |walked| walked.each_load(|load| low(load, 16))),
    ("loads by their low 29 bits", |walked| walked.each_load(|load| low(load, 29))),
    ("loads in floating point of 32 bits", |walked| walked.each_load(|load| load as f32 as i128)),
    ("the driver's load for each stage", |walked| walked.each(|line| line.loads = walked.loads_at(0))),
    ("the load at the node with the stage's number", |walked| {
        walked.each(|line| line.loads = walked.loads_at(line.stage))
    }),
    ("stages in the order of the tree", |walked| {
        let order = walked.net.tree_order();
        walked.ordered(|root, _| order.iter().position(|&node| node == root))
    }),
    ("stages in the order of their distance from the driver", |walked| walked.ordered(|root, _| walked.depth(root))),
    ("stages in the order of the nodes above their roots", |walked| {
        walked.ordered(|root, _| (root != 0, walked.net.nodes[root].parent))
    }),
    ("stages in the order of their edges", |walked| walked.ordered(|_, line| line.edges)),
    ("stages from the last to the first", |walked| walked.ordered(|_, line| usize::MAX - line.stage)),
    ("stages numbered from 1", |walked| walked.each(|line| line.stage += 1)),
    ("stages numbered by their roots", |walked| {
        let roots = walked.roots();
        walked.each(|line| line.stage = roots[line.stage])
    }),
    ("the last stage left out", |walked| {
        let mut lines = walked.lines();
        lines.pop();
        lines
    }),
    ("stage 63 left out", |walked| walked.lines().into_iter().take(63).collect()),
    ("stage 0 alone", |walked| walked.lines().into_iter().take(1).collect()),
    ("stages of one edge left out", |walked| walked.lines().into_iter().filter(|line| line.edges != 1).collect()),
];

/// Prints it.
const IN_TEXT: &[(&str, fn(&Result<Vec<Line>, u8>) -> String)] = &[
    ("nothing printed for bytes that are no net", |told| if told.is_ok() { text(told) } else { String::new() }),
    ("bytes that are no net refused with 1", |told| text(&told.clone().map_err(|_| 1))),
    ("refused with the number before", |told| text(&told.clone().map_err(|refusal| refusal - 1))),
    ("a space at the end of each line", |told| text(told).replace('\n', " \n")),
    ("no line feed at the end", |told| String::from(text(told).trim_end())),
    ("an empty line at the end", |told| text(told) + "\n"),
];

impl Walk {
    /// Every wrong one.
    pub fn wrong() -> Vec<Walk> {
        let edges = |place: usize| {
            // It does not show if these are only not added.
            let shows = move |&times: &usize| place != ADD_NOTHING || TIMES[times].1 != 1;
            (0..TIMES.len()).filter(shows).map(move |times| Walk::Edges(place, times))
        };
        let mut all: Vec<Walk> = (0..EDGES.len()).flat_map(edges).collect();
        all.extend((0..IN_COUNTS.len()).map(Walk::Counts));
        all.extend((0..IN_LOADS.len()).map(Walk::Loads));
        all.extend((0..IN_LINES.len()).map(Walk::Lines));
        all.extend((0..IN_TEXT.len()).map(Walk::Text));
        all
    }

    /// The mistake in words.
    pub fn words(self) -> String {
        match self {
            Walk::Right => String::from("no mistake"),
            Walk::Edges(place, times) => format!("{} {}", EDGES[place].0, TIMES[times].0),
            Walk::Counts(place) => String::from(IN_COUNTS[place].0),
            Walk::Loads(place) => String::from(IN_LOADS[place].0),
            Walk::Lines(place) => String::from(IN_LINES[place].0),
            Walk::Text(place) => String::from(IN_TEXT[place].0),
        }
    }

    /// What is printed for these bytes.
    pub fn text(self, bytes: &[u8]) -> String {
        let told = PLANNER.read(bytes).map(|net| self.lines(&net));
        match self {
            Walk::Text(place) => IN_TEXT[place].1(&told),
            _ => text(&told),
        }
    }

    fn lines(self, net: &Net) -> Vec<Line> {
        let below = net.stages_below();
        let nodes = net.nodes.len();
        let mut walked = Walked { net, counts: vec![0; nodes], loads: vec![vec![0; nodes]; net.layers.len()] };
        for node in (1..nodes).rev() {
            let edge = Edge { net, below: &below, node };
            self.count(&edge, &mut walked.counts);
            for (layer, loads) in walked.loads.iter_mut().enumerate() {
                self.add(&edge, layer, loads);
            }
        }
        match self {
            Walk::Lines(place) => IN_LINES[place].1(&walked),
            _ => walked.lines(),
        }
    }

    /// How often an edge is counted, and how often added.
    fn times(self, edge: &Edge) -> (i128, i128) {
        match self {
            Walk::Edges(place, times) if EDGES[place].1(edge) => (TIMES[times].1, TIMES[times].2),
            _ => (1, 1),
        }
    }

    fn count(self, edge: &Edge, counts: &mut [i128]) {
        match self {
            Walk::Counts(place) => IN_COUNTS[place].1(edge, counts),
            _ => counts[edge.stage()] += self.times(edge).0,
        }
    }

    fn add(self, edge: &Edge, layer: usize, loads: &mut [i128]) {
        match self {
            Walk::Loads(place) => IN_LOADS[place].1(edge, layer, loads),
            _ => loads[edge.parent()] += self.times(edge).1 * (edge.wire(layer) + edge.load(loads)),
        }
    }
}
