//! The stages of a net, their delays, and the cost and slack of a plan.

use super::mistakes::{Call, Mistake, Timing};
use super::reading::{Net, Node, BUFFER};
use super::{low_bits, Wrong};

/// The end of a stage's wire: a sink's required time, or the number of the stage below; and the delay for each layer.
pub struct End {
    pub required: i64,
    pub stage: Option<usize>,
    pub delay: Vec<i64>,
}

/// A stage: for each edge its costs, for each layer their sum, and the ends.
#[derive(Default)]
pub struct Stage {
    pub edges: Vec<Vec<i64>>,
    pub cost: Vec<i64>,
    pub ends: Vec<End>,
}

/// The numbers of a net, as judging or as the search sees them.
pub struct Timed {
    pub stages: Vec<Stage>,
    pub layers: usize,
    pub arrival: i64,
    slip: Option<Timing>,
}

impl Wrong {
    /// As a call sees it: judging, or the search of planning.
    pub fn timed(&self, net: &Net, call: Call) -> Timed {
        let slip = match self.mistake {
            Mistake::Timing(side, slip) if side == call => Some(slip),
            _ => None,
        };
        Timed::new(net, slip)
    }
}

impl Timed {
    fn new(net: &Net, slip: Option<Timing>) -> Timed {
        let arrival = match slip {
            Some(Timing::ArrivalForgotten) => 0,
            Some(Timing::ArrivalUnsigned) => net.nodes[0].time.abs(),
            _ => net.nodes[0].time,
        };
        let mut timed = Timed { stages: vec![Stage::default()], layers: net.layers.len(), arrival, slip };
        timed.arrival = timed.time(arrival);
        timed.find_stages(net);
        for stage in &mut timed.stages {
            let sum = |layer: usize| stage.edges.iter().map(|costs| costs[layer]).sum::<i64>();
            let mask = if slip == Some(Timing::Cost24) { 0xFF_FFFF } else { i64::MAX };
            stage.cost = (0..timed.layers).map(|layer| sum(layer) & mask).collect();
            stage.forget_ends(slip);
        }
        timed
    }

    pub fn makes(&self, slip: Timing) -> bool {
        self.slip == Some(slip)
    }

    fn time(&self, time: i64) -> i64 {
        if self.makes(Timing::Times48) {
            time << 16 >> 16
        } else {
            time
        }
    }

    /// Each edge to its stage, each terminal to the stage that it ends.
    fn find_stages(&mut self, net: &Net) {
        let delays: Vec<Vec<i64>> = (0..self.layers).map(|layer| self.delays(net, layer)).collect();
        // For each node the stage of the wire below it.
        let mut below = vec![0; net.nodes.len()];
        for node in self.order(net) {
            let record = &net.nodes[node];
            let above = below[record.parent];
            below[node] = above;
            if record.tag == BUFFER {
                below[node] = self.stages.len();
                self.stages.push(Stage::default());
            }
            let pays = if self.makes(Timing::EdgeWithLowerStage) { below[node] } else { above };
            let free = self.makes(Timing::ShortEdgeFree) && record.length == 0;
            self.stages[pays].edges.push(if free { vec![0; self.layers] } else { record.costs.clone() });
            if record.is_terminal() {
                let stage = (record.tag == BUFFER).then_some(below[node]);
                let delay = delays.iter().map(|delays| delays[node]).collect();
                let required = self.time(record.time);
                self.stages[above].ends.push(End { required, stage, delay });
            }
        }
    }

    /// The nodes after the driver, parents first: in file order, or along the tree.
    fn order(&self, net: &Net) -> Vec<usize> {
        if !self.makes(Timing::TreeOrder) {
            return (1..net.nodes.len()).collect();
        }
        net.tree_order()[1..].to_vec()
    }

    /// On one layer: for each node the delay from its stage's input to it, gate and wire.
    fn delays(&self, net: &Net, layer: usize) -> Vec<i64> {
        if self.makes(Timing::OwnWireOnly) {
            return self.delays_by_path(net, layer);
        }
        let nodes = &net.nodes;
        // The load below each node, from its children; what a terminal shows to the wire above is its input.
        let mut below = vec![0; nodes.len()];
        let shown = |node: usize, below: &[i64]| {
            if nodes[node].is_terminal() {
                nodes[node].capacitance + if self.makes(Timing::ViaInInput) { net.vias[layer] } else { 0 }
            } else {
                below[node]
            }
        };
        for node in (1..nodes.len()).rev() {
            let parent = nodes[node].parent;
            if !(self.makes(Timing::SecondChildUnseen) && nodes[parent].children[0] != node) {
                below[parent] += self.wire(net, node, layer) + shown(node, &below);
            }
            if self.makes(Timing::Load29) {
                below[parent] = low(below[parent], 29);
            }
        }
        let mut delay = vec![0; nodes.len()];
        for node in 1..nodes.len() {
            let parent = nodes[node].parent;
            let own_input = if self.makes(Timing::OwnInputInLoad) { nodes[parent].capacitance } else { 0 };
            let root = nodes[parent].is_root();
            let above = if root { self.gate(net, parent, below[parent] + own_input) } else { delay[parent] };
            let climbs = Climbs { timed: self, net, layer, below: &below };
            let climb = climbs.above(node) + climbs.at(node);
            delay[node] = self.rounded(above + self.edge(net, node, layer, shown(node, &below)) + climb);
        }
        delay
    }

    fn wire(&self, net: &Net, node: usize, layer: usize) -> i64 {
        let via = if self.makes(Timing::ViaInWire) { net.vias[layer] } else { 0 };
        net.nodes[node].length * net.layers[layer].1 + via
    }

    /// The same with loads along the path to the node alone.
    fn delays_by_path(&self, net: &Net, layer: usize) -> Vec<i64> {
        let mut delay = vec![0; net.nodes.len()];
        for node in 1..net.nodes.len() {
            let (mut load, mut at) = (net.nodes[node].capacitance, node);
            while at == node || !net.nodes[at].is_root() {
                delay[node] += self.edge(net, at, layer, load);
                load += net.nodes[at].length * net.layers[layer].1;
                at = net.nodes[at].parent;
            }
            delay[node] += self.gate(net, at, load) + 2 * net.vias[layer] * load;
            if net.nodes[node].is_terminal() {
                delay[node] += 2 * net.vias[layer] * net.nodes[node].capacitance;
            }
        }
        delay
    }

    fn gate(&self, net: &Net, root: usize, load: i64) -> i64 {
        let record = &net.nodes[root];
        let factor = if self.makes(Timing::GateLoadOnce) { 1 } else { 2 };
        let intrinsic = match self.slip {
            Some(Timing::IntrinsicDoubled) => 2 * record.intrinsic,
            Some(Timing::IntrinsicForgotten) if record.tag == BUFFER => 0,
            _ => record.intrinsic,
        };
        factor * record.resistance * load + intrinsic
    }

    fn edge(&self, net: &Net, node: usize, layer: usize, load: i64) -> i64 {
        let (length, (unit_r, unit_c)) = (net.nodes[node].length, net.layers[layer]);
        let factor = if self.makes(Timing::EdgeLoadOnce) { 1 } else { 2 };
        let via = if self.makes(Timing::ViaInEdges) { net.vias[layer] } else { 0 };
        let (r, c) = (length * unit_r + via, length * unit_c);
        match self.slip {
            Some(Timing::EdgeProduct40) => low(r * c, 40) + r * factor * load,
            Some(Timing::EdgeDelay48) => low(r * (c + factor * load), 48),
            Some(Timing::EdgeDelay50) => low(r * (c + factor * load), 50),
            _ => r * (c + factor * load),
        }
    }

    fn rounded(&self, delay: i64) -> i64 {
        match self.slip {
            Some(Timing::Floats32) => delay as f32 as i64,
            Some(Timing::Floats64) => delay as f64 as i64,
            Some(Timing::Delays32) => low(delay, 32),
            Some(Timing::Delays53) => low(delay, 53),
            _ => delay,
        }
    }

    pub fn slack(&self, plan: &[usize]) -> i64 {
        let mut required = vec![0; self.stages.len()];
        for (i, stage) in self.stages.iter().enumerate().rev() {
            let on_end = |end: &End| end.stage.map_or(end.required, |j| required[j]) - end.delay[plan[i]];
            let times = stage.ends.iter().map(on_end);
            let found = if self.makes(Timing::MaxOverTerminals) { times.max() } else { times.min() };
            required[i] = found.unwrap_or(0);
        }
        required[0] - self.arrival
    }

    pub fn cost(&self, plan: &[usize]) -> i64 {
        self.stages.iter().zip(plan).map(|(stage, &layer)| stage.cost[layer]).sum()
    }
}

/// The vias of a net on one layer, with the load below each node.
struct Climbs<'a> {
    timed: &'a Timed,
    net: &'a Net,
    layer: usize,
    below: &'a [i64],
}

impl Climbs<'_> {
    fn node(&self, node: usize) -> &Node {
        &self.net.nodes[node]
    }

    fn is_empty(&self, node: usize) -> bool {
        self.node(node).length == 0
    }

    /// 2 × via resistance × load.
    fn pays(&self, load: i64) -> i64 {
        let via = self.net.vias[self.layer];
        match self.timed.slip {
            Some(Timing::NoVias) => 0,
            Some(Timing::ViaTimesUnit) => 2 * via * self.net.layers[self.layer].0 * load,
            Some(Timing::ViaProduct32) => low(2 * via * load, 32),
            Some(Timing::ViaProduct40) => low(2 * via * load, 40),
            Some(Timing::ViaSigned32) => (2 * via * load) as i32 as i64,
            _ => 2 * via * load,
        }
    }

    /// Once, where the edge above a node begins at the root of its stage.
    fn above(&self, node: usize) -> i64 {
        let parent = self.node(node).parent;
        if self.node(parent).is_root() {
            return self.root(parent);
        }
        match self.timed.slip {
            Some(Timing::RootViaForEachEdge) => self.pays(self.below[self.root_above(node)]),
            Some(Timing::ViaAboveEachEdge) => self.pays(self.below[parent]),
            _ => 0,
        }
    }

    fn root_above(&self, node: usize) -> usize {
        let parent = self.node(node).parent;
        if self.node(parent).is_root() {
            parent
        } else {
            self.root_above(parent)
        }
    }

    /// At a root.
    fn root(&self, root: usize) -> i64 {
        let (children, own, load) = (&self.node(root).children, self.node(root).capacitance, self.below[root]);
        let pays = self.pays(load);
        match self.timed.slip {
            Some(Timing::NoRootVia | Timing::RootViaOwnWay) => 0,
            Some(Timing::RootViaOnce) => pays / 2,
            Some(Timing::RootViaOfDriver | Timing::RootByUpperStage) if root != 0 => 0,
            Some(Timing::RootViaOfBuffers) if root == 0 => 0,
            // The driver has no input capacitance.
            Some(Timing::PinByLowerStage | Timing::PinByBothStages) => pays + self.pays(own),
            Some(Timing::RootViaOwnInput) => self.pays(load + own),
            Some(Timing::TerminalsOnEveryWay) => pays + self.pays(self.inputs_below(root)),
            Some(Timing::RootViaForEachChild) => children.len() as i64 * pays,
            Some(Timing::RootViaFirstChild) => self.pays(load - self.of_second(root)),
            Some(Timing::RootViaEmptyEdge) if children.iter().all(|&child| self.is_empty(child)) => 0,
            _ => pays,
        }
    }

    /// The load of a root's second child, if it has one.
    fn of_second(&self, root: usize) -> i64 {
        let second = self.node(root).children.get(1);
        second.map_or(0, |&child| {
            let shown = if self.node(child).is_terminal() { self.node(child).capacitance } else { self.below[child] };
            self.timed.wire(self.net, child, self.layer) + shown
        })
    }

    /// The input capacitances of the terminals below a node.
    fn inputs_below(&self, node: usize) -> i64 {
        let input = |&child: &usize| {
            if self.node(child).is_terminal() {
                self.node(child).capacitance
            } else {
                self.inputs_below(child)
            }
        };
        self.node(node).children.iter().map(input).sum()
    }

    /// The wire between a node and the root of the stage that it ends.
    fn way(&self, node: usize) -> i64 {
        let parent = self.node(node).parent;
        let above = if self.node(parent).is_root() { 0 } else { self.way(parent) };
        above + self.timed.wire(self.net, node, self.layer)
    }

    /// At a node, for its own pin.
    fn at(&self, node: usize) -> i64 {
        let record = self.node(node);
        if !record.is_terminal() {
            let pays = self.timed.makes(Timing::ViaAtSteinerPoints);
            return if pays { self.pays(self.below[node]) } else { 0 };
        }
        let is_buffer = record.tag == BUFFER;
        let pays = self.pays(record.capacitance);
        let above = self.node(record.parent);
        match self.timed.slip {
            Some(Timing::NoTerminalVia | Timing::TerminalsOnEveryWay) => 0,
            Some(Timing::TerminalViaOnce) => pays / 2,
            Some(Timing::TerminalViaOfSinks | Timing::PinByLowerStage) if is_buffer => 0,
            Some(Timing::TerminalViaOfBuffers) if !is_buffer => 0,
            Some(Timing::RootByUpperStage | Timing::TerminalViaLoadBelow) if is_buffer => {
                let own = if self.timed.makes(Timing::RootByUpperStage) { pays } else { 0 };
                own + self.pays(self.below[node])
            }
            Some(Timing::RootViaOwnWay) => pays + self.pays(self.way(node) + record.capacitance),
            Some(Timing::TerminalViaWithWire) => {
                self.pays(record.capacitance + self.timed.wire(self.net, node, self.layer))
            }
            Some(Timing::TerminalViaSecondChild) if above.children[0] != node => 0,
            Some(Timing::TerminalViaAtRoot) if above.is_root() => 0,
            Some(Timing::TerminalViaEmptyEdge) if self.is_empty(node) => 0,
            _ => pays,
        }
    }
}

/// A time or load by its low bits alone.
fn low(number: i64, bits: u32) -> i64 {
    low_bits(number as usize, bits) as i64
}

impl Stage {
    /// Leaves out the ends that a slip does not count.
    fn forget_ends(&mut self, slip: Option<Timing>) {
        let (buffers, sinks): (Vec<usize>, Vec<usize>) =
            (0..self.ends.len()).partition(|&end| self.ends[end].stage.is_some());
        let forgotten: &[usize] = match slip {
            Some(Timing::FirstSinkOnly) => sinks.get(1..).unwrap_or(&[]),
            Some(Timing::LastSinkOnly) => sinks.split_last().map_or(&[], |(_, others)| others),
            Some(Timing::SinkBesideBuffer) if !buffers.is_empty() => &sinks,
            Some(Timing::BufferBesideSink) if !sinks.is_empty() => &buffers,
            Some(Timing::ThirdBuffer) => buffers.get(2..).unwrap_or(&[]),
            Some(Timing::LastTerminal) if self.ends.len() > 1 => &[self.ends.len() - 1],
            _ => &[],
        };
        let mut end = 0..;
        self.ends.retain(|_| !forgotten.contains(&end.next().expect("a number")));
    }
}
