//! What the program `try_loads` prints (02, wish 4): for each stage the number of its edges and the load at its root on
//! each layer.

use crate::plain::{self, Kind, Net};
use std::collections::BTreeSet;
use std::fmt::{self, Display, Formatter};

/// A stage's line.
#[derive(Clone)]
pub struct Line {
    pub stage: usize,
    pub edges: i128,
    pub loads: Vec<i128>,
}

impl Display for Line {
    fn fmt(&self, to: &mut Formatter) -> fmt::Result {
        write!(to, "stage {} edges {} loads", self.stage, self.edges)?;
        self.loads.iter().try_for_each(|load| write!(to, " {load}"))
    }
}

/// The lines, or for bytes that are no net its refusal.
pub fn text(told: &Result<Vec<Line>, u8>) -> String {
    match told {
        Ok(lines) => lines.iter().map(|line| format!("{line}\n")).collect(),
        Err(refusal) => format!("refused {refusal}\n"),
    }
}

/// A stage, each of its edges named by the node at the lower end.
pub struct Stage {
    pub root: usize,
    pub edges: BTreeSet<usize>,
    /// On each layer, at the root.
    pub loads: Vec<i128>,
}

/// A net that was read, and its stages.
pub struct Staged {
    pub net: Net,
    pub stages: Vec<Stage>,
}

/// "all wire below it up to the next buffers or sinks": down from a node, over its children.
fn edges_below(net: &Net, node: usize) -> BTreeSet<usize> {
    let mut edges = BTreeSet::new();
    for &child in &net.nodes[node].children {
        edges.insert(child);
        if !plain::is_terminal(net, child) {
            edges.extend(edges_below(net, child));
        }
    }
    edges
}

/// "The load at a terminal is its input capacitance"; here nothing for a Steiner point.
pub fn input(net: &Net, node: usize) -> i128 {
    match net.nodes[node].kind {
        Kind::Buffer { capacitance, .. } | Kind::Sink { capacitance, .. } => capacitance,
        Kind::Driver { .. } | Kind::Steiner => 0,
    }
}

impl Staged {
    fn new(net: Net) -> Staged {
        let stage = |root| {
            let loads = (0..net.layers.len()).map(|layer| plain::load_over_children(&net, root, layer)).collect();
            Stage { root, edges: edges_below(&net, root), loads }
        };
        let stages = plain::roots(&net).into_iter().map(stage).collect();
        Staged { net, stages }
    }

    fn lines(&self) -> Vec<Line> {
        let line = |(stage, found): (usize, &Stage)| {
            let (edges, loads) = (found.edges.len() as i128, found.loads.clone());
            Line { stage, edges, loads }
        };
        self.stages.iter().enumerate().map(line).collect()
    }

    /// Found from below: the nodes from which one climbs to the root.
    fn edges_climb(&self) -> bool {
        let climbing = |stage| {
            let nodes = 1..self.net.nodes.len();
            nodes.filter(|&node| plain::stage_of_edge(&self.net, node) == stage).collect::<BTreeSet<usize>>()
        };
        self.stages.iter().enumerate().all(|(stage, found)| found.edges == climbing(stage))
    }

    /// Added up in one sum, without the tree: the wire of the edges and the inputs of the terminals.
    fn loads_are_sums(&self) -> bool {
        let sum = |stage: &Stage, layer| -> i128 {
            let edges = stage.edges.iter();
            edges.map(|&node| plain::edge_capacitance(&self.net, node, layer) + input(&self.net, node)).sum()
        };
        self.stages.iter().all(|stage| stage.loads.iter().enumerate().all(|(l, &load)| load == sum(stage, l)))
    }
}

/// Bytes with what is printed for them.
pub struct Printed {
    pub name: String,
    pub bytes: Vec<u8>,
    pub read: Result<Staged, u8>,
    pub text: String,
}

impl Printed {
    pub fn new(name: &str, bytes: &[u8]) -> Printed {
        let read = plain::read(bytes).map(Staged::new);
        let text = text(&read.as_ref().map(Staged::lines).map_err(|&refusal| refusal));
        Printed { name: String::from(name), bytes: bytes.to_vec(), read, text }
    }

    /// What is wrong with the second implementation itself.
    pub fn faults(&self) -> Vec<&'static str> {
        let laws: [(fn(&Staged) -> bool, &str); 2] = [
            (Staged::edges_climb, "the edges found from above are not those found from below"),
            (Staged::loads_are_sums, "a load is not the sum of wire and inputs"),
        ];
        let broken = laws.iter().filter(|(holds, _)| !self.read.as_ref().map_or(true, holds));
        broken.map(|(_, otherwise)| *otherwise).chain(self.miscounted(&self.text)).collect()
    }

    /// Over all stages, a text's edges are the nodes after the driver: as many as there are fields in the bytes after
    /// the first two. Neither the tree nor what was read of it has a part in this.
    fn miscounted(&self, text: &str) -> Option<&'static str> {
        let edges = text.lines().map(|line| line.split(' ').nth(3)?.parse::<usize>().ok()).sum::<Option<usize>>();
        let miscounted = self.read.is_ok() && edges != Some(fields(&self.bytes) - 2);
        miscounted.then_some("the edges do not add up to the nodes after the driver")
    }

    /// Where another text differs, if it does.
    pub fn difference(&self, found: &str) -> Option<String> {
        let (mut expected, mut other) = (self.text.split('\n'), found.split('\n'));
        let (expected, other) = loop {
            match (expected.next(), other.next()) {
                (None, None) => return None,
                (expected, other) if expected != other => break (expected, other),
                _ => {}
            }
        };
        let [expected, other] =
            [expected, other].map(|line| line.map_or(String::from("the end"), |l| format!("{l:?}")));
        let beside = self.miscounted(found).map_or(String::new(), |fault| format!("; {fault}"));
        Some(format!("{other} for {expected}{beside}"))
    }
}

/// The fields of a net, by their heads alone.
fn fields(bytes: &[u8]) -> usize {
    let (mut fields, mut rest) = (0, bytes);
    while let [_tag, high, low, payload @ ..] = rest {
        fields += 1;
        rest = &payload[usize::from(*high) * 256 + usize::from(*low)..];
    }
    fields
}
