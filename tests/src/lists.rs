//! A net in records (02, wish 9), as a host lends it: its lists, the bytes that describe the same net, and planning it.

use crate::asked::{Asked, Left, Planning, Share};
use crate::c_calls::{Layer, NodeRecord, BUFFER, DRIVER, SINK, STEINER};
use crate::compare::Case;
use crate::host::Host;
use crate::met::Met;
use crate::nets::{Draft, Kind, Random, MOST_LAYERS};
use crate::plain::{self, Net, Planned, Search};

#[derive(Clone, Debug, Default, PartialEq)]
pub struct Lists {
    pub layers: Vec<Layer>,
    pub nodes: Vec<NodeRecord>,
    pub costs: Vec<u64>,
}

impl Lists {
    /// The lists of a net. What a kind does not have is 0.
    pub fn of(draft: &Draft) -> Lists {
        let via = |layer: usize| draft.vias.as_ref().map_or(0, |vias| vias[layer] as u64);
        let layer = |(number, &(resistance, capacitance)): (usize, &(i64, i64))| Layer {
            unit_res: resistance as u64,
            unit_cap: capacitance as u64,
            via_res: via(number),
        };
        let layers = draft.layers.iter().enumerate().map(layer).collect();
        let (gate_res, intrinsic) = (draft.resistance as u64, draft.intrinsic as u64);
        let driver = NodeRecord { kind: DRIVER, gate_res, intrinsic, time: draft.arrival, ..Default::default() };
        let nodes = draft.nodes.iter().map(|node| {
            let edge = NodeRecord { parent: node.parent as u64, length: node.length as u64, ..Default::default() };
            match node.kind {
                Kind::Steiner => NodeRecord { kind: STEINER, ..edge },
                Kind::Buffer { capacitance, resistance, intrinsic } => {
                    let [input_cap, gate_res, intrinsic] = [capacitance, resistance, intrinsic].map(|n| n as u64);
                    NodeRecord { kind: BUFFER, input_cap, gate_res, intrinsic, ..edge }
                }
                Kind::Sink { capacitance, required } => {
                    NodeRecord { kind: SINK, input_cap: capacitance as u64, time: required, ..edge }
                }
            }
        });
        let nodes = [driver].into_iter().chain(nodes).collect();
        let costs = draft.nodes.iter().flat_map(|node| node.costs.iter().map(|&cost| cost as u64)).collect();
        Lists { layers, nodes, costs }
    }

    /// With rubbish wherever nothing is looked at: what a kind does not have, and parent and length in place 0.
    pub fn with_rubbish(mut self, random: &mut Random) -> Lists {
        for (place, node) in self.nodes.iter_mut().enumerate() {
            let mut rubbish = |is_unseen: bool, number: &mut u64| {
                if is_unseen {
                    *number = *random.pick(&[u64::MAX, 1 << 63, 1 << 32, 70_000, 7]);
                }
            };
            let kind = node.kind;
            rubbish(place == 0, &mut node.parent);
            rubbish(place == 0, &mut node.length);
            rubbish(kind == DRIVER || kind == STEINER, &mut node.input_cap);
            rubbish(kind == STEINER || kind == SINK, &mut node.gate_res);
            rubbish(kind == STEINER || kind == SINK, &mut node.intrinsic);
            if kind == STEINER || kind == BUFFER {
                node.time = *random.pick(&[i64::MIN, i64::MAX, -1]);
            }
        }
        self
    }

    /// The net that they hold, or the first fault.
    pub fn read(&self) -> Result<Net, u8> {
        plain::read_records(&self.layers, &self.nodes, &self.costs)
    }

    /// The bytes that describe the same net, if all its numbers can be said in bytes.
    pub fn described(&self) -> Option<Vec<u8>> {
        let count = self.layers.len();
        if !(1..=MOST_LAYERS).contains(&count) || self.costs.len() != count * self.nodes.len().saturating_sub(1) {
            return None;
        }
        let mut w = Writer { bytes: vec![], fits: true };
        w.head(7, 6 * count);
        for layer in &self.layers {
            [layer.unit_res, layer.unit_cap, layer.via_res].into_iter().for_each(|number| w.number(number, 2));
        }
        let rows = [&[][..]].into_iter().chain(self.costs.chunks(count));
        for (place, (node, row)) in self.nodes.iter().zip(rows).enumerate() {
            w.node(place, node, row);
        }
        w.fits.then_some(w.bytes)
    }

    /// The lists in words, a line for each layer and each node with its costs.
    pub fn told(&self) -> String {
        let mut text = format!("{} costs\n", self.costs.len());
        for Layer { unit_res, unit_cap, via_res } in &self.layers {
            text += &format!("  layer {unit_res} {unit_cap} {via_res}\n");
        }
        let mut rows = self.costs.chunks(self.layers.len().max(1));
        for (place, node) in self.nodes.iter().enumerate() {
            let NodeRecord { kind, parent, length, input_cap, gate_res, intrinsic, time } = node;
            let row = if place == 0 { &[][..] } else { rows.next().unwrap_or_default() };
            text += &format!("  {place}: kind {kind}, parent {parent}, length {length}, input {input_cap}, ");
            text += &format!("gate {gate_res}, intrinsic {intrinsic}, time {time}, costs {row:?}\n");
        }
        text
    }
}

/// Writes the bytes of a net, and notes if a number does not fit.
struct Writer {
    bytes: Vec<u8>,
    fits: bool,
}

impl Writer {
    fn number(&mut self, value: u64, width: usize) {
        self.fits &= width == 8 || value >> (8 * width) == 0;
        self.bytes.extend_from_slice(&value.to_be_bytes()[8 - width..]);
    }

    fn head(&mut self, tag: u64, length: usize) {
        self.number(tag, 1);
        self.number(length as u64, 2);
    }

    /// The field of a node. A kind that is not allowed in its place is a tag that is not, whatever follows it.
    fn node(&mut self, place: usize, node: &NodeRecord, row: &[u64]) {
        let shared = 4 + 4 * row.len();
        match node.kind {
            DRIVER => {
                self.head(DRIVER, 16);
                self.number(node.gate_res, 4);
                self.number(node.intrinsic, 4);
                return self.number(node.time as u64, 8);
            }
            STEINER if place > 0 => self.head(STEINER, shared),
            kind @ (BUFFER | SINK) if place > 0 => self.head(kind, shared + 12),
            kind => return self.head(kind, 0),
        }
        self.number(node.parent, 2);
        self.number(node.length, 2);
        row.iter().for_each(|&cost| self.number(cost, 4));
        if node.kind == BUFFER {
            [node.input_cap, node.gate_res, node.intrinsic].into_iter().for_each(|number| self.number(number, 4));
        }
        if node.kind == SINK {
            self.number(node.input_cap, 4);
            self.number(node.time as u64, 8);
        }
    }
}

/// Planning these lists by a share.
#[derive(Clone, Copy)]
pub struct Listed<'a> {
    pub lists: &'a Lists,
    pub share: Share,
}

impl Planning for Listed<'_> {
    const CALL: &'static str = "plan records";
    type Answer = Planned;

    fn words(self) -> String {
        self.share.words()
    }

    fn lent(self) -> String {
        format!(", lists with {}", self.lists.told())
    }

    fn refused(refusal: u8) -> Planned {
        Share::refused(refusal)
    }

    fn refusal(answer: Planned) -> u8 {
        answer.refusal
    }

    fn put_to_plain(self, net: &Net, search: &dyn Search, table: &mut [i64], buffer: &mut [u8]) -> Planned {
        self.share.put_to_plain(net, search, table, buffer)
    }

    fn put_to(self, host: &mut Host, _net: &[u8], table: &mut [i64], buffer: &mut [u8]) -> Planned {
        host.plan_records(self.lists, self.share.p, self.share.q, table, buffer)
    }

    fn count(self, met: &mut Met, _case: &Case, _table_len: usize, answer: Planned) {
        met.records.planned(answer);
    }
}

impl Asked<Listed<'_>> {
    /// What the same call on the bytes that describe the net leaves, if there are such.
    pub fn by_bytes(&self, host: &mut Host) -> Option<Left<Planned>> {
        let bytes = self.terms.lists.described()?;
        Some(self.left_by(|table, buffer| self.terms.share.put_to(host, &bytes, table, buffer)))
    }
}
