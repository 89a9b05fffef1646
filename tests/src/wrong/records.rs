//! Reading nets in records.

use super::mistakes::{Call, Listing, Mistake, Slip};
use super::reading::{Net, Node, BUFFER, DRIVER, NUMBERS, SINK, STEINER};
use super::{low_bits, Wrong};
use crate::c_calls::{Layer, NodeRecord};

/// The lists that a call is lent.
pub struct Lent<'a> {
    pub layers: &'a [Layer],
    pub nodes: &'a [NodeRecord],
    pub costs: &'a [u64],
}

/// Numbers that may be cut to fewer bits: those of `NUMBERS`, by their places there, and two more.
pub const CUTS: [&str; 15] = {
    let mut names = ["parent"; 15];
    let mut place = 0;
    while place < NUMBERS.len() {
        names[place] = NUMBERS[place].0;
        place += 1;
    }
    names[KIND] = "kind";
    names
};
const PARENT: usize = 13;
const KIND: usize = 14;

/// The places of numbers in `NUMBERS`.
const UNIT_RES: usize = 0;
const UNIT_CAP: usize = 1;
const OF_DRIVER: [usize; 3] = [2, 3, 4];
const LENGTH: usize = 5;
const COST: usize = 6;
const OF_BUFFER: [usize; 3] = [7, 8, 9];
const OF_SINK: [usize; 2] = [10, 11];
const VIA: usize = 12;

/// What is not to be looked at: in words, the kind, and whether it would be outside the range that others have there.
pub const UNSEEN: &[(&str, u8, fn(&NodeRecord) -> bool)] = &[
    ("place 0's parent", DRIVER, |node| node.parent != 0),
    ("place 0's length", DRIVER, |node| node.length > 4_000),
    ("the driver's input capacitance", DRIVER, |node| node.input_cap > 100_000),
    ("a Steiner point's input capacitance", STEINER, |node| node.input_cap > 100_000),
    ("a Steiner point's gate resistance", STEINER, |node| node.gate_res > 100_000),
    ("a Steiner point's intrinsic delay", STEINER, |node| node.intrinsic > 1_000_000_000),
    ("a Steiner point's time", STEINER, |node| !(-LAST_TIME..=LAST_TIME).contains(&node.time)),
    ("a buffer's time", BUFFER, |node| !(-LAST_TIME..=LAST_TIME).contains(&node.time)),
    ("a sink's gate resistance", SINK, |node| node.gate_res > 100_000),
    ("a sink's intrinsic delay", SINK, |node| node.intrinsic > 1_000_000_000),
];
const LAST_TIME: i64 = super::reading::LAST_TIME;

/// A record as it is read, and which of its numbers are out of range: its own, and its costs.
struct Read {
    node: Node,
    bad: bool,
    bad_costs: bool,
}

impl Wrong {
    /// The planner as it answers calls on records, and as it answers others.
    pub fn on_records(self) -> Wrong {
        match self.mistake {
            Mistake::OnRecords(other) => Wrong { mistake: Mistake::Other(other) },
            Mistake::Other(_) => Wrong { mistake: Mistake::None },
            _ => self,
        }
    }

    fn slips_in_lists(&self, slip: Listing) -> bool {
        self.mistake == Mistake::Listing(slip)
    }

    /// Whether the lists of these lengths have not as many costs as are due.
    fn wrong_count(&self, layers: usize, nodes: usize, costs: usize) -> bool {
        let mut rows = nodes.saturating_sub(1) as u128;
        match self.mistake {
            Mistake::Listing(Listing::RowForDriver) => rows = nodes as u128,
            Mistake::Listing(Listing::RowsTo255) => rows = rows.min(255),
            Mistake::Listing(Listing::CostsWithoutRecords) if nodes == 0 => return false,
            _ => {}
        }
        let (given, due, row) = (costs as u128, layers as u128 * rows, layers as u128);
        let accepted = match self.mistake {
            Mistake::Listing(Listing::CostMoreAccepted) => given == due + 1,
            Mistake::Listing(Listing::CostLessAccepted) => given + 1 == due,
            Mistake::Listing(Listing::RowMoreAccepted) => given == due + row,
            Mistake::Listing(Listing::RowLessAccepted) => given + row == due,
            Mistake::Listing(Listing::MoreCostsAccepted) => given > due,
            Mistake::Listing(Listing::Product32) => given as u32 == due as u32,
            Mistake::Listing(Listing::Product64) => given as u64 == due as u64,
            _ => false,
        };
        given != due && !accepted
    }

    /// The refusal before the records, by the lengths of the lists and whether a layer is bad.
    fn refused_before(&self, [layers, nodes, costs]: [usize; 3], bad_layer: bool) -> Option<u8> {
        let most = match self.mistake {
            Mistake::Listing(Listing::Layers16Refused) => 15,
            Mistake::Listing(Listing::Layers17Accepted) => 17,
            _ => 16,
        };
        let of_layers = if layers == 0 && self.slips_in_lists(Listing::NoLayersIs1) { 1 } else { 2 };
        let of_count = match self.mistake {
            Mistake::Listing(Listing::CountIs3) => 3,
            Mistake::Listing(Listing::CountIs1) => 1,
            _ => 18,
        };
        let of_records = match self.mistake {
            Mistake::Listing(Listing::NoRecordsIs2) => 2,
            Mistake::Listing(Listing::NoRecordsIs6) => 6,
            _ => 1,
        };
        let mut faults = [
            (of_layers, layers == 0 || layers > most),
            (of_count, self.wrong_count(layers, nodes, costs)),
            (3, bad_layer && !self.slips_in_lists(Listing::LayersLast)),
            (of_records, nodes == 0),
        ];
        match self.mistake {
            Mistake::Listing(Listing::LayerBeforeCount) => faults.swap(1, 2),
            Mistake::Listing(Listing::CountBeforeLayers) => faults.swap(0, 1),
            Mistake::Listing(Listing::NoRecordsBeforeCount) => faults[1..].rotate_right(1),
            Mistake::Listing(Listing::NoRecordsBeforeLayer) => faults.swap(2, 3),
            _ => {}
        }
        faults.into_iter().find(|(_, holds)| *holds).map(|(refusal, _)| refusal)
    }

    /// What is answered by lengths of lists that are not there; as if there were no records where they would be looked at.
    pub fn refused_by_counts(&self, counts: [usize; 3]) -> u8 {
        self.refused_before(counts, false).unwrap_or(1)
    }

    /// A number by as many of its bits as are looked at.
    fn cut(&self, place: usize, value: u64) -> u64 {
        match self.mistake {
            Mistake::Cut(wrong, bits) if wrong == place => value & ((1 << bits) - 1),
            _ => value,
        }
    }

    /// The number at a place of `NUMBERS`, and whether it is out of range.
    fn number(&self, place: usize, value: u64) -> (i64, bool) {
        let (_, width, mut low, mut high) = NUMBERS[place];
        if let Mistake::Listed(wrong, slip) = self.mistake {
            match slip {
                _ if wrong != place => {}
                Slip::BelowAccepted => low -= 1,
                Slip::LowestRefused => low += 1,
                Slip::HighestRefused => high -= 1,
                Slip::AboveAccepted => high += 1,
                Slip::FirstByteIgnored => {}
            }
        }
        let value = self.cut(place, value);
        let signed = width == 8 && !self.slips_in_lists(Listing::TimesUnsigned);
        let wide = if signed { value as i64 as i128 } else { value as i128 };
        (value as i64, wide < low as i128 || wide > high as i128)
    }

    pub fn read_lists(&self, lent: &Lent) -> Result<Net, u8> {
        let Lent { layers, nodes, costs } = *lent;
        let mut net = Net::default();
        net.second = true;
        let bad_layer = self.list_layers(&mut net, layers);
        if let Some(refusal) = self.refused_before([layers.len(), nodes.len(), costs.len()], bad_layer) {
            return Err(refusal);
        }
        let mut nodes = nodes;
        match self.mistake {
            Mistake::Listing(Listing::CountsRecords8) => nodes = &nodes[..low_bits(nodes.len() - 1, 8) + 1],
            Mistake::Listing(Listing::Beyond256Unseen) => nodes = &nodes[..nodes.len().min(256)],
            _ => {}
        }
        self.refused_at_once(lent)?;
        let mut bad_driver = false;
        let (mut bad_costs, mut bad_parent) = (false, false);
        for (place, record) in nodes.iter().enumerate() {
            if place == 0 {
                bad_driver = self.list_driver(&mut net, record)?;
                continue;
            }
            let Read { mut node, bad, bad_costs: bad_row } = self.record_in(lent, place);
            let parent_fault = self.list_fault(&net, record, &node, (bad, bad_row))?;
            bad_costs |= bad_row;
            bad_parent |= parent_fault;
            if parent_fault {
                node.parent = 0;
            }
            net.hang(node);
        }
        let late = [
            (Listing::DriverLate, bad_driver, 3),
            (Listing::LayersLast, bad_layer, 3),
            (Listing::CostsLast, bad_costs, 3),
            (Listing::ParentsLast, bad_parent, 5),
        ];
        if let Some((_, _, refusal)) = late.into_iter().find(|&(slip, holds, _)| holds && self.slips_in_lists(slip)) {
            return Err(refusal);
        }
        self.whole(&net)?;
        Ok(net)
    }

    /// The layers; whether one has a number out of range.
    fn list_layers(&self, net: &mut Net, layers: &[Layer]) -> bool {
        let mut any_bad = false;
        for (place, layer) in layers.iter().enumerate() {
            let (resistance, bad_res) = self.number(UNIT_RES, layer.unit_res);
            let (capacitance, bad_cap) = self.number(UNIT_CAP, layer.unit_cap);
            let (via, bad_via) = self.number(VIA, layer.via_res);
            let is_seen = place + 1 < layers.len() || !self.slips_in_lists(Listing::LastLayerUnchecked);
            any_bad |= (bad_res || bad_cap || bad_via) && is_seen;
            net.layers.push(match self.mistake {
                Mistake::Listing(Listing::UnitsExchanged) => (capacitance, resistance),
                _ => (resistance, capacitance),
            });
            net.vias.push(if self.slips_in_lists(Listing::NoVias) { 0 } else { via });
        }
        if let (Some(&last), true) = (net.vias.last(), self.slips_in_lists(Listing::ViaOfLast)) {
            net.vias.fill(last);
        }
        any_bad
    }

    /// Faults that are looked for in all records before the first is read.
    fn refused_at_once(&self, lent: &Lent) -> Result<(), u8> {
        let bad_cost = |&cost: &u64| self.number(COST, cost).1;
        let bad_kind =
            |(place, node): (usize, &NodeRecord)| !(if place == 0 { 2..=2 } else { 3..=5 }).contains(&node.kind);
        let is_parent = |number: usize| lent.nodes.iter().skip(1).any(|node| node.parent == number as u64);
        let childless = |(place, node): (usize, &NodeRecord)| node.kind != SINK as u64 && !is_parent(place);
        match self.mistake {
            Mistake::Listing(Listing::CostsFirst) if lent.costs.iter().any(bad_cost) => Err(3),
            Mistake::Listing(Listing::KindsFirst) if lent.nodes.iter().enumerate().any(bad_kind) => Err(2),
            Mistake::Listing(Listing::SixFirst) if lent.nodes.iter().enumerate().any(childless) => Err(6),
            _ => Ok(()),
        }
    }

    /// The kind of a record, as far as it is looked at.
    fn kind(&self, record: &NodeRecord) -> u64 {
        let kind = self.cut(KIND, record.kind);
        let is_none = !(2..=5).contains(&kind);
        match self.mistake {
            Mistake::Listing(Listing::Kind0AsDriver) if kind == 0 => 2,
            Mistake::Listing(Listing::Kind7AsSteiner) if kind == 7 => 3,
            Mistake::Listing(Listing::OtherAsSteiner) if is_none => 3,
            Mistake::Listing(Listing::OtherAsSink) if is_none => 5,
            Mistake::Listing(Listing::DriverAsBuffer) if kind == 2 => 4,
            _ => kind,
        }
    }

    /// What is looked at by mistake, and is out of range.
    fn bad_unseen(&self, record: &NodeRecord, kind: u8) -> bool {
        matches!(self.mistake, Mistake::Seen(place) if UNSEEN[place].1 == kind && UNSEEN[place].2(record))
    }

    /// The record in place 0. Whether its numbers are bad, where that is said later.
    fn list_driver(&self, net: &mut Net, record: &NodeRecord) -> Result<bool, u8> {
        let is_driver = self.cut(KIND, record.kind) == 2 || self.kind(record) == 2;
        if !is_driver && !self.slips_in_lists(Listing::FirstKindUnseen) {
            return Err(if self.slips_in_lists(Listing::FirstKindIs5) { 5 } else { 2 });
        }
        let numbers = [record.gate_res, record.intrinsic, record.time as u64];
        let read = [0, 1, 2].map(|place| self.number(OF_DRIVER[place], numbers[place]));
        let [resistance, intrinsic, mut time] = read.map(|(number, _)| number);
        let bad = read.iter().any(|(_, bad)| *bad);
        if self.bad_unseen(record, DRIVER) {
            return Err(3);
        }
        match self.mistake {
            Mistake::Listing(Listing::DriverUnchecked | Listing::DriverLate) => {}
            _ if bad => return Err(3),
            Mistake::Listing(Listing::ArrivalForgotten) => time = 0,
            _ => {}
        }
        net.nodes.push(Node { tag: DRIVER, resistance, intrinsic, time, ..Default::default() });
        Ok(bad)
    }

    /// The record in a place after the driver's, with its costs.
    fn record_in(&self, lent: &Lent, place: usize) -> Read {
        let record = &lent.nodes[place];
        let (length, mut bad) = self.number(LENGTH, record.length);
        let mut parent = self.cut(PARENT, record.parent) as usize;
        if self.slips_in_lists(Listing::ParentOneLess) {
            parent = parent.saturating_sub(1);
        }
        let mut node = Node { tag: self.kind(record).min(255) as u8, parent, length, ..Default::default() };
        let mut number = |place: usize, value: u64| {
            let (number, is_bad) = self.number(place, value);
            bad |= is_bad;
            number
        };
        if node.tag == BUFFER {
            let (mut input, mut gate) = (record.input_cap, record.gate_res);
            if self.slips_in_lists(Listing::GateAndInput) {
                (input, gate) = (gate, input);
            }
            (node.capacitance, node.resistance) = (number(OF_BUFFER[0], input), number(OF_BUFFER[1], gate));
            node.intrinsic = number(OF_BUFFER[2], record.intrinsic);
        }
        if node.tag == SINK {
            node.capacitance = number(OF_SINK[0], record.input_cap);
            node.time = number(OF_SINK[1], record.time as u64);
        }
        bad |= self.bad_unseen(record, node.tag);
        let (costs, bad_costs) = self.row(lent, place);
        node.costs = costs;
        Read { node, bad, bad_costs }
    }

    /// The costs of the node in a place; whether one is out of range.
    fn row(&self, lent: &Lent, place: usize) -> (Vec<i64>, bool) {
        let (layers, rows) = (lent.layers.len(), lent.nodes.len() - 1);
        let at = |layer: usize| match self.mistake {
            Mistake::Listing(Listing::Transposed) => layer * rows + place - 1,
            Mistake::Listing(Listing::FirstRow) => layer,
            Mistake::Listing(Listing::NextRow) => place % rows * layers + layer,
            Mistake::Listing(Listing::ReversedRow) => place * layers - 1 - layer,
            Mistake::Listing(Listing::RowForDriver) => place * layers + layer,
            _ => (place - 1) * layers + layer,
        };
        let (mut costs, mut any_bad) = (vec![], false);
        for layer in 0..layers {
            let (cost, bad) = self.number(COST, lent.costs.get(at(layer)).copied().unwrap_or(1));
            let is_seen = match self.mistake {
                Mistake::Listing(Listing::LastCostUnchecked) => layer + 1 < layers,
                Mistake::Listing(Listing::LastRowUnchecked) => place < rows,
                _ => true,
            };
            any_bad |= bad && is_seen;
            costs.push(cost);
        }
        (costs, any_bad)
    }

    /// The first fault of a record, in the order in which they are looked for. Whether its parent is bad, where that is
    /// said later.
    fn list_fault(&self, net: &Net, record: &NodeRecord, node: &Node, bad: (bool, bool)) -> Result<bool, u8> {
        let kind = self.kind(record);
        let of_kind = match self.mistake {
            Mistake::Listing(Listing::DriverIs5) if kind == 2 => 5,
            Mistake::Listing(Listing::DriverIs3) if kind == 2 => 3,
            Mistake::Listing(Listing::OtherIs3) if kind != 2 => 3,
            _ => 2,
        };
        let parent_fault = self.parent_fault(net, node.parent);
        let far = record.parent >> 16 != 0 && self.slips_in_lists(Listing::HighParentIs3);
        let long = record.length >> 16 != 0 && self.slips_in_lists(Listing::LongIs5);
        let of_costs = bad.1 && !self.slips_in_lists(Listing::CostsLast);
        let kind_fault = (of_kind, !(3..=5).contains(&kind));
        let room = (4, self.room(net, node.tag).is_err());
        let numbers = (if long { 5 } else { 3 }, bad.0);
        let costs = (3, of_costs);
        let parent_late = self.slips_in_lists(Listing::ParentsLast);
        let parent = (if far { 3 } else { parent_fault.unwrap_or(5) }, parent_fault.is_some() && !parent_late);
        let order = match self.mistake {
            Mistake::Listing(Listing::FourBeforeTwo) => [room, kind_fault, numbers, costs, parent],
            Mistake::Listing(Listing::ThreeBeforeTwo) => [numbers, costs, kind_fault, room, parent],
            Mistake::Listing(Listing::FiveBeforeTwo) => [parent, kind_fault, room, numbers, costs],
            Mistake::Listing(Listing::ThreeBeforeFour) => [kind_fault, numbers, costs, room, parent],
            Mistake::Listing(Listing::FiveBeforeFour) => [kind_fault, parent, room, numbers, costs],
            Mistake::Listing(Listing::FiveBeforeThree) => [kind_fault, room, parent, numbers, costs],
            Mistake::Listing(Listing::FiveBeforeCosts) => [kind_fault, room, numbers, parent, costs],
            Mistake::Listing(Listing::CostsBeforeFour) => [kind_fault, costs, room, numbers, parent],
            _ => [kind_fault, room, numbers, costs, parent],
        };
        match order.into_iter().find(|(_, holds)| *holds) {
            Some((refusal, _)) => Err(refusal),
            None => Ok(parent_fault.is_some()),
        }
    }

    /// The list that a call changes by mistake.
    pub fn changes_list(&self, call: Call, list: usize) -> bool {
        self.mistake == Mistake::ListChanged(call, list)
    }
}
