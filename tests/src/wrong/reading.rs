//! Reading net bytes.

use super::mistakes::{Edition, Length, Mistake, Other, Slip};
use super::{low_bits, Wrong};
use std::cell::RefCell;

pub const LAST_TIME: i64 = 1_000_000_000_000_000;

/// The numbers of the records: name, width in bytes, range.
pub const NUMBERS: &[(&str, usize, i64, i64)] = &[
    ("unit resistance", 2, 1, 1_000),
    ("unit capacitance", 2, 1, 1_000),
    ("driver's gate resistance", 4, 0, 100_000),
    ("driver's intrinsic delay", 4, 0, 1_000_000_000),
    ("arrival time", 8, -LAST_TIME, LAST_TIME),
    ("length", 2, 0, 4_000),
    ("cost", 4, 1, 1_000_000),
    ("buffer's input capacitance", 4, 0, 100_000),
    ("buffer's gate resistance", 4, 0, 100_000),
    ("buffer's intrinsic delay", 4, 0, 1_000_000_000),
    ("sink's input capacitance", 4, 0, 100_000),
    ("required time", 8, -LAST_TIME, LAST_TIME),
    ("via resistance", 2, 0, 1_000),
];

/// The places of length and via among them.
const LENGTH: usize = 5;
const VIA: usize = 12;

pub const DRIVER: u8 = 2;
pub const STEINER: u8 = 3;
pub const BUFFER: u8 = 4;
pub const SINK: u8 = 5;

#[derive(Default, Clone)]
pub struct Node {
    pub tag: u8,
    pub parent: usize,
    pub length: i64,
    pub costs: Vec<i64>,
    pub capacitance: i64,
    pub resistance: i64,
    pub intrinsic: i64,
    /// The driver's arrival time, a sink's required time.
    pub time: i64,
    pub children: Vec<usize>,
}

impl Node {
    pub fn is_root(&self) -> bool {
        matches!(self.tag, DRIVER | BUFFER)
    }

    pub fn is_terminal(&self) -> bool {
        matches!(self.tag, BUFFER | SINK)
    }
}

#[derive(Default)]
pub struct Net {
    pub layers: Vec<(i64, i64)>,
    /// One for each layer.
    pub vias: Vec<i64>,
    /// Is it of the second edition?
    pub second: bool,
    pub nodes: Vec<Node>,
    /// A third child that was let through.
    third_child: bool,
    /// A via outside its range that was let through.
    bad_via: bool,
}

thread_local! {
    /// The vias of the last tag 7 file, for a planner that keeps them.
    static LAST_VIAS: RefCell<Vec<i64>> = const { RefCell::new(vec![]) };
}

impl Net {
    pub fn buffers(&self) -> usize {
        self.nodes.iter().filter(|node| node.tag == BUFFER).count()
    }

    /// For each node the stage of the wire below it.
    pub fn stages_below(&self) -> Vec<usize> {
        let (mut below, mut stages) = (vec![0], 0);
        for node in &self.nodes[1..] {
            stages += (node.tag == BUFFER) as usize;
            below.push(if node.tag == BUFFER { stages } else { below[node.parent] });
        }
        below
    }

    /// All nodes, along the tree.
    pub fn tree_order(&self) -> Vec<usize> {
        let (mut order, mut open) = (vec![], vec![0]);
        while let Some(node) = open.pop() {
            order.push(node);
            open.extend(self.nodes[node].children.iter().rev());
        }
        order
    }
}

/// A payload read from the front; `bad` notes a number outside its range.
struct Cursor<'a> {
    left: &'a [u8],
    bad: bool,
    mistake: Mistake,
}

impl Cursor<'_> {
    fn unsigned(&mut self, width: usize) -> i64 {
        let (here, rest) = self.left.split_at(width);
        self.left = rest;
        here.iter().fold(0i64, |number, &byte| number << 8 | byte as i64)
    }

    /// The number at a place of `NUMBERS`.
    fn number(&mut self, place: usize) -> i64 {
        let (_, width, mut low, mut high) = NUMBERS[place];
        let mut value = self.unsigned(width);
        if let Mistake::Number(wrong, slip) = self.mistake {
            match slip {
                _ if wrong != place => {}
                Slip::BelowAccepted => low -= 1,
                Slip::LowestRefused => low += 1,
                Slip::HighestRefused => high -= 1,
                Slip::AboveAccepted => high += 1,
                Slip::FirstByteIgnored => value &= (1 << (8 * width - 8)) - 1,
            }
        }
        self.bad |= value < low || value > high;
        value
    }

    /// The length of an edge.
    fn length(&mut self) -> i64 {
        let Mistake::Length(slip) = self.mistake else { return self.number(LENGTH) };
        let mut value = self.unsigned(2);
        if slip == Length::ReadBy12Bits {
            value &= 0xFFF;
        }
        let highest = match slip {
            Length::BoundKept => 1_000,
            Length::Bound4095 => 4_095,
            Length::Bound4096 => 4_096,
            _ => NUMBERS[LENGTH].3,
        };
        self.bad |= value > highest || (slip == Length::ThousandRefused && value == 1_000);
        match slip {
            Length::KeptIn11Bits => value & 0x7FF,
            Length::KeptIn10Bits => value & 0x3FF,
            _ => value,
        }
    }
}

impl Cursor<'_> {
    /// The via resistance of a layer.
    fn via(&mut self, layer: usize, is_last: bool) -> i64 {
        let Mistake::Edition(slip) = self.mistake else { return self.number(VIA) };
        let read = self.unsigned(2);
        let value = match slip {
            Edition::LittleEndian => (read as u16).swap_bytes() as i64,
            Edition::HighByte => read >> 8,
            Edition::ReadBy10Bits => read & 0x3FF,
            _ => read,
        };
        let highest = match slip {
            Edition::Bound1023 => 1_023,
            Edition::Bound1024 => 1_024,
            Edition::Bound4000 => 4_000,
            Edition::Bound32767 => 32_767,
            Edition::Unchecked | Edition::IsTwo | Edition::CheckedLate => 65_535,
            Edition::LastUnchecked if is_last => 65_535,
            Edition::FirstOnly if layer > 0 => 65_535,
            _ => NUMBERS[VIA].3,
        };
        self.bad |= value > highest;
        match slip {
            Edition::KeptIn9Bits => value & 0x1FF,
            Edition::KeptIn8Bits => value & 0xFF,
            _ => value,
        }
    }
}

impl Wrong {
    fn edition_slip(&self) -> Option<Edition> {
        match self.mistake {
            Mistake::Edition(slip) => Some(slip),
            _ => None,
        }
    }

    pub fn read(&self, bytes: &[u8]) -> Result<Net, u8> {
        let length = if self.makes(Other::LongNetCut) { low_bits(bytes.len(), 16) } else { bytes.len() };
        let mut net = Net::default();
        let mut rest = &bytes[..length];
        for field in 0.. {
            let enough = if self.makes(Other::TrailingByteIgnored) { 3 } else { 1 };
            if field >= 2 && rest.len() < enough {
                break;
            }
            let (tag, mut cursor) = self.field(&net, field, &mut rest)?;
            match field {
                0 => self.read_layers(&mut net, tag, &mut cursor),
                1 => net.nodes.push(read_driver(&mut cursor)),
                _ => self.read_node(&mut net, tag, &mut cursor)?,
            }
            if cursor.bad {
                return Err(3);
            }
            match self.edition_slip() {
                Some(Edition::IsTwo) if net.bad_via => return Err(2),
                Some(Edition::CheckedLate) if net.bad_via && field == 1 => return Err(3),
                _ => {}
            }
        }
        self.whole(&net)?;
        Ok(net)
    }

    /// Head, tag and length, payload.
    fn field<'a>(&self, net: &Net, field: usize, rest: &mut &'a [u8]) -> Result<(u8, Cursor<'a>), u8> {
        if rest.len() < 3 {
            let allowed: &[u8] = [&[1, 7][..], &[2], &[3, 4, 5]][field.min(2)];
            let wrong_tag = rest.first().is_some_and(|tag| !allowed.contains(tag));
            let is_two = self.makes(if field < 2 { Other::FirstHeadIsTwo } else { Other::TrailingByteIsTwo });
            return Err(if wrong_tag && is_two { 2 } else { 1 });
        }
        let tag = if self.makes(Other::TagLowBits) { rest[0] & 7 } else { rest[0] };
        let high = if self.makes(Other::PayloadLength8) { 0 } else { rest[1] as usize };
        let length = high * 256 + rest[2] as usize;
        let missing = rest.len() - 3 < length;
        if missing && self.makes(Other::PayloadBeforeTag) {
            return Err(1);
        }
        self.head(net, field, tag, length)?;
        if self.makes(Other::FourBeforePayload) && field >= 2 {
            self.room(net, tag)?;
        }
        if missing {
            let vias = rest[3..].chunks_exact(6).map(|layer| layer[4] as i64 * 256 + layer[5] as i64);
            let seen = tag == 7 && vias.into_iter().any(|via| via > NUMBERS[VIA].3);
            return Err(if seen && self.edition_slip() == Some(Edition::BeforePayload) { 3 } else { 1 });
        }
        let cursor = Cursor { left: &rest[3..3 + length], bad: false, mistake: self.mistake };
        *rest = &rest[3 + length..];
        Ok((tag, cursor))
    }

    fn head(&self, net: &Net, field: usize, tag: u8, length: usize) -> Result<(), u8> {
        let layers = net.layers.len();
        let fits = match (field, tag) {
            (0, _) => self.is_second(tag, length).is_some(),
            (1, 2) => length == 16,
            (2.., 3) => length == 4 + 4 * layers,
            (2.., 5) if self.makes(Other::SinkLength) && length == 4 + 4 * layers => true,
            (2.., 4 | 5) => length == 16 + 4 * layers,
            _ => false,
        };
        if fits {
            Ok(())
        } else if field == 0 && [1, 7].contains(&tag) && self.makes(Other::LayersLengthIsThree) {
            Err(3)
        } else {
            Err(2)
        }
    }

    fn layers_fit(&self, length: usize) -> bool {
        let most =
            64 + 4 * self.makes(Other::Layers17Accepted) as usize - 4 * self.makes(Other::Layers16Refused) as usize;
        (4..=most).contains(&length) && (length % 4 == 0 || self.makes(Other::LayersRounded))
    }

    fn vias_fit(&self, length: usize) -> bool {
        let slip = self.edition_slip();
        let (least, most) = match slip {
            Some(Edition::SixRefused) => (12, 96),
            Some(Edition::NoneAccepted) => (0, 96),
            Some(Edition::Above64Refused) => (6, 64),
            Some(Edition::SixteenRefused) => (6, 90),
            Some(Edition::SeventeenAccepted) => (6, 102),
            _ => (6, 96),
        };
        let step = match slip {
            Some(Edition::Rounded) => 1,
            Some(Edition::MultipleOf2) => 2,
            _ => 6,
        };
        (least..=most).contains(&length) && length % step == 0
    }

    /// Is a layers field with this tag and length of the second edition? None if there is no such field.
    fn is_second(&self, tag: u8, length: usize) -> Option<bool> {
        let as_first = || self.layers_fit(length).then_some(false);
        let as_second = || self.vias_fit(length).then_some(true);
        match (tag, self.edition_slip()) {
            (1, Some(Edition::FirstRefused)) | (7, Some(Edition::SecondRefused)) => None,
            (1, Some(Edition::FirstAsSecond)) => as_second(),
            (7, Some(Edition::SecondAsFirst)) => as_first(),
            (1, Some(Edition::FirstOf6)) => as_first().or_else(as_second),
            (7, Some(Edition::SecondOf4)) => as_second().or_else(as_first),
            (1, Some(Edition::ByLength)) => as_first().and_then(|_| as_second().or_else(as_first)),
            (7, Some(Edition::ByLength1)) => as_second().and_then(|_| as_first().or_else(as_second)),
            (6, Some(Edition::Tag6)) | (8, Some(Edition::Tag8)) | (15, Some(Edition::Tag15)) | (7, _) => as_second(),
            (1, _) => as_first(),
            _ => None,
        }
    }

    fn read_layers(&self, net: &mut Net, tag: u8, cursor: &mut Cursor) {
        net.second = self.is_second(tag, cursor.left.len()) == Some(true);
        let width = if net.second { 6 } else { 4 };
        // Which of a layer's numbers is its via.
        let place = match self.edition_slip() {
            _ if !net.second => None,
            Some(Edition::ViaFirst) => Some(0),
            Some(Edition::ViaBetween) => Some(1),
            _ => Some(2),
        };
        while cursor.left.len() >= width {
            let (layer, is_last) = (net.layers.len(), cursor.left.len() < 2 * width);
            let (mut units, mut via) = (vec![], 0);
            for number in 0..width / 2 {
                let bad_before = cursor.bad;
                if place == Some(number) {
                    via = cursor.via(layer, is_last);
                } else {
                    units.push(cursor.number(units.len()));
                    cursor.bad &= bad_before || !(is_last && self.makes(Other::LastLayerUnchecked));
                }
            }
            net.layers.push((units[0], units[1]));
            net.vias.push(via);
            net.bad_via |= via > NUMBERS[VIA].3;
        }
        self.keep_vias(net);
    }

    /// What is made of the vias that were read.
    fn keep_vias(&self, net: &mut Net) {
        let Some(slip) = self.edition_slip() else { return };
        let layers = net.layers.len();
        if net.second {
            match slip {
                Edition::OfNext => net.vias.rotate_left(1.min(layers)),
                Edition::OfLayer0 => net.vias = vec![net.vias[0]; layers],
                Edition::OfLastLayer => net.vias = vec![net.vias[layers - 1]; layers],
                Edition::Stale => LAST_VIAS.set(net.vias.clone()),
                _ => {}
            }
            return;
        }
        for layer in 0..layers {
            net.vias[layer] = match slip {
                Edition::FirstHas1 => 1,
                Edition::FirstHas1OnLast => (layer + 1 == layers) as i64,
                Edition::FirstHasResistance => net.layers[layer].0,
                Edition::FirstHasCapacitance => net.layers[layer].1,
                Edition::FirstHasNext => net.layers.get(layer + 1).map_or(0, |next| next.0),
                Edition::Stale => LAST_VIAS.with_borrow(|vias| vias.get(layer).copied().unwrap_or(0)),
                _ => 0,
            };
        }
    }

    /// A node record: 4, 3, 5.
    fn read_node(&self, net: &mut Net, tag: u8, cursor: &mut Cursor) -> Result<(), u8> {
        let node = self.record(net, tag, cursor);
        let parent_fault = self.parent_fault(net, node.parent);
        if cursor.bad && self.makes(Other::ThreeBeforeFour) {
            return Err(3);
        }
        if parent_fault.is_some() && self.makes(Other::FiveBeforeFour) {
            return Err(5);
        }
        self.room(net, tag)?;
        if cursor.bad && !(parent_fault.is_some() && self.makes(Other::FiveBeforeThree)) {
            return Err(3);
        }
        if let Some(fault) = parent_fault {
            return Err(fault);
        }
        let (number, parent) = (net.nodes.len(), node.parent);
        net.nodes.push(node);
        net.nodes[parent].children.push(number);
        net.third_child |= net.nodes[parent].children.len() > 2;
        Ok(())
    }

    fn record(&self, net: &Net, tag: u8, cursor: &mut Cursor) -> Node {
        let mut node = Node { tag, ..Default::default() };
        node.parent = cursor.unsigned(2) as usize;
        if self.makes(Other::ParentLowByte) {
            node.parent = low_bits(node.parent, 8);
        }
        node.length = cursor.length();
        for layer in 1..=net.layers.len() {
            let bad_before = cursor.bad;
            node.costs.push(cursor.number(6));
            if layer == net.layers.len() && self.makes(Other::LastCostUnchecked) {
                cursor.bad = bad_before;
            }
        }
        if tag == BUFFER {
            (node.capacitance, node.resistance, node.intrinsic) =
                (cursor.number(7), cursor.number(8), cursor.number(9));
        }
        if tag == SINK && !cursor.left.is_empty() {
            (node.capacitance, node.time) = (cursor.number(10), cursor.number(11));
        }
        node
    }

    /// Refusal 4.
    fn room(&self, net: &Net, tag: u8) -> Result<(), u8> {
        let nodes = 255 + self.makes(Other::Node256Accepted) as usize - self.makes(Other::Node255Refused) as usize;
        let buffers = 63 + self.makes(Other::Buffer64Accepted) as usize - self.makes(Other::Buffer63Refused) as usize;
        if net.nodes.len() > nodes || (tag == BUFFER && net.buffers() >= buffers) {
            Err(4)
        } else {
            Ok(())
        }
    }

    fn parent_fault(&self, net: &Net, parent: usize) -> Option<u8> {
        let number = net.nodes.len();
        if parent >= number {
            if parent == number && self.makes(Other::OwnParentAccepted) {
                return None;
            }
            return Some(if self.makes(Other::HighParentIsThree) { 3 } else { 5 });
        }
        let sink = net.nodes[parent].tag == SINK && !self.makes(Other::SinkParentAccepted);
        let third_allowed = self.makes(Other::ThirdChildAccepted) || self.makes(Other::ThirdChildAtEnd);
        let full = net.nodes[parent].children.len() >= 2 && !third_allowed;
        (sink || full).then_some(5)
    }

    /// The last test: 6.
    fn whole(&self, net: &Net) -> Result<(), u8> {
        if net.third_child && self.makes(Other::ThirdChildAtEnd) {
            return Err(5);
        }
        if net.nodes.len() == 1 && self.makes(Other::ChildlessDriverIsOne) {
            return Err(1);
        }
        let first = if self.makes(Other::ChildlessLast) { net.nodes.len() - 1 } else { 0 };
        let spared = |node: &Node| node.tag == BUFFER && self.makes(Other::ChildlessBufferAccepted);
        let childless = |node: &Node| node.tag != SINK && node.children.is_empty() && !spared(node);
        if net.nodes[first..].iter().any(childless) && !self.makes(Other::ChildlessAccepted) {
            return Err(6);
        }
        Ok(())
    }
}

fn read_driver(cursor: &mut Cursor) -> Node {
    let (resistance, intrinsic, time) = (cursor.number(2), cursor.number(3), cursor.number(4));
    Node { tag: DRIVER, resistance, intrinsic, time, ..Default::default() }
}
