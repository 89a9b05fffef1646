//! A net before it is bytes.

pub const UNIT: (i64, i64) = (1, 1_000);
pub const VIA: (i64, i64) = (0, 1_000);
pub const LENGTH: (i64, i64) = (0, 4_000);
pub const COST: (i64, i64) = (1, 1_000_000);
pub const GATE: (i64, i64) = (0, 100_000);
pub const INTRINSIC: (i64, i64) = (0, 1_000_000_000);
pub const TIME: (i64, i64) = (-1_000_000_000_000_000, 1_000_000_000_000_000);
pub const MOST_NODES: usize = 255;
pub const MOST_STAGES: usize = 64;
pub const MOST_LAYERS: usize = 16;

#[derive(Clone)]
pub enum Kind {
    Steiner,
    Buffer { capacitance: i64, resistance: i64, intrinsic: i64 },
    Sink { capacitance: i64, required: i64 },
}

#[derive(Clone)]
pub struct Node {
    pub parent: usize,
    pub length: i64,
    pub costs: Vec<i64>,
    pub kind: Kind,
}

/// A net as its records say it, not yet bytes. `nodes` holds nodes 1, 2, ... With vias, one for each layer, it is of the
/// second edition (02, wish 5): even if all are 0.
#[derive(Clone)]
pub struct Draft {
    pub layers: Vec<(i64, i64)>,
    pub vias: Option<Vec<i64>>,
    pub resistance: i64,
    pub intrinsic: i64,
    pub arrival: i64,
    pub nodes: Vec<Node>,
}

/// What stands at some bytes of a net.
#[derive(Clone, Copy, PartialEq)]
pub enum Role {
    Tag,
    Length,
    Parent,
    Number { low: i64, high: i64 },
}

/// Where it stands, and in which field.
#[derive(Clone, Copy)]
pub struct Place {
    pub at: usize,
    pub width: usize,
    pub field: usize,
    pub role: Role,
}

#[derive(Default)]
struct Writer {
    bytes: Vec<u8>,
    places: Vec<Place>,
    fields: usize,
}

impl Writer {
    fn put(&mut self, value: i64, width: usize, role: Role) {
        self.places.push(Place { at: self.bytes.len(), width, field: self.fields, role });
        self.bytes.extend_from_slice(&value.to_be_bytes()[8 - width..]);
    }

    fn head(&mut self, tag: u8, length: usize) {
        self.put(tag as i64, 1, Role::Tag);
        self.put(length as i64, 2, Role::Length);
    }

    fn number(&mut self, value: i64, width: usize, (low, high): (i64, i64)) {
        self.put(value, width, Role::Number { low, high });
    }
}

impl Draft {
    /// Of the second edition, with these vias.
    pub fn with_vias(mut self, vias: &[i64]) -> Draft {
        self.vias = Some(vias.to_vec());
        self
    }

    pub fn bytes(&self) -> Vec<u8> {
        self.written().0
    }

    /// The bytes, and what stands where.
    pub fn written(&self) -> (Vec<u8>, Vec<Place>) {
        let mut w = Writer::default();
        match &self.vias {
            None => w.head(1, 4 * self.layers.len()),
            Some(vias) => {
                assert_eq!(vias.len(), self.layers.len(), "a via for each layer");
                w.head(7, 6 * self.layers.len());
            }
        }
        for (layer, &(resistance, capacitance)) in self.layers.iter().enumerate() {
            w.number(resistance, 2, UNIT);
            w.number(capacitance, 2, UNIT);
            if let Some(vias) = &self.vias {
                w.number(vias[layer], 2, VIA);
            }
        }
        w.fields += 1;
        w.head(2, 16);
        w.number(self.resistance, 4, GATE);
        w.number(self.intrinsic, 4, INTRINSIC);
        w.number(self.arrival, 8, TIME);
        for node in &self.nodes {
            w.fields += 1;
            let shared = 4 + 4 * node.costs.len();
            match node.kind {
                Kind::Steiner => w.head(3, shared),
                Kind::Buffer { .. } => w.head(4, shared + 12),
                Kind::Sink { .. } => w.head(5, shared + 12),
            }
            w.put(node.parent as i64, 2, Role::Parent);
            w.number(node.length, 2, LENGTH);
            for &cost in &node.costs {
                w.number(cost, 4, COST);
            }
            match node.kind {
                Kind::Steiner => {}
                Kind::Buffer { capacitance, resistance, intrinsic } => {
                    w.number(capacitance, 4, GATE);
                    w.number(resistance, 4, GATE);
                    w.number(intrinsic, 4, INTRINSIC);
                }
                Kind::Sink { capacitance, required } => {
                    w.number(capacitance, 4, GATE);
                    w.number(required, 8, TIME);
                }
            }
        }
        (w.bytes, w.places)
    }
}
