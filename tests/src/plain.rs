//! The plain search: document 01 (and what has come of 02) written out, simple and slow.
//!
//! It shares no code and no definition with the planner. The words in quotes above a function are the
//! sentence of 01 that it stands for. All numbers are 128 bits wide, so nothing here can overflow.

use crate::c_calls::Totals;
use std::array;

// ------------------------------------------------------------------------------------------------
// 01, The tree and what is left to decide
// ------------------------------------------------------------------------------------------------

/// A layer's "unit resistance, unit capacitance"; and (02, wish 5) its "via resistance".
#[derive(Clone, Debug)]
pub struct Layer {
    pub resistance: i128,
    pub capacitance: i128,
    pub via: i128,
}

/// "Each node record carries its kind, and each kind has numbers of its own."
#[derive(Clone, Debug)]
pub enum Kind {
    Driver { resistance: i128, intrinsic: i128, arrival: i128 },
    Steiner,
    Buffer { capacitance: i128, resistance: i128, intrinsic: i128 },
    Sink { capacitance: i128, required: i128 },
}

/// A node with the edge to its parent. The driver has no edge: its parent, length and costs are empty.
#[derive(Clone, Debug)]
pub struct Node {
    pub kind: Kind,
    pub parent: usize,
    pub length: i128,
    pub costs: Vec<i128>,
    pub children: Vec<usize>,
}

/// "A net is a tree. Node 0 is the driver."
#[derive(Clone, Debug)]
pub struct Net {
    pub layers: Vec<Layer>,
    pub nodes: Vec<Node>,
}

/// "A stage is a driver or buffer (its root)".
pub fn is_root(net: &Net, node: usize) -> bool {
    matches!(net.nodes[node].kind, Kind::Driver { .. } | Kind::Buffer { .. })
}

/// "up to the next buffers or sinks (its terminals)".
pub fn is_terminal(net: &Net, node: usize) -> bool {
    matches!(net.nodes[node].kind, Kind::Buffer { .. } | Kind::Sink { .. })
}

/// "Stage 0 is the driver's; stage i is that of the i-th buffer in file order."
pub fn roots(net: &Net) -> Vec<usize> {
    (0..net.nodes.len()).filter(|&node| is_root(net, node)).collect()
}

/// "There are s stages."
pub fn stage_count(net: &Net) -> usize {
    roots(net).len()
}

/// The stage that a driver or buffer drives.
pub fn stage_driven_by(net: &Net, root: usize) -> usize {
    (1..=root).filter(|&node| is_root(net, node)).count()
}

/// The stage to which the edge above a node belongs: a stage is its root "with all wire below it up to
/// the next buffers or sinks", so the edge above a buffer belongs to the stage above.
pub fn stage_of_edge(net: &Net, node: usize) -> usize {
    let parent = net.nodes[node].parent;
    if is_root(net, parent) {
        stage_driven_by(net, parent)
    } else {
        stage_of_edge(net, parent)
    }
}

/// "A plan is one layer number, from 0, for each stage. A plan of the net has each number below the layer
/// count. Plans are ordered by stage 0's layer, then stage 1's, and so on." All plans of the net, in order.
pub fn all_plans(net: &Net) -> Vec<Vec<u8>> {
    let mut plans = vec![vec![]];
    for _stage in 0..stage_count(net) {
        let mut longer = vec![];
        for plan in &plans {
            for layer in 0..net.layers.len() {
                let mut plan: Vec<u8> = plan.clone();
                plan.push(layer as u8);
                longer.push(plan);
            }
        }
        plans = longer;
    }
    plans
}

// ------------------------------------------------------------------------------------------------
// 01, Net bytes and Reading
// ------------------------------------------------------------------------------------------------

/// "Unit values are 1 to 1,000; layers 1 to 16; lengths 0 to 1,000; costs 1 to 1,000,000; gate resistance
/// and input capacitance 0 to 100,000; intrinsic delay 0 to 1,000,000,000; times from minus 10^15 to 10^15." But (02,
/// wish 3) "Lengths may now be 0 to 4,000"; and (wish 5) "via resistance from 0 to 1,000".
type Range = (i128, i128);
const UNIT: Range = (1, 1_000);
const VIA: Range = (0, 1_000);
const LENGTH: Range = (0, 4_000);
const COST: Range = (1, 1_000_000);
const RESISTANCE: Range = (0, 100_000);
const CAPACITANCE: Range = (0, 100_000);
const INTRINSIC: Range = (0, 1_000_000_000);
const TIME: Range = (-1_000_000_000_000_000, 1_000_000_000_000_000);
const MOST_LAYERS: usize = 16;
/// "At most 255 nodes after the driver, at most 64 stages."
const MOST_NODES_AFTER_DRIVER: usize = 255;
const MOST_STAGES: usize = 64;
/// "has at most two children".
const MOST_CHILDREN: usize = 2;

const TAG_LAYERS: u8 = 1;
/// 02, wish 5: "A layers field of the second edition has tag 7".
const TAG_LAYERS_VIAS: u8 = 7;
const TAG_DRIVER: u8 = 2;
const TAG_STEINER: u8 = 3;
const TAG_BUFFER: u8 = 4;
const TAG_SINK: u8 = 5;

/// "A net is a run of fields: one tag byte, two bytes of payload length, payload."
struct Field<'a> {
    tag: u8,
    payload: &'a [u8],
}

/// "In a field: head (1), tag and length (2), payload (1)". Refusal 1: "fewer than three bytes are left where
/// a field is due, or the payload is not all there. 2: tag not allowed here, or a length that its kind does
/// not have."
fn take_field<'a>(bytes: &'a [u8], at: &mut usize, allowed: impl Fn(u8, usize) -> bool) -> Result<Field<'a>, u8> {
    let rest = &bytes[*at..];
    if rest.len() < 3 {
        return Err(1);
    }
    let tag = rest[0];
    let length = big_endian(&rest[1..3]) as usize;
    if !allowed(tag, length) {
        return Err(2);
    }
    if rest.len() - 3 < length {
        return Err(1);
    }
    *at += 3 + length;
    Ok(Field { tag, payload: &rest[3..3 + length] })
}

/// "Numbers are big-endian".
fn big_endian(bytes: &[u8]) -> i128 {
    bytes.iter().fold(0, |number, &byte| number * 256 + byte as i128)
}

/// "the two times are 64-bit two's complement, the rest unsigned".
fn two_complement_64(bytes: &[u8]) -> i128 {
    let number = big_endian(bytes);
    if number < 1 << 63 {
        number
    } else {
        number - (1 << 64)
    }
}

/// Cuts the next number of the given width off the front of a payload.
fn unsigned(payload: &mut &[u8], width: usize) -> i128 {
    let (number, rest) = payload.split_at(width);
    *payload = rest;
    big_endian(number)
}

/// Cuts the next time off the front of a payload.
fn time(payload: &mut &[u8]) -> i128 {
    let (number, rest) = payload.split_at(8);
    *payload = rest;
    two_complement_64(number)
}

/// Refusal "3: a number outside its range."
fn in_range(number: i128, range: Range) -> Result<i128, u8> {
    if range.0 <= number && number <= range.1 {
        Ok(number)
    } else {
        Err(3)
    }
}

/// "A layers payload has 4 to 64 bytes, a multiple of 4; any other length is refusal 2." But (02, wish 5) tag 7 "takes
/// tag 1's place", and "tag 7's length is a multiple of 6 from 6 to 96".
fn is_layers_head(tag: u8, length: usize) -> bool {
    let is_layers = |width: usize| length % width == 0 && (1..=MOST_LAYERS).contains(&(length / width));
    match tag {
        TAG_LAYERS => is_layers(4),
        TAG_LAYERS_VIAS => is_layers(6),
        _ => false,
    }
}

/// The driver's payload: "gate resistance, intrinsic delay, arrival time", widths 4, 4, 8.
fn is_driver_head(tag: u8, length: usize) -> bool {
    tag == TAG_DRIVER && length == 16
}

/// A node's payload: "parent, length, one cost for each layer", widths 2, 2, 4 each; a buffer's has 4, 4, 4
/// more, a sink's 4, 8.
fn is_node_head(tag: u8, length: usize, layer_count: usize) -> bool {
    match tag {
        TAG_STEINER => length == 4 + 4 * layer_count,
        TAG_BUFFER => length == 4 + 4 * layer_count + 12,
        TAG_SINK => length == 4 + 4 * layer_count + 12,
        _ => false,
    }
}

/// "for each layer: unit resistance, unit capacitance"; and (02, wish 5) "six bytes for each layer: the two units, then
/// via resistance from 0 to 1,000, two bytes"; "a tag 1 file has via resistance 0".
fn read_layers(field: &Field) -> Result<Vec<Layer>, u8> {
    let mut payload = field.payload;
    let mut layers = vec![];
    while !payload.is_empty() {
        let resistance = in_range(unsigned(&mut payload, 2), UNIT)?;
        let capacitance = in_range(unsigned(&mut payload, 2), UNIT)?;
        let via = if field.tag == TAG_LAYERS_VIAS { in_range(unsigned(&mut payload, 2), VIA)? } else { 0 };
        layers.push(Layer { resistance, capacitance, via });
    }
    Ok(layers)
}

/// "gate resistance, intrinsic delay, arrival time".
fn read_driver(mut payload: &[u8]) -> Result<Node, u8> {
    let resistance = in_range(unsigned(&mut payload, 4), RESISTANCE)?;
    let intrinsic = in_range(unsigned(&mut payload, 4), INTRINSIC)?;
    let arrival = in_range(time(&mut payload), TIME)?;
    let kind = Kind::Driver { resistance, intrinsic, arrival };
    Ok(Node { kind, parent: 0, length: 0, costs: vec![], children: vec![] })
}

/// Refusal "4: a 256th node after the driver, or a 64th buffer."
fn too_many(net: &Net, tag: u8) -> Result<(), u8> {
    if net.nodes.len() - 1 == MOST_NODES_AFTER_DRIVER {
        return Err(4);
    }
    if tag == TAG_BUFFER && stage_count(net) == MOST_STAGES {
        return Err(4);
    }
    Ok(())
}

/// The numbers of a node record, each in its range (refusal 3). The parent has no range here.
fn read_node(field: &Field, layer_count: usize) -> Result<Node, u8> {
    let mut payload = field.payload;
    let parent = unsigned(&mut payload, 2) as usize;
    let length = in_range(unsigned(&mut payload, 2), LENGTH)?;
    let mut costs = vec![];
    for _layer in 0..layer_count {
        costs.push(in_range(unsigned(&mut payload, 4), COST)?);
    }
    let kind = match field.tag {
        TAG_STEINER => Kind::Steiner,
        TAG_BUFFER => Kind::Buffer {
            capacitance: in_range(unsigned(&mut payload, 4), CAPACITANCE)?,
            resistance: in_range(unsigned(&mut payload, 4), RESISTANCE)?,
            intrinsic: in_range(unsigned(&mut payload, 4), INTRINSIC)?,
        },
        _ => Kind::Sink {
            capacitance: in_range(unsigned(&mut payload, 4), CAPACITANCE)?,
            required: in_range(time(&mut payload), TIME)?,
        },
    };
    Ok(Node { kind, parent, length, costs, children: vec![] })
}

/// Refusal "5: a bad parent." "A parent has a lower number, is no sink and has at most two children."
fn good_parent(net: &Net, parent: usize) -> Result<(), u8> {
    let own_number = net.nodes.len();
    if parent >= own_number {
        return Err(5);
    }
    if matches!(net.nodes[parent].kind, Kind::Sink { .. }) {
        return Err(5);
    }
    if net.nodes[parent].children.len() == MOST_CHILDREN {
        return Err(5);
    }
    Ok(())
}

/// "At the end, 6: a childless node that is no sink."
fn no_childless(net: &Net) -> Result<(), u8> {
    for node in &net.nodes {
        if node.children.is_empty() && !matches!(node.kind, Kind::Sink { .. }) {
            return Err(6);
        }
    }
    Ok(())
}

/// "First layers, then driver, then nodes 1, 2, ... in order." "Fields are read from the front and the first
/// fault met decides." "The layers and driver fields are due even in empty input; after them a field is due as
/// long as a byte is left." In a node's field: "then 4, 3, 5".
pub fn read(bytes: &[u8]) -> Result<Net, u8> {
    let mut at = 0;
    let layers = read_layers(&take_field(bytes, &mut at, is_layers_head)?)?;
    let driver = read_driver(take_field(bytes, &mut at, is_driver_head)?.payload)?;
    let layer_count = layers.len();
    let mut net = Net { layers, nodes: vec![driver] };
    while at < bytes.len() {
        let field = take_field(bytes, &mut at, |tag, length| is_node_head(tag, length, layer_count))?;
        too_many(&net, field.tag)?;
        let node = read_node(&field, layer_count)?;
        good_parent(&net, node.parent)?;
        let number = net.nodes.len();
        net.nodes[node.parent].children.push(number);
        net.nodes.push(node);
    }
    no_childless(&net)?;
    Ok(net)
}

// ------------------------------------------------------------------------------------------------
// 01, Timing rule
// ------------------------------------------------------------------------------------------------

/// "An edge on layer l has resistance R = length × unit resistance".
fn edge_resistance(net: &Net, node: usize, layer: usize) -> i128 {
    net.nodes[node].length * net.layers[layer].resistance
}

/// "capacitance C = length × unit capacitance".
pub fn edge_capacitance(net: &Net, node: usize, layer: usize) -> i128 {
    net.nodes[node].length * net.layers[layer].capacitance
}

/// "at a Steiner point or root it is the sum over its children of edge C plus child load".
pub fn load_over_children(net: &Net, node: usize, layer: usize) -> i128 {
    let children = net.nodes[node].children.iter();
    children.map(|&child| edge_capacitance(net, child, layer) + load(net, child, layer)).sum()
}

/// "The load at a terminal is its input capacitance"; else as above.
fn load(net: &Net, node: usize, layer: usize) -> i128 {
    match net.nodes[node].kind {
        Kind::Buffer { capacitance, .. } | Kind::Sink { capacitance, .. } => capacitance,
        Kind::Driver { .. } | Kind::Steiner => load_over_children(net, node, layer),
    }
}

/// "Edge delay: R × (C + 2 × load at the lower end)."
fn edge_delay(net: &Net, node: usize, layer: usize) -> i128 {
    edge_resistance(net, node, layer) * (edge_capacitance(net, node, layer) + 2 * load(net, node, layer))
}

/// "Gate delay: 2 × gate resistance × load at the root, plus intrinsic delay."
fn gate_delay(net: &Net, root: usize, layer: usize) -> i128 {
    match net.nodes[root].kind {
        Kind::Driver { resistance, intrinsic, .. } | Kind::Buffer { resistance, intrinsic, .. } => {
            2 * resistance * load_over_children(net, root, layer) + intrinsic
        }
        Kind::Steiner | Kind::Sink { .. } => panic!("only a root has a gate"),
    }
}

/// 02, wish 5: "A stage now also pays 2 × via resistance × root load at its root". With it, what every way through a
/// stage takes at the root.
pub fn root_delay(net: &Net, root: usize, layer: usize) -> i128 {
    gate_delay(net, root, layer) + 2 * net.layers[layer].via * load_over_children(net, root, layer)
}

/// "and 2 × via resistance × input capacitance at each terminal, on the way to that terminal": with it, what the edge
/// above a node and the node itself take. The stage that pays is the one that has the edge.
pub fn way_delay(net: &Net, node: usize, layer: usize) -> i128 {
    let climb = match net.nodes[node].kind {
        Kind::Buffer { capacitance, .. } | Kind::Sink { capacitance, .. } => 2 * net.layers[layer].via * capacitance,
        Kind::Driver { .. } | Kind::Steiner => 0,
    };
    edge_delay(net, node, layer) + climb
}

/// The terminals below a node of a stage, each with the sum of "the edge delays between" and its own via.
pub fn terminals_below(net: &Net, node: usize, layer: usize) -> Vec<(usize, i128)> {
    let mut found = vec![];
    for &child in &net.nodes[node].children {
        let delay = way_delay(net, child, layer);
        if is_terminal(net, child) {
            found.push((child, delay));
        } else {
            for (terminal, further) in terminals_below(net, child, layer) {
                found.push((terminal, delay + further));
            }
        }
    }
    found
}

/// "at the root it is the least, over terminals, of the terminal's required time minus gate delay minus the
/// edge delays between", and the vias.
fn required_at_root(net: &Net, plan: &[u8], root: usize) -> i128 {
    let layer = plan[stage_driven_by(net, root)] as usize;
    let gate = root_delay(net, root, layer);
    let terminals = terminals_below(net, root, layer);
    let times = terminals.iter().map(|&(terminal, way)| required_at_terminal(net, plan, terminal) - gate - way);
    times.min().expect("every stage has a terminal")
}

/// "A stage's required time rests on its terminals, and a buffer's on the stage it drives". "A sink's is given."
fn required_at_terminal(net: &Net, plan: &[u8], terminal: usize) -> i128 {
    match net.nodes[terminal].kind {
        Kind::Sink { required, .. } => required,
        _ => required_at_root(net, plan, terminal),
    }
}

/// The driver's arrival time.
pub fn arrival(net: &Net) -> i128 {
    match net.nodes[0].kind {
        Kind::Driver { arrival, .. } => arrival,
        _ => panic!("node 0 is the driver"),
    }
}

/// "The slack is the driver's required time minus its arrival time and may be negative."
pub fn slack(net: &Net, plan: &[u8]) -> i128 {
    required_at_root(net, plan, 0) - arrival(net)
}

/// "A plan meets timing if slack is 0 or more."
pub fn meets_timing(net: &Net, plan: &[u8]) -> bool {
    slack(net, plan) >= 0
}

/// A stage's cost on a layer: its edges' costs there.
pub fn stage_cost(net: &Net, stage: usize, layer: usize) -> i128 {
    let edges = (1..net.nodes.len()).filter(|&node| stage_of_edge(net, node) == stage);
    edges.map(|node| net.nodes[node].costs[layer]).sum()
}

/// The costs of a plan's stages.
pub fn stage_costs(net: &Net, plan: &[u8]) -> Vec<i128> {
    (0..plan.len()).map(|stage| stage_cost(net, stage, plan[stage] as usize)).collect()
}

/// "Cost is the sum of all edge costs on their layers."
pub fn cost(net: &Net, plan: &[u8]) -> i128 {
    (1..net.nodes.len()).map(|node| net.nodes[node].costs[plan[stage_of_edge(net, node)] as usize]).sum()
}

// ------------------------------------------------------------------------------------------------
// 01, Rounded cost and the grain
// ------------------------------------------------------------------------------------------------

/// "For k from 0 to 28".
pub const MOST_K: u32 = 28;

/// "let g = 2^k".
pub fn grain_size(k: u32) -> i128 {
    1 << k
}

/// "A stage's rounded cost is its cost divided by g, rounded down; a plan's is the sum over stages."
pub fn rounded_cost(stage_costs: &[i128], k: u32) -> i128 {
    stage_costs.iter().map(|cost| cost / grain_size(k)).sum()
}

/// What planning asks about the plans of one net that meet timing.
pub trait Search {
    /// Does any plan meet timing?
    fn any(&self) -> bool;
    /// "V(k) is the least rounded cost of the plans that meet timing."
    fn least_rounded(&self, k: u32) -> i128;
    /// "the first in plan order among those that meet timing with rounded cost V(k)".
    fn first_plan(&self, k: u32) -> Vec<u8>;
    /// The cost of a plan that meets timing, the cheapest where that one is known.
    fn known_cost(&self) -> i128;
}

/// The plans that meet timing, in plan order, each with its stages' costs; and V(k) for each k, with the place of the
/// first plan that has it.
pub struct Enumeration {
    meeting: Vec<(Vec<u8>, Vec<i128>)>,
    least: Vec<(i128, usize)>,
}

impl Enumeration {
    /// Looks at every plan of the net.
    pub fn new(net: &Net) -> Enumeration {
        let plans = all_plans(net).into_iter().filter(|plan| meets_timing(net, plan));
        let meeting: Vec<(Vec<u8>, Vec<i128>)> = plans.map(|plan| (plan.clone(), stage_costs(net, &plan))).collect();
        let rounded = |k, place: usize| (rounded_cost(&meeting[place].1, k), place);
        let least_at = |k| (0..meeting.len()).map(|place| rounded(k, place)).min();
        let least = (0..=MOST_K).filter_map(least_at).collect();
        Enumeration { meeting, least }
    }
}

impl Search for Enumeration {
    fn any(&self) -> bool {
        !self.meeting.is_empty()
    }

    fn least_rounded(&self, k: u32) -> i128 {
        self.least[k as usize].0
    }

    fn first_plan(&self, k: u32) -> Vec<u8> {
        self.meeting[self.least[k as usize].1].0.clone()
    }

    fn known_cost(&self) -> i128 {
        self.least_rounded(0)
    }
}

/// "q × s × (g − 1) ≤ p × g × V(k)".
pub fn qualifies(s: usize, p: u64, q: u64, k: u32, least: i128) -> bool {
    q as i128 * s as i128 * (grain_size(k) - 1) <= p as i128 * grain_size(k) * least
}

/// "With share p/q, the grain is 2^k for the largest k such that ..." "k = 0 always qualifies."
pub fn grain(search: &dyn Search, s: usize, p: u64, q: u64) -> u32 {
    let mut from_above = (0..=MOST_K).rev();
    from_above.find(|&k| qualifies(s, p, q, k, search.least_rounded(k))).expect("k = 0 always qualifies")
}

/// "Its columns are its length divided by s + 2, rounded down".
pub fn columns(table_len: usize, s: usize) -> i128 {
    (table_len / (s + 2)) as i128
}

// ------------------------------------------------------------------------------------------------
// 01, Reading, Judging, Planning: the answers
// ------------------------------------------------------------------------------------------------

/// "Accepted: the counts of nodes (driver included), stages and layers." Refusal 0 stands for accepted; "a
/// refusal carries its number with all other results 0".
#[derive(Clone, Copy, Debug, Default, PartialEq)]
pub struct Checked {
    pub refusal: u8,
    pub nodes: u64,
    pub stages: u64,
    pub layers: u64,
}

/// "Accepted: cost and slack, also where slack is negative."
#[derive(Clone, Copy, Debug, Default, PartialEq)]
pub struct Judged {
    pub refusal: u8,
    pub cost: u64,
    pub slack: i64,
}

/// "Accepted: cost and slack, as judging gives them for the plan returned; k, the grain's; and a floor." "The floor is to
/// be exactly g × V(k)" (02, wish 6).
#[derive(Clone, Copy, Debug, Default, PartialEq)]
pub struct Planned {
    pub refusal: u8,
    pub cost: u64,
    pub slack: i64,
    pub k: u64,
    pub floor: u64,
}

/// Check.
pub fn check(bytes: &[u8]) -> Checked {
    match read(bytes) {
        Err(refusal) => Checked { refusal, ..Default::default() },
        Ok(net) => check_net(&net),
    }
}

/// Check, once the net is read.
pub fn check_net(net: &Net) -> Checked {
    Checked {
        refusal: 0,
        nodes: net.nodes.len() as u64,
        stages: stage_count(net) as u64,
        layers: net.layers.len() as u64,
    }
}

/// Judging: "1 to 6 of the net; 7, plan length is not s; 8, a layer number not below the layer count."
pub fn judge(bytes: &[u8], plan: &[u8]) -> Judged {
    match read(bytes) {
        Err(refusal) => Judged { refusal, ..Default::default() },
        Ok(net) => judge_net(&net, plan),
    }
}

/// Judging, once the net is read.
pub fn judge_net(net: &Net, plan: &[u8]) -> Judged {
    if plan.len() != stage_count(net) {
        return Judged { refusal: 7, ..Default::default() };
    }
    if plan.iter().any(|&layer| layer as usize >= net.layers.len()) {
        return Judged { refusal: 8, ..Default::default() };
    }
    Judged { refusal: 0, cost: narrow(cost(net, plan)), slack: narrow(slack(net, plan)) }
}

/// Planning by looking at every plan.
pub fn plan(bytes: &[u8], p: u64, q: u64, table: &mut [i64], buffer: &mut [u8]) -> Planned {
    match read(bytes) {
        Err(refusal) => Planned { refusal, ..Default::default() },
        Ok(net) => plan_net(&net, &Enumeration::new(&net), p, q, table, buffer),
    }
}

/// Planning, once the net is read: "9, p above 1,000 or q outside 1 to 1,000; 10, plan buffer shorter than s; 11,
/// no plan meets timing; 12, fewer than V(k) + 1 columns. Each is given just where its condition is the first to
/// hold." "The plan's s bytes open the buffer; later bytes keep their values. The table is all zero after
/// acceptance and after 12, and unchanged after 1 to 11."
pub fn plan_net(net: &Net, search: &dyn Search, p: u64, q: u64, table: &mut [i64], buffer: &mut [u8]) -> Planned {
    let s = stage_count(net);
    if p > 1_000 || !(1..=1_000).contains(&q) {
        return Planned { refusal: 9, ..Default::default() };
    }
    if let Some(refusal) = refused_before_table(s, search, buffer) {
        return Planned { refusal, ..Default::default() };
    }
    let k = grain(search, s, p, q);
    let least = search.least_rounded(k);
    if columns(table.len(), s) < least + 1 {
        table.fill(0);
        return Planned { refusal: 12, ..Default::default() };
    }
    let judged = give(net, &search.first_plan(k), table, buffer);
    let floor = narrow(grain_size(k) * least);
    assert!(is_floor(p, q, judged.cost, floor, search.known_cost()), "g × V(k) keeps both bounds of 01");
    Planned { refusal: 0, cost: judged.cost, slack: judged.slack, k: k as u64, floor }
}

/// "10, plan buffer shorter than s; 11, no plan meets timing".
fn refused_before_table(s: usize, search: &dyn Search, buffer: &[u8]) -> Option<u8> {
    if buffer.len() < s {
        return Some(10);
    }
    (!search.any()).then_some(11)
}

/// On acceptance "the plan's s bytes open the buffer", the table is all zero, and cost and slack are "as judging gives
/// them for the plan returned".
fn give(net: &Net, plan: &[u8], table: &mut [i64], buffer: &mut [u8]) -> Judged {
    buffer[..plan.len()].copy_from_slice(plan);
    table.fill(0);
    judge_net(net, plan)
}

/// "The floor is at most the cost of every plan of the net that meets timing, and q × cost is at most (q + p) ×
/// floor." `known` is the cost of a plan that meets timing, the cheapest where that one is known.
fn is_floor(p: u64, q: u64, cost: u64, floor: u64, known: i128) -> bool {
    floor as i128 <= known && q as i128 * cost as i128 <= (q as i128 + p as i128) * floor as i128
}

/// Results have 64 bits.
fn narrow<T: TryFrom<i128>>(number: i128) -> T {
    T::try_from(number).ok().expect("every result of a net fits 64 bits")
}

// ------------------------------------------------------------------------------------------------
// 02, wish 1: the wall chart
// ------------------------------------------------------------------------------------------------

/// "for s from 1 to 64 and shares 1/1, 1/2, to 1/10".
pub const CHART_STAGES: u64 = 64;
pub const CHART_SHARES: u64 = 10;

/// "the entries that always serve, (s + 2) × (s plus 2qs/p rounded up)", with p = 1; 0 where the chart has none.
pub fn table_entries(s: u64, q: u64) -> u64 {
    if s < 1 || s > CHART_STAGES || q < 1 || q > CHART_SHARES {
        return 0;
    }
    let (s, p, q) = (s as i128, 1, q as i128);
    let whole = 2 * q * s / p;
    let rounded_up = if whole * p == 2 * q * s { whole } else { whole + 1 };
    ((s + 2) * (s + rounded_up)) as u64
}

/// "print the 640 numbers, a line for each s, ten numbers with one space between".
pub fn chart_text() -> String {
    let mut text = String::new();
    for s in 1..=CHART_STAGES {
        for q in 1..=CHART_SHARES {
            text += &table_entries(s, q).to_string();
            text.push(if q == CHART_SHARES { '\n' } else { ' ' });
        }
    }
    text
}

// ------------------------------------------------------------------------------------------------
// 02, wish 2: a report over a whole block
// ------------------------------------------------------------------------------------------------

/// "Files are at most 65,536 bytes."
pub const MOST_BLOCK: usize = 65_536;

/// "A block file is a run of fields of tag 6".
const TAG_NET: u8 = 6;

/// 01, Program: "Share 1/4, a table of 8,192 entries, a plan buffer of 64."
pub const PROGRAM_SHARE: (u64, u64) = (1, 4);
pub const PROGRAM_TABLE: usize = 8_192;
pub const PROGRAM_BUFFER: usize = 64;

/// "each with a net as payload; an empty file is a block of no nets." "13 for a block that is longer, has another tag
/// or is cut short, before any net is planned".
pub fn read_block(block: &[u8]) -> Result<Vec<&[u8]>, u8> {
    if block.len() > MOST_BLOCK {
        return Err(13);
    }
    let (mut at, mut nets) = (0, vec![]);
    while at < block.len() {
        let field = take_field(block, &mut at, |tag, _| tag == TAG_NET).map_err(|_| 13)?;
        nets.push(field.payload);
    }
    Ok(nets)
}

/// What planning answered for a net of a block: the net and its plan, or the refusal.
pub type PlannedNet = Result<(Net, Vec<u8>), u8>;

/// What the report tells of a block, from what planning answered for each net: `nets`, `planned`, `refused` by number,
/// `cost`, and `length` by layer number, whatever layers the nets have.
pub fn totals(nets: &[PlannedNet]) -> Totals {
    let planned = || nets.iter().flatten();
    let with_number = |number: usize| nets.iter().filter(|net| matches!(net, Err(r) if *r as usize == number)).count();
    let on_layer = |layer: usize| narrow(planned().map(|(net, plan)| length_on(net, plan, layer)).sum());
    Totals {
        refusal: 0,
        nets: nets.len() as u64,
        planned: planned().count() as u64,
        refused: array::from_fn(|number| with_number(number) as u64),
        cost: narrow(planned().map(|(net, plan)| cost(net, plan)).sum()),
        lengths: array::from_fn(on_layer),
    }
}

/// "layer and total edge length on it": of the edges that a plan puts there.
fn length_on(net: &Net, plan: &[u8], layer: usize) -> i128 {
    let edges = (1..net.nodes.len()).filter(|&node| plan[stage_of_edge(net, node)] as usize == layer);
    edges.map(|node| net.nodes[node].length).sum()
}

/// "the wire of the planned nets", to which "the lengths over layers must add up".
pub fn planned_wire(nets: &[PlannedNet]) -> i128 {
    nets.iter().flatten().map(|(net, _)| net.nodes.iter().map(|node| node.length).sum::<i128>()).sum()
}

/// "prints `nets`, `planned`, then `refused` with number and count for each number met, rising, then `cost`, then
/// `length` with layer and total edge length on it, for layers where it is above 0, rising", "a line each". For a
/// block that is none "it prints `refused 13` only".
pub fn report_text(totals: &Totals) -> String {
    if totals.refusal != 0 {
        return format!("refused {}\n", totals.refusal);
    }
    let Totals { nets, planned, cost, .. } = totals;
    let (refused, lengths) = (lines_above_0("refused", &totals.refused), lines_above_0("length", &totals.lengths));
    format!("nets {nets}\nplanned {planned}\n{refused}cost {cost}\n{lengths}")
}

fn lines_above_0(word: &str, counts: &[u64]) -> String {
    let above = counts.iter().enumerate().filter(|(_, &count)| count > 0);
    above.map(|(number, count)| format!("{word} {number} {count}\n")).collect()
}

// ------------------------------------------------------------------------------------------------
// 02, wish 7: the best plan after some rounds
// ------------------------------------------------------------------------------------------------

/// "r from 1 to 29".
pub const MOST_ROUNDS: u64 = 29;

/// "The result is the cheapest plan seen by true cost, the one of the larger k among equals, with its cost and slack, the
/// largest g × V(k) seen as floor, and the rounds run."
#[derive(Clone, Copy, Debug, Default, PartialEq)]
pub struct RoundsPlanned {
    pub refusal: u8,
    pub cost: u64,
    pub slack: i64,
    pub floor: u64,
    pub rounds: u64,
}

/// A round that was run: k, with "V(k) and its plan"; and the plan's true cost.
pub struct Round {
    pub k: u32,
    pub least: i128,
    pub plan: Vec<u8>,
    pub cost: i128,
}

impl Round {
    /// "finding V(k) and its plan". The plan of the round before is often found again, and its cost is known.
    fn new(net: &Net, search: &dyn Search, k: u32, before: Option<&Round>) -> Round {
        let plan = search.first_plan(k);
        let known = before.filter(|before| before.plan == plan).map(|before| before.cost);
        let cost = known.unwrap_or_else(|| cost(net, &plan));
        Round { k, least: search.least_rounded(k), plan, cost }
    }
}

/// "rounds run at k = 28, 27, and down, r of them, each finding V(k) and its plan. They end early before a k that needs
/// more columns than lent." "V(k) + 1 are needed" (01).
pub fn rounds(net: &Net, search: &dyn Search, r: u64, columns: i128) -> Vec<Round> {
    let mut rounds: Vec<Round> = vec![];
    for k in (0..=MOST_K).rev().take(r as usize) {
        if search.least_rounded(k) + 1 > columns {
            break;
        }
        rounds.push(Round::new(net, search, k, rounds.last()));
    }
    rounds
}

/// "the cheapest plan seen by true cost, the one of the larger k among equals".
pub fn cheapest_seen(rounds: &[Round]) -> &Round {
    let first = |round: &&Round| (round.cost, MOST_K - round.k);
    rounds.iter().min_by_key(first).expect("a round was run")
}

/// "the largest g × V(k) seen as floor".
fn largest_floor(rounds: &[Round]) -> i128 {
    rounds.iter().map(|round| grain_size(round.k) * round.least).max().expect("a round was run")
}

/// "For the last k run, cost minus floor must be at most s × (2^k − 1)."
pub fn most_above_floor(s: usize, last_k: u32) -> i128 {
    s as i128 * (grain_size(last_k) - 1)
}

/// Planning by rounds, by looking at every plan.
pub fn plan_rounds(bytes: &[u8], r: u64, table: &mut [i64], buffer: &mut [u8]) -> RoundsPlanned {
    match read(bytes) {
        Err(refusal) => RoundsPlanned { refusal, ..Default::default() },
        Ok(net) => plan_rounds_net(&net, &Enumeration::new(&net), r, table, buffer),
    }
}

/// Planning by rounds, once the net is read: "14 for r outside 1 to 29, after 1 to 6 and before 10, 11 and 12, the
/// share's number 9 having no part here." "12 is given where not one column is lent." "Table and plan buffer are left as
/// in planning".
pub fn plan_rounds_net(net: &Net, search: &dyn Search, r: u64, table: &mut [i64], buffer: &mut [u8]) -> RoundsPlanned {
    let s = stage_count(net);
    if !(1..=MOST_ROUNDS).contains(&r) {
        return RoundsPlanned { refusal: 14, ..Default::default() };
    }
    if let Some(refusal) = refused_before_table(s, search, buffer) {
        return RoundsPlanned { refusal, ..Default::default() };
    }
    let columns = columns(table.len(), s);
    if columns == 0 {
        table.fill(0);
        return RoundsPlanned { refusal: 12, ..Default::default() };
    }
    let rounds = rounds(net, search, r, columns);
    let judged = give(net, &cheapest_seen(&rounds).plan, table, buffer);
    let (floor, last) = (largest_floor(&rounds), rounds.last().expect("V(28) is 0, and one column serves"));
    assert!(judged.cost as i128 - floor <= most_above_floor(s, last.k), "02's bound on cost minus floor");
    assert!(floor <= search.known_cost(), "no plan that meets timing costs less than the floor");
    RoundsPlanned {
        refusal: 0,
        cost: judged.cost,
        slack: judged.slack,
        floor: narrow(floor),
        rounds: rounds.len() as u64,
    }
}

// ------------------------------------------------------------------------------------------------
// 02, wish 8: a desk for hand changes
// ------------------------------------------------------------------------------------------------

/// "15 for a net above 4,096 bytes".
pub const MOST_DESK_NET: usize = 4_096;

/// "It has a copy of the net, a plan and a lock for each stage": "a list of layers and locks".
#[derive(Clone)]
pub struct Sheet {
    pub net: Net,
    pub plan: Vec<u8>,
    pub locks: Vec<bool>,
}

/// A desk. Without a sheet it is "a desk never opened": a fresh one is.
#[derive(Clone, Default)]
pub struct Desk {
    pub sheet: Option<Sheet>,
}

impl Desk {
    /// "Opening takes net bytes and puts every stage on layer 0, unlocked; an open desk is replaced, a refused opening
    /// changes nothing." "Opening gives the reader's counts". "15 for a net above 4,096 bytes, before 1 to 6".
    pub fn open(&mut self, bytes: &[u8]) -> Checked {
        if bytes.len() > MOST_DESK_NET {
            return Checked { refusal: 15, ..Default::default() };
        }
        let counts = check(bytes);
        if let Ok(net) = read(bytes) {
            let s = stage_count(&net);
            self.sheet = Some(Sheet { net, plan: vec![0; s], locks: vec![false; s] });
        }
        counts
    }

    /// "16 for any call but opening on a desk never opened, first; then 7 for a stage number not below s".
    fn at_stage(&mut self, stage: u64) -> Result<(&mut Sheet, usize), u8> {
        let sheet = self.sheet.as_mut().ok_or(16)?;
        if stage as u128 >= stage_count(&sheet.net) as u128 {
            return Err(7);
        }
        Ok((sheet, stage as usize))
    }

    /// "Setting moves one stage". "then 8 for a layer, then 17 for setting a locked stage."
    fn moved(&mut self, stage: u64, layer: u64) -> Result<(), u8> {
        let (sheet, stage) = self.at_stage(stage)?;
        if layer as u128 >= sheet.net.layers.len() as u128 {
            return Err(8);
        }
        if sheet.locks[stage] {
            return Err(17);
        }
        sheet.plan[stage] = layer as u8;
        Ok(())
    }

    /// "locking and unlocking mark one".
    fn marked(&mut self, stage: u64, lock: bool) -> Result<(), u8> {
        let (sheet, stage) = self.at_stage(stage)?;
        sheet.locks[stage] = lock;
        Ok(())
    }

    /// "the three changes give acceptance only".
    pub fn set(&mut self, stage: u64, layer: u64) -> u8 {
        self.moved(stage, layer).err().unwrap_or(0)
    }

    pub fn lock(&mut self, stage: u64) -> u8 {
        self.marked(stage, true).err().unwrap_or(0)
    }

    pub fn unlock(&mut self, stage: u64) -> u8 {
        self.marked(stage, false).err().unwrap_or(0)
    }

    /// "cost and slack may be read", "judged by the rules then in force".
    pub fn read(&self) -> Judged {
        match &self.sheet {
            None => Judged { refusal: 16, ..Default::default() },
            Some(sheet) => judge_net(&sheet.net, &sheet.plan),
        }
    }
}
