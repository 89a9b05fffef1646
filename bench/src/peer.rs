//! The peer: check, judge, plan and plan by rounds by the library's method, written in plain Rust with no thought of
//! proof. The library's instructions and time are held against this.
//!
//! The method (source 000's oracle, source 001's merging, section 4.2): each stage's delays and costs on each layer;
//! for a grain g a row of latest times over budgets for each stage, from the last stage to the first, branches merged
//! by two pointers; the plan read off the rows; from the largest k down until the share's test holds. A plan that is
//! known to meet timing bounds V(k), and budgets count what is spent above each stage's least rounded cost. A row has
//! entries only where they matter, in its band: from the first budget that meets the earliest time at which its stage
//! can be reached to the first that meets the latest, or as much as the largest budget meets.
//!
//! By rounds: the plan known to meet timing is that of the largest k; each k below bounds the next by the plan it found,
//! and the cheapest of the plans is kept.

use crate::library::{Counts, Judged, Planned, Refusal, RoundsPlanned, MOST_ROUNDS};

const MOST_LAYERS: usize = 16;
const MOST_NODES: usize = 255;
const MOST_STAGES: usize = 64;
const MOST_K: u64 = 28;
const MOST_SHARE: u64 = 1_000;
pub const MOST_LENGTH: u64 = 4_000;
const MOST_TIME: i64 = 1_000_000_000_000_000;
/// Before every time and after every time that is compared.
const NEVER: i64 = i64::MIN / 2;
const NO_LIMIT: i64 = i64::MAX / 2;

// ------------------------------------------------------------------------------------------------
// Reading
// ------------------------------------------------------------------------------------------------

#[derive(Clone, Copy)]
enum Kind {
    Driver { resistance: u64, intrinsic: u64, arrival: i64 },
    Steiner,
    Buffer { capacitance: u64, resistance: u64, intrinsic: u64 },
    Sink { capacitance: u64, required: i64 },
}

/// A node with the edge above it; its costs stay in the bytes, from `costs` on.
#[derive(Clone, Copy)]
struct Node {
    kind: Kind,
    parent: usize,
    length: u64,
    costs: usize,
}

/// The units of a layer, and the resistance of the climb to it.
#[derive(Clone, Copy)]
struct Layer {
    resistance: u64,
    capacitance: u64,
    via: u64,
}

struct Net<'a> {
    bytes: &'a [u8],
    layers: Vec<Layer>,
    nodes: Vec<Node>,
    stages: usize,
}

fn u16_at(bytes: &[u8], at: usize) -> u64 {
    u16::from_be_bytes(bytes[at..at + 2].try_into().unwrap()) as u64
}

fn u32_at(bytes: &[u8], at: usize) -> u64 {
    u32::from_be_bytes(bytes[at..at + 4].try_into().unwrap()) as u64
}

fn time_at(bytes: &[u8], at: usize) -> i64 {
    i64::from_be_bytes(bytes[at..at + 8].try_into().unwrap())
}

fn ranged(good: bool) -> Result<(), Refusal> {
    if good {
        Ok(())
    } else {
        Err(Refusal(3))
    }
}

/// The payload's place and tag of the field at `at`.
fn field(bytes: &[u8], at: usize, allowed: impl Fn(u8, usize) -> bool) -> Result<(u8, usize, usize), Refusal> {
    if bytes.len() - at < 3 {
        return Err(Refusal(1));
    }
    let (tag, size) = (bytes[at], u16_at(bytes, at + 1) as usize);
    if !allowed(tag, size) {
        return Err(Refusal(2));
    }
    if bytes.len() - at - 3 < size {
        return Err(Refusal(1));
    }
    Ok((tag, at + 3, size))
}

/// A layer of the first edition (tag 1) has its units only, one of the second (tag 7) its via resistance too.
fn read_layers(bytes: &[u8]) -> Result<(Vec<Layer>, usize), Refusal> {
    let width = |tag| if tag == 7 { 6 } else { 4 };
    let (tag, start, size) = field(bytes, 0, |tag, size| {
        let width = width(tag);
        (tag == 1 || tag == 7) && (width..=MOST_LAYERS * width).contains(&size) && size % width == 0
    })?;
    let mut layers = Vec::with_capacity(MOST_LAYERS);
    for at in (start..start + size).step_by(width(tag)) {
        let (resistance, capacitance) = (u16_at(bytes, at), u16_at(bytes, at + 2));
        let via = if tag == 7 { u16_at(bytes, at + 4) } else { 0 };
        ranged((1..=1_000).contains(&resistance) && (1..=1_000).contains(&capacitance) && via <= 1_000)?;
        layers.push(Layer { resistance, capacitance, via });
    }
    Ok((layers, start + size))
}

fn read_driver(bytes: &[u8], at: usize) -> Result<(Node, usize), Refusal> {
    let (_, start, size) = field(bytes, at, |tag, size| tag == 2 && size == 16)?;
    let (resistance, intrinsic) = (u32_at(bytes, start), u32_at(bytes, start + 4));
    let arrival = time_at(bytes, start + 8);
    ranged(resistance <= 100_000 && intrinsic <= 1_000_000_000 && (-MOST_TIME..=MOST_TIME).contains(&arrival))?;
    let kind = Kind::Driver { resistance, intrinsic, arrival };
    Ok((Node { kind, parent: 0, length: 0, costs: 0 }, start + size))
}

fn read_kind(bytes: &[u8], tag: u8, at: usize) -> Result<Kind, Refusal> {
    if tag == 3 {
        return Ok(Kind::Steiner);
    }
    let capacitance = u32_at(bytes, at);
    ranged(capacitance <= 100_000)?;
    if tag == 4 {
        let (resistance, intrinsic) = (u32_at(bytes, at + 4), u32_at(bytes, at + 8));
        ranged(resistance <= 100_000 && intrinsic <= 1_000_000_000)?;
        return Ok(Kind::Buffer { capacitance, resistance, intrinsic });
    }
    let required = time_at(bytes, at + 4);
    ranged((-MOST_TIME..=MOST_TIME).contains(&required))?;
    Ok(Kind::Sink { capacitance, required })
}

fn read(bytes: &[u8]) -> Result<Net<'_>, Refusal> {
    let (layers, at) = read_layers(bytes)?;
    let (driver, mut at) = read_driver(bytes, at)?;
    let shared = 4 + 4 * layers.len();
    let mut nodes = Vec::with_capacity(MOST_NODES + 1);
    let mut children = [0u8; MOST_NODES + 1];
    let mut stages = 1;
    nodes.push(driver);
    while at < bytes.len() {
        let allowed = |tag, size| (tag == 3 && size == shared) || ((tag == 4 || tag == 5) && size == shared + 12);
        let (tag, start, size) = field(bytes, at, allowed)?;
        if nodes.len() > MOST_NODES || (tag == 4 && stages == MOST_STAGES) {
            return Err(Refusal(4));
        }
        let (parent, length) = (u16_at(bytes, start) as usize, u16_at(bytes, start + 2));
        ranged(length <= MOST_LENGTH)?;
        let costs = &bytes[start + 4..start + shared];
        let in_range = |cost: &[u8]| (1..=1_000_000).contains(&u32::from_be_bytes(cost.try_into().unwrap()));
        ranged(costs.chunks_exact(4).all(in_range))?;
        let kind = read_kind(bytes, tag, start + shared)?;
        if parent >= nodes.len() || children[parent] == 2 || matches!(nodes[parent].kind, Kind::Sink { .. }) {
            return Err(Refusal(5));
        }
        children[parent] += 1;
        stages += (tag == 4) as usize;
        nodes.push(Node { kind, parent, length, costs: start + 4 });
        at = start + size;
    }
    let childless = |(node, &count): (&Node, &u8)| count == 0 && !matches!(node.kind, Kind::Sink { .. });
    if nodes.iter().zip(&children).any(childless) {
        return Err(Refusal(6));
    }
    Ok(Net { bytes, layers, nodes, stages })
}

/// Check.
pub fn check(bytes: &[u8]) -> Result<Counts, Refusal> {
    let net = read(bytes)?;
    Ok(Counts { nodes: net.nodes.len() as u64, stages: net.stages as u64, layers: net.layers.len() as u64 })
}

// ------------------------------------------------------------------------------------------------
// Timing and cost
// ------------------------------------------------------------------------------------------------

type OnLayers<T> = [T; MOST_LAYERS];

/// For each node: the stage of the edge above it, and the stage it drives if it is a root.
fn stages_of(net: &Net) -> (Vec<usize>, Vec<usize>) {
    let (mut above, mut driven) = (vec![0; net.nodes.len()], vec![0; net.nodes.len()]);
    let mut stages = 1;
    for (number, node) in net.nodes.iter().enumerate().skip(1) {
        let parent = node.parent;
        above[number] = if matches!(net.nodes[parent].kind, Kind::Steiner) { above[parent] } else { driven[parent] };
        if matches!(node.kind, Kind::Buffer { .. }) {
            driven[number] = stages;
            stages += 1;
        }
    }
    (above, driven)
}

/// The load at the lower end of the edge above a node.
fn lower(node: &Node, below: u64) -> u64 {
    match node.kind {
        Kind::Buffer { capacitance, .. } | Kind::Sink { capacitance, .. } => capacitance,
        _ => below,
    }
}

/// The delay of the gate at a root with this load, and of the climb to the layer; none for the wire below a Steiner point.
fn gate(node: &Node, load: u64, layer: &Layer) -> Option<u64> {
    match node.kind {
        Kind::Driver { resistance, intrinsic, .. } | Kind::Buffer { resistance, intrinsic, .. } => {
            Some(2 * (resistance + layer.via) * load + intrinsic)
        }
        _ => None,
    }
}

/// The delay of the edge above a node with this load at its lower end, and at a terminal that of the climb down to its
/// pin.
fn edge(node: &Node, load: u64, layer: &Layer) -> u64 {
    let wire = node.length * layer.resistance * (node.length * layer.capacitance + 2 * load);
    match node.kind {
        Kind::Steiner => wire,
        _ => wire + 2 * layer.via * load,
    }
}

fn arrival(net: &Net) -> i64 {
    match net.nodes[0].kind {
        Kind::Driver { arrival, .. } => arrival,
        _ => unreachable!("node 0 is the driver"),
    }
}

/// Judge: cost and slack of a plan, each edge on its stage's layer.
pub fn judge(bytes: &[u8], plan: &[u8]) -> Result<Judged, Refusal> {
    let net = read(bytes)?;
    if plan.len() != net.stages {
        return Err(Refusal(7));
    }
    if plan.iter().any(|&layer| layer as usize >= net.layers.len()) {
        return Err(Refusal(8));
    }
    Ok(judged(&net, &stages_of(&net), plan))
}

fn judged(net: &Net, (above, driven): &(Vec<usize>, Vec<usize>), plan: &[u8]) -> Judged {
    let count = net.nodes.len();
    let mut load = [0u64; MOST_NODES + 1];
    let mut delay = [0u64; MOST_NODES + 1];
    let mut cost = 0;
    for number in (1..count).rev() {
        let node = &net.nodes[number];
        let layer = plan[above[number]] as usize;
        load[node.parent] += node.length * net.layers[layer].capacitance + lower(node, load[number]);
        cost += u32_at(net.bytes, node.costs + 4 * layer);
    }
    for number in 1..count {
        let node = &net.nodes[number];
        let layer = &net.layers[plan[above[number]] as usize];
        let start = gate(&net.nodes[node.parent], load[node.parent], layer).unwrap_or(delay[node.parent]);
        delay[number] = start + edge(node, lower(node, load[number]), layer);
    }
    let mut required = [NO_LIMIT; MOST_STAGES];
    for number in (1..count).rev() {
        let time = match net.nodes[number].kind {
            Kind::Sink { required, .. } => required,
            Kind::Buffer { .. } => required[driven[number]],
            _ => continue,
        };
        let at_root = &mut required[above[number]];
        *at_root = (*at_root).min(time - delay[number] as i64);
    }
    Judged { cost, slack: required[0] - arrival(net) }
}

/// The tree of stages in numbers: what a stage drives, the delay to it, its own limit and its cost on each layer, and
/// from when to when it can be reached, whatever the layers.
#[derive(Clone)]
struct Tree {
    driven: Vec<Vec<usize>>,
    delay: Vec<OnLayers<i64>>,
    limit: Vec<OnLayers<i64>>,
    cost: Vec<OnLayers<u64>>,
    early: Vec<i64>,
    late: Vec<i64>,
    layers: usize,
    arrival: i64,
}

fn loads(net: &Net) -> Vec<OnLayers<u64>> {
    let mut load = vec![[0; MOST_LAYERS]; net.nodes.len()];
    for number in (1..net.nodes.len()).rev() {
        let node = &net.nodes[number];
        for (column, layer) in net.layers.iter().enumerate() {
            load[node.parent][column] += node.length * layer.capacitance + lower(node, load[number][column]);
        }
    }
    load
}

fn delays(net: &Net) -> Vec<OnLayers<u64>> {
    let load = loads(net);
    let mut delay = vec![[0; MOST_LAYERS]; net.nodes.len()];
    for number in 1..net.nodes.len() {
        let node = &net.nodes[number];
        let parent = &net.nodes[node.parent];
        for (column, layer) in net.layers.iter().enumerate() {
            let start = gate(parent, load[node.parent][column], layer).unwrap_or(delay[node.parent][column]);
            delay[number][column] = start + edge(node, lower(node, load[number][column]), layer);
        }
    }
    delay
}

fn tree(net: &Net, (above, below): &(Vec<usize>, Vec<usize>)) -> Tree {
    let (s, layers, arrival) = (net.stages, net.layers.len(), arrival(net));
    let node_delay = delays(net);
    let mut driven = vec![vec![]; s];
    let mut delay = vec![[0; MOST_LAYERS]; s];
    let mut limit = vec![[NO_LIMIT; MOST_LAYERS]; s];
    let mut cost = vec![[0; MOST_LAYERS]; s];
    let (mut early, mut late) = (vec![arrival; s], vec![arrival; s]);
    for (number, node) in net.nodes.iter().enumerate().skip(1) {
        let stage = above[number];
        for layer in 0..layers {
            cost[stage][layer] += u32_at(net.bytes, node.costs + 4 * layer);
        }
        match node.kind {
            Kind::Buffer { .. } => {
                let j = below[number];
                driven[stage].push(j);
                delay[j] = node_delay[number].map(|ticks| ticks as i64);
                early[j] = early[stage] + delay[j][..layers].iter().min().expect("a layer");
                late[j] = late[stage] + delay[j][..layers].iter().max().expect("a layer");
            }
            Kind::Sink { required, .. } => {
                for layer in 0..layers {
                    limit[stage][layer] = limit[stage][layer].min(required - node_delay[number][layer] as i64);
                }
            }
            _ => {}
        }
    }
    Tree { driven, delay, limit, cost, early, late, layers, arrival }
}

// ------------------------------------------------------------------------------------------------
// The search
// ------------------------------------------------------------------------------------------------

/// The band of each stage's row: the columns from `start` to before `end`. No other entry is read.
struct Bands {
    start: [usize; MOST_STAGES],
    end: [usize; MOST_STAGES],
}

/// The entries of a row from column `start` on, over a delay: each is that much earlier.
struct Part<'a> {
    start: usize,
    times: &'a [i64],
    delay: i64,
}

/// A part under a limit: as it stands if no time that is asked, `late` at most, is after the limit, else copied.
fn limited<'a>(part: Part<'a>, limit: i64, late: i64, copy: &'a mut [i64]) -> Part<'a> {
    if late <= limit {
        return part;
    }
    let copy = &mut copy[..part.times.len()];
    for (entry, time) in copy.iter_mut().zip(part.times) {
        *entry = limit.min(time - part.delay);
    }
    Part { start: part.start, times: copy, delay: 0 }
}

/// Parts `a` and `b` merged: of two pointers the one with the lesser entry steps, until one of the parts or `out` has
/// no more. Gives the number of entries.
fn merge(a: &Part, b: &Part, out: &mut [i64]) -> usize {
    let (mut i, mut j) = (0, 0);
    for entry in out {
        let (Some(x), Some(y)) = (a.times.get(i), b.times.get(j)) else { break };
        let (x, y) = (x - a.delay, y - b.delay);
        if x <= y {
            *entry = x;
            i += 1;
        } else {
            *entry = y;
            j += 1;
        }
    }
    i + j
}

/// A row that is filled before column `top` becomes the later of itself and a part at a cost. Gives the new top.
fn spend(row: &mut [i64], top: usize, part: &Part, cost: usize) -> usize {
    let start = cost + part.start;
    let end = start + part.times.len();
    if top < end {
        row[top..end].fill(NEVER);
    }
    for (entry, time) in row[start..end].iter_mut().zip(part.times) {
        *entry = (time - part.delay).max(*entry);
    }
    top.max(end)
}

/// Raises a row from left to right: a larger budget is never worse.
fn raise(row: &mut [i64]) {
    let mut best = NEVER;
    for entry in row {
        best = best.max(*entry);
        *entry = best;
    }
}

/// The columns of a raised row that matter for times from `early` to `late`: from the first that meets `early` to the
/// first that meets `late`, or as much as the last does.
fn cut(row: &[i64], early: i64, late: i64) -> (usize, usize) {
    let start = row.partition_point(|&time| time < early);
    let kept = &row[start..];
    let Some(&last) = kept.last() else { return (start, start) };
    let most = late.min(last);
    (start, start + kept.partition_point(|&time| time < most) + 1)
}

/// The row of stage i at the grain g, from the rows of the later stages: the best of its layers. There is room for two
/// rows of merging. Gives the end of the columns that are filled.
fn fill_row(tree: &Tree, i: usize, g: u64, later: &[i64], bands: &Bands, room: &mut [i64], own: &mut [i64]) -> usize {
    let width = own.len();
    let (mut merged, mut spare) = room.split_at_mut(width);
    let mut top = 0;
    for layer in 0..tree.layers {
        let (cost, limit) = ((tree.cost[i][layer] / g) as usize, tree.limit[i][layer]);
        if cost >= width || limit < tree.early[i] {
            continue;
        }
        let left = width - cost;
        let mut parts = tree.driven[i].iter().map(|&j| {
            let (start, end) = (bands.start[j].min(left), bands.end[j].min(left));
            Part { start, times: &later[(j - i - 1) * width..][start..end], delay: tree.delay[j][layer] }
        });
        let mut joined = match parts.next() {
            Some(first) => limited(first, limit, tree.late[i], merged),
            None => Part { start: 0, times: &tree.limit[i][layer..=layer], delay: 0 },
        };
        for part in parts {
            let start = left.min(joined.start + part.start);
            let count = merge(&joined, &part, &mut spare[..left - start]);
            std::mem::swap(&mut merged, &mut spare);
            joined = Part { start, times: &merged[..count], delay: 0 };
        }
        top = spend(own, top, &joined, cost);
    }
    top
}

/// The row of each stage at the grain g, raised and cut to its band.
fn fill_rows(tree: &Tree, table: &mut [i64], g: u64, width: usize) -> Bands {
    let s = tree.driven.len();
    let (rows, room) = table.split_at_mut(s * width);
    let mut bands = Bands { start: [0; MOST_STAGES], end: [0; MOST_STAGES] };
    for i in (0..s).rev() {
        let (upper, later) = rows.split_at_mut((i + 1) * width);
        let own = &mut upper[i * width..];
        let top = fill_row(tree, i, g, later, &bands, room, own);
        raise(&mut own[..top]);
        (bands.start[i], bands.end[i]) = cut(&own[..top], tree.early[i], tree.late[i]);
    }
    bands
}

/// The first column of a stage's row that meets a time, or `width` if there is none in its band.
fn column(table: &[i64], bands: &Bands, width: usize, stage: usize, time: i64) -> usize {
    let (start, end) = (bands.start[stage], bands.end[stage]);
    let found = start + table[stage * width..][start..end].partition_point(|&entry| entry < time);
    if found < end {
        found
    } else {
        width
    }
}

/// The first plan of rounded cost V(k): stage after stage the lowest layer that attains the least.
fn read_off(tree: &Tree, table: &[i64], bands: &Bands, g: u64, width: usize, plan: &mut [u8]) {
    let s = tree.driven.len();
    let column = |stage: usize, time: i64| column(table, bands, width, stage, time);
    let mut times = [tree.arrival; MOST_STAGES];
    for i in 0..s {
        let time = times[i];
        let least = column(i, time);
        let need = |layer: usize| {
            let below = tree.driven[i].iter().map(|&j| column(j, time + tree.delay[j][layer])).sum::<usize>();
            (tree.cost[i][layer] / g) as usize + below
        };
        let attains = |&layer: &usize| time <= tree.limit[i][layer] && need(layer) <= least;
        let layer = (0..tree.layers).find(attains).expect("some layer attains the least");
        plan[i] = layer as u8;
        for &j in &tree.driven[i] {
            times[j] = time + tree.delay[j][layer];
        }
    }
}

/// V(k), if it is below `width`, and its first plan into `plan`.
fn value_at(tree: &Tree, table: &mut [i64], g: u64, width: usize, plan: &mut [u8]) -> Option<usize> {
    let bands = fill_rows(tree, table, g, width);
    let value = column(table, &bands, width, 0, tree.arrival);
    if value == width {
        return None;
    }
    read_off(tree, table, &bands, g, width, plan);
    Some(value)
}

/// The tree with each stage's least rounded cost taken off its costs, and the sum of what was taken off.
fn excess(tree: &Tree, g: u64) -> (Tree, usize) {
    let mut excess = tree.clone();
    let mut base = 0;
    for cost in &mut excess.cost {
        let cost = &mut cost[..tree.layers];
        cost.iter_mut().for_each(|cost| *cost /= g);
        let least = *cost.iter().min().expect("a layer");
        cost.iter_mut().for_each(|cost| *cost -= least);
        base += least as usize;
    }
    (excess, base)
}

fn rounded(tree: &Tree, plan: &[u8], g: u64) -> usize {
    tree.cost.iter().zip(plan).map(|(cost, &layer)| (cost[layer as usize] / g) as usize).sum()
}

/// V(k), if it is below `columns`, and its first plan into `known`, which holds a plan of rounded cost `bound`.
fn plan_at(tree: &Tree, table: &mut [i64], g: u64, columns: usize, bound: usize, known: &mut [u8]) -> Option<usize> {
    let (excess, base) = excess(tree, g);
    if columns <= base {
        return None;
    }
    let width = columns.min(bound + 1) - base;
    Some(base + value_at(&excess, table, 1, width, known)?)
}

/// From the largest k down, the first that qualifies: k and V(k), and its first plan into `known`.
fn descend(tree: &Tree, table: &mut [i64], p: u64, q: u64, known: &mut [u8]) -> Option<(u64, usize)> {
    let s = tree.driven.len();
    let columns = table.len() / (s + 2);
    let qualifies = |g: u64, value: usize| q * s as u64 * (g - 1) <= p * g * value as u64;
    for k in (0..MOST_K).rev() {
        let g = 1 << k;
        let bound = rounded(tree, known, g);
        if qualifies(g, bound) {
            let value = plan_at(tree, table, g, columns, bound, known)?;
            if qualifies(g, value) {
                return Some((k, value));
            }
        }
    }
    unreachable!("k = 0 always qualifies")
}

/// A plan that meets timing: at the largest grain every rounded cost is 0, so one column is enough.
fn feasible(tree: &Tree, known: &mut [u8]) -> bool {
    value_at(tree, &mut [0; MOST_STAGES + 2], 1 << MOST_K, 1, known).is_some()
}

/// What some rounds found: the cheapest plan, the floor, and how many were run.
struct Rounds {
    cheapest: [u8; MOST_STAGES],
    floor: u64,
    run: u64,
}

/// V(k) at the grain g, and its first plan into `known`, from what the round at twice the grain found: V(k) is at least
/// twice its value, and where its plan costs no more, it is the first of this round too.
fn next_round(tree: &Tree, table: &mut [i64], g: u64, columns: usize, value: usize, known: &mut [u8]) -> Option<usize> {
    let least = 2 * value;
    if columns <= least {
        return None;
    }
    let bound = rounded(tree, known, g);
    if bound == least {
        return Some(least);
    }
    plan_at(tree, table, g, columns, bound, known)
}

/// At most r rounds, from the largest k down, whose plan is the one known; they end before a k that needs more columns.
fn run_rounds(tree: &Tree, table: &mut [i64], r: u64, mut known: [u8; MOST_STAGES]) -> Rounds {
    let columns = table.len() / (tree.driven.len() + 2);
    let (mut cost, mut value) = (rounded(tree, &known, 1), 0);
    let mut found = Rounds { cheapest: known, floor: 0, run: 1 };
    while found.run < r {
        let k = MOST_K - found.run;
        let Some(next) = next_round(tree, table, 1 << k, columns, value, &mut known) else { break };
        value = next;
        found.floor = (value as u64) << k;
        found.run += 1;
        let new_cost = rounded(tree, &known, 1);
        if new_cost < cost {
            (cost, found.cheapest) = (new_cost, known);
        }
    }
    found
}

/// A net with its stages, its tree, and a plan that meets timing.
struct Ready<'a> {
    net: Net<'a>,
    stages: (Vec<usize>, Vec<usize>),
    tree: Tree,
    known: [u8; MOST_STAGES],
}

impl<'a> Ready<'a> {
    fn new(net: Net<'a>, room: usize) -> Result<Ready<'a>, Refusal> {
        if room < net.stages {
            return Err(Refusal(10));
        }
        let stages = stages_of(&net);
        let tree = tree(&net, &stages);
        let mut known = [0; MOST_STAGES];
        if !feasible(&tree, &mut known) {
            return Err(Refusal(11));
        }
        Ok(Ready { net, stages, tree, known })
    }

    /// The plan found goes to where it is wanted, and is judged.
    fn hand_out(&self, found: &[u8; MOST_STAGES], plan: &mut [u8]) -> Judged {
        let found = &found[..self.net.stages];
        plan[..found.len()].copy_from_slice(found);
        judged(&self.net, &self.stages, found)
    }
}

/// Plan.
pub fn plan(bytes: &[u8], p: u64, q: u64, table: &mut [i64], plan: &mut [u8]) -> Result<Planned, Refusal> {
    let net = read(bytes)?;
    if p > MOST_SHARE || !(1..=MOST_SHARE).contains(&q) {
        return Err(Refusal(9));
    }
    let ready = Ready::new(net, plan.len())?;
    let mut known = ready.known;
    let found = descend(&ready.tree, table, p, q, &mut known);
    table.fill(0);
    let (k, value) = found.ok_or(Refusal(12))?;
    let Judged { cost, slack } = ready.hand_out(&known, plan);
    Ok(Planned { cost, slack, k, floor: (value as u64) << k })
}

/// Plan by rounds.
pub fn plan_rounds(bytes: &[u8], r: u64, table: &mut [i64], plan: &mut [u8]) -> Result<RoundsPlanned, Refusal> {
    let net = read(bytes)?;
    if !(1..=MOST_ROUNDS).contains(&r) {
        return Err(Refusal(14));
    }
    let ready = Ready::new(net, plan.len())?;
    if table.len() < ready.net.stages + 2 {
        table.fill(0);
        return Err(Refusal(12));
    }
    let found = run_rounds(&ready.tree, table, r, ready.known);
    table.fill(0);
    let Judged { cost, slack } = ready.hand_out(&found.cheapest, plan);
    Ok(RoundsPlanned { cost, slack, floor: found.floor, rounds: found.run })
}
