//! The nets of 01, "Nets to try", and others made for one purpose each.

use super::draft::{
    Draft, Kind, Node, COST, GATE, INTRINSIC, LENGTH, MOST_LAYERS, MOST_NODES, MOST_STAGES, TIME, UNIT, VIA,
};
use super::times::leave_slack;

/// Net A with another required time.
pub fn net_a(required: i64) -> Draft {
    Draft {
        layers: vec![(4, 1), (1, 1)],
        vias: None,
        resistance: 1,
        intrinsic: 0,
        arrival: 0,
        nodes: vec![Node { parent: 0, length: 10, costs: vec![10, 20], kind: Kind::Sink { capacitance: 5, required } }],
    }
}

/// Net A with another length, required when a length of 4,000 is just met on layer 0.
pub fn a_of_length(length: i64) -> Draft {
    let mut draft = net_a(64_168_010);
    draft.nodes[0].length = length;
    draft
}

/// Net B.
pub fn net_b() -> Draft {
    let buffer = Kind::Buffer { capacitance: 5, resistance: 1, intrinsic: 3 };
    let sink = Kind::Sink { capacitance: 5, required: 1_063 };
    Draft {
        nodes: vec![
            Node { parent: 0, length: 10, costs: vec![10, 20], kind: buffer },
            Node { parent: 1, length: 10, costs: vec![12, 25], kind: sink },
        ],
        ..net_a(0)
    }
}

/// A line: a number of buffers, then Steiner points, then one sink.
pub fn line(buffers: usize, steiner: usize) -> Draft {
    let mut draft = net_a(830);
    draft.nodes.clear();
    for number in 0..buffers + steiner {
        let buffer = Kind::Buffer { capacitance: 1, resistance: 1, intrinsic: 1 };
        let kind = if number < buffers { buffer } else { Kind::Steiner };
        draft.nodes.push(Node { parent: number, length: 1, costs: vec![1, 2], kind });
    }
    let sink = Kind::Sink { capacitance: 1, required: TIME.1 };
    draft.nodes.push(Node { parent: buffers + steiner, length: 1, costs: vec![1, 2], kind: sink });
    draft
}

/// A line on so many layers, with vias if it is of the second edition. Each layer has other units, and each edge another
/// cost there. The best slack is 0.
pub fn varied_line(buffers: usize, steiner: usize, layers: usize, with_vias: bool) -> Draft {
    let mut draft = line(buffers, steiner);
    draft.layers = (0..layers as i64).map(|layer| (1 + 5 * layer % 16, 1 + 3 * layer % 16)).collect();
    draft.vias = with_vias.then(|| (0..layers as i64).map(|layer| layer % 3).collect());
    for (place, node) in draft.nodes.iter_mut().enumerate() {
        node.length = 1 + place as i64 % 3;
        node.costs = (0..layers).map(|layer| 1 + ((place + 1) * (layer + 7) % 97) as i64).collect();
    }
    leave_slack(&mut draft, 0);
    draft
}

/// A varied line of just so many bytes, on as many layers as that allows with as many stages as there can be.
pub fn of_bytes(length: usize) -> Draft {
    let lines = (1..=MOST_STAGES).rev().flat_map(|stages| (1..=MOST_LAYERS).rev().map(move |layers| (stages, layers)));
    let fitting = lines.filter_map(|(stages, layers)| {
        let (steiner, others) = (7 + 4 * layers, 22 + 4 * layers + stages * (19 + 4 * layers));
        let rest = length.checked_sub(others).filter(|rest| rest % steiner == 0)? / steiner;
        (stages + rest <= MOST_NODES).then(|| varied_line(stages - 1, rest, layers, false))
    });
    let draft = { fitting }.next().expect("a line of this length");
    assert_eq!(draft.bytes().len(), length, "a field's lengths");
    draft
}

/// A line with every number at its upper end, less this: first buffers, then Steiner points, then a sink; so many more
/// sinks stand beside the way, one at each of the last points. The best slack is 0, if there is an arrival time for it.
/// With 255 nodes there is none, and the sinks are required and the driver arrives so that the slack is the least. It is
/// of the second edition: with vias.
pub fn slowest(count: usize, buffers: usize, beside: usize, less: i64) -> Draft {
    let (gate, intrinsic) = (GATE.1 - less, INTRINSIC.1 - less);
    let required = if count == MOST_NODES { TIME.0 } else { TIME.1 };
    let node = |parent, kind| Node { parent, length: LENGTH.1 - less, costs: vec![COST.1 - less; 2], kind };
    let sink = |parent| node(parent, Kind::Sink { capacitance: gate, required });
    let way = count - beside;
    let mut nodes = vec![];
    for number in 1..way {
        let buffer = Kind::Buffer { capacitance: gate, resistance: gate, intrinsic };
        nodes.push(node(number - 1, if number <= buffers { buffer } else { Kind::Steiner }));
    }
    nodes.push(sink(way - 1));
    nodes.extend((1..=beside).map(|place| sink(way - place)));
    let layers = vec![(UNIT.1 - less, UNIT.1 - less), (UNIT.1, UNIT.1)];
    let vias = Some(vec![VIA.1 - less, VIA.1]);
    let mut draft = Draft { layers, vias, resistance: gate, intrinsic, arrival: TIME.1, nodes };
    leave_slack(&mut draft, 0);
    draft
}

/// The slowest line that can be met. Of 12 edges 11 have the largest length; the one at the driver is as long as the
/// earliest arrival time allows.
pub fn slowest_met() -> Draft {
    let mut draft = slowest(12, 0, 0, 0);
    let mut met = |length: i64| {
        draft.nodes[0].length = length;
        leave_slack(&mut draft, 0)
    };
    assert!(!met(LENGTH.1), "12 edges of the largest length cannot be met");
    let lengths: Vec<i64> = (LENGTH.0..=LENGTH.1).collect();
    let longest = lengths.partition_point(|&length| met(length)) as i64 - 1;
    assert!(met(longest), "11 edges can be met");
    draft
}

/// A node at the end of an edge of length 1.
fn hung(parent: usize, costs: &[i64], kind: Kind) -> Node {
    Node { parent, length: 1, costs: costs.to_vec(), kind }
}

/// One stage that drives others, each with a sink: a line of Steiner points with a buffer at each, two at the last.
pub fn star(branches: usize) -> Draft {
    let buffer = Kind::Buffer { capacitance: 2, resistance: 3, intrinsic: 4 };
    let mut nodes = vec![];
    for number in 1..branches {
        nodes.push(hung(number - 1, &[1, 2, 3], Kind::Steiner));
    }
    for number in 1..=branches {
        nodes.push(hung(number.min(branches - 1), &[2, 1, 3], buffer.clone()));
    }
    for number in branches..2 * branches {
        let required = 40 * (number as i64 % 5);
        nodes.push(hung(number, &[1, 2, 4], Kind::Sink { capacitance: 3, required }));
    }
    let layers = vec![(3, 2), (2, 2), (1, 1)];
    let mut draft = Draft { layers, vias: None, resistance: 1, intrinsic: 5, arrival: 0, nodes };
    leave_slack(&mut draft, 11 * branches as i128);
    draft
}

/// Two branches whose buffers stand in the file in another order than in the tree.
pub fn crossed() -> Draft {
    let buffer = Kind::Buffer { capacitance: 1, resistance: 2, intrinsic: 3 };
    let sink = Kind::Sink { capacitance: 2, required: 0 };
    let nodes = vec![
        hung(0, &[1, 1], Kind::Steiner),
        hung(0, &[2, 3], buffer.clone()),
        hung(1, &[3, 1], buffer),
        hung(2, &[5, 2], sink.clone()),
        hung(3, &[1, 4], sink),
    ];
    let layers = vec![(4, 1), (1, 2)];
    let mut draft = Draft { layers, vias: None, resistance: 1, intrinsic: 2, arrival: 0, nodes };
    leave_slack(&mut draft, 60);
    draft
}

/// One stage with 128 sinks: the even tree of 255 nodes.
pub fn even_tree() -> Draft {
    let kind = |number: usize| match number {
        1..=127 => Kind::Steiner,
        _ => Kind::Sink { capacitance: number as i64 % 7, required: 5_000 - 3 * number as i64 },
    };
    let nodes = (1..=MOST_NODES).map(|number| hung(number / 2, &[1, 2], kind(number))).collect();
    Draft { layers: vec![(2, 1), (1, 1)], vias: None, resistance: 1, intrinsic: 0, arrival: 0, nodes }
}

/// The even tree with every number at its upper end but for these: the unit resistance, and the length of all edges but
/// the driver's, which has all the load. The best slack is 0, if there is an arrival time for it.
pub fn full_tree(unit_resistance: i64, length: i64) -> Draft {
    let mut draft = even_tree();
    draft.layers = vec![(unit_resistance, UNIT.1); 2];
    draft.vias = Some(vec![VIA.1; 2]);
    (draft.resistance, draft.intrinsic) = (GATE.1, INTRINSIC.1);
    for node in &mut draft.nodes {
        node.length = if node.parent == 0 { LENGTH.1 } else { length };
        if let Kind::Sink { capacitance, required } = &mut node.kind {
            (*capacitance, *required) = (GATE.1, TIME.1);
        }
    }
    leave_slack(&mut draft, 0);
    draft
}

/// A line of stages that cost the same on both layers.
pub fn even_line(stages: usize, cost: i64) -> Draft {
    let mut draft = line(stages - 1, 0);
    for node in &mut draft.nodes {
        node.costs = vec![cost, cost];
    }
    draft
}

/// One stage of this cost on both layers, and no plan late.
pub fn costing(total: i64) -> Draft {
    costing_each([total, total])
}

/// One stage of these costs, the second a little less or the same, and no plan late.
fn costing_each(totals: [i64; 2]) -> Draft {
    let edges = (totals[0] as usize).div_ceil(COST.1 as usize);
    let mut draft = line(0, edges - 1);
    for (number, node) in draft.nodes.iter_mut().enumerate() {
        let cost = |total: i64| if number == 0 { total - COST.1 * (edges as i64 - 1) } else { COST.1 };
        node.costs = totals.map(cost).to_vec();
    }
    draft
}

/// One stage that costs one less on layer 1, which shows in rounded costs from this k on down: to 27.
pub fn cheaper_from(k: u32) -> Draft {
    let dear = if k < 27 { 3 << k } else { 1 << k };
    costing_each([dear, dear - 1])
}

/// A sink that is reached at once.
pub fn no_delay(arrival: i64, required: i64) -> Draft {
    let sink = Kind::Sink { capacitance: 0, required };
    let nodes = vec![Node { parent: 0, length: 0, costs: vec![1, 1], kind: sink }];
    Draft { layers: vec![(1, 1), (1, 1)], vias: None, resistance: 0, intrinsic: 0, arrival, nodes }
}

/// 64 stages, 255 nodes and 16 layers, of which the last is the cheapest.
pub fn last_layer_cheapest() -> Draft {
    let mut draft = line(63, 191);
    draft.layers = vec![(1, 1); 16];
    for node in &mut draft.nodes {
        node.costs = (0..16).map(|layer| 16 - layer).collect();
    }
    draft
}

/// Net B with other costs.
pub fn dear_b(times: i64, required: i64) -> Draft {
    let mut draft = net_b();
    for node in &mut draft.nodes {
        node.costs.iter_mut().for_each(|cost| *cost *= times);
    }
    draft.nodes[1].kind = Kind::Sink { capacitance: 5, required };
    draft
}

/// Net B with these costs for the first stage and the second, and another required time.
fn b_costing(first: &[i64], second: &[i64], required: i64) -> Draft {
    let mut draft = dear_b(1, required);
    draft.nodes[0].costs = first.to_vec();
    draft.nodes[1].costs = second.to_vec();
    draft
}

/// Net B with a longer edge at the driver: the plans 0 1, 1 0 and 1 1 meet timing, with slacks of 0, 93 and 693.
fn longer_b(first: [i64; 2], second: [i64; 2]) -> Draft {
    let mut draft = b_costing(&first, &second, 1_189);
    draft.nodes[0].length = 11;
    draft
}

/// The plans 0 1 and 1 0 both cost 32. Rounded, 1 0 costs less at k = 3, 2 and 1.
pub fn equal_b() -> Draft {
    longer_b([8, 15], [17, 24])
}

/// The plan 0 1 costs 32 and the plan 1 0 costs 33. Rounded, 1 0 costs less at k = 3 and 2.
pub fn rounded_b() -> Draft {
    longer_b([8, 15], [18, 24])
}

/// Net B with three layers, each faster by 200 ticks for an edge: plans whose layers add up to 2 or more meet timing, and
/// those with 2 have a slack of 0.
fn b_on_three(first: [i64; 3], second: [i64; 3]) -> Draft {
    let layers = vec![(3, 1), (2, 1), (1, 1)];
    Draft { layers, ..b_costing(&first, &second, 863) }
}

/// The plan 0 2 costs 40, and 1 1 and 2 0 both cost 32. Rounded, 2 0 costs less than these at k = 3, 2 and 1.
pub fn equal_on_three() -> Draft {
    b_on_three([9, 8, 15], [17, 24, 31])
}

/// The plan 0 2 costs 97, 2 0 costs 51, 1 1 costs 58 and 1 2 costs 52. From k = 28 down these four follow each other as
/// the first of the least rounded cost, from k = 5, 4 and 3 on, and then 2 0 again from k = 1 on.
pub fn turning_on_three() -> Draft {
    b_on_three([59, 14, 29], [22, 44, 38])
}

/// A small net with nodes of all kinds: stage 0 ends at a buffer and a sink, stage 1 at two sinks.
pub fn all_kinds() -> Draft {
    let sink = |required: i64| Kind::Sink { capacitance: 2, required };
    let buffer = Kind::Buffer { capacitance: 1, resistance: 2, intrinsic: 3 };
    let nodes = vec![
        hung(0, &[3, 5], Kind::Steiner),
        hung(1, &[2, 4], buffer),
        hung(1, &[1, 1], sink(90)),
        hung(2, &[6, 7], sink(110)),
        hung(2, &[1, 2], sink(112)),
    ];
    Draft { layers: vec![(4, 1), (1, 1)], vias: None, resistance: 1, intrinsic: 2, arrival: -5, nodes }
}

/// The longest net in bytes: 16 layers with vias, 63 buffers, 128 sinks and 64 Steiner points. The driver has room for a
/// second child.
pub fn longest() -> Draft {
    let mut draft = even_tree();
    draft.layers = vec![(1, 1); MOST_LAYERS];
    draft.vias = Some((0..MOST_LAYERS as i64).map(|layer| layer % 3).collect());
    for (place, node) in draft.nodes.iter_mut().enumerate() {
        node.costs = (1..=MOST_LAYERS as i64).collect();
        if place % 2 == 0 && place / 2 < MOST_STAGES - 1 {
            node.kind = Kind::Buffer { capacitance: 1, resistance: 1, intrinsic: 1 };
        }
    }
    leave_slack(&mut draft, 30);
    draft
}
