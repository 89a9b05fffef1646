//! Arrival and required times for nets that were grown.

use super::draft::{Draft, Kind, TIME};
use super::Random;
use crate::plain::{self, Net};

/// Sets arrival and required times: tight ones, loose ones, and such that the best slack of all plans is near 0.
pub fn set_times(draft: &mut Draft, random: &mut Random) {
    draft.arrival = match random.below(4) {
        0 => 0,
        1 => random.between(-100, 100),
        _ => random.between(TIME.0 / 2, TIME.1 / 2),
    };
    match random.below(12) {
        0 => set_loose(draft),
        1 => set_ends(draft, random),
        way => set_by_plans(draft, random, way),
    }
    if random.one_in(2) {
        // The best slack becomes exactly 0, or misses by 1, or is a little more.
        leave_slack(draft, *random.pick(&[0, 0, 0, -1, 1, 50]));
    }
}

fn required_times(draft: &mut Draft) -> impl Iterator<Item = &mut i64> {
    draft.nodes.iter_mut().filter_map(|node| match &mut node.kind {
        Kind::Sink { required, .. } => Some(required),
        _ => None,
    })
}

/// Times at both ends of the range, at random.
fn set_ends(draft: &mut Draft, random: &mut Random) {
    draft.arrival = *random.pick(&[TIME.0, TIME.1, 0]);
    required_times(draft).for_each(|required| *required = *random.pick(&[TIME.0, TIME.1, TIME.1, TIME.1]));
}

/// Each sink is required just when a plan reaches it, or about then: all by one plan (ways 2 to 5), or each by its own.
fn set_by_plans(draft: &mut Draft, random: &mut Random, way: usize) {
    let net = plain::read(&draft.bytes()).expect("a whole net");
    let stages = plain::stage_count(&net);
    let some_plan =
        |random: &mut Random| -> Vec<u8> { (0..stages).map(|_| random.below(net.layers.len()) as u8).collect() };
    let shared = some_plan(random);
    for number in 1..net.nodes.len() {
        let Kind::Sink { required, .. } = &mut draft.nodes[number - 1].kind else { continue };
        let plan = if way < 6 { shared.clone() } else { some_plan(random) };
        let delay = delay_to_sink(&net, number, &plan);
        let spread = (delay / 8).max(1) as i64;
        let noise = match way {
            2 | 3 | 6 | 7 => 0,
            4 => -(random.one_in(3) as i64),
            5 | 8 => random.between(0, spread),
            _ => random.between(-spread, spread),
        };
        let time = draft.arrival as i128 + delay + noise as i128;
        *required = time.clamp(TIME.0 as i128, TIME.1 as i128) as i64;
    }
}

/// Sets the arrival time so that the best slack of all plans is this, if there is such a time. Is there?
pub fn leave_slack(draft: &mut Draft, slack: i128) -> bool {
    let net = plain::read(&draft.bytes()).expect("a whole net");
    let arrival = best_required(&net, 0) - slack;
    let in_range = (TIME.0 as i128..=TIME.1 as i128).contains(&arrival);
    if in_range {
        draft.arrival = arrival as i64;
    }
    in_range
}

/// Times that leave as much room as there is.
pub fn set_loose(draft: &mut Draft) {
    draft.arrival = TIME.0;
    required_times(draft).for_each(|required| *required = TIME.1);
}

/// From the driver to a sink under a plan.
fn delay_to_sink(net: &Net, sink: usize, plan: &[u8]) -> i128 {
    let (mut delay, mut node) = (0, sink);
    while node != 0 {
        let layer = plan[plain::stage_of_edge(net, node)] as usize;
        delay += plain::way_delay(net, node, layer);
        node = net.nodes[node].parent;
        if plain::is_root(net, node) {
            delay += plain::root_delay(net, node, layer);
        }
    }
    delay
}

/// The latest required time at a root over all plans: each stage may take its own best layer.
fn best_required(net: &Net, root: usize) -> i128 {
    let below: Vec<(usize, i128)> = plain::terminals_below(net, root, 0)
        .into_iter()
        .map(|(terminal, _)| match net.nodes[terminal].kind {
            plain::Kind::Sink { required, .. } => (terminal, required),
            _ => (terminal, best_required(net, terminal)),
        })
        .collect();
    let on = |layer: usize| -> i128 {
        let gate = plain::root_delay(net, root, layer);
        let ways = plain::terminals_below(net, root, layer);
        below.iter().zip(ways).map(|(below, way)| below.1 - gate - way.1).min().expect("a terminal")
    };
    (0..net.layers.len()).map(on).max().expect("a layer")
}
