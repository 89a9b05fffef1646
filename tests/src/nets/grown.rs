//! Random whole nets of several families.

use super::draft::{Draft, Kind, Node, COST, GATE, INTRINSIC, LENGTH, MOST_LAYERS, MOST_NODES, MOST_STAGES, UNIT, VIA};
use super::named::line;
use super::times::{leave_slack, set_times};
use super::Random;
use crate::plain;

/// Where the next node is hung.
#[derive(Clone, Copy, PartialEq)]
enum Growth {
    /// Below the last one.
    Line,
    /// Below the first one that has room.
    Even,
    /// Anywhere.
    Free,
}

/// How large the numbers are.
#[derive(Clone, Copy, PartialEq)]
enum Scale {
    Small,
    Middle,
    Large,
    /// Each number is one of the ends of its range.
    Ends,
}

/// How a layer's costs lie to its speed.
#[derive(Clone, Copy, PartialEq)]
enum Prices {
    /// Higher layers are faster and dearer.
    Rising,
    Free,
    /// The same on every layer.
    Flat,
}

/// What a random net is made of.
#[derive(Clone)]
pub struct Recipe {
    stages: usize,
    steiner: usize,
    more_sinks: usize,
    most_nodes: usize,
    layers: usize,
    growth: Growth,
    scale: Scale,
    costs: Scale,
    prices: Prices,
    zero_lengths: bool,
}

/// The families whose plans can all be looked at.
pub const SMALL_FAMILIES: &[&str] =
    &["tiny", "chain", "balanced", "wide stages", "one stage", "many layers", "ends of ranges", "zero lengths", "any"];

/// The families that need the search by fronts.
pub const LARGE_FAMILIES: &[&str] = &["much choice", "middle", "long chain", "large tree"];

/// A recipe with something of everything.
fn any_recipe(random: &mut Random) -> Recipe {
    let growth = *random.pick(&[Growth::Line, Growth::Even, Growth::Free, Growth::Free]);
    let scale = *random.pick(&[Scale::Small, Scale::Small, Scale::Middle, Scale::Large]);
    let costs = *random.pick(&[Scale::Small, Scale::Middle, Scale::Middle, Scale::Large]);
    let prices = *random.pick(&[Prices::Rising, Prices::Rising, Prices::Rising, Prices::Free, Prices::Flat]);
    Recipe {
        stages: random.below(4) + 1,
        steiner: random.below(5),
        more_sinks: random.below(4),
        most_nodes: MOST_NODES,
        layers: random.below(4) + 1,
        growth,
        scale,
        costs,
        prices,
        zero_lengths: false,
    }
}

fn recipe(family: &str, random: &mut Random) -> Recipe {
    let any = any_recipe(random);
    let mut part = |low: usize, high: usize| random.between(low as i64, high as i64) as usize;
    match family {
        "tiny" => Recipe {
            stages: part(1, 3),
            steiner: part(0, 1),
            more_sinks: part(0, 1),
            layers: part(1, 3),
            scale: Scale::Small,
            ..any
        },
        "chain" => Recipe { stages: part(2, 7), steiner: part(0, 2), layers: part(1, 3), growth: Growth::Line, ..any },
        "balanced" => Recipe {
            stages: part(3, 7),
            steiner: part(0, 4),
            more_sinks: part(0, 8),
            layers: part(2, 3),
            growth: Growth::Even,
            ..any
        },
        "wide stages" => Recipe { stages: part(1, 3), steiner: part(8, 20), more_sinks: part(4, 16), ..any },
        "one stage" => Recipe { stages: 1, steiner: part(0, 20), more_sinks: part(0, 8), layers: part(1, 16), ..any },
        "many layers" => Recipe { stages: part(1, 3), layers: part(5, 16), ..any },
        "ends of ranges" => Recipe { scale: Scale::Ends, costs: [any.costs, Scale::Ends][part(0, 1)], ..any },
        "zero lengths" => Recipe { zero_lengths: true, ..any },
        "any" => any,
        "much choice" => Recipe { stages: part(4, 10), steiner: part(0, 8), layers: part(5, 16), ..any },
        "middle" => {
            Recipe { stages: part(8, 20), steiner: part(0, 20), more_sinks: part(0, 20), layers: part(2, 5), ..any }
        }
        "long chain" => {
            Recipe { stages: part(12, 40), steiner: part(0, 40), layers: part(2, 6), growth: Growth::Line, ..any }
        }
        "large tree" => {
            Recipe { stages: part(20, 64), steiner: part(0, 60), more_sinks: part(0, 30), layers: part(2, 16), ..any }
        }
        _ => panic!("no family {family}"),
    }
}

/// A random net of a family.
pub fn random_net(family: &str, random: &mut Random) -> Draft {
    let recipe = recipe(family, random);
    random_from(&recipe, random)
}

/// A random line of stages that trade time for cost: higher layers are faster and dearer, and some of the time that they
/// gain is needed.
pub fn trading(random: &mut Random) -> Draft {
    let (stages, layers) = (random.between(3, 6), random.between(3, 4));
    let mut draft = line(stages as usize - 1, 0);
    draft.layers = (0..layers).map(|layer| (layers - layer, 1)).collect();
    draft.vias = random.one_in(3).then(|| (0..layers).map(|_| random.between(0, 2)).collect());
    let (longest, dearest) = (*random.pick(&[1, 2, 9]), *random.pick(&[8, 40, 300]));
    for node in &mut draft.nodes {
        node.length = random.between(1, longest);
        node.costs = (0..layers).map(|_| random.between(1, dearest)).collect();
        node.costs.sort();
    }
    leave_slack(&mut draft, 0);
    let net = plain::read(&draft.bytes()).expect("a whole net");
    let late = plain::slack(&net, &vec![0; stages as usize]).unsigned_abs() as usize;
    leave_slack(&mut draft, random.below(late + 1) as i128);
    draft
}

/// A random net at the limits: 255 nodes after the driver, 64 stages, 16 layers.
pub fn at_limits(random: &mut Random) -> Draft {
    let costs = *random.pick(&[Scale::Small, Scale::Small, Scale::Middle, Scale::Large]);
    crowded(random, [MOST_STAGES, MOST_LAYERS, MOST_NODES], costs)
}

/// A random net with so many stages, layers and nodes, and small costs.
pub fn cheap(random: &mut Random, counts: [usize; 3]) -> Draft {
    crowded(random, counts, Scale::Small)
}

fn crowded(random: &mut Random, [stages, layers, nodes]: [usize; 3], costs: Scale) -> Draft {
    let recipe = Recipe {
        stages,
        steiner: (nodes - 2 * stages).min(random.between(20, 60) as usize),
        more_sinks: nodes,
        most_nodes: nodes,
        layers,
        growth: *random.pick(&[Growth::Line, Growth::Even, Growth::Free]),
        scale: *random.pick(&[Scale::Small, Scale::Middle, Scale::Large]),
        costs,
        prices: *random.pick(&[Prices::Rising, Prices::Rising, Prices::Free]),
        zero_lengths: false,
    };
    let mut draft = random_from(&recipe, random);
    fill_up(&mut draft, nodes, random);
    set_times(&mut draft, random);
    draft
}

/// Puts Steiner points into edges until there are so many nodes after the driver.
fn fill_up(draft: &mut Draft, nodes: usize, random: &mut Random) {
    while draft.nodes.len() < nodes {
        // A new node takes the place of node n; n and all later ones move up by one.
        let place = random.below(draft.nodes.len());
        let number = place + 1;
        for node in &mut draft.nodes {
            if node.parent >= number {
                node.parent += 1;
            }
        }
        let mut new = draft.nodes[place].clone();
        new.kind = Kind::Steiner;
        draft.nodes[place].parent = number;
        draft.nodes.insert(place, new);
    }
}

fn random_from(recipe: &Recipe, random: &mut Random) -> Draft {
    let (parents, kinds) = grow(recipe, random);
    let scale = recipe.scale;
    let mut layers = vec![];
    for _layer in 0..recipe.layers {
        layers.push((value(random, scale, UNIT, 3, 20), value(random, scale, UNIT, 3, 20)));
    }
    if recipe.prices == Prices::Rising {
        layers.sort_by_key(|layer| -layer.0);
    }
    let vias = random.one_in(2).then(|| vias(recipe, random));
    let mut nodes = vec![];
    for (parent, letter) in parents.iter().zip(&kinds) {
        let mut costs: Vec<i64> = (0..recipe.layers).map(|_| value(random, recipe.costs, COST, 8, 3_000)).collect();
        match recipe.prices {
            Prices::Rising => costs.sort(),
            Prices::Free => {}
            Prices::Flat => costs = vec![costs[0]; recipe.layers],
        }
        let empty = recipe.zero_lengths && !random.one_in(3);
        let length = if empty { 0 } else { value(random, scale, LENGTH, 4, 40) };
        let mut gate = || value(random, scale, GATE, 3, 50);
        let (capacitance, resistance) = (gate(), gate());
        let intrinsic = value(random, scale, INTRINSIC, 5, 2_000);
        let kind = match letter {
            'S' => Kind::Steiner,
            'B' => Kind::Buffer { capacitance, resistance, intrinsic },
            _ => Kind::Sink { capacitance, required: 0 },
        };
        nodes.push(Node { parent: *parent, length, costs, kind });
    }
    let resistance = value(random, scale, GATE, 3, 50);
    let intrinsic = value(random, scale, INTRINSIC, 5, 2_000);
    let mut draft = Draft { layers, vias, resistance, intrinsic, arrival: 0, nodes };
    set_times(&mut draft, random);
    draft
}

/// For a net of the second edition: as large as its other numbers, each at an end of its range, or all at the same end.
fn vias(recipe: &Recipe, random: &mut Random) -> Vec<i64> {
    let scale = match random.below(8) {
        0 => return vec![VIA.0; recipe.layers],
        1 => return vec![VIA.1; recipe.layers],
        2 => Scale::Ends,
        _ => recipe.scale,
    };
    (0..recipe.layers).map(|_| value(random, scale, VIA, 3, 20)).collect()
}

fn value(random: &mut Random, scale: Scale, (low, high): (i64, i64), small: i64, middle: i64) -> i64 {
    match scale {
        Scale::Small => random.between(low, low + small),
        Scale::Middle => random.between(low, low + middle),
        Scale::Large => random.between(low, high),
        Scale::Ends => *random.pick(&[low, high]),
    }
}

/// The tree: for nodes 1, 2, ... the parent, and 'S' for Steiner, 'B' for buffer, 'T' for sink.
fn grow(recipe: &Recipe, random: &mut Random) -> (Vec<usize>, Vec<char>) {
    let mut inner = vec!['B'; recipe.stages - 1];
    inner.extend(vec!['S'; recipe.steiner]);
    for i in (1..inner.len()).rev() {
        inner.swap(i, random.below(i + 1));
    }
    // Node 0 first; its letter and parent are left out at the end.
    let (mut parents, mut kinds, mut children) = (vec![0], vec!['D'], vec![0]);
    let mut hang = |parent: usize, kind: char, children: &mut Vec<usize>| {
        parents.push(parent);
        kinds.push(kind);
        children[parent] += 1;
        children.push(0);
    };
    for &kind in &inner {
        let room: Vec<usize> = (0..children.len()).filter(|&node| children[node] < 2).collect();
        let parent = match recipe.growth {
            Growth::Line => children.len() - 1,
            Growth::Even => room[0],
            Growth::Free => *random.pick(&room),
        };
        hang(parent, kind, &mut children);
    }
    for parent in sink_parents(recipe, &children, random) {
        hang(parent, 'T', &mut children);
    }
    if random.one_in(4) {
        (parents[1..].to_vec(), kinds[1..].to_vec())
    } else {
        renumber(&parents, &kinds, random)
    }
}

/// Where sinks are hung: one below each childless node, then some more where there is room.
fn sink_parents(recipe: &Recipe, children: &[usize], random: &mut Random) -> Vec<usize> {
    let mut sinks: Vec<usize> = (0..children.len()).filter(|&node| children[node] == 0).collect();
    for _more in 0..recipe.more_sinks {
        let room: Vec<usize> = (0..children.len())
            .filter(|&node| children[node] + sinks.iter().filter(|&&sink| sink == node).count() < 2)
            .collect();
        if room.is_empty() || children.len() + sinks.len() > recipe.most_nodes {
            break;
        }
        sinks.push(*random.pick(&room));
    }
    sinks
}

/// Gives the nodes other numbers, parents still before their children.
fn renumber(parents: &[usize], kinds: &[char], random: &mut Random) -> (Vec<usize>, Vec<char>) {
    let mut number = vec![0; parents.len()];
    let (mut new_parents, mut new_kinds) = (vec![], vec![]);
    let mut ready: Vec<usize> = (1..parents.len()).filter(|&node| parents[node] == 0).collect();
    while !ready.is_empty() {
        let node = ready.swap_remove(random.below(ready.len()));
        new_parents.push(number[parents[node]]);
        new_kinds.push(kinds[node]);
        number[node] = new_parents.len();
        ready.extend((1..parents.len()).filter(|&child| parents[child] == node));
    }
    (new_parents, new_kinds)
}
