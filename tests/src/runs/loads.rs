//! Nets for the program `try_loads` (02, wish 4), and what must be among them.

use super::limits::shapes;
use crate::loads::{input, Printed, Stage, Staged};
use crate::nets::{self, Random, LENGTH, MOST_NODES, UNIT};
use crate::plain::{self, Kind, Net};
use crate::wrong::Walk;

/// What is printed for net B, whatever its vias.
const NET_B: &str = "stage 0 edges 1 loads 15 15\nstage 1 edges 1 loads 15 15\n";

/// Bytes with a name.
type Named = (String, Vec<u8>);

/// So many nets for the program: those that have what is due, then random ones.
pub fn for_program(seed: u64, count: usize) -> Vec<Printed> {
    let mut random = Random::new(seed);
    let first = fixed();
    let more = (first.len()..count).map(|number| random_net(number, &mut random)).collect::<Vec<Named>>();
    first.iter().chain(&more).take(count).map(|(name, bytes)| Printed::new(name, bytes)).collect()
}

/// The same nets every time: made for one purpose, at the limits and beyond, with each number of layers, with each
/// refusal.
fn fixed() -> Vec<Named> {
    let named = [
        ("A", nets::net_a(830)),
        ("B", nets::net_b()),
        ("B with vias", nets::net_b().with_vias(&[0, 2])),
        ("all kinds", nets::all_kinds()),
        ("no load", nets::no_delay(0, 0)),
        ("the slowest line that is met", nets::slowest_met()),
        ("the largest load", nets::full_tree(UNIT.1, LENGTH.1)),
        ("64 stages in line, all numbers at their upper ends", nets::slowest(MOST_NODES, 63, 0, 0)),
    ];
    let whole = named.map(|(name, draft)| (String::from(name), draft)).into_iter().chain(shapes(&mut Random::new(3)));
    let refused = nets::unreadable().into_iter().map(|(number, bytes)| (format!("refused with {number}"), bytes));
    let counts = nets::lines_around_limits().into_iter().chain(nets::layer_counts()).chain(nets::around_longest());
    whole.map(|(name, draft)| (name, draft.bytes())).chain(refused).chain(counts).collect()
}

/// A net of each family in turn, one at the limits, and some that may be damaged.
fn random_net(number: usize, random: &mut Random) -> Named {
    let families = [nets::SMALL_FAMILIES, nets::LARGE_FAMILIES].concat();
    let (sort, bytes) = match number % (families.len() + 5) {
        0 => ("at the limits", nets::at_limits(random).bytes()),
        1 | 2 => ("of any sort", nets::some_net(random)),
        3 | 4 => ("damaged", damaged_net(random)),
        place => (families[place - 5], nets::random_net(families[place - 5], random).bytes()),
    };
    (format!("{sort} {number}"), bytes)
}

/// A small net with some damage.
fn damaged_net(random: &mut Random) -> Vec<u8> {
    let draft = nets::random_net(nets::SMALL_FAMILIES[0], random);
    let damaged = nets::damaged(&draft, random, 10);
    random.pick(&damaged).1.clone()
}

/// The second implementation against itself, and one pass over the edges against it. Says how many nets there are, or
/// which has a fault.
pub fn agreement(nets: &[Printed]) -> Result<String, String> {
    for draft in [nets::net_b(), nets::net_b().with_vias(&[0, 2])] {
        let example = Printed::new("B", &draft.bytes()).text;
        if example != NET_B {
            return Err(format!("net B: {example:?}"));
        }
    }
    for (number, net) in nets.iter().enumerate() {
        let own = net.faults().into_iter().map(String::from);
        let faults: Vec<String> = own.chain(net.difference(&Walk::Right.text(&net.bytes))).collect();
        if !faults.is_empty() {
            return Err(format!("net {number}, {}: {}", net.name, faults.join("; ")));
        }
    }
    Ok(format!("{} inputs agree", nets.len()))
}

/// The first of these nets that exposes a walk, or how many it passed.
pub fn exposure(walk: Walk, nets: &[Printed]) -> Result<String, String> {
    let exposing = nets.iter().enumerate().find_map(|(number, net)| {
        let difference = net.difference(&walk.text(&net.bytes))?;
        Some(format!("net {number}, {}: {difference}", net.name))
    });
    exposing.ok_or(format!("{} inputs passed", nets.len()))
}

// ------------------------------------------------------------------------------------------------
// What must be among them
// ------------------------------------------------------------------------------------------------

/// 255 edges of the largest length on a layer of the largest unit capacitance, and the largest inputs of 128 sinks.
const LARGEST_LOAD: i128 = 1_032_800_000;

/// How often a net that is read has something.
const KINDS: &[(&str, fn(&Staged) -> usize)] = &[
    ("nets of one stage", |read| (read.stages.len() == 1) as usize),
    ("nets of 64 stages", |read| (read.stages.len() == 64) as usize),
    ("nets of 255 nodes after the driver", |read| (read.net.nodes.len() == 256) as usize),
    ("nets of 64 stages, 16 layers, 255 nodes", |read| {
        ((read.stages.len(), read.net.layers.len(), read.net.nodes.len()) == (64, 16, 256)) as usize
    }),
    ("nets whose buffers stand in the file in another order than in the tree", |read| {
        (roots_along_tree(&read.net, 0) != plain::roots(&read.net)) as usize
    }),
    ("nets with a via resistance of 0 and one of 1,000", |read| (has_via(read, 0) && has_via(read, 1_000)) as usize),
    ("nets of 16 layers with a via resistance of 1,000", |read| {
        (read.net.layers.len() == 16 && has_via(read, 1_000)) as usize
    }),
    ("stages of one edge", |read| stages(read, |stage| stage.edges.len() == 1)),
    ("stages of two edges", |read| stages(read, |stage| stage.edges.len() == 2)),
    ("stages of 128 to 254 edges", |read| stages(read, |stage| (128..=254).contains(&stage.edges.len()))),
    ("stages of 255 edges", |read| stages(read, |stage| stage.edges.len() == 255)),
    ("stages with only terminals below the root", |read| {
        stages(read, |stage| terminals(read, stage) == stage.edges.len())
    }),
    ("stages with one terminal and more edges", |read| {
        stages(read, |stage| terminals(read, stage) == 1 && stage.edges.len() > 1)
    }),
    ("stages with 128 terminals", |read| stages(read, |stage| terminals(read, stage) == 128)),
    ("stages that drive no other", |read| stages(read, |stage| drives(read, stage) == 0)),
    ("stages that drive three others", |read| stages(read, |stage| drives(read, stage) == 3)),
    ("stages that drive 63 others", |read| stages(read, |stage| drives(read, stage) == 63)),
    ("stages that end at buffers and sinks", |read| {
        stages(read, |stage| (1..terminals(read, stage)).contains(&drives(read, stage)))
    }),
    ("stages whose edges do not follow each other in the file", |read| stages(read, |stage| is_scattered(stage))),
    ("stages with edges of length 0 only", |read| {
        stages(read, |stage| stage.edges.iter().all(|&edge| read.net.nodes[edge].length == 0))
    }),
    ("buffers directly below the driver", |read| {
        edges(&read.net, |net, edge| is_buffer(net, edge) && is_at_driver(net, edge))
    }),
    ("buffers directly below a buffer", |read| {
        edges(&read.net, |net, edge| is_buffer(net, edge) && is_buffer(net, net.nodes[edge].parent))
    }),
    ("buffers with two children", |read| edges(&read.net, |net, edge| is_buffer(net, edge) && has_two(net, edge))),
    ("Steiner points with one child", |read| {
        edges(&read.net, |net, edge| is_steiner(net, edge) && !has_two(net, edge))
    }),
    ("Steiner points with two children", |read| {
        edges(&read.net, |net, edge| is_steiner(net, edge) && has_two(net, edge))
    }),
    ("edges of length 0", |read| edges(&read.net, |net, edge| net.nodes[edge].length == 0)),
    ("edges of length 4,000", |read| edges(&read.net, |net, edge| net.nodes[edge].length == 4_000)),
    ("edges of length 0 to a terminal without input capacitance", |read| {
        let adds_nothing = |net: &Net, edge: usize| net.nodes[edge].length == 0 && input(net, edge) == 0;
        edges(&read.net, |net, edge| plain::is_terminal(net, edge) && adds_nothing(net, edge))
    }),
    ("loads of 0", |read| loads(read, 0)),
    ("loads of 1,032,800,000, the largest there is", |read| loads(read, LARGEST_LOAD)),
];

fn has_via(read: &Staged, resistance: i128) -> bool {
    read.net.layers.iter().any(|layer| layer.via == resistance)
}

fn stages(read: &Staged, holds: impl Fn(&Stage) -> bool) -> usize {
    read.stages.iter().filter(|stage| holds(stage)).count()
}

/// Of an edge the node at its lower end is given.
fn edges(net: &Net, holds: impl Fn(&Net, usize) -> bool) -> usize {
    (1..net.nodes.len()).filter(|&edge| holds(net, edge)).count()
}

fn loads(read: &Staged, load: i128) -> usize {
    read.stages.iter().flat_map(|stage| &stage.loads).filter(|&&found| found == load).count()
}

fn terminals(read: &Staged, stage: &Stage) -> usize {
    plain::terminals_below(&read.net, stage.root, 0).len()
}

fn drives(read: &Staged, stage: &Stage) -> usize {
    stage.edges.iter().filter(|&&edge| is_buffer(&read.net, edge)).count()
}

fn is_scattered(stage: &Stage) -> bool {
    let (first, last) = (stage.edges.first().expect("an edge"), stage.edges.last().expect("an edge"));
    last - first + 1 > stage.edges.len()
}

fn is_at_driver(net: &Net, edge: usize) -> bool {
    net.nodes[edge].parent == 0
}

fn is_buffer(net: &Net, node: usize) -> bool {
    matches!(net.nodes[node].kind, Kind::Buffer { .. })
}

fn is_steiner(net: &Net, node: usize) -> bool {
    matches!(net.nodes[node].kind, Kind::Steiner)
}

fn has_two(net: &Net, node: usize) -> bool {
    net.nodes[node].children.len() == 2
}

/// The roots from a node on down, each before those below it.
fn roots_along_tree(net: &Net, node: usize) -> Vec<usize> {
    let below = net.nodes[node].children.iter().flat_map(|&child| roots_along_tree(net, child));
    plain::is_root(net, node).then_some(node).into_iter().chain(below).collect()
}

/// What is due, and how often these nets have it.
pub fn met(nets: &[Printed]) -> Vec<(String, usize)> {
    let refused = (1..=6).map(|number| {
        let with_number = |net: &&Printed| matches!(net.read, Err(refusal) if refusal == number);
        (format!("bytes refused with {number}"), nets.iter().filter(with_number).count())
    });
    let read = || nets.iter().filter_map(|net| net.read.as_ref().ok());
    let layers = [1, 7].into_iter().flat_map(|tag| (1..=16).map(move |layers| (tag, layers))).map(|(tag, layers)| {
        let counted = |net: &&Printed| net.read.as_ref().is_ok_and(|read| read.net.layers.len() == layers);
        let with_tag = nets.iter().filter(|net| net.bytes.first() == Some(&tag));
        (format!("nets of tag {tag} and layer count {layers}"), with_tag.filter(counted).count())
    });
    let kinds = KINDS.iter().map(|(words, often)| (String::from(*words), read().map(often).sum()));
    refused.chain(layers).chain(kinds).collect()
}

/// How many there are: bytes, nets among them, and stages with their edges.
pub fn extent(nets: &[Printed]) -> String {
    let read: Vec<&Staged> = nets.iter().filter_map(|net| net.read.as_ref().ok()).collect();
    let edges: Vec<usize> = read.iter().flat_map(|read| &read.stages).map(|stage| stage.edges.len()).collect();
    let (least, most) = (edges.iter().min().unwrap_or(&0), edges.iter().max().unwrap_or(&0));
    let (all, total) = (edges.len(), edges.iter().sum::<usize>());
    format!(
        "{} inputs, {} of them nets, with {all} stages of {least} to {most} edges, {total} in all",
        nets.len(),
        read.len()
    )
}
