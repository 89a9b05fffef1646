//! Every net of a small universe: all trees of up to four nodes after the driver, with few values for each number, at
//! every arrival time that makes a difference. Every plan of each is looked at.

use crate::compare::{Case, Comparison, Outcome};
use crate::nets::{Draft, Kind, Node};
use crate::plain;

/// A node's parent and kind: 'S' for a Steiner point, 'B' for a buffer, 'T' for a sink.
type Tree = Vec<(usize, char)>;

/// An edge: length, and cost on each layer.
type Edge = (i64, [i64; 3]);

/// The layers of a net: the units, and the vias of one of the second edition.
type Layers = (&'static [(i64, i64)], Option<&'static [i64]>);

/// Of three layers the first and the last are alike.
const LAYERS: &[Layers] = &[
    (&[(1, 1)], None),
    (&[(2, 1), (1, 2)], None),
    (&[(2, 1), (1, 2)], Some(&[0, 1])),
    (&[(1, 1), (2, 1), (1, 1)], None),
];

const EDGES: &[Edge] = &[(1, [2, 1, 2]), (1, [1, 3, 1]), (0, [4, 4, 4])];

/// Required times of sinks.
const REQUIRED: &[i64] = &[0, 5];

const SHARES: &[(u64, u64)] = &[(0, 1), (1, 1), (3, 1)];

/// All of it. The largest trees have less to choose from.
pub fn run(c: &mut Comparison) -> Outcome {
    for nodes in 1..=3 {
        all_trees(c, nodes, LAYERS, EDGES, REQUIRED)?;
    }
    all_trees(c, 4, &LAYERS[..3], &EDGES[..2], &REQUIRED[..1])
}

fn all_trees(c: &mut Comparison, nodes: usize, layers: &[Layers], edges: &[Edge], times: &[i64]) -> Outcome {
    for tree in trees(nodes) {
        let sinks = tree.iter().filter(|node| node.1 == 'T').count();
        for &layers in layers {
            for edges in words(edges, nodes) {
                for times in words(times, sinks) {
                    planned(c, &tree, draft(&tree, layers, &edges, &times))?;
                }
            }
        }
    }
    Ok(())
}

/// Every row of so many of these.
fn words<T: Copy>(letters: &[T], length: usize) -> Vec<Vec<T>> {
    let mut words = vec![vec![]];
    for _place in 0..length {
        words = words.iter().flat_map(|word| letters.iter().map(|&letter| [&word[..], &[letter]].concat())).collect();
    }
    words
}

fn children(tree: &Tree, node: usize) -> usize {
    tree.iter().filter(|(parent, _)| *parent == node).count()
}

fn is_sink(tree: &Tree, node: usize) -> bool {
    node > 0 && tree[node - 1].1 == 'T'
}

/// Every tree with so many nodes after the driver.
fn trees(nodes: usize) -> Vec<Tree> {
    let mut trees: Vec<Tree> = vec![vec![]];
    for number in 1..=nodes {
        let mut larger = vec![];
        for tree in &trees {
            for parent in (0..number).filter(|&parent| !is_sink(tree, parent) && children(tree, parent) < 2) {
                larger.extend(['S', 'B', 'T'].map(|kind| [&tree[..], &[(parent, kind)]].concat()));
            }
        }
        trees = larger;
    }
    trees.retain(|tree| (0..=nodes).all(|node| is_sink(tree, node) || children(tree, node) > 0));
    trees
}

fn draft(tree: &Tree, (layers, vias): Layers, edges: &[Edge], required: &[i64]) -> Draft {
    let mut required = required.iter();
    let mut nodes = vec![];
    for (&(parent, letter), &(length, costs)) in tree.iter().zip(edges) {
        let kind = match letter {
            'S' => Kind::Steiner,
            'B' => Kind::Buffer { capacitance: 1, resistance: 1, intrinsic: 1 },
            _ => Kind::Sink { capacitance: 1, required: *required.next().expect("one for each sink") },
        };
        nodes.push(Node { parent, length, costs: costs[..layers.len()].to_vec(), kind });
    }
    Draft { layers: layers.to_vec(), vias: vias.map(<[i64]>::to_vec), resistance: 1, intrinsic: 0, arrival: 0, nodes }
}

/// Each slack that a plan has is an arrival time at which this plan just meets timing; one tick later than the last
/// none does.
fn planned(c: &mut Comparison, tree: &Tree, mut draft: Draft) -> Outcome {
    let net = plain::read(&draft.bytes()).expect("a whole net");
    let mut times: Vec<i128> = plain::all_plans(&net).iter().map(|plan| plain::slack(&net, plan)).collect();
    times.sort();
    times.dedup();
    times.push(times[times.len() - 1] + 1);
    for arrival in times {
        draft.arrival = arrival as i64;
        let case = Case::searched(&format!("universe {tree:?}"), &draft.bytes(), 100);
        for &(p, q) in SHARES {
            let columns = case.needed_columns(p, q).unwrap_or(0) as usize;
            c.plan(&case, p, q, columns * (case.stages() + 2), case.stages())?;
        }
    }
    Ok(())
}
