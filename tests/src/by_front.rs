//! V(k) and the first plan for nets with too many plans to look at each.
//!
//! For each stage the method keeps the front of the part of the net below its root: the pairs (rounded cost,
//! required time at the root) of the choices of layers there, without those that another pair beats. A pair is beaten
//! by one that costs no more and is required no earlier. Fronts of branches are put together, fronts of a stage's
//! layers are united, up to the driver. The timing of a stage is that of `plain`; the two searches are compared with
//! each other on small nets.

use crate::plain::{self, Kind, Net, Search};

/// Pairs (rounded cost, required time), both strictly rising.
type Front = Vec<(i64, i64)>;

/// A required time for "nothing below sets one".
const NEVER: i64 = i64::MAX / 2;

/// What stands at the end of a stage's wire.
enum End {
    Sink { required: i64 },
    Stage { number: usize },
}

/// A stage's numbers, which rest on its own layer alone: the load at a terminal is its input capacitance.
struct Stage {
    /// For each layer: the cost of the stage.
    cost: Vec<i64>,
    /// The terminals, each with the delay from the stage's input for each layer.
    ends: Vec<(End, Vec<i64>)>,
}

/// One k worked out.
struct Round {
    least: i64,
    plan: Vec<u8>,
}

/// A net searched by fronts, from k = 28 down.
pub struct Fronts {
    stages: Vec<Stage>,
    arrival: i64,
    /// The rounds of k = 28, 27, ...; none if no plan meets timing.
    rounds: Vec<Round>,
}

impl Fronts {
    /// Works out V(k) and the first plan for k = 28 down to 0, but stops after the first k with V(k) above `widest`.
    pub fn new(net: &Net, widest: i128) -> Fronts {
        let stages = plain::roots(net).iter().map(|&root| Stage::new(net, root)).collect();
        let mut search = Fronts { stages, arrival: plain::arrival(net) as i64, rounds: vec![] };
        let mut bound = i64::MAX;
        for k in (0..=plain::MOST_K).rev() {
            let fronts = search.fronts(k, bound);
            let Some(least) = least_for(&fronts[0], search.arrival) else { break };
            let plan = search.find_first_plan(&fronts, k, least);
            search.rounds.push(Round { least, plan });
            if least as i128 > widest || k == 0 {
                break;
            }
            bound = search.rounded(k - 1);
        }
        search
    }

    /// The least k worked out. For a lesser k `least_rounded` gives V at this one, which is above `widest` and not
    /// above the true V(k), for a rounded cost never falls when g is halved. So a table of at most `widest`
    /// columns is too short either way.
    pub fn reach(&self) -> u32 {
        plain::MOST_K + 1 - self.rounds.len() as u32
    }

    /// The rounded cost at k of the last plan found: no less than V(k).
    fn rounded(&self, k: u32) -> i64 {
        let plan = &self.rounds.last().expect("a round was run").plan;
        (0..plan.len()).map(|i| self.stages[i].cost[plan[i] as usize] >> k).sum()
    }

    /// The front of each stage, without pairs that cost more than `bound`. A stage below has a higher number.
    fn fronts(&self, k: u32, bound: i64) -> Vec<Front> {
        let mut fronts: Vec<Front> = self.stages.iter().map(|_| vec![]).collect();
        for i in (0..self.stages.len()).rev() {
            let mut whole: Front = vec![];
            for layer in 0..self.stages[i].cost.len() {
                let part = self.stages[i].front_on(layer, k, bound, &fronts);
                whole = unite(&whole, &part);
            }
            fronts[i] = whole;
        }
        fronts
    }

    /// The first plan: stage after stage, the lowest layer with which the least for the whole net stays V(k).
    fn find_first_plan(&self, fronts: &[Front], k: u32, least: i64) -> Vec<u8> {
        let mut plan = vec![];
        for stage in &self.stages {
            let extended = |layer: usize| [&plan[..], &[layer as u8]].concat();
            let mut layers = 0..stage.cost.len();
            let layer = layers.find(|&layer| self.least_with(&extended(layer), fronts, k) == Some(least));
            plan.push(layer.expect("some layer reaches V(k)") as u8);
        }
        plan
    }

    /// The least rounded cost of the plans that meet timing and begin with these layers. Times are pushed from the
    /// driver downwards: a stage that must be reached at `need` puts its own needs on the stages it drives.
    fn least_with(&self, opening: &[u8], fronts: &[Front], k: u32) -> Option<i64> {
        let mut need = vec![None; self.stages.len()];
        need[0] = Some(self.arrival);
        let mut total = 0;
        for i in 0..self.stages.len() {
            // None: it hangs from a stage whose front has counted it.
            let Some(time) = need[i] else { continue };
            if i >= opening.len() {
                total += least_for(&fronts[i], time)?;
                continue;
            }
            let layer = opening[i] as usize;
            total += self.stages[i].cost[layer] >> k;
            for (end, delay) in &self.stages[i].ends {
                match end {
                    End::Sink { required } if time + delay[layer] > *required => return None,
                    End::Sink { .. } => {}
                    End::Stage { number } => need[*number] = Some(time + delay[layer]),
                }
            }
        }
        Some(total)
    }

    /// The round of k, or the last one if k was not reached.
    fn round(&self, k: u32) -> &Round {
        let place = (plain::MOST_K - k) as usize;
        &self.rounds[place.min(self.rounds.len() - 1)]
    }
}

impl Search for Fronts {
    fn any(&self) -> bool {
        !self.rounds.is_empty()
    }

    fn least_rounded(&self, k: u32) -> i128 {
        self.round(k).least as i128
    }

    fn first_plan(&self, k: u32) -> Vec<u8> {
        assert!(k >= self.reach(), "k = {k} was not worked out");
        self.round(k).plan.clone()
    }

    /// The cheapest plan's cost if k = 0 was reached, else that of the last plan found.
    fn known_cost(&self) -> i128 {
        self.rounded(0) as i128
    }
}

impl Stage {
    fn new(net: &Net, root: usize) -> Stage {
        let layers = 0..net.layers.len();
        let number = plain::stage_driven_by(net, root);
        let cost = layers.clone().map(|layer| plain::stage_cost(net, number, layer) as i64).collect();
        let mut ends: Vec<(End, Vec<i64>)> = vec![];
        for layer in layers {
            let gate = plain::root_delay(net, root, layer);
            for (place, (terminal, way)) in plain::terminals_below(net, root, layer).into_iter().enumerate() {
                if layer == 0 {
                    ends.push((End::new(net, terminal), vec![]));
                }
                ends[place].1.push((gate + way) as i64);
            }
        }
        Stage { cost, ends }
    }

    /// The front of this stage on one layer, from those of the stages it drives.
    fn front_on(&self, layer: usize, k: u32, bound: i64, fronts: &[Front]) -> Front {
        let own = self.cost[layer] >> k;
        let mut front: Front = if own <= bound { vec![(own, NEVER)] } else { vec![] };
        for (end, delay) in &self.ends {
            front = match end {
                End::Sink { required } => join(&front, &[(0, *required)], delay[layer], bound),
                End::Stage { number } => join(&front, &fronts[*number], delay[layer], bound),
            };
        }
        front
    }
}

impl End {
    fn new(net: &Net, terminal: usize) -> End {
        match net.nodes[terminal].kind {
            Kind::Sink { required, .. } => End::Sink { required: required as i64 },
            _ => End::Stage { number: plain::stage_driven_by(net, terminal) },
        }
    }
}

/// The least cost of a front's pairs that are required no earlier than `need`.
fn least_for(front: &[(i64, i64)], need: i64) -> Option<i64> {
    let place = front.partition_point(|pair| pair.1 < need);
    front.get(place).map(|pair| pair.0)
}

/// Both: costs add, the earlier required time counts; `below` lies a delay further down. Every time of the result is
/// one of the two fronts', and for each time only the least costs of both count. So from the cheapest pairs on, the
/// earlier of the two is exchanged for its successor.
fn join(here: &[(i64, i64)], below: &[(i64, i64)], delay: i64, bound: i64) -> Front {
    let mut joined: Front = vec![];
    let (mut i, mut j) = (0, 0);
    while i < here.len() && j < below.len() {
        let cost = here[i].0 + below[j].0;
        if cost > bound {
            break;
        }
        let (upper, lower) = (here[i].1, below[j].1 - delay);
        joined.push((cost, upper.min(lower)));
        i += (upper <= lower) as usize;
        j += (lower <= upper) as usize;
    }
    joined
}

/// Either: the pairs of both in order of cost, without those that are beaten.
fn unite(one: &[(i64, i64)], other: &[(i64, i64)]) -> Front {
    let mut united: Front = vec![];
    let (mut i, mut j) = (0, 0);
    while i < one.len() || j < other.len() {
        let from_one = j == other.len() || (i < one.len() && one[i].0 <= other[j].0);
        let pair = if from_one { one[i] } else { other[j] };
        i += from_one as usize;
        j += !from_one as usize;
        match united.last_mut() {
            Some(last) if pair.1 <= last.1 => {}
            Some(last) if pair.0 == last.0 => *last = pair,
            _ => united.push(pair),
        }
    }
    united
}
