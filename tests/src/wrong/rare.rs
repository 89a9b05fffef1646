//! Mistakes that are made only in rare cases: there the slack is one too large.

use super::mistakes::{Call, Mistake};
use super::reading::{Net, LAST_TIME, SINK};
use super::timing::{Stage, Timed};
use super::Wrong;

/// A plan of a net, judged or found.
pub struct Facts<'a> {
    pub net: &'a Net,
    pub timed: &'a Timed,
    pub plan: &'a [usize],
    pub cost: i64,
    pub slack: i64,
}

/// What planning by rounds was asked, and what was run.
pub struct Run {
    pub r: u64,
    pub table_len: usize,
    pub buffer_len: usize,
    pub stages: usize,
    pub rounds: u64,
    /// V(k) of the last k.
    pub least: usize,
    /// The k at which the plan was found.
    pub k: u32,
    /// Does the last round give another plan? Does one that costs as much?
    pub last_differs: bool,
    pub has_equal: bool,
}

/// What planning was asked, and k.
pub struct Terms {
    pub p: u64,
    pub q: u64,
    pub table_len: usize,
    pub buffer_len: usize,
    pub stages: usize,
    pub least: usize,
    pub k: u32,
}

impl Terms {
    /// q × s × (g − 1).
    fn left(&self) -> u64 {
        self.q * self.stages as u64 * ((1 << self.k) - 1)
    }

    /// p × g × V(k).
    fn right(&self) -> u64 {
        (self.p * self.least as u64) << self.k
    }

    /// The least floor that the share allows beside a cost.
    pub fn least_floor(&self, cost: u64) -> u64 {
        (self.q * cost).div_ceil(self.q + self.p)
    }
}

fn drives(stage: &Stage) -> usize {
    stage.ends.iter().filter(|end| end.stage.is_some()).count()
}

fn sinks(facts: &Facts) -> impl Iterator<Item = i64> {
    let times: Vec<i64> = facts.net.nodes.iter().filter(|node| node.tag == SINK).map(|node| node.time).collect();
    times.into_iter()
}

/// Is there a stage that pays vias, or else one that does not, with one below it of which the other holds?
fn below_other(facts: &Facts, above: bool) -> bool {
    let pays = |stage: usize| facts.net.vias[facts.plan[stage]] > 0;
    let stages = facts.timed.stages.iter().enumerate().filter(|&(stage, _)| pays(stage) == above);
    let mut below = stages.flat_map(|(_, stage)| &stage.ends).filter_map(|end| end.stage);
    below.any(|stage| pays(stage) != above)
}

pub const IN_PLANS: &[(&str, fn(&Facts) -> bool)] = &[
    ("with 64 stages", |facts| facts.plan.len() == 64),
    ("with 63 stages", |facts| facts.plan.len() == 63),
    ("with one stage", |facts| facts.plan.len() == 1),
    ("with 16 layers", |facts| facts.timed.layers == 16),
    ("with 64 stages and 16 layers", |facts| facts.plan.len() == 64 && facts.timed.layers == 16),
    ("with one layer", |facts| facts.timed.layers == 1),
    ("with one layer and 64 stages", |facts| facts.timed.layers == 1 && facts.plan.len() == 64),
    ("where layer 15 is taken", |facts| facts.plan.contains(&15)),
    ("where the last of 64 stages takes layer 15", |facts| facts.plan.get(63) == Some(&15)),
    ("with 255 nodes", |facts| facts.net.nodes.len() == 256),
    ("with 254 nodes", |facts| facts.net.nodes.len() == 255),
    ("with 128 sinks", |facts| sinks(facts).count() == 128),
    ("where a stage has 20 terminals", |facts| facts.timed.stages.iter().any(|stage| stage.ends.len() >= 20)),
    ("where a stage drives three", |facts| facts.timed.stages.iter().any(|stage| drives(stage) == 3)),
    ("where a stage drives 63", |facts| facts.timed.stages.iter().any(|stage| drives(stage) == 63)),
    ("where 64 stages stand in line", |facts| {
        facts.plan.len() == 64 && facts.timed.stages.iter().all(|stage| drives(stage) <= 1)
    }),
    ("with an arrival time below 0", |facts| facts.timed.arrival < 0),
    ("with an arrival time of -10^15", |facts| facts.timed.arrival == -LAST_TIME),
    ("with an arrival time of 10^15", |facts| facts.timed.arrival == LAST_TIME),
    ("with all required times below 0", |facts| sinks(facts).all(|time| time < 0)),
    ("with a required time of -10^15", |facts| sinks(facts).any(|time| time == -LAST_TIME)),
    ("with a required time of 10^15", |facts| sinks(facts).any(|time| time == LAST_TIME)),
    ("with a slack of 0", |facts| facts.slack == 0),
    ("with a slack beyond 2^32", |facts| facts.slack.abs() >> 32 != 0),
    ("with all edges of length 0", |facts| facts.net.nodes.iter().all(|node| node.length == 0)),
    ("with an edge of length 1,000", |facts| facts.net.nodes.iter().any(|node| node.length == 1_000)),
    ("with an edge of length 4,000", |facts| facts.net.nodes.iter().any(|node| node.length == 4_000)),
    ("with no edge longer than 1,000", |facts| facts.net.nodes.iter().all(|node| node.length <= 1_000)),
    ("with a gate resistance of 0", |facts| facts.net.nodes[0].resistance == 0),
    ("with a gate resistance of 100,000", |facts| facts.net.nodes.iter().any(|node| node.resistance == 100_000)),
    ("with an intrinsic delay of 10^9", |facts| facts.net.nodes.iter().any(|node| node.intrinsic == 1_000_000_000)),
    ("with no input capacitance", |facts| facts.net.nodes.iter().all(|node| node.capacitance == 0)),
    ("of tag 1", |facts| !facts.net.second),
    ("of tag 7", |facts| facts.net.second),
    ("of tag 7 with vias of 0 alone", |facts| facts.net.second && facts.net.vias.iter().all(|&via| via == 0)),
    ("of tag 7 with a via of 1,000", |facts| facts.net.vias.contains(&1_000)),
    ("of tag 7 with one layer", |facts| facts.net.second && facts.timed.layers == 1),
    ("of tag 7 with 16 layers", |facts| facts.net.second && facts.timed.layers == 16),
    ("of tag 7 with 64 stages and 16 layers", |facts| {
        facts.net.second && facts.plan.len() == 64 && facts.timed.layers == 16
    }),
    ("of tag 7 where a via is paid on layer 15", |facts| {
        facts.plan.contains(&15) && facts.net.vias.get(15).is_some_and(|&via| via > 0)
    }),
    ("of tag 7 where a stage pays vias below one that does not", |facts| below_other(facts, false)),
    ("of tag 7 where a stage pays no vias below one that does", |facts| below_other(facts, true)),
    ("with a cost of 255,000,000", |facts| facts.cost == 255_000_000),
    ("with a cost beyond 2^27", |facts| facts.cost >> 27 != 0),
];

pub const IN_SHARES: &[(&str, fn(&Terms) -> bool)] = &[
    ("with p = 0, q = 1,000", |terms| (terms.p, terms.q) == (0, 1_000)),
    ("with p = 1, q = 1,000", |terms| (terms.p, terms.q) == (1, 1_000)),
    ("with p = 1,000, q = 1", |terms| (terms.p, terms.q) == (1_000, 1)),
    ("with p = q = 1,000", |terms| (terms.p, terms.q) == (1_000, 1_000)),
    ("with p and q even", |terms| terms.p % 2 == 0 && terms.q % 2 == 0),
    ("where q s (g - 1) = p g V(k) and k > 0", |terms| terms.k > 0 && terms.left() == terms.right()),
    ("with q s (g - 1) beyond 2^32", |terms| terms.left() >> 32 != 0),
    ("with p g V(k) beyond 2^32", |terms| terms.right() >> 32 != 0),
    ("with an exact table", |terms| terms.table_len == (terms.least + 1) * (terms.stages + 2)),
    ("with a table of 65,536 entries or more", |terms| terms.table_len > 0xFFFF),
    ("with a table of 1,000,000 entries", |terms| terms.table_len == 1_000_000),
    ("with 10,000 columns needed", |terms| terms.least > 10_000),
    ("with a buffer of 256 bytes or more", |terms| terms.buffer_len > 0xFF),
];

pub const IN_ROUNDS: &[(&str, fn(&Run) -> bool)] = &[
    ("where all 29 are run", |run| run.rounds == 29),
    ("where r = 29 and rounds end early", |run| run.r == 29 && run.rounds < 29),
    ("where rounds end early after two or more", |run| run.rounds < run.r && run.rounds > 1),
    ("where one column is needed", |run| run.least == 0),
    ("with an exact table", |run| run.table_len == (run.least + 1) * (run.stages + 2)),
    ("with one column", |run| run.table_len / (run.stages + 2) == 1),
    ("with a table of 65,536 entries or more", |run| run.table_len > 0xFFFF),
    ("with 10,000 columns needed", |run| run.least > 10_000),
    ("with a buffer of 256 bytes or more", |run| run.buffer_len > 0xFF),
    ("where the last round gives another plan", |run| run.last_differs),
    ("where another plan costs as much", |run| run.has_equal),
];

impl Wrong {
    /// A judged plan's slack.
    pub fn slack_judged(&self, facts: &Facts) -> i64 {
        facts.slack + self.rare_net(Call::Judge, facts) as i64
    }

    /// A found plan's slack.
    pub fn slack_planned(&self, facts: &Facts, terms: &Terms) -> i64 {
        let rare = match self.mistake {
            Mistake::RareShare(place) => IN_SHARES[place].1(terms),
            Mistake::RareGrain(k) => terms.k == k,
            _ => self.rare_net(Call::Plan, facts),
        };
        facts.slack + rare as i64
    }

    /// The slack of a plan found by rounds.
    pub fn slack_by_rounds(&self, facts: &Facts, run: &Run) -> i64 {
        let rare = match self.mistake {
            Mistake::RareRun(place) => IN_ROUNDS[place].1(run),
            Mistake::RarePlanRound(k) => run.k == k,
            Mistake::RareRounds(rounds) => run.rounds == rounds,
            _ => self.rare_net(Call::Rounds, facts),
        };
        facts.slack + rare as i64
    }

    fn rare_net(&self, call: Call, facts: &Facts) -> bool {
        matches!(self.mistake, Mistake::RareNet(made, place) if made == call && IN_PLANS[place].1(facts))
    }
}
