//! The report over a block. Its nets are planned without a mistake: those of planning are for its own calls to show. But
//! that the nets of a block may have vias is for the report to show.

use super::mistakes::{Block, Call, Edition, Mistake, Timing};
use super::reading::{Net, STEINER};
use super::{low_bits, Wrong, PLANNER};
use crate::c_calls::Totals;

/// What is told of one net: its refusal, and what it adds to cost and lengths.
#[derive(Clone, Copy, Default)]
struct Told {
    refusal: u8,
    cost: u64,
    lengths: [u64; 16],
}

impl Wrong {
    pub fn report(&self, block: &[u8]) -> Totals {
        let (nets, refusal) = self.nets(block);
        let mut totals = Totals { refusal, ..Default::default() };
        if refusal == 0 || self.slips(Block::PlannedFirst) {
            self.add_nets(&nets, &mut totals);
        } else if self.slips(Block::NetsBeside) {
            totals.nets = nets.len() as u64;
        }
        totals
    }

    pub fn slips(&self, slip: Block) -> bool {
        self.slip() == Some(slip)
    }

    fn slip(&self) -> Option<Block> {
        match self.mistake {
            Mistake::Block(slip) => Some(slip),
            _ => None,
        }
    }

    /// The nets before the first fault, and its number; 0 if there is none.
    fn nets<'a>(&self, block: &'a [u8]) -> (Vec<&'a [u8]>, u8) {
        let most = match self.slip() {
            Some(Block::LongestRefused) => 65_535,
            Some(Block::LongerRead) => 65_537,
            _ => 65_536,
        };
        let length = if self.slips(Block::BlockLength16) { low_bits(block.len(), 16) } else { block.len() };
        let mut nets = vec![];
        if length > most || (length == 0 && self.slips(Block::NoNetsRefused)) {
            return (nets, 13);
        }
        let mut rest = &block[..length];
        while !rest.is_empty() {
            match self.net_field(rest, nets.is_empty()) {
                Err(refusal) => return (nets, refusal),
                Ok((net, used)) => {
                    nets.extend(net);
                    rest = &rest[used..];
                }
            }
        }
        if self.slips(Block::LastNetLeftOut) {
            nets.pop();
        }
        (nets, 0)
    }

    /// The net in the next field, unless that is passed over, and the bytes of the field; or the number of a fault, 0
    /// where the block is taken to end.
    fn net_field<'a>(&self, rest: &'a [u8], first: bool) -> Result<(Option<&'a [u8]>, usize), u8> {
        let fault = |ends: Block, number: u8| match self.slip() {
            Some(slip) if slip == ends => 0,
            Some(Block::NumberOfField) => number,
            _ => 13,
        };
        if rest.len() < 3 {
            return Err(fault(Block::HeadEnds, 1));
        }
        let is_net = if self.slips(Block::BlockTagLowBits) { rest[0] & 7 == 6 } else { rest[0] == 6 };
        let first_only = self.slips(Block::FirstTagOnly) && !first;
        if !is_net && !first_only && !self.slips(Block::TagUnseen) && !self.slips(Block::TagPassedOver) {
            return Err(fault(Block::TagEnds, 2));
        }
        let high = if self.slips(Block::NetLength8) { 0 } else { rest[1] as usize };
        let length = high * 256 + rest[2] as usize;
        if rest.len() - 3 < length {
            let taken = self.slips(Block::PayloadRest).then(|| (Some(&rest[3..]), rest.len()));
            return taken.ok_or(fault(Block::PayloadEnds, 1));
        }
        let payload = &rest[3..3 + length];
        self.payload_fault(payload)?;
        let passed_over = !is_net && self.slips(Block::TagPassedOver);
        let skipped = passed_over || (length == 0 && self.slips(Block::NoBytesSkipped));
        Ok(((!skipped).then_some(payload), 3 + length))
    }

    /// There is none, but by mistake.
    fn payload_fault(&self, payload: &[u8]) -> Result<(), u8> {
        let faulty = match self.slip() {
            Some(Block::NoBytesRefused | Block::NoBytesEnds) => payload.is_empty(),
            Some(Block::NetLengthSigned) => payload.len() >= 0x8000,
            Some(Block::LongNetRefused) => payload.len() > 20_515,
            Some(Block::LongerThanTag1Refused) => payload.len() > 20_483,
            Some(Block::UnreadableRefused) => PLANNER.read(payload).is_err(),
            _ => false,
        };
        let number = if self.slips(Block::NoBytesEnds) { 0 } else { 13 };
        if faulty {
            Err(number)
        } else {
            Ok(())
        }
    }

    fn add_nets(&self, nets: &[&[u8]], totals: &mut Totals) {
        let (entries, bytes) = match self.slip() {
            Some(Block::TableShorter) => (8_191, 64),
            Some(Block::TableLonger) => (8_256, 64),
            Some(Block::BufferShorter) => (8_192, 63),
            _ => (8_192, 64),
        };
        let (mut table, mut buffer) = (vec![0; entries], vec![0; bytes]);
        let mut last = Told::default();
        for net in nets {
            let told = self.told(net, &mut table, &mut buffer);
            self.count(told.refusal, totals);
            self.add(&told, &last, totals);
            if told.refusal == 0 {
                last = told;
            }
        }
        if self.slips(Block::Counts8Bits) {
            totals.nets &= 0xFF;
            totals.planned &= 0xFF;
            totals.refused.iter_mut().for_each(|count| *count &= 0xFF);
        }
    }

    fn share(&self) -> (u64, u64) {
        match self.slip() {
            Some(Block::ShareFifth) => (1, 5),
            Some(Block::ShareThird) => (1, 3),
            Some(Block::ShareNone) => (0, 1),
            Some(Block::ShareTurned) => (4, 1),
            _ => (1, 4),
        }
    }

    /// Makes no mistake, but for these.
    fn planner(&self) -> Wrong {
        match self.slip() {
            Some(Block::WithoutVias) => Wrong { mistake: Mistake::Timing(Call::Plan, Timing::NoVias) },
            Some(Block::SecondEditionRefused) => Wrong { mistake: Mistake::Edition(Edition::SecondRefused) },
            _ => PLANNER,
        }
    }

    /// One net planned. By mistake a refused one adds something too: all its stages on layer 0.
    fn told(&self, bytes: &[u8], table: &mut [i64], buffer: &mut [u8]) -> Told {
        let (p, q) = self.share();
        let answer = self.planner().plan(bytes, p, q, table, buffer);
        let mut told = Told { refusal: answer.refusal, ..Default::default() };
        let Ok(net) = PLANNER.read(bytes) else { return told };
        let slips = if answer.refusal == 12 {
            [Block::CostOfShort, Block::LengthsOfShort]
        } else {
            [Block::CostOfLate, Block::LengthsOfLate]
        };
        let [costs, measured] = slips.map(|slip| answer.refusal == 0 || self.slips(slip));
        let mut plan = vec![0; net.buffers() + 1];
        if answer.refusal == 0 {
            plan.copy_from_slice(&buffer[..net.buffers() + 1]);
        }
        if costs {
            let cost = PLANNER.judge(bytes, &plan).cost;
            told.cost = if self.slips(Block::FloorForCost) { answer.floor } else { cost };
        }
        if measured {
            told.lengths = self.lengths(&net, &plan);
        }
        told
    }

    /// Nets, planned, refused.
    fn count(&self, refusal: u8, totals: &mut Totals) {
        let planned = refusal == 0;
        totals.nets += (planned || !self.slips(Block::NetsArePlanned)) as u64;
        let short = refusal == 12 && self.slips(Block::ShortPlanned);
        totals.planned += (planned || short || self.slips(Block::AllPlanned)) as u64;
        if planned && !self.slips(Block::PlannedRefusedWith0) {
            return;
        }
        let number = match self.slip() {
            Some(Block::RefusedUp) => refusal.min(11) + 1,
            Some(Block::RefusedDown) => refusal - 1,
            Some(Block::ShortIsLate) if refusal == 12 => 11,
            _ => refusal,
        };
        let count = &mut totals.refused[number as usize];
        *count = if self.slips(Block::CountedOnce) { 1 } else { *count + 1 };
    }

    /// Cost and lengths. By mistake a refused net adds what the last planned one did.
    fn add(&self, told: &Told, last: &Told, totals: &mut Totals) {
        let again = told.refusal != 0;
        let cost = if again && self.slips(Block::CostAgain) { last.cost } else { told.cost };
        let lengths = if again && self.slips(Block::LengthsAgain) { last.lengths } else { told.lengths };
        if !again && self.slips(Block::CostOfLast) {
            totals.cost = 0;
        }
        if !again && self.slips(Block::LengthsOfLast) {
            totals.lengths = [0; 16];
        }
        totals.cost += cost;
        if self.slips(Block::Cost32) {
            totals.cost &= 0xFFFF_FFFF;
        }
        for (total, length) in totals.lengths.iter_mut().zip(lengths) {
            *total += length;
            if self.slips(Block::Lengths16) {
                *total &= 0xFFFF;
            }
        }
    }

    /// The total edge length on each layer.
    fn lengths(&self, net: &Net, plan: &[u8]) -> [u64; 16] {
        let mut lengths = [0; 16];
        let below = net.stages_below();
        for number in 1..net.nodes.len() {
            let node = &net.nodes[number];
            let stage = match self.slip() {
                Some(Block::OnParentsLayer) => below[net.nodes[node.parent].parent],
                Some(Block::OnLowerLayer) => below[number],
                _ => below[node.parent],
            };
            let layer = plan[stage] as usize;
            let left_out = match self.slip() {
                Some(Block::SteinerLeftOut) => node.tag == STEINER,
                Some(Block::LastEdgeLeftOut) => number + 1 == net.nodes.len(),
                Some(Block::DriverLeftOut) => node.parent == 0,
                Some(Block::OneEdge) => (1..number).any(|other| below[net.nodes[other].parent] == stage),
                Some(Block::Layer15LeftOut) => layer == 15,
                _ => false,
            };
            if !left_out {
                let added = if self.slips(Block::CostsForLengths) { node.costs[layer] } else { node.length };
                lengths[self.place(net, plan, stage)] += added as u64;
            }
        }
        lengths
    }

    /// Where the length of a stage is added: its layer.
    fn place(&self, net: &Net, plan: &[u8], stage: usize) -> usize {
        let layer = plan[stage] as usize;
        match self.slip() {
            Some(Block::ByStage) => stage % 16,
            Some(Block::ByPlace) => (0..layer).filter(|&other| plan.contains(&(other as u8))).count(),
            Some(Block::FromLastLayer) => net.layers.len() - 1 - layer,
            Some(Block::OnLayer0) => 0,
            _ => layer,
        }
    }
}
