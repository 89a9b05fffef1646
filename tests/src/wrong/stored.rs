//! The mistakes that a file of stored answers must expose alone. Both have answers on nets of tag 1; the first to calls
//! without a fault on whole nets, none with an edge longer than 1,000. So mistakes that keep those answers, as a bound on
//! lengths or on vias that is wrong, cannot show.

use super::mistakes::{Call, Edition, Length, Mistake, Other, Timing, IN_ANY_PLANNING};
use super::rare::IN_PLANS;

/// Counts, refusal 12, k and the floor; see also `IN_ANY_PLANNING`.
const OTHERS: &[Other] = &[
    Other::DriverNotCounted,
    Other::BuffersForStages,
    Other::AlwaysTwelve,
    Other::TwelveEarly,
    Other::TwelveLate,
    Other::KTooSmall,
    Other::KTooLarge,
    Other::StrictGrain,
    Other::CostMadeUp,
    Other::KMadeUp,
    Other::FloorZero,
    Other::FloorIsCost,
    Other::FloorTooSmall,
    Other::FloorLeast,
    Other::FloorCheapest,
    Other::FloorWithoutGrain,
    Other::FloorOfKBefore,
    Other::FloorAsWhole,
    Other::FloorAtShareZero,
];

/// Numbers that are not so large while edges are no longer than 1,000, nor these where timing is met.
const LARGER: &[Timing] = &[Timing::EdgeDelay50, Timing::EdgeProduct40, Timing::Load29];
const LARGER_IF_MET: &[Timing] = &[Timing::Delays53, Timing::EdgeDelay48];

/// Cases that no net of the first file has, or none that is planned.
const NO_CASE: &[&str] =
    &["with an edge of length 4,000", "with an arrival time of 10^15", "with a required time of -10^15"];

/// Reading, judging and planning with a fault, which calls of the second file have.
const REFUSED: &[Other] = &[
    Other::TrailingByteIgnored,
    Other::ThirdChildAccepted,
    Other::OwnParentAccepted,
    Other::SinkParentAccepted,
    Other::ChildlessAccepted,
    Other::Node256Accepted,
    Other::Node255Refused,
    Other::Buffer64Accepted,
    Other::Buffer63Refused,
    Other::Layers16Refused,
    Other::Layers17Accepted,
    Other::LayersRounded,
    Other::LateIsRefused,
    Other::LongPlanAccepted,
    Other::LayerCountAccepted,
];

/// What can be seen of editions where every net is of tag 1.
const OF_TAG_1: &[Edition] = &[Edition::FirstRefused, Edition::FirstAsSecond, Edition::FirstOf6, Edition::ByLength];

/// Shown by calls without a fault.
fn without_fault(other: Other) -> bool {
    IN_ANY_PLANNING.contains(&other) || OTHERS.contains(&other)
}

/// Vias for nets of tag 1.
fn gives_vias(slip: Edition) -> bool {
    slip.is_of_first() || slip == Edition::FirstAsSecond || slip == Edition::ByLength
}

/// A case that a net of tag 1 can have.
fn of_tag_1(place: usize) -> bool {
    !IN_PLANS[place].0.starts_with("of tag 7")
}

impl Mistake {
    /// Those that the answers of before edges were longer must expose.
    pub fn on_lengths_to_1000() -> Vec<Mistake> {
        let shows = |mistake: &Mistake| match *mistake {
            Mistake::Other(other) => without_fault(other),
            Mistake::Length(slip) => slip == Length::ThousandRefused,
            Mistake::Edition(slip) => gives_vias(slip),
            Mistake::Timing(call, timing) => {
                let shows = !LARGER.contains(&timing) && !timing.is_of_vias();
                shows && (call == Call::Judge || !LARGER_IF_MET.contains(&timing))
            }
            Mistake::RareNet(_, place) => of_tag_1(place) && !NO_CASE.contains(&IN_PLANS[place].0),
            _ => false,
        };
        Mistake::all().into_iter().filter(shows).collect()
    }

    /// Those that the answers of before vias counted must expose.
    pub fn on_without_vias() -> Vec<Mistake> {
        let shows = |mistake: &Mistake| match *mistake {
            Mistake::Other(other) => without_fault(other) || REFUSED.contains(&other),
            Mistake::Length(_) => true,
            Mistake::Edition(slip) => gives_vias(slip) || OF_TAG_1.contains(&slip),
            Mistake::Timing(_, timing) => !timing.is_of_vias(),
            Mistake::RareNet(_, place) => of_tag_1(place),
            Mistake::Before(..)
            | Mistake::ResultsBeside(..)
            | Mistake::TableChanged(..)
            | Mistake::BufferChanged(..) => true,
            _ => false,
        };
        Mistake::all().into_iter().filter(shows).collect()
    }
}
