//! Wrong planners, in the library's place and with the C calls' parameters: one planner by a table of budgets, with a desk,
//! and a list of mistakes, of which it makes one at a time. The comparison must expose each of them, and must find no fault
//! with the planner that makes none. And wrong walks that sum up loads and count edges, in the place of a program.

mod calls;
mod chart;
mod desk;
mod loads;
mod mistakes;
mod pointers;
mod rare;
mod reading;
mod report;
mod rounds;
mod search;
mod stored;
mod timing;

pub use loads::Walk;
pub use mistakes::Mistake;
use mistakes::Other;
pub use pointers::interface;

/// A planner that makes one mistake.
#[derive(Clone, Copy)]
struct Wrong {
    mistake: Mistake,
}

/// Makes no mistake.
const PLANNER: Wrong = Wrong { mistake: Mistake::None };

impl Wrong {
    fn makes(&self, other: Other) -> bool {
        self.other() == Some(other)
    }

    fn other(&self) -> Option<Other> {
        match self.mistake {
            Mistake::Other(other) => Some(other),
            _ => None,
        }
    }
}

/// A number by its low bits alone.
fn low_bits(number: usize, bits: u32) -> usize {
    number & ((1 << bits) - 1)
}
