//! The calls of `include/vorphiel.h` in Rust. This is the one place where their C signatures stand.
//!
//! A call is given its parameters as a struct, by their names in C: so a host makes it with `make`, and another implementation can stand in the
//! library's place as functions of the same structs.

/// From the list of the C functions: their declarations, and for each a struct of its parameters.
macro_rules! c_calls {
    ($($(#[$about:meta])* $call:ident = $function:ident($($parameter:ident: $kind:ty),* $(,)?) -> $answer:ty;)*) => {
        extern "C" {
            $(fn $function($($parameter: $kind),*) -> $answer;)*
        }

        $(
            $(#[$about])*
            pub struct $call {
                $(pub $parameter: $kind,)*
            }

            impl $call {
                /// Makes the call of the linked library.
                ///
                /// # Safety
                ///
                /// Each pointer is valid for the length given with it, that of a result for one number; what is written overlaps nothing else.
                #[inline] // Compiled only where it is used: a program that does not make the call can be linked without the library.
                pub unsafe fn make(self) -> $answer {
                    $function($(self.$parameter),*)
                }
            }
        )*
    };
}

c_calls! {
    /// The version of the library, as major * 10,000 + minor * 100 + patch.
    Version = vorphiel_version() -> u64;

    /// Reads a net. The answer is a refusal's number, 0 if there is none; so also in `Judge`, `Plan` and `PlanRounds`.
    Check = vorphiel_check(net: *const u8, net_len: usize, nodes: *mut u64, stages: *mut u64, layers: *mut u64) -> u8;

    /// Judges a plan.
    Judge = vorphiel_judge(
        net: *const u8,
        net_len: usize,
        plan: *const u8,
        plan_len: usize,
        cost: *mut u64,
        slack: *mut i64,
    ) -> u8;

    /// Plans a net.
    Plan = vorphiel_plan(
        net: *const u8,
        net_len: usize,
        p: u64,
        q: u64,
        table: *mut i64,
        table_len: usize,
        plan: *mut u8,
        plan_len: usize,
        cost: *mut u64,
        slack: *mut i64,
        k: *mut u64,
        floor: *mut u64,
    ) -> u8;

    /// Plans a net by some rounds.
    PlanRounds = vorphiel_plan_rounds(
        net: *const u8,
        net_len: usize,
        r: u64,
        table: *mut i64,
        table_len: usize,
        plan: *mut u8,
        plan_len: usize,
        cost: *mut u64,
        slack: *mut i64,
        floor: *mut u64,
        rounds: *mut u64,
    ) -> u8;

    /// The wall chart's number, 0 where it has none.
    TableEntries = vorphiel_table_entries(s: u64, q: u64) -> u64;

    /// Reports over a block.
    Report = vorphiel_report(block: *const u8, block_len: usize) -> Totals;

    /// The size of a desk in bytes.
    DeskSize = vorphiel_desk_size() -> u64;

    /// Opens a desk.
    DeskOpen = vorphiel_desk_open(desk: *mut DeskRecord, net: *const u8, net_len: usize) -> DeskCounts;

    /// Moves a stage of a desk to a layer. The answer is a refusal's number, 0 if there is none; so also in `DeskLock` and `DeskUnlock`.
    DeskSet = vorphiel_desk_set(desk: *mut DeskRecord, stage: u64, layer: u64) -> u8;

    /// Locks a stage of a desk.
    DeskLock = vorphiel_desk_lock(desk: *mut DeskRecord, stage: u64) -> u8;

    /// Unlocks a stage of a desk.
    DeskUnlock = vorphiel_desk_unlock(desk: *mut DeskRecord, stage: u64) -> u8;

    /// Reads the cost and slack of a desk's plan.
    DeskRead = vorphiel_desk_read(desk: *const DeskRecord) -> DeskFigures;
}

/// The most bytes of a net that a desk takes.
pub const MOST_DESK_NET: usize = 4_096;

/// A desk's record, `struct vorphiel_desk` in C: all zero is a desk never opened.
#[repr(C)]
#[derive(Clone, Copy, Debug, PartialEq, Eq)]
pub struct DeskRecord {
    pub used: u64,
    pub stages: u64,
    pub layers: u64,
    pub net: [u8; MOST_DESK_NET],
    pub plan: [u8; 64],
    pub locks: [u8; 64],
}

impl DeskRecord {
    /// A desk never opened.
    pub const FRESH: DeskRecord = DeskRecord { used: 0, stages: 0, layers: 0, net: [0; MOST_DESK_NET], plan: [0; 64], locks: [0; 64] };
}

/// The counts of a net that was opened, `struct vorphiel_checked` in C.
#[repr(C)]
#[derive(Clone, Copy, Debug, Default, PartialEq, Eq)]
pub struct DeskCounts {
    pub refusal: u8,
    pub nodes: u64,
    pub stages: u64,
    pub layers: u64,
}

/// The cost and slack of a desk's plan, `struct vorphiel_judged` in C.
#[repr(C)]
#[derive(Clone, Copy, Debug, Default, PartialEq, Eq)]
pub struct DeskFigures {
    pub refusal: u8,
    pub cost: u64,
    pub slack: i64,
}

/// The totals over the nets of a block, `struct vorphiel_totals` in C.
#[repr(C)]
#[derive(Clone, Copy, Debug, Default, PartialEq, Eq)]
pub struct Totals {
    /// 13 for bytes that are no block, and then all else is 0; else 0.
    pub refusal: u8,
    pub nets: u64,
    pub planned: u64,
    /// By the number with which planning refused them.
    pub refused: [u64; 13],
    pub cost: u64,
    /// The total edge length on each layer number.
    pub lengths: [u64; 16],
}
