//! The exported functions, as include/rosmarel.h declares them, and what each answer is held against. One file a family: its
//! declarations, its calls with the numbers that they can answer, and the comparison.

pub mod batches;
pub mod builder;
pub mod building;
pub mod canonical;
pub mod intervals;
pub mod keys;
pub mod listing;
pub mod lookups;
pub mod opened;
pub mod stores;

/// The interface that the declarations are of.
pub const INTERFACE: u64 = 5;

unsafe extern "C" {
    fn rosmarel_interface() -> u64;
}

/// The archive's.
pub fn interface() -> u64 {
    // SAFETY: it takes nothing.
    unsafe { rosmarel_interface() }
}

/// An exported function, without `rosmarel_`.
pub struct Call {
    pub name: &'static str,
    /// those that it can answer; each must come up
    pub numbers: &'static [u64],
}

/// All of them, in the order of the counts.
pub const FAMILIES: &[&[&Call]] = &[
    building::CALLS,
    stores::CALLS,
    keys::CALLS,
    opened::CALLS,
    canonical::CALLS,
    lookups::CALLS,
    batches::CALLS,
    listing::CALLS,
    intervals::CALLS,
];
