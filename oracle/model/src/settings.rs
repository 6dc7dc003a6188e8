//! The format's numbers but for a group's length, which is its version's. The models, the makers of cases and the comparison take them
//! from here.

/// Where ends and ordinals stop, and the bits of the numbers below it.
pub const LIMIT: u64 = 1 << LIMIT_BITS;
pub const LIMIT_BITS: u64 = 55;

/// Numbers that a block takes in the builder's area.
pub const STRIDE: usize = 5;

/// Numbers of the opened record.
pub const OPENED_LEN: usize = 9;

/// Blocks that a builder, a slice or a file can have.
pub const MOST_BLOCKS: usize = 65_536;

/// Bytes that a key of a builder or of a file can have.
pub const LONGEST_KEY: usize = 1_024;

/// Bytes of a group's record.
pub const GROUP_RECORD: usize = 36;

/// The most bits of a field.
pub const WIDEST: u8 = 56;

/// States that an automaton can have, and the bytes that an example takes beside the longer key.
pub const MOST_STATES: usize = 64;

/// Keys that a list can have.
pub const MOST_KEYS: usize = 64;
