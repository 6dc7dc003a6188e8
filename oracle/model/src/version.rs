//! The versions of an index. They differ in the length of groups alone, and a file doesn't say which it is.

/// The row of a version that there isn't. It comes before everything else.
pub const VERSION_BAD: u64 = 30;

#[derive(Clone, Copy, Debug, PartialEq, Eq, PartialOrd, Ord)]
pub enum Version {
    V3,
    V4,
}

pub use Version::{V3, V4};

pub const VERSIONS: [Version; 2] = [V3, V4];

/// Numbers that aren't versions: around the two, far away, and ones that are 3 or 4 in 8, 16, 32 or 63 bits.
pub const NO_VERSIONS: [u64; 16] = [
    0,
    1,
    2,
    5,
    6,
    7,
    128,
    256,
    256 + 3,
    256 + 4,
    (1 << 16) + 3,
    (1 << 32) + 3,
    (1 << 32) + 4,
    (1 << 63) + 3,
    (1 << 63) + 4,
    u64::MAX,
];

impl Version {
    pub fn of(number: u64) -> Option<Version> {
        VERSIONS
            .into_iter()
            .find(|version| version.number() == number)
    }

    pub fn number(self) -> u64 {
        match self {
            V3 => 3,
            V4 => 4,
        }
    }

    /// Blocks in a group; the last one may have fewer.
    pub fn group_len(self) -> usize {
        match self {
            V3 => 128,
            V4 => 256,
        }
    }

    /// What is for 3, or what is for 4.
    pub fn pick<T>(self, of_3: T, of_4: T) -> T {
        match self {
            V3 => of_3,
            V4 => of_4,
        }
    }

    pub fn other(self) -> Version {
        match self {
            V3 => V4,
            V4 => V3,
        }
    }
}

/// The number of a call with this version, from what the other rows say.
pub fn number(version: u64, rows: impl FnOnce(Version) -> u64) -> u64 {
    Version::of(version).map_or(VERSION_BAD, rows)
}
