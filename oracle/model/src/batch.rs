//! A plain model of the lookup of several keys at once, after document 02's first request. It counts in whole numbers.

use std::collections::BTreeMap;

use crate::settings::MOST_KEYS;

/// The entry of a key that is above the last separator.
pub const NO_ID: u64 = u64::MAX;

/// Keys as pairs of offset and length, two numbers each, over an area of bytes.
#[derive(Clone, Debug, Default, PartialEq, Eq)]
pub struct KeyList {
    pub pairs: Vec<u64>,
    pub bytes: Vec<u8>,
}

/// The causes of row 26.
#[derive(Clone, Copy, Debug, PartialEq, Eq, PartialOrd, Ord)]
pub enum Cause {
    Odd,
    TooMany,
    Beyond,
    Falls,
    NoRoom,
}

impl Cause {
    pub const ALL: [Cause; 5] = [
        Cause::Odd,
        Cause::TooMany,
        Cause::Beyond,
        Cause::Falls,
        Cause::NoRoom,
    ];
}

impl KeyList {
    /// How many whole pairs there are.
    pub fn count(&self) -> usize {
        self.pairs.len() / 2
    }

    /// Whether a pair isn't inside the area.
    fn beyond(&self, pair: &[u64]) -> bool {
        i128::from(pair[0]) + i128::from(pair[1]) > self.bytes.len() as i128
    }

    /// All causes to refuse the list, with room for so many ids.
    pub fn causes(&self, room: usize) -> Vec<Cause> {
        let pairs: Vec<&[u64]> = self.pairs.chunks_exact(2).collect();
        let holds = |cause: &Cause| match cause {
            Cause::Odd => self.pairs.len() % 2 == 1,
            Cause::TooMany => pairs.len() > MOST_KEYS,
            Cause::Beyond => pairs.iter().any(|pair| self.beyond(pair)),
            Cause::Falls => pairs.windows(2).any(|two| two[1][0] < two[0][0]),
            Cause::NoRoom => room < pairs.len(),
        };
        Cause::ALL.into_iter().filter(holds).collect()
    }

    /// The keys of a list none of whose pairs is beyond the area.
    pub fn keys(&self) -> Vec<&[u8]> {
        let part = |pair: &[u64]| &self.bytes[pair[0] as usize..][..pair[1] as usize];
        self.pairs.chunks_exact(2).map(part).collect()
    }
}

/// The separators of a file that opens, with their blocks.
pub struct Separators(BTreeMap<Vec<u8>, u64>);

impl Separators {
    pub fn new(keys: &[Vec<u8>]) -> Separators {
        Separators(keys.iter().cloned().zip(0..).collect())
    }

    /// The first block whose separator isn't below the key.
    pub fn entry(&self, key: &[u8]) -> u64 {
        let first = self.0.range(key.to_vec()..).next();
        first.map_or(NO_ID, |(_, &id)| id)
    }

    /// What a call with the file's own record does: the number, and what it writes at the front of the ids.
    pub fn locate(&self, list: &KeyList, room: usize) -> (u64, Vec<u64>) {
        if !list.causes(room).is_empty() {
            return (26, Vec::new());
        }
        (
            0,
            list.keys().into_iter().map(|key| self.entry(key)).collect(),
        )
    }
}
