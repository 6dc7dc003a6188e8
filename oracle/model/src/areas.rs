//! A plain model of the builder: document 01's machine, its table's rows, and the two lent areas.

use std::collections::BTreeSet;

use crate::blocks::block;
use crate::rust::{self, Block};
use crate::settings::{LIMIT, LONGEST_KEY, MOST_BLOCKS, STRIDE};
use crate::version::Version;

pub const MOST: u128 = MOST_BLOCKS as u128;
/// What fills lent areas.
pub const MARK: u8 = 0xa5;

pub type Entry = (Block, Vec<u8>);

/// Block i by the rule, and its key: the 4 bytes of i, highest first.
pub fn by_rule(i: u32) -> Entry {
    let start = |i: u64| 65_536 * i + 40_503 * i % 65_536;
    let at = u64::from(i);
    let ord = 1000 * at + 617 * at % 1000;
    let key = i.to_be_bytes().to_vec();
    (block(start(at), start(at + 1), ord), key)
}

/// What the rows of document 01's table look at.
pub struct View {
    pub n: u128,
    pub room: u128,
    pub key_room: u128,
    /// where the last key ends
    pub taken: u128,
    pub last: Option<Entry>,
}

/// How many numbers these blocks take.
fn numbers(blocks: u128) -> u128 {
    STRIDE as u128 * blocks
}

impl View {
    pub fn row_1(&self) -> bool {
        self.n > MOST || numbers(self.n) > self.room || self.taken > self.key_room
    }

    pub fn row_6(&self, key: &[u8]) -> bool {
        self.last.as_ref().is_some_and(|last| key <= &last.1[..])
    }

    pub fn row_7(&self, key: &[u8]) -> bool {
        self.n == MOST
            || numbers(self.n + 1) > self.room
            || self.taken + key.len() as u128 > self.key_room
    }

    /// Rows 2 to 6, all that hold.
    pub fn block_rows(&self, block: Block, key: &[u8]) -> Vec<u64> {
        let Block { start, end, ord } = block;
        let last = self.last.as_ref().map(|last| last.0);
        hits(&[
            (2, key.len() > LONGEST_KEY),
            (3, end < start || end >= LIMIT || ord >= LIMIT),
            (4, last.is_some_and(|last| start != last.end)),
            (5, last.is_some_and(|last| ord <= last.ord)),
            (6, self.row_6(key)),
        ])
    }

    /// The rows of an add, all that hold.
    pub fn add_rows(&self, block: Block, key: &[u8]) -> Vec<u64> {
        let mut rows = hits(&[(1, self.row_1())]);
        rows.extend(self.block_rows(block, key));
        rows.extend(hits(&[(7, self.row_7(key))]));
        rows
    }

    /// The rows of a shorten, all that hold.
    pub fn shorten_rows(&self, next: &[u8]) -> Vec<u64> {
        hits(&[
            (1, self.row_1()),
            (2, next.len() > LONGEST_KEY),
            (6, self.row_6(next)),
        ])
    }
}

pub fn hits(rows: &[(u64, bool)]) -> Vec<u64> {
    rows.iter().filter(|row| row.1).map(|row| row.0).collect()
}

/// The first row that is hit, or 0.
pub fn first(rows: &[u64]) -> u64 {
    rows.first().copied().unwrap_or(0)
}

/// The plain machine: entries, and the areas' lengths.
#[derive(Clone)]
pub struct Machine {
    pub entries: Vec<Entry>,
    pub room: usize,
    pub key_room: usize,
}

impl Machine {
    pub fn view(&self) -> View {
        View {
            n: self.entries.len() as u128,
            room: self.room as u128,
            key_room: self.key_room as u128,
            taken: self.entries.iter().map(|entry| entry.1.len() as u128).sum(),
            last: self.entries.last().cloned(),
        }
    }

    pub fn joined(&self) -> Vec<u8> {
        self.entries
            .iter()
            .flat_map(|entry| entry.1.clone())
            .collect()
    }
}

/// A count over two areas: the blocks' numbers, and the keys.
#[derive(Clone)]
pub struct Areas {
    pub n: u64,
    pub blocks: Vec<u64>,
    pub keys: Vec<u8>,
}

impl Areas {
    pub fn record(&self, i: u64) -> [u64; STRIDE] {
        let at = (i as usize).saturating_mul(STRIDE);
        std::array::from_fn(|k| {
            let place = at.saturating_add(k);
            self.blocks.get(place).copied().unwrap_or(0)
        })
    }

    /// Block i and its key, as far as it is inside.
    pub fn entry(&self, i: u64) -> Entry {
        let [start, end, ord, offset, length] = self.record(i);
        let inside = |place: u64| place.min(self.keys.len() as u64) as usize;
        let from = inside(offset);
        let key = &self.keys[from..inside(offset.saturating_add(length)).max(from)];
        (block(start, end, ord), key.to_vec())
    }

    /// What the first `n` blocks show.
    pub fn view(&self, n: u64) -> View {
        let last = n.checked_sub(1);
        View {
            n: n.into(),
            room: self.blocks.len() as u128,
            key_room: self.keys.len() as u128,
            taken: last.map_or(0, |last| {
                let [.., offset, length] = self.record(last);
                u128::from(offset) + u128::from(length)
            }),
            last: last.map(|last| self.entry(last)),
        }
    }

    /// Row 8's parts, all that are broken: 0 the key offsets' rule, and 2 to 6.
    pub fn broken(&self) -> BTreeSet<u64> {
        let mut broken = BTreeSet::new();
        for i in 0..self.n {
            let [start, end, ord, offset, length] = self.record(i);
            let view = self.view(i);
            if u128::from(offset) != view.taken {
                broken.insert(0);
            }
            // a key that isn't inside counts by its length alone
            let mut key = self.entry(i).1;
            if key.len() as u64 != length {
                key.resize(length.min(2000) as usize, MARK);
            }
            broken.extend(view.block_rows(block(start, end, ord), &key));
        }
        broken
    }

    pub fn add(&mut self, block: Block, key: &[u8]) {
        let offset = self.view(self.n).taken as usize;
        let at = STRIDE * self.n as usize;
        self.blocks[at..at + STRIDE].copy_from_slice(&[
            block.start,
            block.end,
            block.ord,
            offset as u64,
            key.len() as u64,
        ]);
        self.keys[offset..offset + key.len()].copy_from_slice(key);
        self.n += 1;
    }

    pub fn replace_last_key(&mut self, key: &[u8]) {
        let last = STRIDE * (self.n as usize - 1);
        let offset = self.blocks[last + 3] as usize;
        self.blocks[last + 4] = key.len() as u64;
        self.keys[offset..offset + key.len()].copy_from_slice(key);
    }

    pub fn entries(&self) -> Vec<Entry> {
        (0..self.n).map(|i| self.entry(i)).collect()
    }
}

/// The index of the Rust and its directory's length; nothing for 0 and 1 blocks.
pub fn index(version: Version, entries: &[Entry]) -> (Vec<u8>, u64) {
    let given: Vec<(Block, &[u8])> = entries
        .iter()
        .map(|entry| (entry.0, &entry.1[..]))
        .collect();
    let bytes = rust::write_index(version, &given);
    let directory = u64::from_le_bytes(bytes[bytes.len() - 8..].try_into().unwrap());
    if entries.len() < 2 {
        assert_eq!((bytes.len(), directory), (8, 0));
        return (Vec::new(), 0);
    }
    (bytes, directory)
}

/// The rows of a store from a slice of blocks, all that hold but the output's.
pub fn slice_rows(blocks: &[Block]) -> Vec<u64> {
    let pairs = || blocks.windows(2);
    hits(&[
        (
            3,
            blocks
                .iter()
                .any(|b| b.end < b.start || b.end >= LIMIT || b.ord >= LIMIT),
        ),
        (4, pairs().any(|pair| pair[1].start != pair[0].end)),
        (5, pairs().any(|pair| pair[1].ord <= pair[0].ord)),
        (7, blocks.len() as u128 > MOST),
    ])
}
