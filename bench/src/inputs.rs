//! What both sides get: blocks, keys, and the index of them.

use rosmarel::{BlockAddr, MAX_NUMBER};
use tantivy_sstable::{Block, Builder as _, Rust};

use crate::ffi;

/// Numbers from a fixed seed (splitmix64).
pub struct Numbers(pub u64);

impl Numbers {
    pub fn next(&mut self) -> u64 {
        self.0 = self.0.wrapping_add(0x9e37_79b9_7f4a_7c15);
        let mut z = self.0;
        z = (z ^ (z >> 30)).wrapping_mul(0xbf58_476d_1ce4_e5b9);
        z = (z ^ (z >> 27)).wrapping_mul(0x94d0_49bb_1331_11eb);
        z ^ (z >> 31)
    }

    /// A number below the bound.
    pub fn below(&mut self, bound: usize) -> usize {
        (self.next() % bound as u64) as usize
    }
}

/// Kinds of keys.
#[derive(Clone, Copy, Debug, PartialEq, Eq)]
pub enum Keys {
    Short,
    Shared,
    Early,
    SharedLongest,
    EarlyLongest,
}

impl Keys {
    pub const ALL: [Keys; 5] = [
        Keys::Short,
        Keys::Shared,
        Keys::Early,
        Keys::SharedLongest,
        Keys::EarlyLongest,
    ];

    pub fn name(self) -> &'static str {
        match self {
            Keys::Short => "short",
            Keys::Shared => "long-shared",
            Keys::Early => "long-early",
            Keys::SharedLongest => "1024-shared",
            Keys::EarlyLongest => "1024-early",
        }
    }

    /// How the keys are made, for the document.
    pub fn story(self) -> &'static str {
        match self {
            Keys::Short => "8 random bytes, sorted",
            Keys::Shared => {
                "100 letters that all keys share, 8 digits that count, 0 to 91 times m at random, z"
            }
            Keys::Early => "8 digits that count, 91 to 191 times m at random, z",
            Keys::SharedLongest => {
                "1,000 letters that all keys share, 8 digits that count, 15 times m, z"
            }
            Keys::EarlyLongest => "8 digits that count, 1,015 times m, z",
        }
    }

    pub fn long(self) -> bool {
        self != Keys::Short
    }

    /// Rising keys.
    pub fn make(self, n: usize) -> Vec<Vec<u8>> {
        let mut numbers = Numbers(n as u64);
        let (front, tail, spread) = match self {
            Keys::Short => return random(n, &mut numbers),
            Keys::Shared => (100, 0, 92),
            Keys::Early => (0, 91, 101),
            Keys::SharedLongest => (1_000, 15, 1),
            Keys::EarlyLongest => (0, 1_015, 1),
        };
        let front: Vec<u8> = (0..front).map(|i| b'a' + (i * 7 % 12) as u8).collect();
        (0..n)
            .map(|i| {
                let digits = format!("{i:08}");
                let tail = vec![b'm'; tail + numbers.below(spread)];
                [&front[..], digits.as_bytes(), &tail, b"z"].concat()
            })
            .collect()
    }
}

fn random(n: usize, numbers: &mut Numbers) -> Vec<Vec<u8>> {
    let mut keys = Vec::new();
    while keys.len() < n {
        keys.extend((keys.len()..n).map(|_| numbers.next().to_be_bytes()));
        keys.sort_unstable();
        keys.dedup();
    }
    keys.into_iter().map(|key| key.to_vec()).collect()
}

/// Kinds of block lists, by the steps from block to block.
#[derive(Clone, Copy, Debug, PartialEq, Eq)]
pub enum Steps {
    Random,
    Equal,
    Empty,
    Limit,
}

impl Steps {
    pub const ALL: [Steps; 4] = [Steps::Random, Steps::Equal, Steps::Empty, Steps::Limit];

    pub fn name(self) -> &'static str {
        match self {
            Steps::Random => "random steps",
            Steps::Equal => "equal steps",
            Steps::Empty => "empty blocks",
            Steps::Limit => "steps at the limit",
        }
    }

    /// How the blocks are made, for the document.
    pub fn story(self) -> &'static str {
        match self {
            Steps::Random => "2,000 to 5,999 bytes and 20 to 199 keys each, at random",
            Steps::Equal => "4,096 bytes and 128 keys each: fields of one bit",
            Steps::Empty => "no bytes and one key each",
            Steps::Limit => {
                "2^55 - 1 bytes and keys shared out among the blocks at random: steps around and above 2^39, wide fields"
            }
        }
    }

    pub fn blocks(self, n: usize) -> Vec<BlockAddr> {
        let mut numbers = Numbers(!(n as u64));
        let (mut end, mut first_ordinal) = (0, 0);
        (0..n)
            .map(|i| {
                let start = end;
                let ordinal = first_ordinal;
                (end, first_ordinal) = self.next(i + 1, n, (end, first_ordinal), &mut numbers);
                BlockAddr {
                    start,
                    end,
                    first_ordinal: ordinal,
                }
            })
            .collect()
    }

    /// Where block i begins and with which ordinal, from those of the block before; block n is the end of the last.
    fn next(self, i: usize, n: usize, before: (u64, u64), numbers: &mut Numbers) -> (u64, u64) {
        let (start, ordinal) = before;
        match self {
            Steps::Random => (
                start + 2_000 + numbers.below(4_000) as u64,
                ordinal + 20 + numbers.below(180) as u64,
            ),
            Steps::Equal => (start + 4_096, ordinal + 128),
            Steps::Empty => (start, ordinal + 1),
            Steps::Limit if i == n => (MAX_NUMBER, MAX_NUMBER),
            Steps::Limit => {
                let share = MAX_NUMBER as usize / n;
                let mut place = || (i * share + numbers.below(share)) as u64;
                (place(), place())
            }
        }
    }
}

pub fn theirs(block: BlockAddr) -> Block {
    Block {
        start: block.start,
        end: block.end,
        ord: block.first_ordinal,
    }
}

/// The Rust's builder with all blocks in it.
pub fn rust_builder<R: Rust>(keys: &[Vec<u8>], blocks: &[BlockAddr]) -> R::Builder {
    let mut builder = R::Builder::default();
    for (key, &block) in keys.iter().zip(blocks) {
        builder.add_block(key, theirs(block));
    }
    builder
}

/// The Rust crate's builder with all blocks in it.
pub fn our_builder(keys: &[Vec<u8>], blocks: &[BlockAddr]) -> rosmarel::Builder {
    let mut builder = rosmarel::Builder::new();
    for (key, &block) in keys.iter().zip(blocks) {
        builder.add_block(key, block).unwrap();
    }
    builder
}

/// The two areas with all blocks in them.
pub fn areas(keys: &[Vec<u8>], blocks: &[BlockAddr]) -> (Vec<u64>, Vec<u8>) {
    let mut numbers = vec![0; 5 * blocks.len()];
    let mut bytes = vec![0; keys.iter().map(Vec::len).sum()];
    let mut n = 0;
    for (key, &block) in keys.iter().zip(blocks) {
        ffi::add(&mut n, &mut numbers, &mut bytes, key, block).unwrap();
    }
    (numbers, bytes)
}

/// The terms in the last block.
const LAST_TERMS: u64 = 100;

/// An index, and its record after opening.
pub struct Input {
    pub n: usize,
    pub kind: Keys,
    pub keys: Vec<Vec<u8>>,
    pub blocks: Vec<BlockAddr>,
    pub index: Vec<u8>,
    pub opened: ffi::Opened,
}

impl Input {
    /// An index of the version that this Rust writes. The keys are the separators as they are; no key is shortened.
    pub fn new<R: Rust>(kind: Keys, n: usize) -> Input {
        let keys = kind.make(n);
        let blocks = Steps::Random.blocks(n);
        let mut index = Vec::new();
        rust_builder::<R>(&keys, &blocks).serialize(&mut index);
        let terms = blocks[n - 1].first_ordinal + LAST_TERMS;
        let opened = ffi::open(R::VERSION, terms, &index).expect("an index of the Rust opens");
        Input {
            n,
            kind,
            keys,
            blocks,
            index,
            opened,
        }
    }

    /// The number of terms that the record has.
    pub fn terms(&self) -> u64 {
        self.opened[7]
    }

    pub fn version(&self) -> u64 {
        self.opened[8]
    }

    /// The least number of terms that the index opens with.
    pub fn least_terms(&self) -> u64 {
        self.blocks[self.n - 1].first_ordinal + 1
    }
}
