//! Lists of blocks.

use crate::numbers::Numbers;
use crate::rust::{self, Block, Store};
use crate::settings::{LIMIT, LIMIT_BITS};
use crate::version::Version;

/// The three blocks of the worked case.
pub const WORKED: [Block; 3] = [
    Block {
        start: 0,
        end: 10,
        ord: 0,
    },
    Block {
        start: 10,
        end: 25,
        ord: 4,
    },
    Block {
        start: 25,
        end: 30,
        ord: 9,
    },
];

pub fn block(start: u64, end: u64, ord: u64) -> Block {
    Block { start, end, ord }
}

/// Blocks of these lengths one after the other, with these steps between their ordinals.
pub fn touching(start: u64, lengths: &[u64], ord: u64, steps: &[u64]) -> Vec<Block> {
    assert_eq!(lengths.len(), steps.len() + 1);
    let (mut start, mut ord) = (start, ord);
    let mut blocks = Vec::new();
    for (i, length) in lengths.iter().enumerate() {
        blocks.push(Block {
            start,
            end: start + length,
            ord,
        });
        start += length;
        ord += steps.get(i).unwrap_or(&0);
    }
    blocks
}

/// Ends and ordinals that 48 bits hold and just don't, one far above these, and the greatest.
pub const FAR: [u64; 4] = [(1 << 48) - 1, 1 << 48, 1 << 54, LIMIT - 1];

/// The lowest number that is neither an end nor an ordinal, and the greatest.
pub const TOO_FAR: [u64; 2] = [LIMIT, u64::MAX];

/// One block that reaches from 0 to the highest end, and a first step of the ordinals that is as long: fields of both kinds are the widest
/// that the writer makes.
pub fn widest(count: usize) -> Vec<Block> {
    let (mut lengths, mut steps) = (vec![0; count], vec![1; count - 1]);
    lengths[0] = LIMIT - 1;
    steps[0] = LIMIT - 1 - (count as u64 - 2);
    touching(0, &lengths, 0, &steps)
}

/// One block that reaches from 0 to the highest end, and empty ones; ordinals that rise by 1. The range fields are the widest and the
/// ordinal fields have one bit: the wide ones begin at each bit of a byte in turn.
pub fn far_first(count: usize) -> Vec<Block> {
    let mut lengths = vec![0; count];
    lengths[0] = LIMIT - 1;
    touching(0, &lengths, 0, &vec![1; count - 1])
}

/// Bits that the lengths or steps of so many blocks may have: behind a start of `START_BITS` they all stay below the limit.
pub fn most_bits(count: u64) -> u64 {
    LIMIT_BITS - 2 - u64::from(count.ilog2())
}

/// Bits of a far start.
pub const START_BITS: u64 = LIMIT_BITS - 2;

pub fn random(
    rng: &mut Numbers,
    count: u64,
    length_bits: u64,
    step_bits: u64,
    start_bits: u64,
    ord_bits: u64,
) -> Vec<Block> {
    let lengths: Vec<u64> = (0..count)
        .map(|_| {
            if rng.one_in(6) {
                0
            } else {
                rng.bits(length_bits)
            }
        })
        .collect();
    let steps: Vec<u64> = (1..count).map(|_| 1 + rng.bits(step_bits)).collect();
    touching(rng.bits(start_bits), &lengths, rng.bits(ord_bits), &steps)
}

/// Blocks by the rule that the stored list of stores has in its comment.
pub fn by_rule(seed: u64, count: u64) -> Vec<Block> {
    let mut x = seed;
    let mut draw = || {
        x = (x * 1_103_515_245 + 12_345) % (1 << 31);
        x / 65_536
    };
    let (k, j) = (seed % 23, seed / 23 % 23);
    let mut start = draw() << k;
    let mut ord = draw();
    let mut blocks = Vec::new();
    for _ in 0..count {
        let (a, b) = (draw(), draw());
        let end = start + if a % 8 == 0 { 0 } else { a << k };
        blocks.push(Block { start, end, ord });
        start = end;
        ord += 1 + (b << j);
    }
    blocks
}

/// The store of legal blocks, read back.
pub fn store(version: Version, blocks: &[Block]) -> Vec<u8> {
    legal(blocks);
    let bytes = rust::write_store(version, blocks);
    let store = Store::open(version, &bytes);
    for id in 0..=blocks.len() {
        assert_eq!(store.get(id as u64), blocks.get(id).copied());
    }
    bytes
}

pub fn legal(blocks: &[Block]) {
    assert!(
        blocks
            .iter()
            .all(|b| b.start <= b.end && b.end < LIMIT && b.ord < LIMIT)
    );
    assert!(
        blocks
            .windows(2)
            .all(|w| w[0].end == w[1].start && w[0].ord < w[1].ord)
    );
}
