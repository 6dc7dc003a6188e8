//! Files that finish writes, and files that differ from one in one way.

mod bytes;
mod foreign;
mod moved;
mod written;

use model::blocks::{random, touching};
use model::files::File as Parts;
use model::numbers::Numbers;
use model::rust::Block;
use model::settings::LIMIT;
use model::version::{VERSIONS, Version};

use crate::calls::opened::{self, File};
use crate::tally::Tally;

pub fn run(tally: &mut Tally) {
    for version in VERSIONS {
        bytes::run(tally, version);
        foreign::run(tally, version);
        moved::run(tally, version);
        written::run(tally, version);
    }
}

/// Around one, two and three full groups, and more.
fn sizes(version: Version) -> [usize; 12] {
    let full = version.group_len();
    let [one, two, three] = [full, 2 * full, 3 * full];
    [
        2,
        3,
        17,
        one - 1,
        one,
        one + 1,
        two - 1,
        two,
        two + 1,
        three,
        three + 1,
        1000,
    ]
}

/// How many kinds of lists there are.
const SHAPES: usize = 6;

/// Blocks of equal steps, of steps by chance, and ones that reach up to the limit.
fn blocks(rng: &mut Numbers, n: usize, shape: usize) -> Vec<Block> {
    let (count, top) = (n as u64, LIMIT - 1);
    match shape {
        0 => touching(9, &vec![6; n], 3, &vec![2; n - 1]),
        1 => random(rng, count, 4, 3, 20, 20),
        2 => random(rng, count, 12, 7, 30, 30),
        3 => random(rng, count, 31, 30, 0, 0),
        4 => {
            let lengths: Vec<u64> = (0..count).map(|i| i * i % 37).collect();
            let steps: Vec<u64> = (1..count).map(|i| 1 + i * 7 % 5).collect();
            touching(1000, &lengths, 3, &steps)
        }
        _ => {
            let at = rng.below(count - 1) as usize;
            let (mut lengths, mut steps) = (vec![3; n], vec![1; n - 1]);
            lengths[at] = top - 3 * (count - 1);
            steps[at] = top - (count - 2);
            touching(0, &lengths, 0, &steps)
        }
    }
}

/// Numbers of three bytes behind a front, the first one empty or not.
fn keys(rng: &mut Numbers, n: usize) -> Vec<Vec<u8>> {
    let front = rng.below(4);
    let front = rng.bytes(front);
    let key = |i: usize| [&front[..], &i.to_be_bytes()[5..]].concat();
    let mut keys: Vec<Vec<u8>> = (0..n).map(key).collect();
    if rng.one_in(2) {
        keys[0] = Vec::new();
    }
    keys
}

/// Opens and checks a file that must hold these blocks and keys.
fn holding(
    tally: &mut Tally,
    version: Version,
    blocks: &[Block],
    keys: &[Vec<u8>],
    store: &[u8],
) -> File {
    let file = opened::open(tally, version, &Parts::new(keys, store).bytes());
    assert_eq!(file.opening().no(), 0);
    assert!(file.opening().blocks == blocks && file.opening().keys == keys);
    file
}
