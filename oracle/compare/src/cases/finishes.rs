//! Finishes of 258 to 65,534 blocks.

use model::areas::{Areas, Entry};
use model::blocks::{by_rule, most_bits, random, touching};
use model::numbers::Numbers;
use model::rust::Block;
use model::settings::{LIMIT, MOST_BLOCKS, STRIDE};
use model::version::{V3, V4, VERSIONS, Version};

use super::lookups;
use crate::calls::builder::Builder;
use crate::calls::opened;
use crate::tally::Tally;

/// Sizes at the groups' ends and around multiples of two groups, and some between.
fn sizes(version: Version) -> Vec<usize> {
    let (mut sizes, groups): (Vec<usize>, &[usize]) = match version {
        V3 => (
            vec![258, 300, 1000, 5000, 10_000, 20_000, 40_000, 50_000, 65_534],
            &[
                3, 4, 5, 6, 7, 8, 12, 16, 31, 32, 64, 127, 128, 255, 256, 257, 500, 510, 511,
            ],
        ),
        V4 => (
            vec![258, 300, 384, 385, 639, 640, 1000, 20_000, 65_408, 65_534],
            &[3, 4, 5, 8, 16, 33, 64, 127, 255],
        ),
    };
    for count in groups {
        let end = count * version.group_len();
        sizes.extend([end - 1, end, end + 1]);
    }
    sizes.sort();
    sizes
}

pub fn run(tally: &mut Tally) {
    for version in VERSIONS {
        tally.section_of(
            version,
            "finishes: 258 to 65,534 blocks, opened and looked up",
        );
        let mut rng = Numbers::from_seed(132);
        for n in sizes(version) {
            for shape in 0..3 {
                let (blocks, keys) = (blocks(&mut rng, n, shape), keys(&mut rng, n, shape));
                let entries = blocks.into_iter().zip(keys).collect();
                finish(tally, version, &mut rng, entries);
            }
        }
    }
}

/// Short steps by chance; long ones by the rule; or numbers up to the limit.
fn blocks(rng: &mut Numbers, n: usize, shape: usize) -> Vec<Block> {
    let (count, top) = (n as u64, LIMIT - 1);
    let bits = most_bits(count);
    match shape {
        0 => {
            let (length_bits, step_bits) = (rng.within(0, bits), rng.within(0, bits));
            random(rng, count, length_bits, step_bits, 40, 40)
        }
        1 => {
            let (j, k) = (rng.below(23), rng.below(23));
            by_rule(rng.below(4_000_000) * 529 + 23 * j + k, count)
        }
        _ => {
            let at = rng.below(count - 1) as usize;
            let (mut lengths, mut steps) = (vec![3; n], vec![1; n - 1]);
            lengths[at] = top - 3 * (count - 1);
            steps[at] = top - (count - 2);
            touching(0, &lengths, 0, &steps)
        }
    }
}

/// Numbers of three bytes, after no front, after one, or before bytes of some lengths.
fn keys(rng: &mut Numbers, n: usize, shape: usize) -> Vec<Vec<u8>> {
    let number = |i: usize| i.to_be_bytes()[5..].to_vec();
    let front = rng.bytes(if shape == 1 { 13 } else { 0 });
    let mut keys: Vec<Vec<u8>> = (0..n).map(|i| [&front[..], &number(i)].concat()).collect();
    if shape == 2 {
        keys.iter_mut().for_each(|key| {
            let length = rng.below(6);
            key.extend(rng.bytes(length));
        });
    }
    keys
}

/// Areas that hold these blocks and keys and a little more.
fn areas(entries: &[Entry]) -> Areas {
    let taken: usize = entries.iter().map(|entry| entry.1.len()).sum();
    let mut areas = Areas {
        n: 0,
        blocks: vec![7; STRIDE * entries.len() + 3],
        keys: vec![7; taken + 3],
    };
    entries
        .iter()
        .for_each(|(block, key)| areas.add(*block, key));
    areas
}

fn finish(tally: &mut Tally, version: Version, rng: &mut Numbers, entries: Vec<Entry>) {
    let n = entries.len();
    assert!(n < MOST_BLOCKS);
    let mut builder = Builder::raw(areas(&entries));
    let index = builder.finish(tally, version, &[0, -1, 10]);
    let mut file = opened::open(tally, version, &index);
    assert_eq!((file.opening().no(), file.n()), (0, n as u64));
    lookups::around(tally, rng, &mut file, 6);
    broken_late(tally, version, rng, &builder);
}

/// Row 8 in one of the last records, or in the middle.
fn broken_late(tally: &mut Tally, version: Version, rng: &mut Numbers, builder: &Builder) {
    let numbers = STRIDE * builder.areas.n as usize;
    for at in [numbers - 1 - rng.below(10) as usize, numbers / 2] {
        let mut areas = builder.areas.clone();
        areas.blocks[at] = areas.blocks[at].wrapping_add(rng.pick(&[1, u64::MAX, LIMIT]));
        Builder::raw(areas).finish(tally, version, &[0]);
    }
}
