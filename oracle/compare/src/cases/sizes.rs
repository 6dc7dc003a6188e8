//! Builders of the named sizes: added one by one, finished, opened and looked up.

use model::areas::{Areas, by_rule};
use model::blocks::{block, most_bits, random, touching};
use model::numbers::Numbers;
use model::rust::Block;
use model::settings::{LIMIT, LONGEST_KEY, MOST_BLOCKS, STRIDE};
use model::version::{V3, VERSIONS, Version};

use super::lookups;
use crate::calls::builder::Builder;
use crate::calls::opened;
use crate::memory::lent::junk;
use crate::tally::Tally;

pub fn run(tally: &mut Tally) {
    for version in VERSIONS {
        named(tally, version, 12);
    }
    too_long(tally);
    most(tally);
}

/// Adds the blocks, shortens each key before the next one, finishes, opens and looks up.
fn build(
    tally: &mut Tally,
    version: Version,
    rng: &mut Numbers,
    blocks: &[Block],
    keys: &[Vec<u8>],
) {
    let taken: usize = keys.iter().map(Vec::len).sum();
    let mut builder = Builder::fresh(STRIDE * blocks.len() + 3, taken + 2);
    let shortens = rng.one_in(2);
    for (i, (&block, key)) in blocks.iter().zip(keys).enumerate() {
        if shortens && i > 0 {
            builder.shorten(tally, key);
        }
        assert_eq!(builder.add(tally, block, key), 0);
    }
    let index = builder.finish(tally, version, &[0, -1, 10]);
    if blocks.len() > 1 {
        let mut file = opened::open(tally, version, &index);
        assert_eq!(file.n(), blocks.len() as u64);
        lookups::around(tally, rng, &mut file, 12);
    }
}

/// Rising keys: a common front, a number, and bytes after it.
fn keys(rng: &mut Numbers, count: u64, front: u64, after: u64) -> Vec<Vec<u8>> {
    let front = rng.bytes(front);
    let key = |i: u64, rng: &mut Numbers| {
        let length = rng.below(after + 1);
        let tail: Vec<u8> = (0..length)
            .map(|_| rng.pick(&[0x00, 0x61, 0xff, 0xff]))
            .collect();
        [&front[..], &(i as u32).to_be_bytes()[2..], &tail].concat()
    };
    (0..count).map(|i| key(i, rng)).collect()
}

/// 2, 127 to 129, 255 to 257, 511 to 513 blocks and between; keys of 0 and of 1,024 bytes among them.
fn named(tally: &mut Tally, version: Version, rounds: u64) {
    tally.section_of(
        version,
        "builders: 2, 3, 127 to 129, 255 to 257, 511 to 513 blocks, finished, opened and looked up",
    );
    let mut rng = Numbers::from_seed(107);
    for n in [2, 3, 127, 128, 129, 255, 256, 257, 511, 512, 513] {
        for round in 0..rounds {
            let bits = rng.pick(&[0, 4, 16, most_bits(n)]);
            let blocks = random(&mut rng, n, bits, bits, 30, 30);
            let mut names = match round % 3 {
                0 => keys(&mut rng, n, 0, 3),
                1 => keys(&mut rng, n, 5, 9),
                _ => keys(&mut rng, n, 40, 0),
            };
            if round % 2 == 0 {
                names[0] = vec![];
            }
            build(tally, version, &mut rng, &blocks, &names);
        }
        long_keys(tally, version, &mut rng, n);
        top(tally, version, &mut rng, n);
    }
}

/// Keys of 1,024 bytes that differ near their ends, and an empty one.
fn long_keys(tally: &mut Tally, version: Version, rng: &mut Numbers, n: u64) {
    let blocks = random(rng, n, 10, 5, 10, 10);
    let mut names = keys(rng, n, LONGEST_KEY as u64 - 2, 0);
    build(tally, version, rng, &blocks, &names);
    names[0] = vec![];
    build(tally, version, rng, &blocks, &names);
}

/// Numbers up to the limit.
fn top(tally: &mut Tally, version: Version, rng: &mut Numbers, n: u64) {
    let (top, count) = (LIMIT - 1, n as usize);
    for at in [0, count - 1] {
        let mut lengths = vec![0; count];
        lengths[at] = top;
        let mut steps = vec![1; count - 1];
        steps[at.min(count - 2)] = top - (n - 2);
        let names = keys(rng, n, 0, 1);
        build(
            tally,
            version,
            rng,
            &touching(0, &lengths, 0, &steps),
            &names,
        );
    }
    let names = keys(rng, n, 0, 1);
    let flat = touching(top, &vec![0; count], top - (n - 1), &vec![1; count - 1]);
    build(tally, version, rng, &flat, &names);
}

/// Keys of 1,025 bytes are refused, by an add and by a shorten.
fn too_long(tally: &mut Tally) {
    tally.section("builders: keys of 1,023 to 1,026 bytes");
    let most = LONGEST_KEY;
    for length in [most - 1, most, most + 1, most + 2, 5000] {
        for byte in [0x00, 0x61, 0xff] {
            let key = vec![byte; length];
            let mut builder = Builder::fresh(15, 6000);
            builder.shorten(tally, &key);
            builder.add(tally, block(0, 1, 0), b"A");
            builder.shorten(tally, &key);
            builder.add(tally, block(1, 2, 1), &key);
            builder.add(tally, block(1, 2, 1), b"a");
            builder.shorten(tally, &key);
            builder.add(tally, block(2, 3, 2), &key);
            builder.finish(tally, V3, &[0]);
        }
    }
}

/// 65,536 blocks, and one more. Those at the groups' ends are compared with the whole areas.
fn most(tally: &mut Tally) {
    tally.section("builders: 65,536 blocks");
    let mut rng = Numbers::from_seed(108);
    let mut builder = Builder::raw(Areas {
        n: 0,
        blocks: junk(STRIDE * (MOST_BLOCKS + 1)),
        keys: junk(4 * (MOST_BLOCKS + 1)),
    });
    for i in 0..MOST_BLOCKS as u32 {
        let (block, key) = by_rule(i);
        let last = i as usize % V3.group_len() == V3.group_len() - 1;
        if last || [0, 1, 128, 65_408, 65_534].contains(&i) {
            assert_eq!(builder.add(tally, block, &key), 0);
            builder.shorten(tally, &(i + 1).to_be_bytes());
        } else {
            builder.add_unseen(tally, block, &key);
        }
    }
    let (after, key) = by_rule(MOST_BLOCKS as u32);
    assert_eq!(builder.add(tally, after, &key), 7);
    builder.add(tally, block(after.start, after.end, 0), &key);
    builder.add(tally, after, b"");
    builder.shorten(tally, &key);
    for version in VERSIONS {
        let index = builder.finish(tally, version, &[0, -1, 100]);
        let mut file = opened::open(tally, version, &index);
        assert_eq!(file.n(), MOST_BLOCKS as u64);
        lookups::around(tally, &mut rng, &mut file, 500);
        broken_late(tally, version, &builder);
    }
}

/// Row 8 in the last records of many.
fn broken_late(tally: &mut Tally, version: Version, builder: &Builder) {
    for back in 1..=10 {
        let mut areas = builder.areas.clone();
        let at = STRIDE * MOST_BLOCKS - back;
        areas.blocks[at] += 1;
        Builder::raw(areas).finish(tally, version, &[0]);
    }
}
