//! Slices of blocks.

use model::blocks::{START_BITS, block, by_rule, most_bits, random, touching};
use model::numbers::Numbers;
use model::rust::Block;
use model::settings::{LIMIT, LIMIT_BITS, MOST_BLOCKS};
use model::version::{VERSIONS, Version};

use crate::calls::stores::store;
use crate::tally::Tally;

pub fn run(tally: &mut Tally) {
    for version in VERSIONS {
        small(tally, version);
        powers(tally, version);
        random_ones(tally, version);
        sizes(tally, version);
        most(tally, version);
    }
}

/// Every slice of up to three blocks over few numbers.
fn small(tally: &mut Tally, version: Version) {
    tally.section_of(
        version,
        "stores: every slice of up to three blocks over few numbers",
    );
    let mut all = Vec::new();
    for (start, end) in [(0, 0), (0, 1), (1, 1), (1, 3), (3, 3), (1, 0), (3, LIMIT)] {
        all.extend([0, 1, 2, LIMIT].map(|ord| block(start, end, ord)));
    }
    store(tally, version, &[], &[0, -1, 1, 9]);
    for &one in &all {
        store(tally, version, &[one], &[0, -1, 1]);
        for &two in &all {
            store(tally, version, &[one, two], &[0, -1]);
            for &three in &all {
                store(tally, version, &[one, two, three], &[0]);
            }
        }
    }
}

/// Legal slices of two and three blocks whose lengths and steps are powers of two and beside them.
fn powers(tally: &mut Tally, version: Version) {
    tally.section_of(
        version,
        "stores: lengths and steps around every power of two",
    );
    let mut values = vec![0];
    for k in 0..LIMIT_BITS {
        let power: u64 = 1 << k;
        values.extend([power - 1, power, power + 1]);
    }
    values.retain(|&value| value < LIMIT);
    let top = LIMIT - 1;
    // up to three blocks are the same in all versions: fewer of them in version 4
    let every = version.pick(1, 5);
    for (at, &length) in values.iter().enumerate() {
        let steps = values.iter().skip(at % every).step_by(every);
        for &step in steps.filter(|&&step| step > 0) {
            let rest = (top - length).min(step);
            store(
                tally,
                version,
                &touching(0, &[length, rest], 0, &[step]),
                &[0],
            );
            store(
                tally,
                version,
                &touching(top - length, &[length], top - step, &[]),
                &[0],
            );
            let half = [length / 2, length - length / 2, rest / 2];
            let steps = [step.div_ceil(2), (step / 2).max(1)];
            if steps[0] + steps[1] <= top {
                store(tally, version, &touching(0, &half, 0, &steps), &[0]);
            }
        }
    }
}

/// Random slices of up to 20 blocks.
fn random_ones(tally: &mut Tally, version: Version) {
    tally.section_of(version, "stores: by chance, up to 20 blocks");
    let mut rng = Numbers::from_seed(105);
    for _ in 0..version.pick(100_000, 30_000) {
        let n = rng.within(1, 20);
        let most = most_bits(20);
        let (length_bits, step_bits) = (rng.within(0, most), rng.within(0, most));
        let starts = [0, 8, 20, START_BITS];
        let (start_bits, ord_bits) = (rng.pick(&starts), rng.pick(&starts));
        let mut blocks = random(&mut rng, n, length_bits, step_bits, start_bits, ord_bits);
        let mut room = 0;
        match rng.below(12) {
            0 => room = -1,
            1 => room = 7,
            2 | 3 => spoil(&mut rng, &mut blocks),
            _ => {}
        }
        store(tally, version, &blocks, &[room]);
    }
}

/// Changes one number of one block.
fn spoil(rng: &mut Numbers, blocks: &mut [Block]) {
    if blocks.is_empty() {
        return;
    }
    let at = rng.below(blocks.len() as u64) as usize;
    let chosen = &mut blocks[at];
    let number = match rng.below(3) {
        0 => &mut chosen.start,
        1 => &mut chosen.end,
        _ => &mut chosen.ord,
    };
    *number = rng.pick(&[
        0,
        number.wrapping_sub(1),
        *number + 1,
        LIMIT - 1,
        LIMIT,
        u64::MAX,
    ]);
}

/// The sizes around one, two and more groups of either length.
fn sizes(tally: &mut Tally, version: Version) {
    tally.section_of(
        version,
        "stores: 2, 127 to 129, 255 to 257, 511 to 513 and more blocks",
    );
    let mut rng = Numbers::from_seed(106);
    for n in [
        1, 2, 126, 127, 128, 129, 130, 255, 256, 257, 384, 385, 1023, 1024, 1025, 1026, 254, 258,
        511, 512, 513, 768, 769,
    ] {
        for round in 0..60 {
            let bits = most_bits(n);
            let (length_bits, step_bits) = (rng.within(0, bits), rng.within(0, bits));
            let blocks = match round % 3 {
                0 => by_rule(
                    rng.below(4_000_000) * 529 + rng.below(23) * 23 + rng.below(23),
                    n,
                ),
                _ => random(&mut rng, n, length_bits, step_bits, 40, 40),
            };
            store(tally, version, &blocks, &[0, -1, 1]);
        }
        at_the_top(tally, version, n);
    }
}

/// Blocks that end just below the limit, with the greatest steps that fit.
fn at_the_top(tally: &mut Tally, version: Version, n: u64) {
    let top = LIMIT - 1;
    let count = n as usize;
    let mut lengths = vec![top / n; count];
    lengths[count - 1] = top - (n - 1) * (top / n);
    let steps = vec![top / n; count - 1];
    store(tally, version, &touching(0, &lengths, 0, &steps), &[0, -1]);
    for at in [0, count / 2, count - 1] {
        let mut one = vec![0; count];
        one[at] = top;
        let mut jump = vec![1; count - 1];
        if let Some(step) = jump.get_mut(at) {
            *step = top - (n - 2);
        }
        store(tally, version, &touching(0, &one, 0, &jump), &[0, -1]);
        let flat = touching(top, &vec![0; count], top - (n - 1), &vec![1; count - 1]);
        store(tally, version, &flat, &[0]);
    }
}

/// 65,536 blocks, and more; rows 3 to 5 in the last block come before 7.
fn most(tally: &mut Tally, version: Version) {
    tally.section_of(version, "stores: 65,535 to 65,537 blocks");
    for seed in [7, 529 * 3 + 23 * 5 + 9, 529 * 1000 + 23 * 22 + 22] {
        let blocks = by_rule(seed, MOST_BLOCKS as u64 + 2);
        for n in MOST_BLOCKS - 1..=MOST_BLOCKS + 2 {
            store(tally, version, &blocks[..n], &[0, -1, 1]);
        }
        for n in [MOST_BLOCKS, MOST_BLOCKS + 1] {
            for at in [0, 1, 40_000, n - 1] {
                for fault in [
                    |b: &mut Block| b.end = LIMIT,
                    |b: &mut Block| b.ord = LIMIT,
                    |b: &mut Block| b.start ^= 1,
                    |b: &mut Block| b.ord = 0,
                ] {
                    let mut spoiled = blocks[..n].to_vec();
                    fault(&mut spoiled[at]);
                    store(tally, version, &spoiled, &[0]);
                }
            }
        }
    }
    at_the_top(tally, version, MOST_BLOCKS as u64);
}
