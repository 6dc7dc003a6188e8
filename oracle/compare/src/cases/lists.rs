//! Lists of add and shorten calls from a fresh builder.

use model::blocks::block;
use model::numbers::Numbers;
use model::rust::Block;
use model::settings::{LIMIT, LIMIT_BITS, STRIDE};
use model::version::{V3, V4};

use crate::calls::builder::Builder;
use crate::tally::Tally;

pub fn run(tally: &mut Tally) {
    short(tally);
    random(tally, 50_000);
}

#[derive(Clone)]
enum Step {
    Add(Block, Vec<u8>),
    Shorten(Vec<u8>),
}

impl Step {
    fn run(&self, tally: &mut Tally, builder: &mut Builder) -> u64 {
        match self {
            Step::Add(block, key) => builder.add(tally, *block, key),
            Step::Shorten(next) => builder.shorten(tally, next),
        }
    }
}

/// Few numbers and few keys, every one with every other.
fn alphabet() -> Vec<Step> {
    let keys: [&[u8]; 5] = [b"", b"a", b"a\xff", b"ab\x01", b"b"];
    let mut steps = Vec::new();
    for (start, end) in [(0, 0), (0, 1), (1, 1), (1, 2), (1, 0)] {
        for ord in [0, 1] {
            let add = |key: &&[u8]| Step::Add(block(start, end, ord), key.to_vec());
            steps.extend(keys.iter().map(add));
        }
    }
    let shorten = |key: &[u8]| Step::Shorten(key.to_vec());
    steps.extend(keys.iter().map(|key| shorten(key)));
    steps.push(shorten(b"c"));
    steps
}

/// Runs every list of up to `most` calls; each list is finished.
fn grow(tally: &mut Tally, steps: &[Step], builder: &Builder, most: usize) {
    for step in steps {
        let mut next = builder.clone();
        step.run(tally, &mut next);
        let room = if most == 2 { -1 } else { 0 };
        next.finish(tally, V3, &[room]);
        next.finish(tally, V4, &[room]);
        if most > 1 {
            grow(tally, steps, &next, most - 1);
        }
    }
}

/// Every list of up to three calls, in areas with room and without.
fn short(tally: &mut Tally) {
    tally.section("lists: every one of up to three calls, finished");
    let steps = alphabet();
    for (room, key_room) in [(15, 9), (10, 3), (14, 1)] {
        grow(tally, &steps, &Builder::fresh(room, key_room), 3);
    }
}

/// A key near the last one, so that its order isn't known before.
fn key(rng: &mut Numbers, last: &[u8]) -> Vec<u8> {
    let front = rng.below(last.len() as u64 + 1) as usize;
    let length = rng.below(5);
    let mut key = last[..front].to_vec();
    key.extend((0..length).map(|_| rng.pick(&[0x00, 0x61, 0x62, 0xfe, 0xff])));
    key
}

/// An add that is often taken.
fn add(rng: &mut Numbers, builder: &Builder) -> Step {
    let last = builder.areas.view(builder.areas.n).last;
    let (before, separator) = last.unwrap_or((block(0, rng.bits(30), 0), vec![]));
    let bits = rng.pick(&[0, 3, 10, 30, 48, LIMIT_BITS - 1, LIMIT_BITS]);
    let start = before.end.wrapping_add(if rng.one_in(16) {
        rng.pick(&[1, u64::MAX])
    } else {
        0
    });
    let mut end = start.saturating_add(rng.bits(bits));
    if rng.one_in(16) {
        end = rng.pick(&[start.wrapping_sub(1), LIMIT - 1, LIMIT, u64::MAX]);
    }
    let bits = rng.pick(&[0, 1, 4, 20, 48, LIMIT_BITS - 1]);
    let mut ord = before
        .ord
        .saturating_add(u64::from(!rng.one_in(16)) + rng.bits(bits));
    if rng.one_in(24) {
        ord = rng.pick(&[0, LIMIT - 1, LIMIT, u64::MAX]);
    }
    let mut name = key(rng, &separator);
    if !rng.one_in(8) && name <= separator {
        name = [&separator[..], &name[..name.len().min(1)], b"\x00"].concat();
    }
    Step::Add(block(start, end, ord), name)
}

fn step(rng: &mut Numbers, builder: &Builder) -> Step {
    if rng.one_in(3) {
        let last = builder.areas.view(builder.areas.n).last;
        return Step::Shorten(key(rng, &last.map_or(vec![], |last| last.1)));
    }
    add(rng, builder)
}

/// Lists of up to 30 calls by chance; seldom keys about as long as may be.
fn random(tally: &mut Tally, count: u64) {
    tally.section("lists: by chance, up to 30 calls");
    let mut rng = Numbers::from_seed(103);
    for _ in 0..count {
        let calls = rng.within(1, 30);
        let blocks = rng.below(calls + 1) as usize;
        let key_room = rng.below(8 * calls);
        let mut builder =
            Builder::fresh(STRIDE * blocks + rng.below(6) as usize, key_room as usize);
        for _ in 0..calls {
            step(&mut rng, &builder).run(tally, &mut builder);
        }
        let room = rng.pick(&[0, 0, -1, 1, 40, -1000]);
        builder.finish(tally, V3, &[room]);
        builder.finish(tally, V4, &[room]);
    }
}
