//! Makers of automata with several strings as short in several parts of an interval, and of intervals for them.

use std::cmp::min;

use crate::automaton::{Interval, Table};
use crate::numbers::Numbers;
use crate::patterns::{flags, order, ring_to};
use crate::settings::MOST_STATES;

/// The bytes of keys.
pub const ALPHABETS: [&[u8]; 6] = [
    &[0x00, 0xff],
    &[0x00, 0x01, 0xfe, 0xff],
    b"ab",
    b"a\xff",
    &[0x00, 0x61, 0x62, 0xff],
    b"0369",
];

/// Up to so many bytes, the same one often again and again.
pub fn word(rng: &mut Numbers, bytes: &[u8], longest: u64) -> Vec<u8> {
    let length = rng.below(longest + 1) as usize;
    let mut word = Vec::new();
    while word.len() < length {
        let byte = match rng.below(12) {
            0 => rng.next() as u8,
            1 => rng.pick(bytes).wrapping_add(1),
            2 => rng.pick(bytes).wrapping_sub(1),
            _ => rng.pick(bytes),
        };
        let run = rng.pick(&[1, 1, 1, 2, 3, length]);
        word.resize(min(word.len() + run, length), byte);
    }
    word
}

/// An interval whose keys share a front, or whose start is just below its end, or that has no start.
pub fn interval(rng: &mut Numbers, bytes: &[u8], longest: u64) -> Interval {
    let front = word(rng, bytes, longest / 3);
    let key = |rng: &mut Numbers| [&front[..], &word(rng, bytes, longest)].concat();
    let (one, other) = (key(rng), key(rng));
    let (start, end) = match rng.below(8) {
        0 => return (None, one),
        1 => (one.clone(), [&one[..], &[0]].concat()),
        2 => (one.clone(), one_up(&one)),
        3 => (one.clone(), [&one[..], &word(rng, bytes, longest)].concat()),
        4 => {
            let after = [rng.below(longest), rng.below(longest)].map(|length| length as usize);
            let low = [&one[..], &vec![0xff; after[0]]].concat();
            (low, [&one_up(&one)[..], &vec![0; after[1]]].concat())
        }
        _ => (one, other),
    };
    if start <= end || rng.one_in(20) {
        (Some(start), end)
    } else {
        (Some(end), start)
    }
}

/// The key with its last byte one up; with a byte more where that can't be.
fn one_up(key: &[u8]) -> Vec<u8> {
    match key.split_last() {
        Some((&last, front)) if last < 0xff => [front, &[last + 1]].concat(),
        _ => [key, &[0]].concat(),
    }
}

/// A row of runs that begin at the bytes of keys and beside them.
fn row(rng: &mut Numbers, bytes: &[u8], mut to: impl FnMut(&mut Numbers) -> usize) -> Vec<u8> {
    let mut next = Vec::new();
    let mut state = to(rng);
    for byte in 0..=u8::MAX {
        if bytes.iter().any(|&at| byte.abs_diff(at) <= 1) || rng.one_in(200) {
            state = to(rng);
        }
        next.push(state as u8);
    }
    next
}

/// One to three rows that the states share, so that many bytes come as near in many states.
pub fn few_rows(rng: &mut Numbers, m: usize, bytes: &[u8]) -> Table {
    let count = rng.within(1, 3) as usize;
    let most = rng.pick(&[1, 2, m]).min(m);
    let mut rows = Vec::new();
    for _ in 0..count {
        let near = rng.below(m as u64) as usize;
        rows.push(row(rng, bytes, |rng| {
            (near + rng.below(most as u64) as usize) % m
        }));
    }
    let next = (0..m).flat_map(|_| rows[rng.below(count as u64) as usize].clone());
    let next = next.collect();
    Table::new(flags(rng, m), next)
}

/// Bytes lead one state nearer to the last, which accepts, or keep the distance, or lead back.
pub fn steps(rng: &mut Numbers, m: usize, bytes: &[u8]) -> Table {
    let way = rng.below(3) as usize;
    let order = order(rng, m, way);
    let mut next = vec![0; 256 * m];
    let back = rng.pick(&[2, 3, 9]);
    for i in 0..m {
        let row = row(rng, bytes, |rng| match rng.below(8) {
            0 => order[i],
            _ if rng.one_in(back) => order[rng.below(i as u64 + 1) as usize],
            _ => order[(i + 1) % m],
        });
        next[256 * order[i]..][..256].copy_from_slice(&row);
    }
    let mut flags = vec![0; m];
    flags[order[m - 1]] = 1;
    flags[0] |= u8::from(rng.one_in(8));
    Table::new(flags, next)
}

/// Bytes that go on along a key, and those between them that leave it.
pub const ALONG: &[u8] = &[0x10, 0x20, 0x30, 0x40, 0x41, 0x50, 0x60, 0x70, 0x80];

/// Up to `most` states: some that the bytes of `ALONG` go round in, and others that lead, one by one, to a flag of 1. Each run of
/// bytes between two of `ALONG` leaves the round for a place of its own; `slope` says whether low or high ones come nearer. Those below
/// or above all of `ALONG` may lead to nothing.
pub fn rounds(rng: &mut Numbers, most: usize, slope: u64) -> Table {
    let round = rng.within(1, 5) as usize;
    let line = rng.within(2, (most - round - 1) as u64) as usize;
    let dead = round + line;
    let outside = [rng.one_in(2), rng.one_in(2)];
    let mut next = Vec::new();
    for state in 0..round {
        let mut at = dead;
        for byte in 0..=u8::MAX {
            if byte == 0 || ALONG.contains(&(byte - 1)) {
                at = match byte {
                    0x00 if outside[0] => dead,
                    0x81 if outside[1] => dead,
                    _ => round + leaving(rng, line, slope, byte / 16),
                };
            }
            let along = ALONG.contains(&byte);
            next.push(if along { (state + 1) % round } else { at } as u8);
        }
    }
    next.extend([dead as u8; 256]);
    for nearer in round..dead - 1 {
        next.extend(row(rng, ALONG, |rng| match rng.one_in(3) {
            true => dead,
            false => nearer,
        }));
    }
    next.extend([dead as u8; 256]);
    let mut flags = vec![0; dead + 1];
    flags[round] = 1;
    flags[rng.below(round as u64) as usize] |= u8::from(rng.one_in(6));
    Table::new(flags, next)
}

/// How many states of the line are left after a byte of this run; all of them: none of its strings is accepted.
fn leaving(rng: &mut Numbers, line: usize, slope: u64, run: u8) -> usize {
    let sloped = match slope {
        0 => rng.below(10),
        1 => run.into(),
        _ => 10 - u64::from(run.min(10)),
    };
    (sloped as usize * line / 10 + rng.below(3) as usize).min(line)
}

/// Keys over `ALONG` that differ in one step, with bytes behind it that fall along start and rise along end, or go up and down.
pub fn round_interval(rng: &mut Numbers, longest: u64) -> Interval {
    let length = rng.below(4);
    let front: Vec<u8> = (0..length).map(|_| rng.pick(ALONG)).collect();
    let mut key = |falls: bool| {
        let falls = falls != rng.one_in(8);
        along(rng, longest, falls)
    };
    let (start, end) = (key(true), key(false));
    if rng.one_in(5) {
        return (None, end);
    }
    if rng.one_in(6) {
        return (Some(front.clone()), [&front[..], &end].concat());
    }
    let [low, high] = rng.pick(&[[0x40, 0x41], [0x40, 0x41], [0x41, 0x50], [0x10, 0x80]]);
    (
        Some([&front[..], &[low], &start].concat()),
        [&front[..], &[high], &end].concat(),
    )
}

/// Bytes from one end of `ALONG` to the other, some a step off, or in any order.
fn along(rng: &mut Numbers, longest: u64, falls: bool) -> Vec<u8> {
    let top = ALONG.len() as u64 - 1;
    let length = rng.below(longest + 1);
    if rng.one_in(4) {
        return (0..length).map(|_| rng.pick(ALONG)).collect();
    }
    let byte = |i: u64| {
        let level = i * (top + 1) / length;
        let up = if falls { top - level } else { level };
        ALONG[min(up + rng.below(2), top) as usize]
    };
    (0..length).map(byte).collect()
}

/// An interval and a ring of 64 states, whose example takes the longer key's length and a byte for each state.
pub fn full(rng: &mut Numbers, way: usize, longest: u64) -> (Interval, Table) {
    let bytes = rng.pick(&ALPHABETS);
    let front = word(rng, bytes, 3);
    let low = rng.below(255) as u8;
    let run = rng.within(1, longest) as usize;
    let start = [&front[..], &[low], &vec![0xff; run]].concat();
    let zeros = rng.below(min(run as u64, 64)) as usize;
    let end = [&front[..], &[low + 1], &vec![0; zeros]].concat();
    // of the strings between, those of the start's length aren't above it
    let order = order(rng, MOST_STATES, way);
    let table = ring_to(&order, start.len() % MOST_STATES);
    ((Some(start), end), table)
}
