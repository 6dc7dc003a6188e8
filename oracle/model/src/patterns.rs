//! Makers of automata and of intervals that tell them apart.

use crate::automaton::{Interval, Table};
use crate::numbers::Numbers;
use crate::settings::MOST_STATES;

/// A count of states, a third of them the most.
pub fn many(rng: &mut Numbers, round: usize) -> usize {
    match round % 3 {
        0 => MOST_STATES,
        1 => rng.within(1, 4) as usize,
        _ => rng.within(5, 63) as usize,
    }
}

/// A key of bytes that the table tells apart, the bytes beside them, or any.
pub fn key(rng: &mut Numbers, table: &Table, longest: u64) -> Vec<u8> {
    let runs: Vec<u8> = (1..256)
        .filter(|&b| table.next.chunks(256).any(|row| row[b] != row[b - 1]))
        .map(|b| b as u8)
        .collect();
    let length = rng.below(longest + 1);
    (0..length)
        .map(|_| match rng.below(8) {
            0 => 0x00,
            1 => 0xff,
            2 => rng.next() as u8,
            _ if runs.is_empty() => rng.pick(&[0x61, 0x62]),
            3 => rng.pick(&runs) - 1,
            _ => rng.pick(&runs),
        })
        .collect()
}

pub fn interval(rng: &mut Numbers, table: &Table, longest: u64) -> Interval {
    let one = key(rng, table, longest);
    if rng.one_in(8) {
        return (None, one);
    }
    // a common front; or the second key is the first with something after it
    let cut = rng.below(one.len() as u64 + 1) as usize;
    let other = match rng.below(4) {
        0 => key(rng, table, longest),
        1 => [&one[..], &key(rng, table, 2)].concat(),
        2 => [&one[..], &vec![0; rng.below(4) as usize]].concat(),
        _ => [&one[..cut], &key(rng, table, longest / 2 + 1)].concat(),
    };
    if rng.one_in(20) || one < other {
        (Some(one), other)
    } else {
        (Some(other), one)
    }
}

/// A flag for each state, seldom none at all.
pub fn flags(rng: &mut Numbers, m: usize) -> Vec<u8> {
    let mut flags: Vec<u8> = (0..m).map(|_| u8::from(rng.one_in(m as u64))).collect();
    if !flags.contains(&1) && !rng.one_in(6) {
        flags[rng.below(m as u64) as usize] = 1;
    }
    flags
}

/// A table of few runs, most states with a way into one that stays.
pub fn small(rng: &mut Numbers, m: usize) -> Table {
    let flags = flags(rng, m);
    let mut next = Vec::new();
    for state in 0..m {
        let mut to = if rng.one_in(2) {
            m - 1
        } else {
            rng.below(m as u64) as usize
        };
        let stays = state == m - 1;
        let mut bounds: Vec<u64> = (0..rng.below(4))
            .map(|_| rng.pick(&[1, 0x61, 0x62, 0x63, 0xfe, 0xff]))
            .collect();
        if rng.one_in(3) {
            bounds.push(rng.below(256));
        }
        for byte in 0..256 {
            if bounds.contains(&byte) {
                to = if rng.one_in(2) {
                    m - 1
                } else {
                    rng.below(m as u64) as usize
                };
            }
            next.push(if stays { state as u8 } else { to as u8 });
        }
    }
    Table::new(flags, next)
}

/// A table by draws, its seed, and how many draws of 256 lead to the last state.
pub fn drawn(rng: &mut Numbers, m: usize) -> (Table, u64, u64) {
    let flags = flags(rng, m);
    let seed = rng.bits(31);
    let k = rng.pick(&[0, 128, 240, 252, 254, 255]);
    let mut x = seed;
    let mut draw = || {
        x = (x * 1_103_515_245 + 12_345) % (1 << 31);
        x / 65_536
    };
    let table = Table::rule(flags, |s, _| {
        if s == m - 1 {
            return s;
        }
        let v = draw();
        if v % 256 < k {
            m - 1
        } else {
            (v / 256) as usize % m
        }
    });
    (table, seed, k)
}

/// Changes a key near its end: a byte more, a byte less, or the last byte beside it.
pub fn nearby(rng: &mut Numbers, word: &[u8]) -> Vec<u8> {
    let mut key = word.to_vec();
    match rng.below(5) {
        0 => key.push(rng.pick(&[0x00, 0x61, 0xff])),
        1 => drop(key.pop()),
        2 => {
            if let Some(last) = key.last_mut() {
                *last = last.saturating_sub(1);
            }
        }
        3 => {
            if let Some(last) = key.last_mut() {
                *last = last.saturating_add(1);
            }
        }
        _ => {}
    }
    key
}

/// An interval between two keys near these.
pub fn beside(rng: &mut Numbers, one: &[u8], other: &[u8]) -> Interval {
    let (one, other) = (nearby(rng, one), nearby(rng, other));
    let (start, end) = if one < other {
        (one, other)
    } else {
        (other, one)
    };
    (if rng.one_in(6) { None } else { Some(start) }, end)
}

/// All states, from state 0 on: up, down or in any order.
pub fn order(rng: &mut Numbers, m: usize, way: usize) -> Vec<usize> {
    let mut order: Vec<usize> = (1..m).collect();
    match way % 3 {
        0 => {}
        1 => order.reverse(),
        _ => {
            for i in (1..order.len()).rev() {
                order.swap(i, rng.below(i as u64 + 1) as usize);
            }
        }
    }
    order.insert(0, 0);
    order
}

/// A table whose only accepted string takes its states in the order given; the last of the order stays.
pub fn chain(rng: &mut Numbers, order: &[usize]) -> (Table, Vec<u8>) {
    let m = order.len();
    let word: Vec<u8> = (0..m - 2)
        .map(|_| rng.pick(&[0x00, 0x61, 0x62, 0xfe, 0xff]))
        .collect();
    let dead = order[m - 1];
    let mut next = vec![dead as u8; 256 * m];
    for (i, &byte) in word.iter().enumerate() {
        next[256 * order[i] + usize::from(byte)] = order[i + 1] as u8;
    }
    let mut flags = vec![0; m];
    flags[order[m - 2]] = 1;
    (Table::new(flags, next), word)
}

/// A table in which every byte leads on in some order, and from the last to the first; the last accepts.
pub fn ring(rng: &mut Numbers, m: usize, way: usize) -> Table {
    ring_to(&order(rng, m, way), m - 1)
}

/// A ring in the order given; the state at this place of it accepts.
pub fn ring_to(order: &[usize], accepted: usize) -> Table {
    let m = order.len();
    let mut flags = vec![0; m];
    flags[order[accepted]] = 1;
    let mut after = vec![0; m];
    for i in 0..m {
        after[order[i]] = order[(i + 1) % m];
    }
    Table::rule(flags, |s, _| after[s])
}
