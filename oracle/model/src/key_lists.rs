//! Makers of key lists: ways to lay keys into an area, orders of keys, and causes of row 26.

use crate::batch::{Cause, KeyList};
use crate::numbers::Numbers;
use crate::settings::MOST_KEYS;

/// How keys lie in their area.
#[derive(Clone, Copy, Debug, PartialEq, Eq)]
pub enum Layout {
    /// one right after the other, and nothing else
    Touching,
    /// with bytes before, between and after them
    Apart,
    /// over each other as far as their bytes allow: equal offsets and parts that overlap
    Over,
}

pub const LAYOUTS: [Layout; 3] = [Layout::Touching, Layout::Apart, Layout::Over];

impl Layout {
    pub fn list<K: AsRef<[u8]>>(self, keys: &[K]) -> KeyList {
        let mut list = KeyList::default();
        let mut before = 0;
        for (i, key) in keys.iter().map(AsRef::as_ref).enumerate() {
            if self == Layout::Apart {
                list.bytes.extend([0xff, 0x00, 0x61].iter().take(1 + i % 3));
            }
            let at = match self {
                Layout::Over => list.first_place(before, key),
                _ => list.bytes.len(),
            };
            let there = list.bytes.len() - at;
            list.bytes.extend(key.iter().skip(there));
            list.pairs.extend([at as u64, key.len() as u64]);
            before = at;
        }
        if self == Layout::Apart {
            list.bytes.push(0xff);
        }
        list
    }
}

impl KeyList {
    /// The first place from `from` on whose bytes, as far as there are any, are the key's.
    fn first_place(&self, from: usize, key: &[u8]) -> usize {
        let fits = |at: &usize| {
            let there = &self.bytes[*at..];
            let shared = there.len().min(key.len());
            there[..shared] == key[..shared]
        };
        (from..self.bytes.len())
            .find(fits)
            .unwrap_or(self.bytes.len())
    }
}

/// How keys follow each other.
#[derive(Clone, Copy, Debug, PartialEq, Eq)]
pub enum Order {
    Rising,
    Falling,
    Mixed,
    /// all the same
    Same,
    /// the highest and the lowest by turns
    Turns,
    /// each twice
    Twice,
}

pub const ORDERS: [Order; 6] = [
    Order::Rising,
    Order::Falling,
    Order::Mixed,
    Order::Same,
    Order::Turns,
    Order::Twice,
];

impl Order {
    /// So many of these keys, of which there is one at least; they come again where there are fewer.
    pub fn keys(self, rng: &mut Numbers, pool: &[Vec<u8>], count: usize) -> Vec<Vec<u8>> {
        let mut all: Vec<&Vec<u8>> = pool.iter().collect();
        mix(rng, &mut all);
        let mut keys: Vec<Vec<u8>> = all.into_iter().cycle().take(count).cloned().collect();
        match self {
            Order::Mixed => (),
            Order::Rising => keys.sort(),
            Order::Falling => {
                keys.sort();
                keys.reverse();
            }
            Order::Same => {
                let first = keys.first().cloned();
                keys.fill(first.unwrap_or_default());
            }
            Order::Turns => {
                keys.sort();
                keys = (0..count)
                    .map(|i| keys[if i % 2 == 0 { count - 1 - i / 2 } else { i / 2 }].clone())
                    .collect();
            }
            Order::Twice => keys = (0..count).map(|i| keys[i / 2].clone()).collect(),
        }
        keys
    }
}

fn mix<T>(rng: &mut Numbers, all: &mut [T]) {
    for i in (1..all.len()).rev() {
        all.swap(i, rng.below(i as u64 + 1) as usize);
    }
}

/// Ways in which a pair can end beyond its area.
pub const WAYS: usize = 9;

/// A list of `keys` keys (two at least; one above the limit where that is a cause) that has these causes to be refused and no other,
/// and the room for its ids. The pair at `place` is the one that is beyond or falls.
pub fn refused(keys: usize, causes: &[Cause], place: usize, way: usize) -> (KeyList, usize) {
    let has = |cause: Cause| causes.contains(&cause);
    let count = if has(Cause::TooMany) {
        MOST_KEYS + 1
    } else {
        keys
    };
    let place = place.min(count - 1);
    let mut list = KeyList {
        pairs: (0..count).flat_map(|i| [4 + 2 * i as u64, 1]).collect(),
        bytes: (0..2 * count + 4)
            .map(|i| b'a' + (i * 5 % 7) as u8)
            .collect(),
    };
    let place = if has(Cause::Falls) {
        place.max(1)
    } else {
        place
    };
    let last = place == count - 1;
    if has(Cause::Falls) {
        list.pairs[2 * place] = list.pairs[2 * place - 2] - 1;
    }
    if has(Cause::Beyond) {
        let free = last && !has(Cause::Falls);
        let pair = beyond(list.pairs[2 * place], list.bytes.len() as u64, way, free);
        list.pairs[2 * place..2 * place + 2].copy_from_slice(&pair);
    }
    if has(Cause::Odd) {
        list.pairs.push([0, 2, u64::MAX][way % 3]);
    }
    let room = match (has(Cause::NoRoom), way % 3) {
        (true, 0) => 0,
        (true, _) => count - 1,
        (false, more) => count + more,
    };
    (list, room)
}

/// A pair that ends beyond `len` bytes; from 2^64 on its sum wraps. Its offset moves only where it is `free` to.
fn beyond(offset: u64, len: u64, way: usize, free: bool) -> [u64; 2] {
    match way % WAYS {
        0 => [offset, len - offset + 1],
        1 => [offset, u64::MAX - offset],
        2 => [offset, u64::MAX - offset + 1],
        3 => [offset, u64::MAX - offset + 2],
        4 => [offset, u64::MAX],
        5 if free => [len + 1, 0],
        6 if free => [u64::MAX, 1],
        7 if free => [u64::MAX, 2],
        8 if free => [u64::MAX, u64::MAX],
        _ => [offset, 1 << 63],
    }
}
