//! Keys in every order, in files of all sizes: searches may go one after the other or side by side.

use model::around;
use model::batch::KeyList;
use model::blocks::{random, touching};
use model::files::{File as Parts, rising, short_keys};
use model::key_lists::{LAYOUTS, Layout, ORDERS};
use model::numbers::Numbers;
use model::settings::{LONGEST_KEY, MOST_BLOCKS, MOST_KEYS};
use model::version::Version;

use crate::calls::opened::{self, File};
use crate::tally::Tally;

pub fn run(tally: &mut Tally, version: Version) {
    small(tally, version);
    large(tally, version);
    by_chance(tally, version, version.pick(1_500, 400));
}

fn open(tally: &mut Tally, version: Version, separators: &[Vec<u8>]) -> File {
    let count = separators.len();
    let blocks = touching(7, &vec![3; count], 5, &vec![2; count - 1]);
    let parts = Parts::written(version, &blocks, separators);
    let file = opened::open(tally, version, &parts.bytes());
    assert_eq!(file.opening().no(), 0);
    file
}

/// Every order and layout of so many keys.
fn orders(tally: &mut Tally, rng: &mut Numbers, file: &File, pool: &[Vec<u8>], counts: &[usize]) {
    for &count in counts {
        for order in ORDERS {
            let keys = order.keys(rng, pool, count);
            for layout in LAYOUTS {
                file.batch(tally, &layout.list(&keys), count + rng.pick(&[0, 1, 9]));
            }
        }
    }
}

/// Each separator and the keys around it, in lists of so many: high, low and middle ones by turns.
fn around_all(tally: &mut Tally, file: &File, count: usize) {
    let ids = (0..file.n()).collect();
    let keys: Vec<Vec<u8>> = around::keys(&file.opening().keys, &ids)
        .into_iter()
        .collect();
    let third = keys.len().div_ceil(3);
    let turns = (0..third).flat_map(|i| [i + 2 * third, i, i + third]);
    let turned: Vec<&Vec<u8>> = turns.filter_map(|i| keys.get(i)).collect();
    assert_eq!(turned.len(), keys.len());
    for keys in turned.chunks(count) {
        file.batch(tally, &Layout::Touching.list(keys), keys.len());
    }
}

const COUNTS: [usize; 9] = [1, 2, 3, 7, 8, 9, 32, MOST_KEYS - 1, MOST_KEYS];

fn small(tally: &mut Tally, version: Version) {
    tally.section_of(
        version,
        "batches: keys in every order, files of 2 to 257 blocks",
    );
    let mut rng = Numbers::from_seed(140);
    let all = &[2, 3, 4, 5, 8, 31, 64, 127, 128, 129, 200][..];
    for &n in version.pick(all, &[2, 129, 257]) {
        for separators in [short_keys(n), rising(&mut rng, n as u64, 4), long(n, 1_000)] {
            let file = open(tally, version, &separators);
            let ids = around::ids(version, &mut rng, n as u64, 12);
            let pool: Vec<Vec<u8>> = around::keys(&separators, &ids).into_iter().collect();
            orders(tally, &mut rng, &file, &pool, &COUNTS);
            around_all(tally, &file, MOST_KEYS);
            around_all(tally, &file, 7);
            empty(tally, &file);
        }
    }
}

/// Keys of no bytes: before all others, between them and at the area's end.
fn empty(tally: &mut Tally, file: &File) {
    let bytes = b"zb".to_vec();
    for pairs in [
        vec![0, 0],
        vec![2, 0],
        vec![0, 0, 0, 2, 2, 0],
        vec![0, 2, 1, 0, 1, 1, 2, 0, 2, 0],
        [2, 0].repeat(MOST_KEYS),
        [[0, 1].repeat(MOST_KEYS - 1), vec![2, 0]].concat(),
    ] {
        let room = pairs.len() / 2;
        file.batch(
            tally,
            &KeyList {
                pairs,
                bytes: bytes.clone(),
            },
            room,
        );
    }
    let none = KeyList {
        pairs: [0, 0].repeat(9),
        bytes: vec![],
    };
    file.batch(tally, &none, 9);
}

/// Keys that share a long front and count after it.
fn long(n: usize, front: usize) -> Vec<Vec<u8>> {
    let front = vec![0x6d; front];
    let number = |i: usize| i.to_be_bytes()[5..].to_vec();
    (0..n).map(|i| [&front[..], &number(i)].concat()).collect()
}

/// Each key is the front of the next one: 0 bytes, 1 byte and so on, and from the longest on one that counts.
fn growing(n: usize) -> Vec<Vec<u8>> {
    let after = long(n, 1);
    (0..n)
        .map(|i| {
            if i <= LONGEST_KEY {
                vec![0x61; i]
            } else {
                after[i].clone()
            }
        })
        .collect()
}

/// Sizes at which searches begin to go side by side, and the largest.
fn large(tally: &mut Tally, version: Version) {
    tally.section_of(version, "batches: files of 1,023 to 65,536 blocks");
    let mut rng = Numbers::from_seed(141);
    let all = [
        1_023, 1_024, 2_047, 2_049, 4_094, 4_095, 4_096, 4_097, 4_098, 8_191, 8_192, 8_193,
    ];
    for &n in version.pick(&all[..], &[1_023, 4_097]) {
        for separators in [
            long(n, 0),
            long(n, 30),
            growing(n),
            rising(&mut rng, n as u64, 6),
        ] {
            let file = open(tally, version, &separators);
            many(tally, &mut rng, &file, &separators);
            around_all(tally, &file, if n % 2 == 0 { MOST_KEYS } else { 9 });
        }
    }
    for &n in version.pick(&[MOST_BLOCKS - 1, MOST_BLOCKS][..], &[MOST_BLOCKS]) {
        for separators in [long(n, 0), long(n, 9)] {
            let file = open(tally, version, &separators);
            many(tally, &mut rng, &file, &separators);
        }
    }
}

fn many(tally: &mut Tally, rng: &mut Numbers, file: &File, separators: &[Vec<u8>]) {
    let ids = around::ids(file.version, rng, separators.len() as u64, 60);
    let pool: Vec<Vec<u8>> = around::keys(separators, &ids).into_iter().collect();
    orders(tally, rng, file, &pool, &COUNTS);
    let above = vec![vec![0xff; 3], vec![0xff; 2_000]];
    orders(tally, rng, file, &above, &[7, 8, MOST_KEYS]);
}

/// Lists by chance over files by chance: any keys over few bytes, some words replaced.
fn by_chance(tally: &mut Tally, version: Version, files: u64) {
    tally.section_of(version, "batches: lists by chance over files by chance");
    let mut rng = Numbers::from_seed(142);
    for round in 0..files {
        let n = if round % 100 == 0 {
            rng.within(1_000, 1_100)
        } else {
            rng.within(2, 40)
        };
        let separators = rising(&mut rng, n, 5);
        let blocks = random(&mut rng, n, 9, 4, 20, 20);
        let parts = Parts::written(version, &blocks, &separators);
        let file = opened::open(tally, version, &parts.bytes());
        for _ in 0..30 {
            let (list, room) = list(&mut rng);
            file.batch(tally, &list, room);
        }
    }
}

fn list(rng: &mut Numbers) -> (KeyList, usize) {
    let count = match rng.below(4) {
        0 => rng.below(MOST_KEYS as u64 + 1),
        1 => rng.pick(&[7, 8, 9, 63, 64, 65]),
        _ => rng.below(10),
    };
    let key = |rng: &mut Numbers| -> Vec<u8> {
        let length = rng.below(6);
        let byte = |_| rng.pick(&[0x00, 0x01, 0x61, 0x62, 0xfe, 0xff, 0xff]);
        (0..length).map(byte).collect()
    };
    let keys: Vec<Vec<u8>> = (0..count).map(|_| key(rng)).collect();
    let mut list = rng.pick(&LAYOUTS).list(&keys);
    if rng.one_in(3) && !list.pairs.is_empty() {
        let at = rng.below(list.pairs.len() as u64) as usize;
        let (old, len) = (list.pairs[at], list.bytes.len() as u64);
        list.pairs[at] = rng.pick(&[
            0,
            old + 1,
            old.saturating_sub(1),
            len,
            len + 1,
            u64::MAX - old,
        ]);
    }
    if rng.one_in(20) {
        list.pairs.pop();
    }
    let count = list.count();
    let room = rng.pick(&[
        count,
        count,
        count,
        count + 1,
        count + 7,
        count.saturating_sub(1),
    ]);
    (list, room)
}
