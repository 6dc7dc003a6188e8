//! Lists with records that aren't the file's: searches that meet a key outside the bytes at the first, a middle or the last key.

use model::batch::KeyList;
use model::blocks::touching;
use model::files::{File as Parts, rising};
use model::key_lists::{LAYOUTS, Layout, ORDERS};
use model::numbers::Numbers;
use model::opening::Opened;
use model::settings::{MOST_BLOCKS, MOST_KEYS};
use model::version::Version;

use crate::calls::opened::{self, File};
use crate::tally::Tally;

pub fn run(tally: &mut Tally, version: Version) {
    tally.section_of(
        version,
        "batches: keys outside the bytes, met at the first, a middle and the last key",
    );
    let all = [2, 3, 129, 1_024, 4_095, 4_096, 4_097, 8_192, MOST_BLOCKS];
    for &n in version.pick(&all[..], &[2, 257, 4_096]) {
        cut(tally, version, n);
        broken_pairs(tally, version, n);
    }
    by_chance(tally, version, version.pick(400, 150));
}

/// Keys of three bytes that count.
fn parts(version: Version, n: usize) -> (Parts, Vec<Vec<u8>>) {
    let keys: Vec<Vec<u8>> = (0..n as u32)
        .map(|i| i.to_be_bytes()[1..].to_vec())
        .collect();
    let blocks = touching(0, &vec![1; n], 0, &vec![1; n - 1]);
    (Parts::written(version, &blocks, &keys), keys)
}

/// Low keys with one other key at a place, and the same in a row.
fn with_one(low: &[u8], other: &[u8]) -> Vec<KeyList> {
    let mut lists = Vec::new();
    for count in [1, 2, 3, 7, 8, 9, MOST_KEYS - 1, MOST_KEYS] {
        for place in [0, count / 2, count - 1] {
            let mut keys = vec![low; count];
            keys[place] = other;
            lists.push(Layout::Touching.list(&keys));
        }
        lists.push(Layout::Over.list(&vec![other; count]));
    }
    lists
}

fn ask(tally: &mut Tally, file: &File, lists: &[KeyList]) {
    for list in lists {
        for room in [list.count(), list.count() + 2, list.count() - 1] {
            file.batch(tally, list, room);
        }
    }
}

/// The record's directory ends before the last key does, before its first byte or in the middle of the pairs.
fn cut(tally: &mut Tally, version: Version, n: usize) {
    let (parts, keys) = parts(version, n);
    let mut file = opened::open(tally, version, &parts.bytes());
    let own = file.opening().record;
    let lists = with_one(&keys[0], &[0xff]);
    for less in [1, 3, 3 * n as u64, 3 * n as u64 + 1, own.directory.1] {
        let directory = (0, own.directory.1 - less);
        file.set_record(Opened { directory, ..own });
        ask(tally, &file, &lists);
    }
    // one byte later: other numbers are read as pairs
    let directory = (1, own.directory.1);
    file.set_record(Opened { directory, ..own });
    ask(tally, &file, &lists);
}

/// A pair in the bytes themselves points far away: the first, a middle one or the last.
fn broken_pairs(tally: &mut Tally, version: Version, n: usize) {
    let (parts, keys) = parts(version, n);
    for at in [0, n / 2, n - 1] {
        let mut parts = parts.clone();
        parts.pair(at, u32::MAX, u32::MAX);
        let mut file = opened::open(tally, version, &parts.bytes());
        assert_ne!(file.opening().no(), 0);
        file.set_record(file.opening().record);
        let low = if at == 0 { &keys[n - 1] } else { &keys[0] };
        ask(tally, &file, &with_one(low, &keys[at]));
    }
}

/// Records of other files, and some of their numbers changed.
fn by_chance(tally: &mut Tally, version: Version, count: u64) {
    tally.section_of(version, "batches: records of other files, by chance");
    let mut rng = Numbers::from_seed(143);
    let mut made: Vec<(Vec<u8>, Opened)> = Vec::new();
    for n in [2, 9, 130, 4_096, 4_200] {
        let blocks = touching(0, &vec![1; n], 0, &vec![1; n - 1]);
        let keys = rising(&mut rng, n as u64, 6);
        let bytes = Parts::written(version, &blocks, &keys).bytes();
        let record = opened::open(tally, version, &bytes).opening().record;
        made.push((bytes, record));
    }
    for _ in 0..count {
        let (bytes, _) = &made[rng.below(made.len() as u64) as usize];
        let mut numbers = made[rng.below(made.len() as u64) as usize].1.numbers();
        for _ in 0..rng.below(3) {
            let at = rng.below(numbers.len() as u64) as usize;
            numbers[at] = rng.pick(&[
                numbers[at].wrapping_sub(1),
                numbers[at].wrapping_add(1),
                4,
                4_096,
                80_000,
            ]);
        }
        let mut file = opened::open(tally, version, bytes);
        file.set_record(Opened::of(numbers));
        for _ in 0..8 {
            let pool = rising(&mut rng, 30, 4);
            let count = rng.pick(&[1, 5, 7, 8, 9, 40, MOST_KEYS]);
            let keys = rng.pick(&ORDERS).keys(&mut rng, &pool, count);
            file.batch(tally, &rng.pick(&LAYOUTS).list(&keys), count);
        }
    }
}
