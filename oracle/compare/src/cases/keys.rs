//! Pairs of keys: common prefixes and shortening.

use model::areas::Areas;
use model::numbers::Numbers;

use crate::calls::builder::Builder;
use crate::calls::keys::common_prefix_len;
use crate::tally::Tally;

pub fn run(tally: &mut Tally) {
    pairs(tally);
    long(tally);
    random(tally, 100_000);
}

/// All keys over these bytes up to a length, the shorter ones first.
pub fn all(bytes: &[u8], longest: usize) -> Vec<Vec<u8>> {
    let mut keys = vec![vec![]];
    let mut last = keys.clone();
    for _ in 0..longest {
        let longer = |key: &Vec<u8>| -> Vec<Vec<u8>> {
            let with = |&byte: &u8| [&key[..], &[byte]].concat();
            bytes.iter().map(with).collect()
        };
        last = last.iter().flat_map(longer).collect();
        keys.extend(last.clone());
    }
    keys
}

/// A builder with one block whose key this is, after some bytes of the key area.
pub fn one_key(key: &[u8], before: usize, after: usize) -> Builder {
    let front = vec![0x77; before];
    let rest = vec![0x88; after];
    let length = key.len() as u64;
    Builder::raw(Areas {
        n: 1,
        blocks: vec![10, 20, 5, before as u64, length, 1, 2, 3, 4, 5],
        keys: [&front[..], key, &rest].concat(),
    })
}

fn pair(tally: &mut Tally, left: &[u8], right: &[u8]) {
    common_prefix_len(tally, left, right);
    one_key(left, left.len() % 3, right.len() % 4).shorten(tally, right);
}

/// Every pair of keys of up to four bytes, and of up to three over more bytes.
fn pairs(tally: &mut Tally) {
    tally.section("keys: every pair of short ones");
    for (bytes, longest) in [
        (&[0x00, 0x01, 0xfe, 0xff][..], 4),
        (b"\x00a\x7f\x80b\xff", 3),
    ] {
        let keys = all(bytes, longest);
        for left in &keys {
            for right in &keys {
                pair(tally, left, right);
            }
        }
    }
}

/// Keys that differ at each place, with runs of FF after it; keys of up to 1,025 bytes.
fn long(tally: &mut Tally) {
    tally.section("keys: up to 1,025 bytes, long common fronts");
    let mut rng = Numbers::from_seed(101);
    for length in (0..70).chain([
        127, 128, 129, 255, 256, 257, 511, 512, 1022, 1023, 1024, 1025,
    ]) {
        let same = vec![0xff; length];
        pair(tally, &same, &same);
        for at in (0..length).filter(|&at| length < 70 || at % 61 == 0 || at + 4 > length) {
            let mut left = rng.bytes(length as u64);
            left[at] = 0x41;
            for (byte, run) in [(0x40, 0), (0x42, 0), (0x42, 3), (0x42, length)] {
                let end = left.len().min(at + 1 + run);
                left[at + 1..end].fill(0xff);
                let mut right = left.clone();
                right[at] = byte;
                pair(tally, &left, &right);
                pair(tally, &left, &right[..=at]);
                pair(tally, &left[..at], &left);
                pair(tally, &left, &left[..at]);
            }
        }
    }
}

/// By chance, with a common front.
fn random(tally: &mut Tally, count: u64) {
    tally.section("keys: by chance");
    let mut rng = Numbers::from_seed(102);
    for _ in 0..count {
        let longest = rng.pick(&[3, 9, 17, 40, 300]);
        let length = rng.below(longest);
        let front = rng.bytes(length);
        let mut end = |most: u64| -> Vec<u8> {
            let length = rng.below(most);
            let bytes = (0..length).map(|_| rng.pick(&[0x00, 0x41, 0xfe, 0xff, 0xff]));
            bytes.collect()
        };
        let (left, right) = (end(8), end(8));
        pair(
            tally,
            &[&front[..], &left].concat(),
            &[&front[..], &right].concat(),
        );
    }
}
