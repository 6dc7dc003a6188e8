//! Rows 10 to 13, broken late: the footer, the last pairs, the last keys.

use model::files::File as Parts;
use model::settings::{LONGEST_KEY, MOST_BLOCKS};

use super::{Fault, Whole};
use crate::tally::Tally;

pub fn footers(tally: &mut Tally, whole: &Whole) {
    let len = whole.parts.bytes().len() as u64;
    let far = [len, len + 1, 1 << 32, 1 << 63, u64::MAX - 15, u64::MAX];
    for beyond in [len - 15, len - 14, len - 9, len - 8, len - 7]
        .into_iter()
        .chain(far)
    {
        let mut parts = whole.parts.clone();
        parts.directory_len = beyond;
        whole.open(tally, 10, &parts);
    }
    // row 11 comes before all that the file breaks besides
    let faults: [fn(&mut Parts); 6] = [
        |_| {},
        |parts| parts.addresses.truncate(parts.addresses.len() - 1),
        |parts| parts.records_len += 1,
        |parts| parts.directory[0] ^= 1,
        |parts| parts.widths(0, 0, 0),
        |parts| parts.first_start(0, u64::MAX),
    ];
    for fault in faults {
        let mut parts = whole.parts.clone();
        fault(&mut parts);
        parts.directory_len = 0;
        whole.open(tally, 11, &parts);
    }
}

/// The pair's offset and length.
fn pair(parts: &Parts, i: usize) -> [u32; 2] {
    let number =
        |at: usize| u32::from_le_bytes(parts.directory[at..at + 4].try_into().expect("four bytes"));
    [number(4 + 8 * i), number(8 + 8 * i)]
}

/// Row 12, at a pair.
const PAIR_FAULTS: [Fault; 7] = [
    |parts, i| {
        let [o, l] = pair(parts, i);
        parts.pair(i, o + 1, l)
    },
    |parts, i| {
        let [o, l] = pair(parts, i);
        parts.pair(i, o - 1, l)
    },
    |parts, i| {
        let [o, l] = pair(parts, i);
        parts.pair(i, o, l + 1)
    },
    |parts, i| {
        let [o, l] = pair(parts, i);
        parts.pair(i, o, l - 1)
    },
    |parts, i| {
        let [_, l] = pair(parts, i);
        parts.pair(i, u32::MAX, l)
    },
    |parts, i| {
        let [o, _] = pair(parts, i);
        parts.pair(i, o, u32::MAX)
    },
    |parts, i| {
        let [_, l] = pair(parts, i - 1);
        let [o, _] = pair(parts, i);
        parts.pair(i - 1, o - l, 0)
    },
];

pub fn pairs(tally: &mut Tally, whole: &Whole) {
    for at in whole.places(whole.keys.len()) {
        for fault in PAIR_FAULTS {
            let mut parts = whole.parts.clone();
            fault(&mut parts, at);
            whole.open(tally, 12, &parts);
        }
        let long = |keys: &mut Vec<Vec<u8>>| keys[at].resize(LONGEST_KEY + 1, 0x01);
        whole.open(tally, 12, &whole.with_keys(long));
    }
    lengths(tally, whole);
}

/// A directory that is a byte longer or shorter, and counts beside its own.
fn lengths(tally: &mut Tally, whole: &Whole) {
    let directory = &whole.parts.directory;
    let shorter = directory[..directory.len() - 1].to_vec();
    for other in [[&directory[..], b"\xff"].concat(), shorter] {
        let mut parts = whole.parts.clone();
        parts.put_directory(&other);
        whole.open(tally, 12, &parts);
    }
    let n = whole.keys.len() as u32;
    for count in [n - 1, n + 1, n + 256, MOST_BLOCKS as u32 + 1, u32::MAX] {
        let mut parts = whole.parts.clone();
        parts.directory[..4].copy_from_slice(&count.to_le_bytes());
        whole.open(tally, 12, &parts);
    }
}

pub fn orders(tally: &mut Tally, whole: &Whole) {
    let faults: [fn(&mut Vec<Vec<u8>>, usize); 6] = [
        |keys, i| keys[i] = keys[i - 1].clone(),
        |keys, i| keys.swap(i - 1, i),
        |keys, i| keys[i] = keys[i - 1][..keys[i - 1].len() - 1].to_vec(),
        |keys, i| keys[i].clear(),
        |keys, i| {
            keys[i - 1] = keys[i].clone();
            keys[i - 1].push(0)
        },
        |keys, i| {
            keys[i] = keys[i - 1].clone();
            let last = keys[i].len() - 1;
            keys[i][last] = keys[i][last].wrapping_sub(1)
        },
    ];
    for at in whole.places(whole.keys.len()) {
        for fault in faults {
            let parts = whole.with_keys(|keys| fault(keys, at));
            let row = whole.row(&parts);
            assert!(row == 13 || row == 0);
            whole.open(tally, row, &parts);
        }
    }
}
