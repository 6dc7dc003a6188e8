//! Ids, ordinals and keys around those of a file.

use std::collections::BTreeSet;

use crate::numbers::Numbers;
use crate::rust::Block;
use crate::settings::LIMIT;
use crate::version::Version;

/// Ids of a file: all of a short one, of up to two fields at each bit of a byte.
pub fn ids(version: Version, rng: &mut Numbers, n: u64, some: usize) -> BTreeSet<u64> {
    if n <= 17 {
        return (0..n).collect();
    }
    let group = version.group_len() as u64;
    // 127 and 128 end a group in one version and are inside one in the other
    let around = [
        127,
        128,
        group - 2,
        group - 1,
        group,
        group + 1,
        2 * group - 1,
        2 * group,
    ];
    let ends = [0, 1, n - 2, n - 1].into_iter().chain(around);
    let mut ids: BTreeSet<u64> = ends.filter(|&id| id < n).collect();
    ids.extend((0..some).map(|_| rng.below(n)));
    ids
}

/// The number and those beside it.
pub fn beside(number: u64) -> [u64; 3] {
    [number.saturating_sub(1), number, number.saturating_add(1)]
}

/// Each first ordinal and the number of terms, the one below and the one above, and some far away.
pub fn ords(blocks: &[Block], ids: &BTreeSet<u64>, terms: u64) -> BTreeSet<u64> {
    let mut ords = BTreeSet::from([0, u64::MAX]);
    ords.extend(beside(terms));
    for &id in ids {
        ords.extend(beside(blocks[id as usize].ord));
    }
    ords
}

/// Numbers of terms around the last first ordinal, the limit, and the greatest. The third is the least that opens; those behind it open too.
pub fn terms(last: u64) -> [u64; 6] {
    let (one, two) = (last.saturating_add(1), last.saturating_add(2));
    [0, last, one, two, LIMIT, u64::MAX]
}

/// Each separator, keys just above and below it, the empty key, and keys above all.
pub fn keys(separators: &[Vec<u8>], ids: &BTreeSet<u64>) -> BTreeSet<Vec<u8>> {
    let mut keys = BTreeSet::from([vec![], vec![0]]);
    for &id in ids {
        let separator = &separators[id as usize];
        keys.insert(separator.clone());
        keys.insert([&separator[..], &[0]].concat());
        if let Some((&last, front)) = separator.split_last() {
            keys.insert(match last {
                0 => front.to_vec(),
                _ => [front, &[last - 1, 0xff]].concat(),
            });
        }
    }
    let last = separators.last().unwrap();
    keys.insert([&last[..], &[0xff; 3]].concat());
    keys
}
