//! Numbers of terms: with which a file opens, and which ordinals have a block then.

use std::collections::BTreeSet;

use model::around::{self, beside};
use model::automaton::Table;
use model::blocks::{FAR, random, touching};
use model::faults::faults;
use model::files::{
    File as Parts, keys_of_one_byte, rising, smallest, two_group_file, worked_file,
};
use model::numbers::Numbers;
use model::opening::TERMS_BAD;
use model::rust::Block;
use model::settings::LIMIT;
use model::version::{VERSIONS, Version};

use super::lookups;
use crate::calls::intervals::Pattern;
use crate::calls::opened::{self, File};
use crate::tally::Tally;

pub fn run(tally: &mut Tally) {
    for version in VERSIONS {
        every(tally, version);
        worked(tally, version);
        powers(tally, version);
        blocks(tally, version);
        rows(tally, version);
        records(tally, version);
    }
}

/// The file of these blocks, with keys of one byte.
fn open(tally: &mut Tally, version: Version, blocks: &[Block]) -> File {
    let keys = keys_of_one_byte(blocks.len());
    let parts = Parts::written(version, blocks, &keys);
    opened::open(tally, version, &parts.bytes())
}

/// Every number of terms and every ordinal up to some above the last, in every list of few blocks with ordinals up to 3 apart.
fn every(tally: &mut Tally, version: Version) {
    tally.section_of(
        version,
        "terms: every list of up to four blocks, every number of terms, every ordinal",
    );
    for n in 2..=version.pick(4u32, 3) {
        for which in 0..3 * 3u64.pow(n - 1) {
            let steps: Vec<u64> = (1..n).map(|k| 1 + which / 3u64.pow(k) % 3).collect();
            let list = touching(5, &vec![2; n as usize], which % 3, &steps);
            let last = list[list.len() - 1].ord;
            let mut file = open(tally, version, &list);
            let own = file.opening().record;
            for terms in 0..=last + 3 {
                file.reopen(tally, terms);
                // with too few terms it doesn't open: the record may have that number all the same
                file.set_record(own.with_terms(terms));
                for ord in 0..=last + 5 {
                    file.ord(tally, ord);
                }
            }
        }
    }
}

/// The worked case: 12 terms.
fn worked(tally: &mut Tally, version: Version) {
    tally.section_of(version, "terms: the worked case");
    let mut file = opened::open(tally, version, &worked_file().bytes());
    file.reopen(tally, 12);
    for (ord, due) in [
        (3, (0, 0)),
        (4, (0, 1)),
        (11, (0, 2)),
        (12, (29, 0)),
        (1_000_000, (29, 0)),
    ] {
        assert_eq!(
            file.opening()
                .by_ord(12, ord)
                .map(|found| (0, found.0))
                .unwrap_or_else(|no| (no, 0)),
            due
        );
        file.ord(tally, ord);
    }
    file.reopen(tally, 9);
    assert_eq!(
        (file.opening().number(9), file.opening().number(10)),
        (TERMS_BAD, 0)
    );
}

/// Around each power of two, in files whose last ordinal is near one or at the limit.
fn powers(tally: &mut Tally, version: Version) {
    tally.section_of(version, "terms: around each power of two");
    let mut all: BTreeSet<u64> = (0..64).flat_map(|k| beside(1 << k)).collect();
    all.extend([u64::MAX - 1, u64::MAX]);
    for last in [1, 255, 1 << 16, (1 << 32) - 1, 1 << 32, LIMIT - 2]
        .into_iter()
        .chain(FAR)
    {
        let list = touching(0, &[3, 4], last / 2, &[last - last / 2]);
        let mut file = open(tally, version, &list);
        for &terms in &all {
            file.reopen(tally, terms);
            file.set_record(file.opening().record.with_terms(terms));
            for ord in [0, last / 2, last, u64::MAX]
                .into_iter()
                .chain(beside(terms))
            {
                file.ord(tally, ord);
            }
        }
    }
}

/// Around the first ordinals of blocks in files of more groups: the last block's alone decides, not its group's.
fn blocks(tally: &mut Tally, version: Version) {
    tally.section_of(
        version,
        "terms: around first ordinals in files of one group and more",
    );
    let mut rng = Numbers::from_seed(161);
    let full = version.group_len();
    let around_two = [2 * full - 1, 2 * full, 2 * full + 1];
    for n in [2, 3, full - 1, full, full + 1]
        .into_iter()
        .chain(around_two)
        .chain([1000])
    {
        for step_bits in [0, 5, 30] {
            let list = random(&mut rng, n as u64, 9, step_bits, 20, 20);
            let parts = Parts::written(version, &list, &rising(&mut rng, n as u64, 4));
            let mut file = opened::open(tally, version, &parts.bytes());
            let ids = around::ids(version, &mut rng, n as u64, 4);
            for &id in &ids {
                for terms in beside(list[id as usize].ord) {
                    file.reopen(tally, terms);
                    file.set_record(file.opening().record.with_terms(terms));
                    for ord in around::ords(&list, &ids, terms) {
                        file.ord(tally, ord);
                    }
                }
            }
        }
    }
}

/// Files that break each of rows 10 to 16, with numbers of terms that would get 28 too: the file's row comes first.
fn rows(tally: &mut Tally, version: Version) {
    tally.section_of(version, "terms: 28 together with each of rows 10 to 16");
    let mut seen = BTreeSet::new();
    for bytes in broken(version) {
        let mut file = opened::open(tally, version, &bytes);
        let last = file.opening().last_ord().unwrap_or(1);
        for terms in around::terms(last).into_iter().chain([1]) {
            file.reopen(tally, terms);
            let hits = file.opening().hits_with(terms);
            let rows: BTreeSet<u64> = hits.iter().map(|hit| hit.0).collect();
            seen.extend(
                rows.contains(&TERMS_BAD)
                    .then(|| (file.opening().number(terms), last > 0 && terms > 0)),
            );
        }
    }
    // 0 terms with each row; more terms that are too few, where the last ordinal can be read
    for no in 10..=16 {
        assert!(seen.contains(&(no, false)), "{no}");
    }
    for no in 12..=16 {
        assert!(seen.contains(&(no, true)), "{no}");
    }
}

fn broken(version: Version) -> Vec<Vec<u8>> {
    let short = smallest();
    let mut all = vec![vec![], vec![0; 7], vec![0; 8], vec![0; 16], vec![1; 8]];
    for directory_len in [0, 60, 68, 1 << 63, u64::MAX] {
        let mut parts = short.clone();
        parts.directory_len = directory_len;
        all.push(parts.bytes());
    }
    all.extend(faults().iter().map(|&(_, fault)| short.with(fault).bytes()));
    // the last block's ordinal is read, and something else is broken
    let groups = two_group_file(version, 2);
    for fault in [
        |parts: &mut Parts| parts.pair(0, 1, 1),
        // the last key, no longer above the one before
        |parts: &mut Parts| {
            let last = parts.directory.len() - 1;
            parts.directory[last] = 0
        },
        |parts: &mut Parts| parts.record(0, 34, &[1, 0]),
        |parts: &mut Parts| parts.first_start(1, 0),
        |parts: &mut Parts| parts.first_ord(0, LIMIT),
        |parts: &mut Parts| parts.first_ord(1, LIMIT),
        |parts: &mut Parts| parts.first_ord(1, 1),
        |parts: &mut Parts| parts.first_ord(1, LIMIT - 2),
    ] {
        all.push(groups.with(fault).bytes());
    }
    all
}

/// Any number of terms in the record, with which the file opens or not: no lookup but the one by ordinal may see a difference.
fn records(tally: &mut Tally, version: Version) {
    tally.section_of(
        version,
        "terms: any number of terms in the record, every lookup",
    );
    let mut rng = Numbers::from_seed(162);
    let pattern = Pattern::of(&Table::words(&[b"c", b"f", &[130]]));
    for parts in [
        worked_file(),
        smallest(),
        two_group_file(version, 1),
        two_group_file(version, 2),
    ] {
        let mut file = opened::open(tally, version, &parts.bytes());
        let (n, len) = (file.n(), file.bytes.len() as u64);
        let last = file.opening().last_ord().expect("a file that opens");
        let far = [1, n - 1, n, n + 1, len, 1 << 63];
        for terms in around::terms(last).into_iter().chain(far) {
            file.set_terms(terms);
            lookups::some(tally, &file);
            lookups::around(tally, &mut rng, &mut file, 2);
            for room in [n as usize, n as usize - 1, 300] {
                file.list(tally, &pattern, room);
            }
        }
    }
}
