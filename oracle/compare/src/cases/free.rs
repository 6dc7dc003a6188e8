//! Lookups and listings with records that aren't the file's.

use model::around::beside;
use model::automaton::Table;
use model::blocks::random;
use model::faults::{other_versions, others};
use model::files::{File as Parts, rising, smallest, two_group_file, worked_file};
use model::numbers::Numbers;
use model::opening::Opened;
use model::settings::{GROUP_RECORD, LIMIT, OPENED_LEN};
use model::version::{NO_VERSIONS, VERSIONS, Version};

use super::lookups;
use crate::calls::intervals::Pattern;
use crate::calls::opened::{self, File};
use crate::tally::Tally;

pub fn run(tally: &mut Tally) {
    for version in VERSIONS {
        listed(tally, version);
        changed(tally, version);
        random_ones(tally, version, version.pick(1_000, 500));
    }
}

/// Every lookup, and listings into three buffers.
fn all(tally: &mut Tally, file: &File, patterns: &[Pattern]) {
    lookups::some(tally, file);
    let n = usize::try_from(file.n()).unwrap_or(0).min(66_000);
    for pattern in patterns {
        for room in [n, n.saturating_sub(1), 300] {
            file.list(tally, pattern, room);
        }
    }
}

/// Ordinals with other numbers of terms in the record.
fn ordinals(tally: &mut Tally, file: &mut File) {
    let first = Opened::of(file.numbers()).first_ord(&file.bytes);
    for terms in [0, 5, 10, first.unwrap_or(1), LIMIT, u64::MAX] {
        file.set_terms(terms);
        let near = first.map_or([0, 1, 2], beside);
        for ord in [0, 5, 9, LIMIT / 2]
            .into_iter()
            .chain(near)
            .chain(beside(terms))
        {
            file.ord(tally, ord);
        }
    }
}

fn patterns() -> Vec<Pattern> {
    let one = Table::new(vec![1], vec![0; 256]).bytes();
    let (mut flag, mut next) = (one.clone(), one.clone());
    flag[1] = 2;
    next[257] = 1;
    let taken = Table::words(&[b"c", b"f"]).bytes();
    [taken, one, flag, next, vec![]]
        .iter()
        .map(|bytes| Pattern::new(bytes))
        .collect()
}

/// The first of them are the same in all versions.
fn files(version: Version) -> Vec<Vec<u8>> {
    let mut rng = Numbers::from_seed(117);
    let count = 2 * version.group_len() as u64 + 4;
    let blocks = random(&mut rng, count, 9, 4, 20, 20);
    let long = Parts::written(version, &blocks, &rising(&mut rng, count, 4));
    let refused = smallest().with(|file| file.widths(0, 57, 0));
    let late = two_group_file(version, 2).with(|file| file.widths(1, 57, 0));
    let files = [
        worked_file(),
        smallest(),
        two_group_file(version, 2),
        long,
        refused,
        late,
    ];
    let mut files: Vec<Vec<u8>> = files.iter().map(Parts::bytes).collect();
    files.push(vec![]);
    files
}

/// The records beside that of the 85 bytes, with each file.
fn listed(tally: &mut Tally, version: Version) {
    tally.section_of(version, "free: records beside the right one");
    let patterns = patterns();
    let worked = opened::open(tally, version, &worked_file().bytes());
    let right = worked.opening().record;
    for bytes in files(version) {
        let mut file = opened::open(tally, version, &bytes);
        let own = file.opening().record;
        let beside = [others(right), others(own), other_versions(own)];
        for record in beside.into_iter().flatten() {
            file.set_record(record);
            all(tally, &file, &patterns);
            ordinals(tally, &mut file);
        }
    }
}

/// One number of the record replaced, or two.
fn changed(tally: &mut Tally, version: Version) {
    tally.section_of(
        version,
        "free: each number of a record replaced, and each two",
    );
    let patterns = patterns();
    for bytes in files(version) {
        let mut file = opened::open(tally, version, &bytes);
        let own = file.opening().record.numbers();
        let len = bytes.len() as u64;
        for at in 0..OPENED_LEN {
            let old = own[at];
            let beside = [
                0,
                1,
                old.wrapping_sub(1),
                old.wrapping_add(1),
                len,
                u64::MAX,
                1 << 63,
            ];
            for value in beside {
                let mut numbers = own;
                numbers[at] = value;
                file.set_record(Opened::of(numbers));
                all(tally, &file, &patterns[..1]);
                for other in at + 1..OPENED_LEN {
                    for change in [
                        0,
                        2,
                        numbers[other].wrapping_add(1),
                        u64::MAX - numbers[other],
                    ] {
                        let mut numbers = numbers;
                        numbers[other] = change;
                        file.set_record(Opened::of(numbers));
                        lookups::some(tally, &file);
                    }
                }
            }
        }
    }
}

/// Records by chance, some of whose places fit the bytes.
fn random_ones(tally: &mut Tally, version: Version, count: u64) {
    tally.section_of(version, "free: records by chance");
    let mut rng = Numbers::from_seed(118);
    let patterns = patterns();
    let files = files(version);
    for _ in 0..count {
        let at = rng.below(files.len() as u64) as usize;
        let bytes = &files[at];
        let mut file = opened::open(tally, version, bytes);
        let own = file.opening().record;
        for _ in 0..20 {
            let record = record(&mut rng, version, bytes.len() as u64, own);
            file.set_record(record);
            lookups::some(tally, &file);
            let at = rng.below(patterns.len() as u64) as usize;
            let room = rng.below(300) as usize;
            file.list(tally, &patterns[at], room);
        }
    }
}

fn record(rng: &mut Numbers, version: Version, len: u64, own: Opened) -> Opened {
    let mut place = |own: (u64, u64), unit: u64| {
        if rng.one_in(3) {
            return own;
        }
        let from = rng.below(len + 2);
        let length = rng.below(len + 2 - from.min(len));
        (
            from,
            if rng.one_in(2) {
                length / unit * unit
            } else {
                length
            },
        )
    };
    let (directory, records) = (
        place(own.directory, 4),
        place(own.records, GROUP_RECORD as u64),
    );
    let addresses = place(own.addresses, 1);
    let n = match rng.below(4) {
        0 => own.n,
        1 => records.1 / GROUP_RECORD as u64 * version.group_len() as u64,
        2 => rng.within(1, 300),
        _ => rng.pick(&[0, 1, 65_536, 65_537, u64::MAX]),
    };
    let terms = rng.pick(&[u64::MAX, u64::MAX, own.terms, 6, 1, 0, LIMIT]);
    // seldom another version: what else is wrong is seen with the right one
    let version = match rng.below(12) {
        0 => version.other().number(),
        1 => rng.pick(&NO_VERSIONS),
        _ => version.number(),
    };
    Opened {
        n,
        directory,
        records,
        addresses,
        terms,
        version,
    }
}
