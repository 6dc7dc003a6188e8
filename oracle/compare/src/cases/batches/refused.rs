//! Lists that are refused: each cause alone, and all together; and records that are refused before them.

use std::collections::BTreeSet;

use model::batch::{Cause, KeyList};
use model::blocks::touching;
use model::faults::{other_versions, others};
use model::files::{File as Parts, two_group_file, worked_file};
use model::key_lists::{Layout, WAYS, refused};
use model::opening::Opened;
use model::settings::MOST_KEYS;
use model::version::Version;

use crate::calls::opened::{self, File};
use crate::tally::Tally;

pub fn run(tally: &mut Tally, version: Version) {
    counts(tally, version);
    let lists: Vec<(KeyList, usize)> = all().into_iter().step_by(version.pick(1, 5)).collect();
    tally.section_of(version, "batches: the causes of 26, alone and together");
    for bytes in files(version) {
        let file = opened::open(tally, version, &bytes);
        for (list, room) in &lists {
            file.batch(tally, list, *room);
        }
    }
    with_other_records(tally, version, &lists);
}

/// One group, two groups, and enough blocks for searches side by side.
fn files(version: Version) -> Vec<Vec<u8>> {
    let large = 4_096;
    let keys: Vec<Vec<u8>> = (0..large as u32)
        .map(|i| i.to_be_bytes()[1..].to_vec())
        .collect();
    let blocks = touching(0, &vec![1; large], 0, &vec![1; large - 1]);
    let files = [
        worked_file(),
        two_group_file(version, 2),
        Parts::written(version, &blocks, &keys),
    ];
    files.iter().map(Parts::bytes).collect()
}

/// Every set of causes, at the first, a middle and the last pair, in every way.
fn all() -> Vec<(KeyList, usize)> {
    let mut lists = Vec::new();
    let mut seen = BTreeSet::new();
    for which in 0..1 << Cause::ALL.len() {
        let chosen = |k: &usize| which >> k & 1 == 1;
        let picked = (0..Cause::ALL.len()).filter(chosen);
        let causes: Vec<Cause> = picked.map(|k| Cause::ALL[k]).collect();
        for keys in [2, 9, MOST_KEYS] {
            for place in [0, keys / 2, keys - 1, MOST_KEYS] {
                for way in 0..WAYS {
                    let (list, room) = refused(keys, &causes, place, way);
                    assert_eq!(list.causes(room), causes);
                    lists.push((list, room));
                }
            }
        }
        seen.insert(causes);
    }
    assert_eq!(seen.len(), 1 << Cause::ALL.len());
    lists
}

/// Around the most keys, and around whole pairs.
fn counts(tally: &mut Tally, version: Version) {
    tally.section_of(
        version,
        "batches: 0 to 66 keys and many more, odd areas, ids one short, exact and longer",
    );
    for bytes in files(version) {
        let file = opened::open(tally, version, &bytes);
        for count in (0..=MOST_KEYS + 2).chain([100, 127, 128, 129, 1_000, 65_536]) {
            let keys: Vec<[u8; 1]> = (0..count).map(|i| [b'h' - (i % 8) as u8]).collect();
            let list = Layout::Touching.list(&keys);
            for room in [count, count.saturating_sub(1), count + 1, count + 100, 0, 1] {
                file.batch(tally, &list, room);
            }
            odd(tally, &file, &list);
        }
    }
}

/// One word more or less.
fn odd(tally: &mut Tally, file: &File, list: &KeyList) {
    let (mut less, room) = (list.clone(), list.count() + 1);
    less.pairs.pop();
    file.batch(tally, &less, room);
    for word in [0, list.bytes.len() as u64, u64::MAX] {
        let mut more = list.clone();
        more.pairs.push(word);
        file.batch(tally, &more, room);
        // two words: one more key, beyond the area but for the first
        more.pairs.push(0);
        file.batch(tally, &more, room);
    }
}

/// Records that fail by themselves come before the list; with others the list comes before the search.
fn with_other_records(tally: &mut Tally, version: Version, lists: &[(KeyList, usize)]) {
    tally.section_of(
        version,
        "batches: the causes of 26 with records that aren't the file's",
    );
    let bytes = worked_file().bytes();
    let mut file = opened::open(tally, version, &bytes);
    let own = file.opening().record;
    let records: Vec<Opened> = [others(own), other_versions(own)].concat();
    assert!(records.iter().any(|record| record.unfit(bytes.len())));
    assert!(records.iter().any(|record| !record.unfit(bytes.len())));
    for (i, record) in records.into_iter().enumerate() {
        file.set_record(record);
        // each list with some records, each record with some of every set of causes
        for (list, room) in lists.iter().skip(i % 7).step_by(7) {
            file.batch(tally, list, *room);
        }
        file.batch(tally, &KeyList::default(), 0);
        file.batch(tally, &KeyList::default(), 3);
    }
}
