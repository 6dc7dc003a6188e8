//! Versions: 30 before everything else, files of one version opened with the other, and records of other versions.

use std::collections::BTreeSet;

use model::areas::{Areas, by_rule};
use model::automaton::Table;
use model::batch::{Cause, KeyList};
use model::blocks::{block, random, touching};
use model::faults::faults;
use model::files::{File as Parts, rising, smallest, two_group_file, worked_file};
use model::key_lists::{Layout, refused};
use model::numbers::Numbers;
use model::rust::Block;
use model::settings::{LIMIT, LONGEST_KEY, MOST_BLOCKS, STRIDE};
use model::version::{NO_VERSIONS, V3, VERSIONS, Version};

use super::lookups;
use crate::calls::builder::Builder;
use crate::calls::intervals::Pattern;
use crate::calls::opened::{self, File};
use crate::calls::stores;
use crate::tally::Tally;

pub fn run(tally: &mut Tally) {
    builders(tally);
    slices(tally);
    files(tally);
    alike(tally);
    apart(tally);
    records(tally);
}

/// Areas that hold so many blocks by the rule, with room for one more number and byte.
fn filled(n: u32) -> Areas {
    let mut areas = Areas {
        n: 0,
        blocks: vec![7; STRIDE * n as usize + 1],
        keys: vec![7; 4 * n as usize + 1],
    };
    for (block, key) in (0..n).map(by_rule) {
        areas.add(block, &key);
    }
    areas
}

/// Builders that a finish takes, and ones that it refuses with rows 1 and 8 in every way.
fn all_builders() -> Vec<Areas> {
    let none = Areas {
        n: 0,
        blocks: vec![],
        keys: vec![],
    };
    let mut all: Vec<Areas> = [0, 1, 2, 3, 128, 129, 256, 257].map(filled).into();
    all.push(none);
    let three = filled(3);
    for n in [4, MOST_BLOCKS as u64 + 1, 1 << 63, u64::MAX] {
        let mut areas = three.clone();
        areas.n = n;
        all.push(areas);
    }
    let mut short = three.clone();
    short.blocks.truncate(STRIDE * 3 - 1);
    all.push(short);
    let mut short = three.clone();
    short.keys.truncate(11);
    all.push(short);
    for at in 0..STRIDE * 3 {
        for value in [0, 1, LONGEST_KEY as u64 + 1, LIMIT, u64::MAX] {
            let mut areas = three.clone();
            areas.blocks[at] = value;
            all.push(areas);
        }
    }
    all
}

/// Finishes, whatever the builder holds and however long the output is.
fn builders(tally: &mut Tally) {
    tally.section("versions: 30 at a finish");
    let mut seen = BTreeSet::new();
    for areas in all_builders() {
        let mut builder = Builder::raw(areas);
        for version in VERSIONS {
            for room in [0, 10_000] {
                seen.insert(builder.finish_room(tally, version.number(), room).0);
            }
        }
        for version in NO_VERSIONS {
            for room in [0, 74, 10_000] {
                builder.finish_room(tally, version, room);
            }
        }
    }
    // what 30 came before
    assert_eq!(seen, BTreeSet::from([0, 1, 8, 9]));
}

/// Slices that are taken, and ones that break rows 3 to 5 and 7, alone and in the last block.
fn all_slices() -> Vec<Vec<Block>> {
    let legal = |n: usize| match n {
        0 => vec![],
        _ => touching(5, &vec![2; n], 3, &vec![1; n - 1]),
    };
    let mut all: Vec<Vec<Block>> = [0, 1, 2, 128, 129, 256, 257, MOST_BLOCKS, MOST_BLOCKS + 1]
        .map(legal)
        .into();
    for n in [1, 2, 130] {
        for fault in [
            |b: &mut Block| b.end = LIMIT,
            |b: &mut Block| b.ord = LIMIT,
            |b: &mut Block| b.end = 0,
            |b: &mut Block| b.start ^= 1,
            |b: &mut Block| b.ord = 0,
        ] {
            let mut blocks = legal(n);
            fault(&mut blocks[n - 1]);
            all.push(blocks);
        }
    }
    all.push(vec![block(0, 1, 5), block(1, 2, 5)]);
    all
}

/// Stores from a slice, whatever it is and however long the output is.
fn slices(tally: &mut Tally) {
    tally.section("versions: 30 at a store");
    let mut seen = BTreeSet::new();
    for blocks in all_slices() {
        for version in VERSIONS {
            for room in [0, 10_000, 2_000_000] {
                seen.insert(stores::store_room(tally, version.number(), &blocks, room));
            }
        }
        for version in NO_VERSIONS {
            for room in [0, 8, 10_000] {
                stores::store_room(tally, version, &blocks, room);
            }
        }
    }
    // what 30 came before
    assert_eq!(seen, BTreeSet::from([0, 3, 4, 5, 7, 9]));
}

/// Files that break each of rows 10 to 16, and whole ones of one group and of two.
fn all_files() -> Vec<Vec<u8>> {
    let mut all = vec![
        vec![],
        vec![3],
        vec![0; 7],
        vec![0; 8],
        vec![1; 8],
        vec![0; 16],
    ];
    let short = smallest();
    all.extend(faults().iter().map(|&(_, fault)| short.with(fault).bytes()));
    // they open, and the check refuses the second
    all.push(short.bytes());
    all.push(short.with(|parts| parts.addresses.push(0)).bytes());
    for version in VERSIONS {
        all.push(two_group_file(version, 2).bytes());
    }
    all
}

/// Openings and checks, whatever the file and the number of terms are.
fn files(tally: &mut Tally) {
    tally.section("versions: 30 at an opening and a check");
    let mut seen = BTreeSet::new();
    for bytes in all_files() {
        let file = opened::open(tally, V3, &bytes);
        seen.extend([file.opening().no(), file.opening().number(0), file.checked]);
        file.open_other(tally, u64::MAX);
        for version in NO_VERSIONS {
            for terms in [0, 1, 1_000, u64::MAX] {
                file.open_unknown(tally, version, terms);
            }
        }
    }
    // what 30 came before
    assert_eq!(
        seen,
        BTreeSet::from([0, 10, 11, 12, 13, 14, 15, 16, 27, 28])
    );
}

/// The index that finish writes of this list in a version.
fn finished(tally: &mut Tally, version: Version, blocks: &[Block], keys: &[Vec<u8>]) -> Vec<u8> {
    let mut areas = Areas {
        n: 0,
        blocks: vec![7; STRIDE * blocks.len()],
        keys: vec![7; keys.iter().map(Vec::len).sum()],
    };
    blocks
        .iter()
        .zip(keys)
        .for_each(|(&block, key)| areas.add(block, key));
    Builder::raw(areas).finish(tally, version, &[0, -1])
}

fn list(rng: &mut Numbers, n: u64) -> (Vec<Block>, Vec<Vec<u8>>) {
    let bits = rng.pick(&[3, 9, 20]);
    let blocks = random(rng, n, bits, bits, 20, 20);
    let keys = match n {
        0..=1_000 => rising(rng, n, 5),
        _ => (0..n).map(|i| i.to_be_bytes()[5..].to_vec()).collect(),
    };
    (blocks, keys)
}

/// Up to 128 blocks the versions write the same, and each reads the file alike.
fn alike(tally: &mut Tally) {
    tally.section("versions: 2 to 128 blocks, written and read in both");
    let mut rng = Numbers::from_seed(170);
    for n in (2..=9).chain([17, 64, 100, 126, 127, 128]) {
        for _ in 0..3 {
            let (blocks, keys) = list(&mut rng, n);
            let [one, other] = VERSIONS.map(|version| finished(tally, version, &blocks, &keys));
            assert_eq!(one, other);
            for version in VERSIONS {
                let mut file = opened::open(tally, version, &one);
                assert_eq!(file.checked, 0);
                everything(tally, &mut rng, &mut file);
                let record = file.open_other(tally, file.terms());
                file.set_record(record);
                assert!(
                    file.judged()
                        .is_some_and(|judged| judged.opening.version != version)
                );
                everything(tally, &mut rng, &mut file);
            }
        }
    }
}

/// From 129 blocks on a file opens in its own version alone. Its record with the other version is left free.
fn apart(tally: &mut Tally) {
    tally.section("versions: 129 to 65,536 blocks, opened with the other");
    let mut rng = Numbers::from_seed(171);
    for n in [
        129, 130, 255, 256, 257, 258, 383, 384, 385, 511, 512, 513, 1_000, 65_535, 65_536,
    ] {
        let (blocks, keys) = list(&mut rng, n);
        let [one, other] = VERSIONS.map(|version| finished(tally, version, &blocks, &keys));
        assert_ne!(one, other);
        for (version, bytes) in VERSIONS.into_iter().zip([one, other]) {
            let mut file = opened::open(tally, version, &bytes);
            everything(tally, &mut rng, &mut file);
            for terms in [file.terms(), 0] {
                file.open_other(tally, terms);
            }
            let due = model::opening::open(version.other(), &bytes).no();
            assert_eq!(due, 14);
            let own = file.opening().record;
            file.set_record(own.with_version(version.other().number()));
            assert!(file.judged().is_none());
            everything(tally, &mut rng, &mut file);
        }
    }
}

/// Every lookup around the groups' ends of either length, a batch and listings.
fn everything(tally: &mut Tally, rng: &mut Numbers, file: &mut File) {
    lookups::some(tally, file);
    lookups::around(tally, rng, file, 6);
    let n = file.n() as usize;
    for pattern in [
        Table::beginning(&file.opening().keys[n / 2]),
        Table::rule(vec![1], |_, _| 0),
    ] {
        file.list(tally, &Pattern::of(&pattern), n);
    }
}

/// Every number that isn't a version in the record of a file that opens: 20, whatever a lookup would say otherwise.
fn records(tally: &mut Tally) {
    tally.section("versions: records of versions that there aren't");
    let mut rng = Numbers::from_seed(172);
    for version in VERSIONS {
        let (blocks, keys) = list(&mut rng, 65_536);
        let large = Parts::written(version, &blocks, &keys);
        for parts in [worked_file(), smallest(), two_group_file(version, 2), large] {
            let mut file = opened::open(tally, version, &parts.bytes());
            let own = file.opening().record;
            for number in NO_VERSIONS {
                file.set_record(own.with_version(number));
                lookups::some(tally, &file);
                lookups::around(tally, &mut rng, &mut file, 2);
                refusals(tally, &file);
            }
        }
    }
}

/// Lists, automata and rooms that are refused: 20 comes before their rows.
fn refusals(tally: &mut Tally, file: &File) {
    for cause in Cause::ALL {
        let (list, room) = refused(3, &[cause], 1, 0);
        file.batch(tally, &list, room);
    }
    file.batch(tally, &KeyList::default(), 0);
    file.batch(tally, &Layout::Touching.list(&[b"b", b"d"]), 2);
    let taken = Table::words(&[b"c", b"f"]).bytes();
    let (mut flag, mut next) = (taken.clone(), taken.clone());
    flag[1] = 2;
    *next.last_mut().expect("a state") = 255;
    let n = file.n() as usize;
    for automaton in [taken, flag, next, vec![]] {
        for room in [n, n - 1, 0] {
            file.list(tally, &Pattern::new(&automaton), room);
        }
    }
}
