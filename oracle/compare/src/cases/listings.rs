//! Listings of files with their own records.

use model::automaton::Table;
use model::blocks::{random, touching};
use model::files::{File as Parts, rising, worked_file};
use model::numbers::Numbers;
use model::patterns::{drawn, nearby, ring, small};
use model::settings::{LONGEST_KEY, MOST_BLOCKS, MOST_STATES};
use model::version::{VERSIONS, Version};
use tantivy_sstable::access;

use super::keys;
use crate::calls::intervals::Pattern;
use crate::calls::opened::{self, File};
use crate::tally::Tally;

/// A version tells nothing but which records are refused: version 4 gets fewer automata.
pub fn run(tally: &mut Tally) {
    for version in VERSIONS {
        words(tally, version);
        random_ones(tally, version, version.pick(500, 200));
        large(tally, version);
        refused(tally, version);
    }
}

fn list(tally: &mut Tally, file: &File, pattern: &Pattern, more: isize) {
    let room = (file.n() as usize).saturating_add_signed(more);
    file.list(tally, pattern, room);
}

/// Every automaton of one word of up to two bytes, and of two such words, in a file with every short key.
fn words(tally: &mut Tally, version: Version) {
    tally.section_of(
        version,
        "listings: one and two short words, every short key a separator",
    );
    let mut names = keys::all(&[0x00, 0x61, 0xff], 3);
    names.sort();
    let count = names.len();
    let blocks = touching(3, &vec![2; count], 1, &vec![1; count - 1]);
    let parts = Parts::written(version, &blocks, &names);
    let file = opened::open(tally, version, &parts.bytes());
    let words = keys::all(&[0x00, 0x60, 0x61, 0xfe, 0xff], 3);
    for one in &words {
        list(tally, &file, &Pattern::of(&Table::words(&[one])), 0);
        list(tally, &file, &Pattern::of(&Table::beginning(one)), 3);
        for other in words.iter().take(version.pick(31, 6)) {
            list(tally, &file, &Pattern::of(&Table::words(&[one, other])), 0);
        }
    }
}

/// Separators as a writer makes them: shortened towards the next block's first key.
fn separators(rng: &mut Numbers, count: u64) -> Vec<Vec<u8>> {
    let keys = rising(rng, 2 * count, 6);
    let shorten = |pair: &[Vec<u8>]| match pair {
        [last, next] => access::find_shorter_str_in_between(last, next),
        [last] => last.clone(),
        _ => unreachable!("pairs"),
    };
    keys[1..].chunks(2).map(shorten).collect()
}

/// An automaton of some kind that is made for the keys.
fn pattern(rng: &mut Numbers, keys: &[Vec<u8>]) -> Pattern {
    let at = rng.below(keys.len() as u64) as usize;
    let key = &keys[at][..keys[at].len().min(12)];
    let m = rng.within(1, MOST_STATES as u64) as usize;
    let way = rng.below(3) as usize;
    let table = match rng.below(7) {
        0 => Table::words(&[key]),
        1 => Table::words(&[&nearby(rng, key), &nearby(rng, key)]),
        2 => Table::beginning(&nearby(rng, key)),
        3 => small(rng, m),
        4 => drawn(rng, m).0,
        5 => ring(rng, m, way),
        _ => {
            let byte = rng.pick(&[0x00, 0x61, 0xfe, 0xff]);
            Table::rule(vec![0, 1], |_, b| usize::from(b == byte))
        }
    };
    Pattern::of(&table)
}

/// Files of 2 to 300 blocks, each with automata of every kind; seldom too little room.
fn random_ones(tally: &mut Tally, version: Version, count: u64) {
    tally.section_of(version, "listings: by chance, 2 to 300 blocks");
    let mut rng = Numbers::from_seed(121);
    for round in 0..count {
        let n = rng.pick(&[2, 3, 5, 9, 30, 127, 128, 129, 257, 300]);
        let names = if round % 2 == 0 {
            rising(&mut rng, n, 5)
        } else {
            separators(&mut rng, n)
        };
        let blocks = random(&mut rng, n, 8, 4, 10, 10);
        let parts = Parts::written(version, &blocks, &names);
        let file = opened::open(tally, version, &parts.bytes());
        for _ in 0..20 {
            let pattern = pattern(&mut rng, &names);
            list(
                tally,
                &file,
                &pattern,
                rng.pick(&[0, 0, 0, 1, 50, -1, -1000]),
            );
        }
    }
}

/// 65,536 blocks; separators of 1,024 bytes.
fn large(tally: &mut Tally, version: Version) {
    tally.section_of(
        version,
        "listings: 65,536 blocks, separators of 1,024 bytes",
    );
    let mut rng = Numbers::from_seed(122);
    let names: Vec<Vec<u8>> = (0..MOST_BLOCKS as u32)
        .map(|i| i.to_be_bytes()[1..].to_vec())
        .collect();
    let blocks = touching(0, &vec![1; MOST_BLOCKS], 0, &vec![1; MOST_BLOCKS - 1]);
    let parts = Parts::written(version, &blocks, &names);
    let file = opened::open(tally, version, &parts.bytes());
    for _ in 0..version.pick(12, 5) {
        let pattern = pattern(&mut rng, &names);
        list(tally, &file, &pattern, rng.pick(&[0, 7]));
        list(tally, &file, &pattern, -1);
    }
    let names: Vec<Vec<u8>> = (0..130)
        .map(|i| [vec![0xff; LONGEST_KEY - 1], vec![i]].concat())
        .collect();
    let blocks = random(&mut rng, 130, 8, 4, 10, 10);
    let parts = Parts::written(version, &blocks, &names);
    let file = opened::open(tally, version, &parts.bytes());
    for _ in 0..version.pick(60, 20) {
        list(tally, &file, &pattern(&mut rng, &names), 0);
    }
}

/// Refused automata with room and without; the automaton's rows come before the room's.
fn refused(tally: &mut Tally, version: Version) {
    tally.section_of(version, "listings: refused automata");
    let file = opened::open(tally, version, &worked_file().bytes());
    let whole = Table::words(&[b"c"]).bytes();
    for at in 0..whole.len() {
        for byte in [0, 2, 3, 255] {
            let mut bytes = whole.clone();
            bytes[at] = byte;
            let pattern = Pattern::new(&bytes);
            list(tally, &file, &pattern, 0);
            list(tally, &file, &pattern, -1);
        }
        list(tally, &file, &Pattern::new(&whole[..at]), 1);
    }
}
