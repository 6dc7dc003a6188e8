//! Numbers of terms: which ones a file opens with, and which ordinals find a block then.

mod model;

use model::{Draw, Entries, LIMIT, VERSIONS};
use rosmarel::{Automaton, BlockAddr, Index, Refusal, Version};

/// Two blocks, the second with the highest first ordinal that there is.
fn highest() -> Entries {
    let mut entries = Entries::default();
    assert_eq!(entries.add(b"b", BlockAddr::new(0..1, 7)), 0);
    assert_eq!(entries.add(b"d", BlockAddr::new(1..2, LIMIT - 1)), 0);
    entries
}

/// The worked one, that one, and lists of sizes around full groups, with the indexes in both versions.
fn lists() -> Vec<(Entries, Version, Vec<u8>)> {
    let mut draw = Draw::new(40);
    let sizes = [2, 3, 127, 128, 129, 256, 257, 1_000];
    let drawn = sizes.map(|n| draw.entries(n));
    let lists = [Entries::worked(), highest()].into_iter().chain(drawn);
    let finished = |entries: Entries| {
        VERSIONS.map(|version| (entries.clone(), version, entries.index(version)))
    };
    lists.flat_map(finished).collect()
}

/// Numbers of terms below and above the least one.
fn numbers(least: u64) -> Vec<u64> {
    let near = [0, 1, least - 2, least - 1, least, least + 1, least + 99];
    let far = [1 << 48, LIMIT - 1, LIMIT, u64::MAX - 1, u64::MAX];
    near.into_iter().chain(far).collect()
}

/// Ordinals around the blocks' first ones and around the number of terms.
fn ordinals(entries: &Entries, terms: u64) -> Vec<u64> {
    let firsts = entries.blocks.iter().map(|block| block.first_ordinal);
    let around = |ord: u64| [ord.saturating_sub(1), ord, ord.saturating_add(1)];
    let mut all: Vec<u64> = firsts.chain([terms]).flat_map(around).collect();
    all.extend([0, 1_000_000, 1 << 48, LIMIT, u64::MAX - 1, u64::MAX]);
    all
}

/// 28 exactly where the number isn't above the last first ordinal.
#[test]
fn every_number_above_the_last_first_ordinal() {
    for (entries, version, bytes) in lists() {
        let last = entries.blocks[entries.blocks.len() - 1].first_ordinal;
        for terms in numbers(last + 1) {
            let opened = Index::open(&bytes, version, terms);
            let model = model::open(&bytes, version, terms);
            let number = model.map_or_else(|number| number, |_| 0);
            if terms <= last {
                assert_eq!((opened.unwrap_err(), number), (Refusal::TooFewTerms, 28));
            } else {
                assert_eq!((opened.unwrap().terms(), number), (terms, 0));
            }
        }
    }
}

/// All small numbers with all small ordinals, in the worked index.
#[test]
fn small_numbers() {
    for version in VERSIONS {
        small_numbers_in(version);
    }
}

fn small_numbers_in(version: Version) {
    let entries = Entries::worked();
    let bytes = entries.index(version);
    for terms in 0..40 {
        let Ok(index) = Index::open(&bytes, version, terms) else {
            assert!(terms <= 9);
            continue;
        };
        assert!(terms > 9);
        for ord in 0..60 {
            let id = match ord {
                _ if ord >= terms => None,
                0..4 => Some(0),
                4..9 => Some(1),
                _ => Some(2),
            };
            let found = id.map(|id| (id, entries.blocks[id as usize]));
            assert_eq!(index.locate_with_ord(ord), found, "{ord} of {terms}");
        }
    }
}

#[test]
fn ordinals_below_the_number_of_terms() {
    let mut seen = [0; 3];
    for (entries, version, bytes) in lists() {
        let least = entries.least_terms();
        for terms in numbers(least).into_iter().filter(|&terms| terms >= least) {
            let index = Index::open(&bytes, version, terms).unwrap();
            for ord in ordinals(&entries, terms) {
                let found = index.locate_with_ord(ord);
                assert_eq!(found, entries.by_ord(ord, terms), "{ord} of {terms}");
                let below = ord < entries.blocks[0].first_ordinal;
                seen[if below {
                    0
                } else {
                    1 + usize::from(found.is_some())
                }] += 1;
            }
        }
    }
    // below the first, from the number on, and found
    assert!(seen.iter().all(|&count| count > 20), "{seen:?}");
}

/// The highest first ordinal leaves room for a number of terms, and ordinals from 2^55 on may be its block's.
#[test]
fn highest_first_ordinal() {
    let entries = highest();
    let last = Some((1, entries.blocks[1]));
    for version in VERSIONS {
        let bytes = entries.index(version);
        let opening = |terms| Index::open(&bytes, version, terms);
        assert_eq!(opening(LIMIT - 1).unwrap_err(), Refusal::TooFewTerms);
        let index = opening(LIMIT).unwrap();
        assert_eq!(index.locate_with_ord(LIMIT - 1), last);
        assert_eq!(index.locate_with_ord(LIMIT), None);
        let unknown = Index::open_unknown_terms(&bytes, version).unwrap();
        assert_eq!(unknown.terms(), LIMIT);
        let index = opening(u64::MAX).unwrap();
        assert_eq!(index.locate_with_ord(u64::MAX - 1), last);
        assert_eq!(index.locate_with_ord(u64::MAX), None);
        assert_eq!(index.locate_with_ord(6), None);
    }
}

/// What doesn't go by ordinals is the same.
fn same_but_ordinals(one: &Index, other: &Index, entries: &Entries) {
    assert_eq!(one.as_bytes().as_ptr(), other.as_bytes().as_ptr());
    assert_eq!(one.len(), other.len());
    assert!(one.blocks().eq(other.blocks()));
    assert!(one.separators().eq(other.separators()));
    let longer = entries.keys.iter().map(|key| [&key[..], &[0]].concat());
    let keys: Vec<Vec<u8>> = entries.keys.iter().cloned().chain(longer).collect();
    for key in &keys {
        assert_eq!(one.locate_with_key(key), other.locate_with_key(key));
        assert_eq!(one.get_block_with_key(key), other.get_block_with_key(key));
    }
    assert_eq!(one.locate_with_keys(&keys), other.locate_with_keys(&keys));
    for id in 0..one.len() + 2 {
        assert_eq!(one.get_block(id), other.get_block(id));
        assert_eq!(one.interval(id), other.interval(id));
    }
    // keys of an even length
    let even = Automaton::from_fn(2, |state| state == 0, |state, _| 1 - state).unwrap();
    let listed = |index: &Index| -> Vec<_> { index.get_block_for_automaton(&even).collect() };
    assert_eq!(listed(one), listed(other));
}

/// Whatever the number of terms, other lookups find the same.
#[test]
fn other_lookups() {
    for (entries, version, bytes) in lists() {
        let least = entries.least_terms();
        let opening = |terms| Index::open(&bytes, version, terms).unwrap();
        for terms in numbers(least).into_iter().filter(|&terms| terms > least) {
            same_but_ordinals(&opening(terms), &opening(least), &entries);
        }
    }
}

/// A file of unknown terms has every answer that it has with the last first ordinal plus one.
#[test]
fn unknown_terms() {
    for (entries, version, bytes) in lists() {
        let last = entries.blocks[entries.blocks.len() - 1];
        let index = Index::open_unknown_terms(&bytes, version).unwrap();
        let known = Index::open(&bytes, version, last.first_ordinal + 1).unwrap();
        assert_eq!(index.terms(), last.first_ordinal + 1);
        assert_eq!(format!("{index:?}"), format!("{known:?}"));
        same_but_ordinals(&index, &known, &entries);
        for ord in ordinals(&entries, index.terms()) {
            assert_eq!(index.locate_with_ord(ord), known.locate_with_ord(ord));
        }
        let found = index.locate_with_ord(last.first_ordinal);
        assert_eq!(found, Some((index.len() - 1, last)));
        assert_eq!(index.locate_with_ord(last.first_ordinal + 1), None);
    }
}
