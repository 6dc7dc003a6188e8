//! The stack that calls take: little, however many blocks there are.

mod model;

use std::thread;

use model::VERSIONS;
use rosmarel::{BlockAddr, Builder, Index, Refusal, Version};

fn blocks(n: u64) -> Vec<BlockAddr> {
    (0..n).map(|i| BlockAddr::new(i..i + 1, i)).collect()
}

/// A thread with little more stack than the least that the system gives.
fn on_a_small_stack(calls: impl FnOnce() + Send + 'static) {
    let thread = thread::Builder::new().stack_size(64 << 10).spawn(calls);
    assert!(thread.unwrap().join().is_ok());
}

/// Stores of a short list and of the longest one, in both versions.
#[test]
fn a_small_stack_is_enough() {
    let lists = [3, 65_536].map(|n| {
        let stores = VERSIONS.map(|version| (version, model::store(version, &blocks(n))));
        (blocks(n), stores)
    });
    on_a_small_stack(move || {
        for (blocks, stores) in &lists {
            for (version, store) in stores {
                assert_eq!(rosmarel::store(blocks, *version).as_ref(), Ok(store));
            }
        }
    });
}

/// A small index and the largest.
fn indexes() -> [model::Entries; 2] {
    let key = |i: u64| u32::to_be_bytes(i as u32).to_vec();
    [2, 65_536].map(|n| model::Entries {
        blocks: blocks(n),
        keys: (0..n).map(key).collect(),
    })
}

fn builder(entries: &model::Entries) -> Builder {
    let mut builder = Builder::new();
    for (key, &block) in entries.keys.iter().zip(&entries.blocks) {
        builder.add_block(key, block).unwrap();
    }
    builder
}

/// Finishing, opening, and lookups in the first group and in the last, in both versions.
#[test]
fn a_small_stack_is_enough_for_indexes() {
    let lists = indexes().map(|entries| (builder(&entries), entries));
    on_a_small_stack(move || {
        for (builder, entries) in &lists {
            for version in VERSIONS {
                let bytes = builder.finish(version).unwrap();
                let index = Index::open_unknown_terms(&bytes, version).unwrap();
                for id in [0, index.len() - 1] {
                    let block = entries.blocks[id as usize];
                    assert_eq!(index.get_block(id), Some(block));
                    let found = index.locate_with_ord(block.first_ordinal);
                    assert_eq!(found, Some((id, block)));
                }
            }
        }
    });
}

/// Batches of one key and of many.
#[test]
fn a_small_stack_is_enough_for_batches() {
    let version = Version::V4;
    let indexes = indexes().map(|entries| (entries.index(version), entries.keys));
    on_a_small_stack(move || {
        for (bytes, all) in &indexes {
            let index = Index::open_unknown_terms(bytes, version).unwrap();
            for keys in [&all[..1], all] {
                let ids = index.locate_with_keys(keys);
                assert!(ids.into_iter().eq((0..keys.len() as u64).map(Some)));
            }
        }
    });
}

/// The check of canonical indexes, and of ones that aren't: a byte more stands behind their groups.
#[test]
fn a_small_stack_is_enough_for_the_check() {
    let files = indexes().map(|entries| VERSIONS.map(|version| (version, entries.index(version))));
    on_a_small_stack(move || {
        for (version, bytes) in files.as_flattened() {
            assert_eq!(rosmarel::check_canonical(bytes, *version), Ok(()));
            let mut more = bytes.clone();
            more.insert(bytes.len() - 8, 0);
            let checked = rosmarel::check_canonical(&more, *version);
            assert_eq!(checked, Err(Refusal::NotCanonical));
        }
    });
}
