//! Every refusal that can be had through the crate's calls.

mod model;

use std::collections::BTreeSet;
use std::error::Error;

use model::{LIMIT, VERSIONS};
use rosmarel::{Automaton, BlockAddr, Builder, Index, Refusal, Version};

/// A block that ends before it starts.
fn turned(start: u64) -> BlockAddr {
    BlockAddr {
        start,
        end: start - 1,
        first_ordinal: 1,
    }
}

fn two() -> Builder {
    let mut builder = Builder::new();
    builder.add_block(b"b", BlockAddr::new(3..10, 5)).unwrap();
    builder.add_block(b"d", BlockAddr::new(10..25, 9)).unwrap();
    builder
}

/// The index of few blocks, which is the same in both versions.
fn finished(builder: &Builder) -> Vec<u8> {
    let [three, four] = VERSIONS.map(|version| builder.finish(version).unwrap());
    assert_eq!(three, four);
    three
}

/// The call is refused and changes nothing.
fn add_refused(key: &[u8], block: BlockAddr, refusal: Refusal) {
    let mut builder = two();
    let before = finished(&builder);
    assert_eq!(builder.add_block(key, block), Err(refusal));
    assert_eq!(builder.len(), 2);
    assert_eq!(finished(&builder), before);
    // and the builder goes on
    builder.add_block(b"e", BlockAddr::new(25..30, 10)).unwrap();
}

#[test]
fn numbers_and_sentences() {
    let all: Vec<Refusal> = (0..=100).filter_map(Refusal::from_number).collect();
    let numbers: Vec<u32> = all.iter().map(|refusal| refusal.number()).collect();
    assert_eq!(numbers, Vec::from_iter(1..=30));
    let sentences: BTreeSet<&str> = all.iter().map(|refusal| refusal.sentence()).collect();
    assert_eq!(sentences.len(), 30);
    for refusal in all {
        let error: Box<dyn Error + Send + Sync> = Box::new(refusal);
        let number = u32::from(refusal);
        assert_eq!(
            error.to_string(),
            format!("{} (refusal {number})", refusal.sentence())
        );
    }
    assert_eq!(Refusal::from_number(u32::MAX), None);
}

#[test]
fn add_2_to_6() {
    let next = BlockAddr::new(25..30, 10);
    add_refused(&[0xff; 1_025], next, Refusal::KeyTooLong);
    for block in [
        BlockAddr { end: 24, ..next },
        BlockAddr { end: LIMIT, ..next },
        BlockAddr {
            end: u64::MAX,
            ..next
        },
        BlockAddr {
            first_ordinal: LIMIT,
            ..next
        },
        BlockAddr {
            first_ordinal: u64::MAX,
            ..next
        },
    ] {
        add_refused(b"e", block, Refusal::BlockNumbers);
    }
    add_refused(b"e", BlockAddr::new(24..30, 10), Refusal::BlockJoin);
    add_refused(b"e", BlockAddr::new(26..30, 10), Refusal::BlockJoin);
    for first_ordinal in [0, 8, 9] {
        let block = BlockAddr {
            first_ordinal,
            ..next
        };
        add_refused(b"e", block, Refusal::OrdinalOrder);
    }
    for key in [&b""[..], b"c", b"d"] {
        add_refused(key, next, Refusal::KeyOrder);
    }
    // a first block may start anywhere, have any ordinal and an empty key
    let mut builder = Builder::new();
    builder
        .add_block(b"", BlockAddr::new(LIMIT - 1..LIMIT - 1, LIMIT - 1))
        .unwrap();
    // the longest key
    let mut builder = two();
    builder.add_block(&[0xff; 1_024], next).unwrap();
}

/// The first row that is hit counts.
#[test]
fn add_in_order() {
    let long = [0u8; 1_025];
    add_refused(&long, turned(9), Refusal::KeyTooLong);
    add_refused(b"a", turned(9), Refusal::BlockNumbers);
    add_refused(b"a", BlockAddr::new(9..9, 0), Refusal::BlockJoin);
    add_refused(b"a", BlockAddr::new(25..25, 0), Refusal::OrdinalOrder);
    add_refused(b"a", BlockAddr::new(25..25, 10), Refusal::KeyOrder);
}

#[test]
fn shorten_2_and_6() {
    for (key, refusal) in [
        (&[0xff; 1_025][..], Refusal::KeyTooLong),
        (b"", Refusal::KeyOrder),
        (b"d", Refusal::KeyOrder),
    ] {
        let mut builder = two();
        let before = finished(&builder);
        let answer = builder.shorten_last_block_key_given_next_key(key);
        assert_eq!(answer, Err(refusal));
        assert_eq!(finished(&builder), before);
    }
    let mut fresh = Builder::new();
    let answer = fresh.shorten_last_block_key_given_next_key(&[0; 1_025]);
    assert_eq!(answer, Err(Refusal::KeyTooLong));
}

/// 65,536 blocks are taken, written and found; one more is not.
#[test]
fn add_7() {
    let most = rosmarel::MAX_BLOCKS;
    let mut builder = Builder::with_capacity(10, 10);
    let block = |i: u64| BlockAddr::new(7 * i..7 * i + 7, 3 * i);
    let key = |i: u64| u32::to_be_bytes(i as u32);
    for i in 0..most {
        builder.add_block(&key(i), block(i)).unwrap();
    }
    assert_eq!(
        builder.add_block(&key(most), block(most)),
        Err(Refusal::TooManyBlocks)
    );
    assert_eq!(builder.len(), most);
    for version in VERSIONS {
        let bytes = builder.finish(version).unwrap();
        let index = Index::open(&bytes, version, 3 * most).unwrap();
        assert_eq!(index.len(), most);
        assert!(index.blocks().eq((0..most).map(|i| (i, block(i)))));
        assert!(index.separators().eq((0..most).map(key)));
        for i in (0..most).step_by(997) {
            assert_eq!(index.get_block_with_key(&key(i)), Some((i, block(i))));
            assert_eq!(index.locate_with_ord(3 * i + 2), Some((i, block(i))));
        }
        assert_eq!(index.locate_with_ord(3 * most), None);
    }
}

#[test]
fn finish_9() {
    let builder = two();
    for version in VERSIONS {
        let total = builder.finish_len(version).unwrap();
        for len in 0..total {
            let mut out = vec![0x5a; len];
            let answer = builder.finish_into(version, &mut out);
            assert_eq!(answer, Err(Refusal::OutputTooShort));
            assert!(out.iter().all(|&byte| byte == 0x5a));
        }
        let mut out = vec![0x5a; total + 3];
        assert_eq!(builder.finish_into(version, &mut out), Ok(total));
        assert_eq!(out[..total], finished(&builder));
        assert_eq!(out[total..], [0x5a; 3]);
    }
}

#[test]
fn finish_of_none_and_one() {
    for version in VERSIONS {
        let mut builder = Builder::new();
        assert_eq!(builder.finish(version).unwrap(), b"");
        assert_eq!(builder.finish_len(version), Ok(0));
        builder.add_block(b"b", BlockAddr::new(0..10, 0)).unwrap();
        assert_eq!(builder.finish(version).unwrap(), b"");
        let mut out = [0x5a; 4];
        assert_eq!(builder.finish_into(version, &mut out), Ok(0));
        assert_eq!(out, [0x5a; 4]);
        let opened = Index::open(b"", version, 1);
        assert_eq!(opened.unwrap_err(), Refusal::Footer);
    }
}

#[test]
fn cleared() {
    let mut builder = two();
    let before = finished(&builder);
    builder.clear();
    assert_eq!((builder.len(), builder.last_separator()), (0, None));
    assert_eq!(finished(&builder), b"");
    builder.add_block(b"b", BlockAddr::new(3..10, 5)).unwrap();
    builder.add_block(b"d", BlockAddr::new(10..25, 9)).unwrap();
    assert_eq!(finished(&builder), before);
}

#[test]
fn store_3_4_5_7_9() {
    for version in VERSIONS {
        store_in(version);
    }
}

fn store_in(version: Version) {
    let refused = |blocks: &[BlockAddr], refusal| {
        assert_eq!(rosmarel::store(blocks, version), Err(refusal));
        let mut out = [0x5a; 100];
        let answer = rosmarel::store_into(blocks, version, &mut out);
        assert_eq!(answer, Err(refusal));
        assert_eq!(out, [0x5a; 100]);
        assert_eq!(model::store_no(blocks), refusal.number());
    };
    let one = BlockAddr::new(0..10, 0);
    refused(&[turned(1)], Refusal::BlockNumbers);
    for high in [LIMIT, u64::MAX] {
        refused(&[BlockAddr::new(0..high, 0)], Refusal::BlockNumbers);
        refused(&[BlockAddr::new(high..high, 0)], Refusal::BlockNumbers);
        refused(&[BlockAddr::new(0..1, high)], Refusal::BlockNumbers);
    }
    refused(&[one, BlockAddr::new(11..12, 1)], Refusal::BlockJoin);
    refused(&[one, BlockAddr::new(10..12, 0)], Refusal::OrdinalOrder);
    // each row over all blocks before the next row
    let bad = [one, BlockAddr::new(11..12, 0), turned(12)];
    refused(&bad, Refusal::BlockNumbers);
    refused(&bad[..2], Refusal::BlockJoin);

    let mut many: Vec<BlockAddr> = (0..65_537).map(|i| BlockAddr::new(i..i + 1, i)).collect();
    refused(&many, Refusal::TooManyBlocks);
    many[65_536].start -= 1;
    refused(&many, Refusal::BlockJoin);
    many[65_536].end = 0;
    refused(&many, Refusal::BlockNumbers);

    let some = &many[..300];
    let store = rosmarel::store(some, version).unwrap();
    assert_eq!(store, model::store(version, some));
    for len in 0..store.len() {
        let mut out = vec![0x5a; len];
        let answer = rosmarel::store_into(some, version, &mut out);
        assert_eq!(answer, Err(Refusal::OutputTooShort));
        assert!(out.iter().all(|&byte| byte == 0x5a));
    }
    let mut out = vec![0x5a; store.len() + 1];
    let answer = rosmarel::store_into(some, version, &mut out);
    assert_eq!(answer, Ok(store.len()));
    assert_eq!(out[..store.len()], store);
    assert_eq!(out[store.len()], 0x5a);
}

/// A file with one thing changed. Its fault comes before a number of terms that is too low, and is that of both versions.
fn opened(change: impl Fn(&mut Vec<u8>)) -> Refusal {
    let mut bytes = finished(&two());
    change(&mut bytes);
    let [three, four] = VERSIONS.map(|version| opened_in(&bytes, version));
    assert_eq!(three, four);
    three
}

fn opened_in(bytes: &[u8], version: Version) -> Refusal {
    let refusal = Index::open_unknown_terms(bytes, version).unwrap_err();
    for terms in [0, 1, 9, 10, LIMIT - 1, LIMIT, u64::MAX] {
        let opened = Index::open(bytes, version, terms);
        assert_eq!(opened.unwrap_err(), refusal, "{terms}");
        let model = model::open(bytes, version, terms);
        assert_eq!(model, Err(refusal.number()));
    }
    assert_eq!(rosmarel::check_canonical(bytes, version), Err(refusal));
    refusal
}

#[test]
fn open_10_to_16() {
    // directory: count at 0, pairs at 4 and 12, keys at 20; 22 bytes
    let len = finished(&two()).len();
    let (store, footer) = (22, len - 8);
    let set = |at: usize, value: u8| opened(|bytes| bytes[at] = value);
    assert_eq!(opened(|bytes| bytes.truncate(7)), Refusal::Footer);
    assert_eq!(opened(|bytes| bytes.clear()), Refusal::Footer);
    assert_eq!(set(footer, len as u8), Refusal::Footer);
    assert_eq!(opened(|bytes| bytes[footer..].fill(0xff)), Refusal::Footer);
    assert_eq!(set(footer, 0), Refusal::DirectoryMissing);
    assert_eq!(
        opened(|bytes| *bytes = vec![0; 8]),
        Refusal::DirectoryMissing
    );
    assert_eq!(set(0, 1), Refusal::Directory);
    assert_eq!(set(3, 1), Refusal::Directory);
    assert_eq!(set(4, 1), Refusal::Directory);
    assert_eq!(set(9, 5), Refusal::Directory);
    assert_eq!(set(footer, 21), Refusal::Directory);
    assert_eq!(set(footer, 3), Refusal::Directory);
    assert_eq!(set(20, b'd'), Refusal::SeparatorOrder);
    assert_eq!(set(store, 35), Refusal::GroupRecords);
    assert_eq!(set(store, 72), Refusal::GroupRecords);
    assert_eq!(
        opened(|bytes| drop(bytes.drain(store + 40..footer))),
        Refusal::GroupRecords
    );
    // the group's record: offset at 8, start at 16, ordinal at 24, widths at 40, count at 42
    assert_eq!(set(store + 8, 1), Refusal::Group);
    assert_eq!(set(store + 15, 0x20), Refusal::Group);
    assert_eq!(set(store + 40, 0), Refusal::Group);
    assert_eq!(set(store + 40, 57), Refusal::Group);
    assert_eq!(set(store + 41, 0), Refusal::Group);
    assert_eq!(set(store + 41, 57), Refusal::Group);
    assert_eq!(set(store + 42, 0), Refusal::Group);
    assert_eq!(set(store + 42, 2), Refusal::Group);
    // the first start 2^55 + 3, and one that wraps; the first ordinal 2^55 + 5, and 2^56 + 5
    assert_eq!(set(store + 22, 0x80), Refusal::Block);
    assert_eq!(set(store + 23, 0xff), Refusal::Block);
    assert_eq!(set(store + 30, 0x80), Refusal::Block);
    assert_eq!(set(store + 31, 1), Refusal::Block);
    // slopes at 32 and 36: block 1 would start before block 0, or have its ordinal
    assert_eq!(set(store + 32, 0), Refusal::Block);
    assert_eq!(set(store + 36, 0), Refusal::Block);
    // 15 comes before 16
    assert_eq!(
        opened(|bytes| {
            bytes[store + 23] = 0xff;
            bytes[store + 41] = 0;
        }),
        Refusal::Group
    );
}

/// The blocks have the first ordinals 5 and 9.
#[test]
fn open_28() {
    let bytes = finished(&two());
    for version in VERSIONS {
        let opening = |terms| Index::open(&bytes, version, terms);
        for terms in 0..=9 {
            assert_eq!(opening(terms).unwrap_err(), Refusal::TooFewTerms);
        }
        for terms in [10, 11, LIMIT - 1, LIMIT, u64::MAX] {
            assert_eq!(opening(terms).unwrap().terms(), terms);
        }
        let unknown = Index::open_unknown_terms(&bytes, version).unwrap();
        assert_eq!(unknown.terms(), 10);
        assert_eq!(rosmarel::check_canonical(&bytes, version), Ok(()));
    }
}

#[test]
fn table_21_to_23() {
    let good = Automaton::from_fn(3, |state| state == 1, |state, _| state).unwrap();
    let table = good.as_table().to_vec();
    let refused = |table: &[u8], refusal| {
        assert_eq!(Automaton::from_table(table).unwrap_err(), refusal);
        assert_eq!(Automaton::try_from(table).unwrap_err(), refusal);
    };
    let with = |at: usize, value: u8| {
        let mut table = table.clone();
        table[at] = value;
        table
    };
    assert_eq!(Automaton::from_table(&table).unwrap(), good);
    refused(&[], Refusal::AutomatonSize);
    refused(&[0], Refusal::AutomatonSize);
    refused(&table[..table.len() - 1], Refusal::AutomatonSize);
    refused(&[&table[..], &[0]].concat(), Refusal::AutomatonSize);
    refused(&with(0, 2), Refusal::AutomatonSize);
    refused(&with(0, 0), Refusal::AutomatonSize);
    let mut big = vec![0; 1 + 257 * 65];
    big[0] = 65;
    refused(&big, Refusal::AutomatonSize);
    for flag in [2, 255] {
        refused(&with(3, flag), Refusal::AcceptFlag);
    }
    for state in [3, 64, 255] {
        refused(&with(table.len() - 1, state), Refusal::NextState);
    }
    let mut both = with(table.len() - 1, 3);
    both[1] = 2;
    refused(&both, Refusal::AcceptFlag);
}

#[test]
fn closures_21_and_23() {
    for states in [0, 65, usize::MAX] {
        let automaton = Automaton::from_fn(states, |_| true, |_, _| 0);
        assert_eq!(automaton.unwrap_err(), Refusal::AutomatonSize);
    }
    for next in [2, 64, 255, 256, 257, usize::MAX] {
        let automaton = Automaton::from_fn(2, |_| true, |_, byte| if byte == 9 { next } else { 0 });
        assert_eq!(automaton.unwrap_err(), Refusal::NextState);
    }
    let lengths =
        |most: usize| Automaton::explore(0, |&len| len == most, |&len, _| most.min(len + 1));
    assert_eq!(lengths(63).unwrap().states(), 64);
    assert_eq!(lengths(64).unwrap_err(), Refusal::AutomatonSize);
}
