//! The cases that the specification works by hand.

mod model;

use model::{LIMIT, VERSIONS};
use rosmarel::{Automaton, BlockAddr, Builder, Index, Refusal, Version};

fn blocks() -> [BlockAddr; 3] {
    [
        BlockAddr::new(0..10, 0),
        BlockAddr::new(10..25, 4),
        BlockAddr::new(25..30, 9),
    ]
}

/// One group, so that it is the same in both versions.
fn index() -> Vec<u8> {
    let mut builder = Builder::new();
    for (key, block) in [b"\x62", b"\x64", b"\x66"].into_iter().zip(blocks()) {
        builder.add_block(key, block).unwrap();
    }
    let [three, four] = VERSIONS.map(|version| builder.finish(version).unwrap());
    assert_eq!(three, four);
    three
}

/// The store in both versions, for few blocks.
fn store(blocks: &[BlockAddr]) -> Vec<u8> {
    let [three, four] = VERSIONS.map(|version| rosmarel::store(blocks, version).unwrap());
    assert_eq!(three, four);
    three
}

#[test]
fn store_of_three_blocks() {
    let store = store(&blocks());
    let mut wanted = Vec::new();
    wanted.extend(36u64.to_le_bytes());
    wanted.extend([0; 24]);
    wanted.extend(11u32.to_le_bytes());
    wanted.extend(5u32.to_le_bytes());
    wanted.extend([2, 3, 2, 0]);
    wanted.extend([0xeb, 0x05]);
    assert_eq!(wanted.len(), 46);
    assert_eq!(store, wanted);
}

#[test]
fn index_of_three_blocks() {
    let index = index();
    assert_eq!(index.len(), 85);
    let mut wanted = vec![3, 0, 0, 0];
    for i in 0..3u32 {
        wanted.extend(i.to_le_bytes());
        wanted.extend(1u32.to_le_bytes());
    }
    wanted.extend(b"bdf");
    let directory_len = wanted.len() as u64;
    wanted.extend(store(&blocks()));
    wanted.extend(directory_len.to_le_bytes());
    assert_eq!(index, wanted);
}

/// It is canonical; its last three bits are padding, and have to be 0.
#[test]
fn check_of_three_blocks() {
    let mut index = index();
    for version in VERSIONS {
        assert_eq!(rosmarel::check_canonical(&index, version), Ok(()));
        for bit in 5..8 {
            index[76] ^= 1 << bit;
            let checked = rosmarel::check_canonical(&index, version);
            assert_eq!(checked, Err(Refusal::NotCanonical));
            index[76] ^= 1 << bit;
        }
    }
}

#[test]
fn lookups_in_three_blocks() {
    for version in VERSIONS {
        lookups(version);
    }
}

fn lookups(version: Version) {
    let bytes = index();
    let index = Index::open(&bytes, version, 12).unwrap();
    assert_eq!((index.len(), index.terms()), (3, 12));
    assert_eq!(index.version(), version);
    assert_eq!(index.get_block(2), Some(blocks()[2]));
    assert_eq!(index.get_block(3), None);
    assert_eq!(index.get_block(u64::MAX), None);
    for (ord, id) in [(0, 0), (3, 0), (4, 1), (8, 1), (9, 2), (11, 2)] {
        let block = blocks()[id as usize];
        assert_eq!(index.locate_with_ord(ord), Some((id, block)));
    }
    for ord in [12, 13, 1_000_000, u64::MAX] {
        assert_eq!(index.locate_with_ord(ord), None);
    }
    for (key, id) in [
        ("", Some(0)),
        ("a", Some(0)),
        ("b", Some(0)),
        ("c", Some(1)),
        ("f", Some(2)),
        ("fa", None),
        ("g", None),
    ] {
        assert_eq!(index.locate_with_key(key.as_bytes()), id);
        let found = id.map(|id| (id, blocks()[id as usize]));
        assert_eq!(index.get_block_with_key(key.as_bytes()), found);
    }
    let ids = index.locate_with_keys(&["g", "f", "c", "a", "", "b", "fa"]);
    let some = [2, 1, 0, 0, 0].map(Some);
    assert_eq!(ids, [&[None], &some[..], &[None]].concat());
}

/// The lines that the program `blocks` prints for these bytes; it reads version 3 and knows no number of terms.
#[test]
fn lines_of_three_blocks() {
    let bytes = index();
    let index = Index::open_unknown_terms(&bytes, Version::V3).unwrap();
    let mut lines = String::new();
    for ((id, block), separator) in index.blocks().zip(index.separators()) {
        let hex: String = separator.iter().map(|byte| format!("{byte:02x}")).collect();
        let BlockAddr {
            start,
            end,
            first_ordinal,
        } = block;
        lines += &format!("{id} {start} {end} {first_ordinal} {hex}\n");
    }
    assert_eq!(lines, "0 0 10 0 62\n1 10 25 4 64\n2 25 30 9 66\n");
}

/// Slope and width, seen in the records of stores.
#[test]
fn slopes() {
    // the point (1, 2^40) as a range point; no ordinal points
    let bytes = store(&[BlockAddr::new(0..1 << 40, 0)]);
    assert_eq!(bytes[8 + 24..8 + 28], 0u32.to_le_bytes());
    assert_eq!(bytes[8 + 28..8 + 32], 0u32.to_le_bytes());
    assert_eq!(bytes[8 + 32..8 + 34], [1, 42]);
    // and as an ordinal point
    let two = [BlockAddr::new(0..0, 0), BlockAddr::new(0..0, 1 << 40)];
    let bytes = store(&two);
    assert_eq!(bytes[8 + 28..8 + 32], 0u32.to_le_bytes());
    assert_eq!(bytes[8 + 32..8 + 34], [42, 1]);
    // 49 bits
    let bytes = store(&[BlockAddr::new(0..(1 << 48) - 1, 0)]);
    assert_eq!(bytes[8 + 24..8 + 28], 4_294_967_295u32.to_le_bytes());
    assert_eq!(bytes[8 + 33], 49);
    // the widest block: 56 bits, and the field 2^56 - 2^32
    let bytes = store(&[BlockAddr::new(0..LIMIT - 1, 0)]);
    assert_eq!(bytes[8 + 24..8 + 28], 4_294_967_295u32.to_le_bytes());
    assert_eq!(bytes[8 + 33], 56);
    assert_eq!(bytes[8 + 36..], [0, 0, 0, 0, 0xff, 0xff, 0xff]);
}

#[test]
fn stores_of_none_and_one() {
    assert_eq!(store(&[]), [0; 8]);
    let one = [BlockAddr::new(5..9, 3)];
    assert_eq!(store(&one), model::store(Version::V3, &one));
}

#[test]
fn shortened_keys() {
    for (left, right, short) in [
        (&b"abcdef"[..], &b"abf"[..], &b"abce"[..]),
        (b"ab", b"abc", b"ab"),
        (b"\x61\xff\xff", b"\x62", b"\x61\xff\xff"),
        (b"\x61\xff\x01", b"\x62", b"\x61\xff\x02"),
        (b"a", b"b", b"a"),
    ] {
        let mut builder = Builder::new();
        builder.add_block(left, BlockAddr::default()).unwrap();
        builder
            .shorten_last_block_key_given_next_key(right)
            .unwrap();
        assert_eq!(builder.last_separator(), Some(short));
    }
}

/// Shortening twice shortens further, and the next add is compared with the separator as it is.
#[test]
fn shortened_twice() {
    let mut builder = Builder::new();
    builder.add_block(b"ab", BlockAddr::default()).unwrap();
    for short in [b"ac", b"ad"] {
        builder.shorten_last_block_key_given_next_key(b"b").unwrap();
        assert_eq!(builder.last_separator(), Some(&short[..]));
    }
    let block = BlockAddr::new(0..0, 1);
    assert_eq!(builder.add_block(b"ad", block), Err(Refusal::KeyOrder));
    builder.add_block(b"ae", block).unwrap();
}

#[test]
fn nothing_to_shorten() {
    let mut builder = Builder::new();
    builder.shorten_last_block_key_given_next_key(b"b").unwrap();
    assert!(builder.is_empty());
}

#[test]
fn intervals() {
    let c = Automaton::from_fn(
        3,
        |state| state == 1,
        |state, byte| match (state, byte) {
            (0, b'c') => 1,
            _ => 2,
        },
    )
    .unwrap();
    assert!(c.can_block_match(Some(b"b"), b"d"));
    assert!(!c.can_block_match(Some(b"c"), b"d"));
    assert_eq!(c.example(Some(b"b"), b"d"), Some(b"c".to_vec()));
    assert_eq!(c.example(Some(b"c"), b"d"), None);

    let empty = Automaton::from_fn(2, |state| state == 0, |_, _| 1).unwrap();
    assert!(empty.can_block_match(None, b""));
    assert!(!empty.can_block_match(Some(b""), b""));
    assert_eq!(empty.example(None, b""), Some(Vec::new()));
    assert_eq!(empty.example(Some(b""), b""), None);
}

/// The examples that docs/FORMAT.md shows, of which the third table's in block 1 isn't the lowest.
#[test]
fn examples_in_three_blocks() {
    let bytes = index();
    let any = Automaton::from_fn(1, |_| true, |_, _| 0);
    let two = Automaton::from_fn(4, |state| state == 2, |state, _| 3.min(state + 1));
    let ba = Automaton::from_fn(
        3,
        |state| state == 2,
        |state, byte| match (state, byte) {
            (2, _) | (1, b'a') => 2,
            (_, b'b') => 1,
            _ => 0,
        },
    );
    let ba = ba.unwrap();
    let shown: [(Automaton, [&[u8]; 3]); 3] = [
        (any.unwrap(), [b"", b"c", b"e"]),
        (two.unwrap(), [b"\0\0", b"b\0", b"d\0"]),
        (ba.clone(), [b"\0ba", b"ba", b"dba"]),
    ];
    for version in VERSIONS {
        let index = Index::open(&bytes, version, 12).unwrap();
        for (automaton, keys) in &shown {
            for (id, key) in (0..).zip(keys) {
                let (start, end) = index.interval(id).unwrap();
                assert_eq!(automaton.example(start, end).as_deref(), Some(*key));
            }
        }
    }
    let lower = &b"b\0ba"[..];
    assert!(ba.accepts(lower) && &b"b"[..] < lower && lower < &b"ba"[..]);
}

#[test]
fn common_prefixes() {
    for (left, right, len) in [
        ("", "", 0),
        ("abc", "abd", 2),
        ("ab", "abc", 2),
        ("b", "a", 0),
    ] {
        let (left, right) = (left.as_bytes(), right.as_bytes());
        assert_eq!(rosmarel::common_prefix_len(left, right), len);
        assert_eq!(rosmarel::common_prefix(left, right), &left[..len]);
    }
}

/// The model itself gives these cases.
#[test]
fn model_agrees() {
    assert_eq!(model::best_slope(&[10, 25, 30]), (11, 3));
    assert_eq!(model::best_slope(&[4, 9]), (5, 2));
    assert_eq!(model::best_slope(&[1 << 40]), (0, 42));
    assert_eq!(model::best_slope(&[LIMIT - 1]), (4_294_967_295, 56));
    assert_eq!(model::best_slope(&[]), (0, 1));
    for version in VERSIONS {
        let opened = model::open(&index(), version, 12).unwrap();
        assert_eq!(opened.blocks, blocks());
        assert_eq!(opened.index(version), index());
        assert_eq!(opened.least_terms(), 10);
        assert_eq!(model::open(&index(), version, 9), Err(28));
        assert_eq!(opened.by_ord(11, 12), Some((2, blocks()[2])));
        assert_eq!(opened.by_ord(12, 12), None);
    }
    // one state that accepts and stays: above b and not above d the key c
    let mut all = vec![0; 258];
    all[..2].copy_from_slice(&[1, 1]);
    let first = |start, end| model::first_between(&all, start, end);
    assert_eq!(first(Some(b"b"), b"d"), Some(b"c".to_vec()));
    assert_eq!(first(Some(b"b"), b"bz"), Some(b"b\0".to_vec()));
    assert_eq!(first(Some(b"bz"), b"bz"), None);
    assert_eq!(first(None, b""), Some(Vec::new()));
}
