//! Files that were damaged: refused as the model refuses them, or opened, and then every lookup gives what they hold.

mod model;

use model::{Draw, Entries, VERSIONS};
use rosmarel::{Automaton, BlockAddr, Index, Refusal, Version};

/// In how many versions a file opened.
fn check(bytes: &[u8], any: &Automaton) -> u32 {
    let opened = VERSIONS.map(|version| u32::from(check_in(bytes, version, any)));
    opened.into_iter().sum()
}

/// Whether it opened.
fn check_in(bytes: &[u8], version: Version, any: &Automaton) -> bool {
    let checked = rosmarel::check_canonical(bytes, version);
    let checked = checked.map_or_else(Refusal::number, |()| 0);
    assert_eq!(checked, model::canonical_no(bytes, version), "{bytes:02x?}");
    let opening = |terms: u64| Index::open(bytes, version, terms).map_err(Refusal::number);
    let read = model::read(bytes, version);
    let index = match (Index::open_unknown_terms(bytes, version), &read) {
        (Ok(index), Ok(entries)) => {
            let least = entries.least_terms();
            assert_eq!(index.terms(), least);
            for terms in [0, least - 1] {
                assert_eq!(opening(terms).unwrap_err(), 28, "{bytes:02x?}");
            }
            consistent(&index, entries, any);
            consistent(&opening(least + 1).unwrap(), entries, any);
            return true;
        }
        (index, _) => index,
    };
    // whatever the number of terms, it is the file's own fault
    let number = index.unwrap_err().number();
    assert_eq!(Err(number), read, "{bytes:02x?}");
    for terms in [0, 10, u64::MAX] {
        assert_eq!(opening(terms).unwrap_err(), number, "{bytes:02x?}");
    }
    false
}

fn consistent(index: &Index, entries: &Entries, any: &Automaton) {
    let n = index.len();
    assert_eq!(n, entries.blocks.len() as u64);
    for (id, (block, key)) in (0..).zip(entries.blocks.iter().zip(&entries.keys)) {
        assert_eq!(index.get_block(id), Some(*block));
        assert_eq!(index.separator(id), Some(&key[..]));
        assert_eq!(index.locate_with_key(key), Some(id));
        assert_eq!(index.get_block_with_key(key), Some((id, *block)));
        assert_eq!(
            index.locate_with_ord(block.first_ordinal),
            Some((id, *block))
        );
        let before = block.first_ordinal.wrapping_sub(1);
        assert_eq!(
            index.locate_with_ord(before),
            entries.by_ord(before, index.terms())
        );
    }
    let last = index.terms() - 1;
    assert_eq!(index.locate_with_ord(last), entries.by_ord(last, last + 1));
    assert_eq!(index.locate_with_ord(last + 1), None);
    let ids = index.locate_with_keys(&entries.keys);
    assert!(ids.into_iter().eq((0..n).map(Some)));
    assert_eq!((index.get_block(n), index.separator(n)), (None, None));
    assert_eq!(
        index.get_block_for_automaton(any).count() as u64,
        n,
        "each interval has a key"
    );
}

fn any() -> Automaton {
    Automaton::from_fn(1, |_| true, |_, _| 0).unwrap()
}

fn worked() -> Vec<u8> {
    Entries::worked().index(Version::V3)
}

/// Each byte of the 85 set to each value.
#[test]
fn one_byte() {
    let (good, any) = (worked(), any());
    let mut opened = 0;
    for at in 0..good.len() {
        for value in 0..=u8::MAX {
            let mut bytes = good.clone();
            bytes[at] = value;
            opened += check(&bytes, &any);
        }
    }
    // the file itself once for each byte in both versions, and some that are other indexes
    assert!(opened > 2 * 85, "{opened}");
}

#[test]
fn two_bytes() {
    let (good, any) = (worked(), any());
    let mut draw = Draw::new(10);
    for _ in 0..100_000 {
        let mut bytes = good.clone();
        for _ in 0..2 {
            let at = draw.below(85) as usize;
            bytes[at] = draw.of(&[0, 1, 2, 3, 35, 36, 37, 0x7f, 0x80, 0xff, draw_byte(at)]);
        }
        check(&bytes, &any);
    }
}

fn draw_byte(at: usize) -> u8 {
    (at * 37) as u8
}

/// Bytes missing or too many, at the front, in the middle and at the end.
#[test]
fn other_lengths() {
    let (good, any) = (worked(), any());
    for from in 0..=good.len() {
        for to in from..=good.len() {
            check(&good[from..to], &any);
            check(&[&good[..from], &good[to..]].concat(), &any);
        }
        for len in [1, 8, 36] {
            let more = [&good[..from], &vec![0; len], &good[from..]].concat();
            check(&more, &any);
        }
    }
}

/// Bytes behind the last fields are allowed.
#[test]
fn spare_address_bytes() {
    let good = worked();
    let more = [&good[..77], &[1, 2, 3], &good[77..]].concat();
    for version in VERSIONS {
        let index = Index::open(&more, version, 12).unwrap();
        assert_eq!(index.get_block(2), Some(BlockAddr::new(25..30, 9)));
    }
}

#[test]
fn noise() {
    let (mut draw, any) = (Draw::new(11), any());
    for _ in 0..20_000 {
        let len = draw.below(200) as usize;
        let mut bytes: Vec<u8> = (0..len).map(|_| draw.any() as u8).collect();
        // a footer that leads somewhere
        if len > 16 && draw.one_in(2) {
            bytes[len - 8..].copy_from_slice(&draw.below(len as u64).to_le_bytes());
        }
        check(&bytes, &any);
    }
}

/// Files of one group and of several.
#[test]
fn larger_files() {
    for version in VERSIONS {
        damage(version, Draw::new(12), Draw::entries);
        // with fields of up to 56 bits
        damage(version, Draw::new(13), Draw::far_entries);
    }
}

fn damage(version: Version, mut draw: Draw, entries: impl Fn(&mut Draw, usize) -> Entries) {
    let any = any();
    let (mut opened, mut rounds) = (0, 0);
    for n in [2, 127, 128, 129, 256, 257, 300] {
        let good = entries(&mut draw, n).index(version);
        for _ in 0..600 {
            let mut bytes = good.clone();
            for _ in 0..=draw.below(2) {
                // often in the store, where the first bytes are the keys' part
                let from = if draw.one_in(3) {
                    0
                } else {
                    bytes.len() * 2 / 3
                };
                let at = from as u64 + draw.below((bytes.len() - from) as u64);
                bytes[at as usize] ^= 1 << draw.below(8);
            }
            let versions = check(&bytes, &any);
            assert!(versions < 2 || n <= 128);
            opened += versions;
            rounds += 1;
        }
    }
    assert!(opened > 0 && opened < 2 * rounds, "{opened} of {rounds}");
}
