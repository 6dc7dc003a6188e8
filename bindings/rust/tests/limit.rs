//! Ends and ordinals up to 2^55 - 1: taken, found again, and the widest fields that they need; and refused from 2^55 on.

mod model;

use model::{Draw, Entries, LIMIT, VERSIONS};
use rosmarel::{BlockAddr, Builder, Index, MAX_NUMBER, Refusal, Version};

/// The highest numbers of 48 and 55 bits, and the lowest ones above 48 and 54 bits.
const FAR: [u64; 4] = [(1 << 48) - 1, 1 << 48, 1 << 54, LIMIT - 1];

/// Few blocks, and sizes around one group of either version.
const SIZES: [u64; 14] = [2, 3, 4, 5, 6, 7, 8, 9, 10, 128, 129, 256, 257, 300];

fn key(i: usize) -> [u8; 2] {
    u16::to_be_bytes(i as u16)
}

/// Blocks of these ends and first ordinals, from 0 on. The model takes them.
fn entries(list: impl IntoIterator<Item = (u64, u64)>) -> Entries {
    let mut entries = Entries::default();
    for (i, (end, ordinal)) in list.into_iter().enumerate() {
        let start = entries.blocks.last().map_or(0, |last| last.end);
        let block = BlockAddr::new(start..end, ordinal);
        assert_eq!(entries.add(&key(i), block), 0);
    }
    entries
}

/// Lists of n blocks up to this number: ends reach it with block 0, ordinals come near it with block 1, or both; then both reach it
/// with the last block, and in equal steps. Where ends or ordinals rise by 1 their fields have one bit, and the wide ones beside them
/// begin at each bit of a byte.
fn lists(n: u64, most: u64) -> [Entries; 5] {
    let last = n - 1;
    let far = |i| if i == 0 { 0 } else { most - (last - i) };
    let at_last = |i| if i == last { most } else { i };
    let equal = |i| most - (last - i) * (most / n);
    [
        entries((0..n).map(|i| (most, i))),
        entries((0..n).map(|i| (i + 1, far(i)))),
        entries((0..n).map(|i| (most, far(i)))),
        entries((0..n).map(|i| (at_last(i), at_last(i)))),
        entries((0..n).map(|i| (equal(i), equal(i)))),
    ]
}

/// What add, finish, store and the check make of a list is what the model makes of it.
fn written(entries: &Entries, version: Version) -> Vec<u8> {
    let mut builder = Builder::new();
    for (key, &block) in entries.keys.iter().zip(&entries.blocks) {
        builder.add_block(key, block).unwrap();
    }
    let bytes = builder.finish(version).unwrap();
    assert_eq!(bytes, entries.index(version));
    let store = rosmarel::store(&entries.blocks, version).unwrap();
    assert_eq!(store, model::store(version, &entries.blocks));
    assert_eq!(rosmarel::check_canonical(&bytes, version), Ok(()));
    bytes
}

/// Each block by its id, its key and the ordinals around its first one.
fn found(entries: &Entries, bytes: &[u8], version: Version) {
    let least = entries.least_terms();
    assert_eq!(model::open(bytes, version, least).as_ref(), Ok(entries));
    assert_eq!(
        Index::open(bytes, version, least - 1).unwrap_err(),
        Refusal::TooFewTerms
    );
    for terms in [least, LIMIT, u64::MAX] {
        let index = Index::open(bytes, version, terms).unwrap();
        for (id, (key, &block)) in (0..).zip(entries.keys.iter().zip(&entries.blocks)) {
            assert_eq!(index.get_block(id), Some(block));
            assert_eq!(index.get_block_with_key(key), Some((id, block)));
            let first = block.first_ordinal;
            assert_eq!(index.locate_with_ord(first), Some((id, block)));
            for ord in [first.saturating_sub(1), first + 1] {
                assert_eq!(index.locate_with_ord(ord), entries.by_ord(ord, terms));
            }
        }
        for ord in [LIMIT - 1, LIMIT, u64::MAX - 1, u64::MAX] {
            assert_eq!(index.locate_with_ord(ord), entries.by_ord(ord, terms));
        }
    }
}

/// The range width and the ordinal width of each group.
fn widths(bytes: &[u8]) -> Vec<[usize; 2]> {
    let word = |at: usize| u64::from_le_bytes(bytes[at..at + 8].try_into().unwrap()) as usize;
    let store = word(bytes.len() - 8);
    let records = &bytes[store + 8..][..word(store)];
    records
        .chunks(36)
        .map(|record| [record[33], record[32]].map(usize::from))
        .collect()
}

#[test]
fn taken_and_found() {
    assert_eq!(MAX_NUMBER, LIMIT - 1);
    // range fields and ordinal fields of 56 bits, by the bit of a byte at which they begin
    let mut widest = [[0; 8]; 2];
    for most in FAR {
        for entries in SIZES.into_iter().flat_map(|n| lists(n, most)) {
            for version in VERSIONS {
                let bytes = written(&entries, version);
                found(&entries, &bytes, version);
                let groups = model::groups(version, &entries.blocks);
                for (group, [range, ordinal]) in groups.zip(widths(&bytes)) {
                    assert!((1..=56).contains(&range) && (1..=56).contains(&ordinal));
                    for i in 0..group.len() {
                        let bit = i * (range + ordinal);
                        widest[0][bit % 8] += u32::from(range == 56);
                        let field = ordinal == 56 && i + 1 < group.len();
                        widest[1][(bit + range) % 8] += u32::from(field);
                    }
                }
            }
        }
    }
    assert!(
        widest.as_flattened().iter().all(|&count| count > 20),
        "{widest:?}"
    );
}

/// Numbers that look random, with a step to near the limit at one place for the ends and at another for the ordinals.
#[test]
fn one_far_step() {
    let mut draw = Draw::new(60);
    for n in SIZES.into_iter().flat_map(|n| [n; 4]) {
        let entries = draw.far_entries(n as usize);
        for version in VERSIONS {
            let bytes = written(&entries, version);
            found(&entries, &bytes, version);
        }
    }
}

/// A code of 7 bits above a place of 48 bits.
fn ordinal(district: u64, place: u64) -> u64 {
    district << 48 | place
}

/// Districts 1 to 127, with five blocks each and the ordinals of each from 0 on.
#[test]
fn districts() {
    let blocks =
        (1..128).flat_map(|district| [0, 3, 90, 91, 1 << 40].map(|place| ordinal(district, place)));
    let entries = entries(
        (1..)
            .zip(blocks)
            .map(|(end, ordinal)| (4_096 * end, ordinal)),
    );
    for version in VERSIONS {
        let bytes = written(&entries, version);
        let terms = ordinal(127, (1 << 40) + 17);
        let index = Index::open(&bytes, version, terms).unwrap();
        for district in 1..128 {
            let id = |block: u64| 5 * (district - 1) + block;
            for (place, block) in [
                (0, 0),
                (2, 0),
                (3, 1),
                (89, 1),
                (90, 2),
                (91, 3),
                (1 << 39, 3),
                ((1 << 40) + 16, 4),
            ] {
                let due = (id(block), entries.blocks[id(block) as usize]);
                assert_eq!(index.locate_with_ord(ordinal(district, place)), Some(due));
            }
            // all that lies between two districts is the last block's of the first
            let between = index.locate_with_ord(ordinal(district, (1 << 48) - 1));
            assert_eq!(
                between.map(|found| found.0),
                (district < 127).then_some(id(4))
            );
        }
        for ord in [0, ordinal(1, 0) - 1, terms, ordinal(128, 0), u64::MAX] {
            assert_eq!(index.locate_with_ord(ord), None);
        }
    }
}

/// Two blocks: block 0 ends at the highest number, and block 1 has the highest ordinal.
fn up_to_the_limit() -> Vec<u8> {
    let entries = entries([(LIMIT - 1, 0), (LIMIT - 1, LIMIT - 1)]);
    let [three, four] = VERSIONS.map(|version| written(&entries, version));
    assert_eq!(three, four);
    three
}

/// Where the group record and the fields begin in it.
const RECORD: usize = 4 + 16 + 4 + 8;
const FIELDS: usize = RECORD + 36;

/// Opened with the highest number of terms.
fn opened(bytes: &[u8]) -> u32 {
    let [three, four] = VERSIONS.map(|version| {
        let number = Index::open(bytes, version, u64::MAX).map_or_else(Refusal::number, |_| 0);
        assert_eq!(model::read(bytes, version).err().unwrap_or(0), number);
        number
    });
    assert_eq!(three, four);
    three
}

#[test]
fn refused_in_add_and_store() {
    let highest = BlockAddr::new(0..MAX_NUMBER, MAX_NUMBER);
    for version in VERSIONS {
        assert!(rosmarel::store(&[highest], version).is_ok());
        for high in [MAX_NUMBER + 1, MAX_NUMBER + 2, 1 << 56, 1 << 63, u64::MAX] {
            let [mut end, mut ordinal] = [highest; 2];
            (end.end, ordinal.first_ordinal) = (high, high);
            for block in [end, ordinal, BlockAddr::new(high..high, 0)] {
                let mut builder = Builder::new();
                assert_eq!(builder.add_block(b"b", block), Err(Refusal::BlockNumbers));
                assert_eq!(
                    rosmarel::store(&[block], version),
                    Err(Refusal::BlockNumbers)
                );
            }
        }
    }
}

/// The file of the highest numbers with another first value, slope or field.
#[test]
fn refused_in_a_foreign_file() {
    let good = up_to_the_limit();
    assert_eq!(widths(&good), [[56, 56]]);
    // range fields: 2^56 - 1 with slope 0; the ordinal's: 2^56 - 2^32 with slope 2^32 - 1
    assert_eq!(
        good[RECORD + 24..][..8],
        [0, 0, 0, 0, 0xff, 0xff, 0xff, 0xff]
    );
    assert_eq!(good[FIELDS..][..7], [0xff; 7]);
    assert_eq!(good[FIELDS + 7..][..7], [0, 0, 0, 0, 0xff, 0xff, 0xff]);
    assert_eq!(opened(&good), 0);
    let with = |at: usize, value: &[u8]| {
        let mut bytes = good.clone();
        bytes[at..at + value.len()].copy_from_slice(value);
        bytes
    };
    // a first start, by which all ends rise, and a first ordinal
    for (at, value) in [
        (8, 1),
        (16, 1),
        (8, LIMIT),
        (16, LIMIT),
        (8, u64::MAX),
        (16, u64::MAX),
    ] {
        assert_eq!(
            opened(&with(RECORD + at, &value.to_le_bytes())),
            16,
            "{at} {value}"
        );
    }
    // the range slope; the ordinal slope can't be higher
    assert_eq!(opened(&with(RECORD + 24, &[1])), 16);
    // fields: the ordinal 2^55, and one lower than the highest
    assert_eq!(opened(&with(FIELDS + 7, &[1])), 16);
    let lower = with(FIELDS + 7, &[0xff, 0xff, 0xff, 0xff, 0xfe]);
    assert_eq!(opened(&lower), 0);
    let index = Index::open_unknown_terms(&lower, Version::V3).unwrap();
    assert_eq!(index.terms(), LIMIT - 1);
    // the last end: one lower would be below its start
    assert_eq!(opened(&with(FIELDS + 14, &[0xfe])), 16);
    // both ends one lower
    let mut lower = with(FIELDS, &[0xfe]);
    lower[FIELDS + 14] = 0xfe;
    assert_eq!(opened(&lower), 0);
}

/// Files as the writer would make them of lists that it doesn't take: an end or an ordinal is 2^55.
#[test]
fn refused_from_the_limit_on() {
    for (from, due) in [(0, 15), (1, 16), (1 << 48, 16)] {
        for (end, ordinal) in [(LIMIT, from + 1), (from, LIMIT)] {
            let bytes = |end, ordinal| {
                let blocks = vec![
                    BlockAddr::new(from..end, from),
                    BlockAddr::new(end..end, ordinal),
                ];
                let keys = vec![vec![b'b'], vec![b'd']];
                Entries { blocks, keys }.index(Version::V3)
            };
            // from 0 on the width is 57, which is 15
            assert_eq!(opened(&bytes(end, ordinal)), due);
            assert_eq!(
                opened(&bytes(end.min(LIMIT - 1), ordinal.min(LIMIT - 1))),
                0
            );
        }
    }
}
