//! Files that are refused: every row, and two rows at once.

use std::collections::BTreeSet;

use model::blocks::{self, touching};
use model::faults::faults;
use model::files::{
    Fault, File, keys_of_one_byte, short_keys, smallest, two_group_file, worked_file,
};
use model::foreign::{self, Group};
use model::numbers::Numbers;
use model::opening;
use model::rust::Block;
use model::settings::LIMIT;
use model::version::{V3, VERSIONS};

use crate::indexes::Indexes;

/// Rows 10 to 16.
pub fn files(indexes: &mut Indexes) {
    short_files(indexes);
    broken(indexes);
    pairs(indexes);
    two_groups(indexes);
    at_the_limit(indexes);
    changed_bytes(indexes);
    one_part(indexes);
}

fn short_files(indexes: &mut Indexes) {
    indexes.comment(
        "rows 10 and 11: under 8 bytes; 8 to 15 bytes, where 11 comes before 10's second half",
    );
    for length in [0, 1, 7] {
        assert_eq!(indexes.open(&vec![0; length]), 10);
        assert_eq!(indexes.open(&vec![0xff; length]), 10);
    }
    for length in [8, 9, 15, 16, 17, 23, 24, 31, 32] {
        assert_eq!(indexes.open(&vec![0; length]), 11);
    }
    for length in [8, 9, 15, 16, 17, 20, 24, 32] {
        let front = vec![0; length - 8];
        for directory_len in [1, length as u64 - 8, length as u64, u64::MAX] {
            if directory_len > 0 {
                indexes.open(&[&front[..], &directory_len.to_le_bytes()].concat());
            }
        }
    }
    indexes.comment("a directory length beyond the file, with sums that wrap");
    let file = smallest();
    for directory_len in [
        60,
        67,
        68,
        75,
        76,
        1 << 32,
        1 << 63,
        u64::MAX - 15,
        u64::MAX - 14,
        u64::MAX,
    ] {
        let mut file = file.clone();
        file.directory_len = directory_len;
        assert_eq!(indexes.open(&file.bytes()), 10);
    }
    for directory_len in [0, 1, 3, 4, 12, 20, 21, 23, 58, 59] {
        let mut file = file.clone();
        file.directory_len = directory_len;
        indexes.open(&file.bytes());
    }
    indexes.comment("fronts and ends of the file");
    let bytes = file.bytes();
    for length in (9..bytes.len()).step_by(5) {
        indexes.open(&bytes[bytes.len() - length..]);
    }
    for length in [8, 12, 20, 22, 30, 38, 66, 67, 68, 70, 74] {
        indexes.open(&bytes[..length]);
    }
}

/// Each fault alone, in the smallest file.
fn broken(indexes: &mut Indexes) {
    indexes.comment("rows 12 to 16 in the smallest file");
    let file = smallest();
    for (row, fault) in faults() {
        assert_eq!(indexes.open(&file.with(fault).bytes()), row);
    }
    indexes.comment("row 12 alone: no block, one block, a key of 1,025 bytes");
    let none = File::new(&[], &blocks::store(V3, &[]));
    assert_eq!(indexes.open(&none.bytes()), 12);
    let blocks = touching(0, &[1, 1], 0, &[1]);
    let one = File::new(&[b"a".to_vec()], &blocks::store(V3, &blocks[..1]));
    assert_eq!(indexes.open(&one.bytes()), 12);
    let keys = [vec![0x61; 1025], vec![0x62]];
    assert_eq!(
        indexes.open(&File::new(&keys, &blocks::store(V3, &blocks)).bytes()),
        12
    );
}

/// Faults of two rows in one file: the earlier row gives the number.
fn pairs(indexes: &mut Indexes) {
    indexes.comment("faults of two rows in one file");
    let file = smallest();
    let chosen: Vec<(u64, Fault)> = vec![
        (12, |file| file.pair(0, 1, 1)),
        (12, |file| file.directory[0] = 1),
        (12, |file| {
            file.put_directory(&[&file.directory[..], b"c"].concat())
        }),
        (13, |file| file.directory[21] = b'a'),
        (13, |file| file.directory[20] = 0xff),
        (14, |file| {
            file.records_len = 37;
            file.addresses.insert(0, 0);
        }),
        (14, |file| file.records_len = 72),
        (14, |file| file.records_len = u64::MAX),
        (15, |file| file.widths(0, 1, 0)),
        (15, |file| file.widths(0, 57, 2)),
        (15, |file| file.record(0, 34, &[0, 0])),
        (15, |file| file.offset(0, u64::MAX)),
        (16, |file| file.first_start(0, LIMIT)),
        (16, |file| file.first_ord(0, u64::MAX)),
        (16, |file| file.slopes(0, 1, 0)),
    ];
    for &(row, fault) in &chosen {
        if row < 14 {
            let mut file = file.with(fault);
            file.directory_len += 38;
            indexes.open(&file.bytes());
            // no store at all behind the directory
            file.directory_len = file.directory.len() as u64;
            let bytes = [
                &file.directory[..],
                &[0; 7],
                &file.directory_len.to_le_bytes(),
            ]
            .concat();
            assert_eq!(indexes.open(&bytes), 10);
        }
    }
    for (i, &(row, one)) in chosen.iter().enumerate() {
        for &(later, other) in &chosen[i + 1..] {
            if later > row {
                indexes.open(&file.with(one).with(other).bytes());
            }
        }
    }
}

fn two_groups(indexes: &mut Indexes) {
    indexes.comment("two groups: row 15 over all groups before row 16 of any block, and the joint between the groups");
    let mut rng = Numbers::from_seed(72);
    let file = two_group_file(V3, 2);
    assert_eq!(indexes.open(&file.bytes()), 0);
    indexes.look_up(&mut rng, 0);
    let faults: [(u64, Fault); 20] = [
        (15, |file| file.widths(0, 0, 1)),
        (15, |file| file.widths(1, 1, 0)),
        (15, |file| file.record(0, 34, &[126, 0])),
        (15, |file| file.record(1, 34, &[127, 0])),
        (15, |file| file.offset(0, 2)),
        (15, |file| file.offset(1, 33)),
        (15, |file| file.offset(1, u64::MAX - 31)),
        (15, |file| {
            file.first_start(0, LIMIT);
            file.widths(1, 1, 0);
        }),
        (15, |file| {
            file.first_ord(0, LIMIT);
            file.offset(1, 1 << 61);
        }),
        (15, |file| {
            file.slopes(0, 2, 0);
            file.record(1, 34, &[0, 0]);
        }),
        (15, |file| {
            file.widths(0, 57, 1);
            file.first_start(1, 4);
        }),
        (16, |file| file.first_start(1, 258)),
        (16, |file| file.first_start(1, 260)),
        (16, |file| file.first_ord(1, 128)),
        (16, |file| file.first_ord(1, 0)),
        (16, |file| file.first_ord(1, LIMIT)),
        (16, |file| file.first_ord(1, u64::MAX)),
        (16, |file| file.first_start(0, 2)),
        (16, |file| file.slopes(0, 3, 1)),
        (16, |file| file.slopes(1, 2, 0)),
    ];
    for (row, fault) in faults {
        assert_eq!(indexes.change(&file.with(fault).bytes()), row);
    }
    let legal: [Fault; 4] = [
        |file| file.first_ord(1, 1 << 40),
        |file| file.first_ord(0, 0),
        |file| file.slopes(1, 1000, 9),
        |file| file.offset(1, 0),
    ];
    for change in legal {
        assert_eq!(indexes.change(&file.with(change).bytes()), 0);
    }
    indexes.comment("a second group of one block, where no ordinal is read");
    let one = two_group_file(V3, 1);
    assert_eq!(indexes.open(&one.bytes()), 0);
    indexes.look_up(&mut rng, 0);
    let faults: [(u64, Fault); 7] = [
        (0, |file| file.widths(1, 56, 1)),
        (0, |file| file.slopes(1, 2, u32::MAX)),
        (0, |file| file.first_ord(1, LIMIT - 1)),
        (15, |file| file.widths(1, 0, 1)),
        (15, |file| file.widths(1, 57, 1)),
        (16, |file| file.first_ord(1, LIMIT)),
        (16, |file| file.first_start(1, LIMIT)),
    ];
    for (row, fault) in faults {
        assert_eq!(indexes.change(&one.with(fault).bytes()), row);
    }
}

/// Groups up to the limit, and beyond it from a block of each group on: no other part of row 16 is broken.
fn at_the_limit(indexes: &mut Indexes) {
    indexes.comment("groups up to the last end and ordinal of 2^55 - 1; first values so much higher that from a block of the last group on, of a");
    indexes.comment(
        "middle one, of the first, or all ends or ordinals are 2^55 and more; and 2^64 - 1",
    );
    let mut rng = Numbers::from_seed(77);
    for version in VERSIONS {
        let full = version.group_len();
        let last = full * version.pick(2, 1);
        let count = last + 3;
        let steps = vec![1; count];
        let from = LIMIT - count as u64;
        let blocks = touching(from - 1, &steps, from, &steps[1..]);
        let file = File::written(version, &blocks, &short_keys(count));
        assert_eq!(indexes.open_as(version, &file.bytes()), 0);
        indexes.look_up(&mut rng, 0);
        for block in BTreeSet::from([0, 1, last - full + 5, last + 1, count - 1]) {
            let by = (count - block) as u64;
            let moved = |of: fn(&Block) -> u64, put: fn(&mut File, usize, u64)| {
                let mut file = file.clone();
                for group in 0..=last / full {
                    put(&mut file, group, of(&blocks[group * full]) + by);
                }
                file.bytes()
            };
            for (bytes, parts) in [
                (
                    moved(|block| block.start, File::first_start),
                    ["first start", "range value"],
                ),
                (
                    moved(|block| block.ord, File::first_ord),
                    ["first ordinal", "ordinal value"],
                ),
            ] {
                let hits = opening::open(version, &bytes).hits;
                assert!(hits.iter().all(|hit| parts.contains(&hit.1)), "{hits:?}");
                assert_eq!(indexes.change(&bytes), 16);
            }
        }
        for group in 0..=last / full {
            for put in [File::first_start, File::first_ord] {
                let mut file = file.clone();
                put(&mut file, group, u64::MAX);
                assert_eq!(indexes.change(&file.bytes()), 16);
            }
        }
    }
}

fn changed_bytes(indexes: &mut Indexes) {
    indexes.comment("the 85 bytes with each byte changed");
    let bytes = worked_file().bytes();
    assert_eq!(indexes.open(&bytes), 0);
    for at in 0..bytes.len() {
        let old = bytes[at];
        let values = BTreeSet::from([old ^ 1, old ^ 0x80, 0, 0xff]);
        for value in values {
            if value != old {
                let mut changed = bytes.clone();
                changed[at] = value;
                indexes.change(&changed);
            }
        }
    }
}

/// Each time one field, one key or one pair, at the ends and in the middle of groups.
fn one_part(indexes: &mut Indexes) {
    indexes
        .comment("one field changed: at or below the value before it, at or above the one behind");
    for count in [6, 130] {
        let blocks = touching(1000, &vec![2; count], 1000, &vec![2; count - 1]);
        let mut groups = Vec::new();
        let mut offset = 0;
        for blocks in blocks.chunks(V3.group_len()) {
            // each field is the byte 128
            let group = Group {
                blocks,
                offset,
                range_slope: 2,
                ord_slope: 2,
                range_width: 8,
                ord_width: 8,
            };
            offset += group.length();
            groups.push(group);
        }
        let store = foreign::store(&groups, vec![0; offset]);
        let file = File::new(&keys_of_one_byte(count), &store);
        let mut short = file.clone();
        short.addresses.pop();
        assert_eq!(indexes.open(&short.bytes()), 15);
        assert_eq!(indexes.open(&file.bytes()), 0);
        for at in 0..offset {
            // range and ordinal by turns
            if count == 6 || [0, 1, 124, 125, 126, 127, 252, 253, 254, 255, 256, 257].contains(&at)
            {
                for value in [125, 126, 130, 131] {
                    let mut file = file.clone();
                    file.addresses[at] = value;
                    indexes.change(&file.bytes());
                }
            }
        }
    }
    indexes.comment("one key as the one before it or behind it, one pair's offset or length");
    let count = 130;
    let file = two_group_file(V3, 2);
    assert_eq!(indexes.open(&file.bytes()), 0);
    for i in [0, 1, 2, 63, 64, 65, 127, 128, 129] {
        for value in [i as u8 - u8::from(i > 0), i as u8 + 1] {
            let mut file = file.clone();
            file.directory[4 + 8 * count + i] = value;
            if file.directory[4 + 8 * count + i] != i as u8 {
                indexes.change(&file.bytes());
            }
        }
        for (offset, length) in [(i as u32 + 1, 1), (i as u32, 0), (i as u32, 2)] {
            let mut file = file.clone();
            file.pair(i, offset, length);
            assert_eq!(indexes.change(&file.bytes()), 12);
        }
    }
}
