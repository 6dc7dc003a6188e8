//! Index files that are refused: the smallest of each row and of each part of a row, and others.

use crate::folder::Folder;
use model::blocks::touching;
use model::files::{Fault, File, keys_of_one_byte};
use model::foreign::{self, Group};
use model::opening;
use model::settings::LIMIT;
use model::version::{V3, VERSIONS, Version};

/// A file's name, which begins with its row; the row's parts that it breaks; what it is; its bytes.
pub type Case = (&'static str, &'static [&'static str], &'static str, Vec<u8>);

pub fn files(folder: &mut Folder) {
    let smallest = smallest();
    let lengths: Vec<usize> = smallest.iter().map(|case| case.3.len()).collect();
    assert_eq!(
        lengths,
        [
            0, 8, 8, 17, 20, 20, 36, 1061, 36, 36, 37, 37, 73, 74, 74, 74, 74, 74, 74, 74, 74, 74,
            1284
        ]
    );
    for case in smallest {
        for version in VERSIONS {
            // blocks that don't touch need two groups
            if version == V3 || case.0 != "16-join" {
                check(version, &case);
                check_smallest(version, &case);
            }
        }
        folder.refused("smallest", case.0, &case.3, case.2);
    }
    for case in more() {
        check(V3, &case);
        folder.refused("more", case.0, &case.3, case.2);
    }
}

/// The row that a name begins with, behind its version.
fn row(name: &str) -> u64 {
    let name = name.strip_prefix("v4-").unwrap_or(name);
    name[..2].parse().unwrap()
}

/// Whether bytes are refused by this row, for these parts of it and no others.
fn breaks(version: Version, bytes: &[u8], row: u64, parts: &[&str]) -> bool {
    let opening = opening::open(version, bytes);
    let hits = opening.hits.iter().filter(|hit| hit.0 == row);
    opening.no() == row && hits.map(|hit| hit.1).eq(parts.iter().copied())
}

pub fn check(version: Version, (name, parts, _, bytes): &Case) {
    let hits = opening::open(version, bytes).hits;
    assert!(breaks(version, bytes, row(name), parts), "{name}: {hits:?}");
}

/// Cutting a run of bytes out gives no file that breaks the same parts, whether the directory's length stays or is less by the run.
fn check_smallest(version: Version, (name, parts, _, bytes): &Case) {
    let length = bytes.len();
    for from in 0..length {
        for to in from + 1..=length.min(from + 80) {
            let mut rest = [&bytes[..from], &bytes[to..]].concat();
            assert!(
                !breaks(version, &rest, row(name), parts),
                "{name} {from} {to}"
            );
            if let Some(footer) = rest.last_chunk_mut::<8>() {
                let less = u64::from_le_bytes(*footer).wrapping_sub((to - from) as u64);
                *footer = less.to_le_bytes();
            }
            assert!(
                !breaks(version, &rest, row(name), parts),
                "{name} {from} {to}"
            );
        }
    }
}

/// A directory of these parts, whatever they are.
fn directory(n: u32, pairs: &[(u32, u32)], keys: &[u8]) -> Vec<u8> {
    let mut bytes = n.to_le_bytes().to_vec();
    for (offset, length) in pairs {
        bytes.extend(offset.to_le_bytes());
        bytes.extend(length.to_le_bytes());
    }
    [&bytes, keys].concat()
}

/// A directory, a store of 8 bytes and the footer.
fn file(directory: &[u8], records_len: u64) -> Vec<u8> {
    let footer = (directory.len() as u64).to_le_bytes();
    [directory, &records_len.to_le_bytes(), &footer].concat()
}

/// The smallest file that opens, with a fault.
fn small(fault: Fault) -> Vec<u8> {
    let blocks = touching(0, &[1, 1], 0, &[1]);
    let file = File::written(V3, &blocks, &[vec![], b"a".to_vec()]);
    assert_eq!(file.bytes().len(), 74);
    file.with(fault).bytes()
}

/// A file of one full group, as the writer makes it, with a fault.
fn full_group(fault: Fault) -> Vec<u8> {
    let blocks = touching(0, &[1; 128], 0, &[1; 127]);
    File::written(V3, &blocks, &keys_of_one_byte(128))
        .with(fault)
        .bytes()
}

/// The smallest file of two groups that opens, with a fault: 129 blocks, the groups with the same address bytes.
fn two_groups(fault: Fault) -> Vec<u8> {
    let blocks = touching(0, &[1; 129], 0, &[1; 128]);
    let groups: Vec<Group> = blocks
        .chunks(128)
        .map(|blocks| Group {
            blocks,
            offset: 0,
            range_slope: 1,
            ord_slope: 1,
            range_width: 1,
            ord_width: 1,
        })
        .collect();
    let keys = [vec![vec![]], keys_of_one_byte(128)].concat();
    let file = File::new(&keys, &foreign::store(&groups, vec![0xff; 32]));
    assert_eq!(opening::open(V3, &file.bytes()).no(), 0);
    file.with(fault).bytes()
}

const ONE_KEY: &[(u32, u32)] = &[(0, 0), (0, 1)];

fn smallest() -> Vec<Case> {
    let long = [b'a'; 1025];
    vec![
        ("10-empty", &["under 8 bytes"], "no byte", vec![]),
        (
            "10-directory-length",
            &["directory length"],
            "directory length 1: with 16 more than the file",
            1u64.to_le_bytes().to_vec(),
        ),
        (
            "11-directory-length",
            &["directory length"],
            "directory length 0; 11 comes before the second half of 10",
            vec![0; 8],
        ),
        (
            "12-no-count",
            &["no count"],
            "a directory of 1 byte, too short for n",
            file(&[2], 0),
        ),
        (
            "12-n-0",
            &["count"],
            "n = 0",
            file(&directory(0, &[], b""), 0),
        ),
        (
            "12-no-pairs",
            &["length", "no pair"],
            "n = 2 and no pair",
            file(&directory(2, &[], b""), 0),
        ),
        (
            "12-offset",
            &["offset"],
            "the first offset is 1",
            file(&directory(2, &[(1, 0), (0, 0)], b""), 0),
        ),
        (
            "12-long-key",
            &["long key"],
            "a key of 1,025 bytes",
            file(&directory(2, &[(0, 0), (0, 1025)], &long), 0),
        ),
        (
            "12-length",
            &["length"],
            "the second key's byte isn't there",
            file(&directory(2, ONE_KEY, b""), 0),
        ),
        (
            "13-equal",
            &["keys"],
            "both keys are empty",
            file(&directory(2, &[(0, 0), (0, 0)], b""), 0),
        ),
        (
            "14-records-length",
            &["records' length"],
            "records' length 0 for one group",
            file(&directory(2, ONE_KEY, b"a"), 0),
        ),
        (
            "14-beyond-the-store",
            &["beyond the store"],
            "records' length 36, and no record",
            file(&directory(2, ONE_KEY, b"a"), 36),
        ),
        (
            "15-fields",
            &["fields"],
            "no address byte",
            small(|file| file.addresses.clear()),
        ),
        (
            "15-range-width",
            &["range width"],
            "range width 0",
            small(|file| file.widths(0, 1, 0)),
        ),
        (
            "15-ordinal-width",
            &["ordinal width"],
            "ordinal width 0",
            small(|file| file.widths(0, 0, 1)),
        ),
        (
            "15-block-count",
            &["block count"],
            "a record of 1 block, n = 2",
            small(|file| file.record(0, 34, &[0, 0])),
        ),
        (
            "16-first-start",
            &["first start", "range value"],
            "first start 2^55; no value read can then be right",
            small(|file| file.first_start(0, LIMIT)),
        ),
        (
            "16-first-ordinal",
            &["first ordinal", "ordinal value"],
            "first ordinal 2^55; the ordinal read is then beyond too",
            small(|file| file.first_ord(0, LIMIT)),
        ),
        (
            "16-range-value",
            &["range value"],
            "block 0 ends at 2^55",
            small(|file| file.first_start(0, LIMIT - 1)),
        ),
        (
            "16-ordinal-value",
            &["ordinal value"],
            "block 1 has ordinal 2^55",
            small(|file| file.first_ord(0, LIMIT - 1)),
        ),
        (
            "16-end-below-start",
            &["end below start"],
            "block 0 is 1..0 (row 3)",
            small(|file| {
                file.first_start(0, 1);
                file.slopes(0, 0, 1);
                file.addresses = vec![0b110];
            }),
        ),
        (
            "16-ordinals",
            &["ordinals"],
            "both blocks have ordinal 0 (row 5)",
            small(|file| file.slopes(0, 1, 0)),
        ),
        (
            "16-join",
            &["join"],
            "two groups; the second starts at 129, the first ends at 128 (row 4)",
            two_groups(|file| file.first_start(1, 129)),
        ),
    ]
}

fn more() -> Vec<Case> {
    let pairs = |pairs: &[(u32, u32)], keys: &[u8]| file(&directory(2, pairs, keys), 0);
    vec![
        (
            "10-one-byte-short",
            &["directory length"],
            "directory length 1 in 16 bytes; one byte more would be enough",
            [[0; 8], 1u64.to_le_bytes()].concat(),
        ),
        (
            "10-sum-wraps",
            &["directory length"],
            "directory length 2^64 - 1",
            vec![0xff; 8],
        ),
        (
            "12-n-1",
            &["count"],
            "n = 1, all else of the directory in order",
            file(&directory(1, &[(0, 0)], b""), 0),
        ),
        (
            "12-n-65537",
            &["count", "length", "no pair"],
            "n = 65,537, and no pair",
            file(&directory(65_537, &[], b""), 0),
        ),
        (
            "12-gap",
            &["offset"],
            "a byte between the keys",
            pairs(&[(0, 0), (1, 0)], b"a"),
        ),
        (
            "12-byte-behind-keys",
            &["length"],
            "a byte behind the last key",
            pairs(&[(0, 0), (0, 0)], b"a"),
        ),
        (
            "12-sum-wraps",
            &["length", "long key"],
            "lengths whose sum is 2^32",
            pairs(&[(0, u32::MAX), (u32::MAX, 1)], b""),
        ),
        (
            "13-prefix",
            &["keys"],
            "the second key is the front of the first",
            pairs(&[(0, 1), (1, 0)], b"a"),
        ),
        (
            "13-signed",
            &["keys"],
            "80 before 7f: bytes compare unsigned",
            pairs(&[(0, 1), (1, 1)], b"\x80\x7f"),
        ),
        (
            "14-two-records",
            &["records' length"],
            "records of two groups, n = 2",
            small(|file| {
                file.records_len = 72;
                file.records.extend(file.records.clone());
            }),
        ),
        (
            "15-range-width-57",
            &["range width"],
            "range width 57, its fields inside",
            small(|file| {
                file.widths(0, 1, 57);
                file.addresses = vec![0; 15];
            }),
        ),
        (
            "15-ordinal-width-57",
            &["ordinal width"],
            "ordinal width 57, its fields inside",
            small(|file| {
                file.widths(0, 57, 1);
                file.addresses = vec![0; 8];
            }),
        ),
        (
            "15-widths-255",
            &["ordinal width", "range width"],
            "128 blocks, both widths 255, their fields inside: these would end at bit 65,025",
            full_group(|file| {
                file.widths(0, 255, 255);
                file.addresses = vec![0; 8_129];
            }),
        ),
        (
            "15-last-group-width",
            &["ordinal width"],
            "ordinal width 0 in a group of one block, where no ordinal is read",
            two_groups(|file| file.widths(1, 0, 1)),
        ),
        (
            "15-offset-wraps",
            &["fields"],
            "offset 2^61: 8 times it is 2^64",
            small(|file| file.offset(0, 1 << 61)),
        ),
        (
            "15-before-16",
            &["range width"],
            "the first group breaks 16, the second 15",
            two_groups(|file| {
                file.first_start(0, LIMIT);
                file.widths(1, 1, 0);
            }),
        ),
        (
            "16-start-wraps",
            &["first start", "range value"],
            "first start 2^64 - 1",
            small(|file| file.first_start(0, u64::MAX)),
        ),
        (
            "16-below-0",
            &["end below start", "range value"],
            "block 0 ends at -1",
            small(|file| {
                file.slopes(0, 0, 1);
                file.addresses = vec![0b010];
            }),
        ),
        (
            "16-ordinals-of-groups",
            &["ordinals"],
            "the second group begins with the ordinal that the first ends with (row 5)",
            two_groups(|file| file.first_ord(1, 127)),
        ),
        (
            "16-last-ordinal",
            &["first ordinal"],
            "a last group of one block with ordinal 2^55",
            two_groups(|file| file.first_ord(1, LIMIT)),
        ),
    ]
}
