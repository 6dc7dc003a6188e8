//! Index files that keep the rules, but that the Rust's builder wouldn't write.

use crate::folder::{Folder, table, version_of};
use model::blocks::{WORKED, touching};
use model::files::File;
use model::foreign::{self, Group, Wide, least_width, ord_points, range_points};
use model::numbers::Numbers;
use model::opening;
use model::version::{V3, Version};

/// The file of the groups; the address bytes behind and between their fields are as given.
pub fn put(folder: &mut Folder, name: &str, what: &str, groups: &[Group], addresses: Vec<u8>) {
    let blocks: Vec<_> = groups
        .iter()
        .flat_map(|group| group.blocks.to_vec())
        .collect();
    let keys: Vec<Vec<u8>> = (0..blocks.len())
        .map(|i| vec![b'b' + (i / 64) as u8, (2 * (i % 64)) as u8])
        .collect();
    let bytes = File::new(&keys, &foreign::store(groups, addresses)).bytes();
    let version = version_of(name);
    assert_eq!(opening::open(version, &bytes).blocks, blocks);
    let own = File::written(version, &blocks, &keys).bytes();
    assert_ne!(bytes, own, "{name}");
    folder.opens(table(name, "foreign"), name, &bytes, what);
}

pub fn files(folder: &mut Folder) {
    one_group(folder);
    each_bit(folder);
    last_bit(
        folder,
        V3,
        "foreign-last-bit",
        "128 blocks, both widths 56: the last field ends at bit 14,280, the highest that a group can have",
    );
    two_groups(folder);
}

fn one_group(folder: &mut Folder) {
    let blocks = WORKED;
    let own = Group {
        blocks: &blocks,
        offset: 0,
        range_slope: 11,
        ord_slope: 5,
        range_width: 3,
        ord_width: 2,
    };
    put(
        folder,
        "foreign-spare",
        "three bytes before the fields and four behind; padding bits that are 1",
        &[Group { offset: 3, ..own }],
        vec![0xff; 3 + own.length() + 4],
    );
    let flat = Group {
        range_slope: 0,
        ord_slope: 0,
        range_width: least_width(&range_points(&blocks), 0),
        ord_width: least_width(&ord_points(&blocks), 0),
        ..own
    };
    put(
        folder,
        "foreign-slope-0",
        "both slopes 0, fields as narrow as they can be",
        &[flat],
        vec![0; flat.length()],
    );
    let steep = Group {
        range_slope: u32::MAX,
        ord_slope: u32::MAX,
        range_width: least_width(&range_points(&blocks), u32::MAX),
        ord_width: least_width(&ord_points(&blocks), u32::MAX),
        ..own
    };
    put(
        folder,
        "foreign-slope-most",
        "both slopes 2^32 - 1",
        &[steep],
        vec![0; steep.length()],
    );
    for (name, what, range_width, ord_width) in [
        ("foreign-width-56", "both widths 56", 56, 56),
        (
            "foreign-width-55-53",
            "range width 55, ordinal width 53: fields begin at any bit",
            55,
            53,
        ),
        (
            "foreign-width-50-51",
            "range width 50, ordinal width 51",
            50,
            51,
        ),
        (
            "foreign-width-54-52",
            "range width 54, ordinal width 52",
            54,
            52,
        ),
    ] {
        let wide = Group {
            range_width,
            ord_width,
            ..own
        };
        put(folder, name, what, &[wide], vec![0; wide.length()]);
    }
}

/// Fields of 56 bits from each bit of a byte on.
fn each_bit(folder: &mut Folder) {
    let mut rng = Numbers::from_seed(1);
    for (name, what, wide, count) in [
        (
            "foreign-range-bits",
            "range width 56, ordinal width 1: range fields of any bits begin at each of a byte's bits; the last one takes the last 7 bytes",
            Wide::Range,
            9,
        ),
        (
            "foreign-ordinal-bits",
            "range width 1, ordinal width 56: ordinal fields of any bits begin at each of a byte's bits; the last one ends a bit before the \
             last bit",
            Wide::Ordinal,
            16,
        ),
    ] {
        let blocks = wide.blocks(&mut rng, count);
        let group = wide.group(&blocks, 0);
        put(folder, name, what, &[group], vec![0; group.length()]);
    }
}

/// The highest bit that a group's fields can take.
pub fn last_bit(folder: &mut Folder, version: Version, name: &str, what: &str) {
    let count = version.group_len() as u64;
    let lengths: Vec<u64> = (0..count).map(|i| i % 7).collect();
    let full = Group {
        blocks: &touching(70, &lengths, 5, &vec![3; lengths.len() - 1]),
        offset: 0,
        range_slope: 3,
        ord_slope: 2,
        range_width: 56,
        ord_width: 56,
    };
    put(folder, name, what, &[full], vec![0; full.length()]);
}

fn two_groups(folder: &mut Folder) {
    // the second group's blocks are as long as the first's first ones
    let lengths: Vec<u64> = (0..131).map(|i| i % 128 % 5).collect();
    let blocks = touching(70, &lengths, 5, &[1; 130]);
    let first = Group {
        blocks: &blocks[..128],
        offset: 0,
        range_slope: 2,
        ord_slope: 1,
        range_width: least_width(&range_points(&blocks[..128]), 2),
        ord_width: 1,
    };
    let second = Group {
        blocks: &blocks[128..],
        ..first
    };
    let length = first.length();
    put(
        folder,
        "foreign-gap",
        "two groups, two bytes between them",
        &[
            first,
            Group {
                offset: length + 2,
                ..second
            },
        ],
        vec![0xaa; length + 2 + second.length()],
    );
    put(
        folder,
        "foreign-order",
        "two groups, the second one's fields first",
        &[
            Group {
                offset: second.length(),
                ..first
            },
            second,
        ],
        vec![0; second.length() + length],
    );
    put(
        folder,
        "foreign-shared",
        "two groups, one set of fields for both",
        &[first, second],
        vec![0; length],
    );
    let even = touching(9, &[6; 140], 3, &[2; 139]);
    let whole = Group {
        blocks: &even[..128],
        offset: 0,
        range_slope: 6,
        ord_slope: 2,
        range_width: 4,
        ord_width: 4,
    };
    put(
        folder,
        "foreign-overlap",
        "two groups, the second one's fields are the first one's from byte 60 on",
        &[
            whole,
            Group {
                blocks: &even[128..],
                offset: 60,
                ..whole
            },
        ],
        vec![0; whole.length()],
    );
    let alone = Group {
        blocks: &even[128..129],
        offset: 127,
        ord_slope: u32::MAX,
        ord_width: 56,
        ..whole
    };
    put(
        folder,
        "foreign-last-group",
        "a last group of one block, whose ordinal slope and width no field needs",
        &[whole, alone],
        vec![0; 128],
    );
}
