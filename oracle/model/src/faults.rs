//! Faults in files, and records that don't belong to a file.

use crate::files::{Fault, smallest};
use crate::opening::{self, Opened};
use crate::settings::LIMIT;
use crate::version::{NO_VERSIONS, V3, VERSIONS, Version};

/// A fault's row, and the fault.
pub fn faults() -> Vec<(u64, Fault)> {
    vec![
        (12, |file| file.directory[0] = 1),
        (12, |file| file.directory[0] = 3),
        (12, |file| file.directory[..4].fill(0)),
        (12, |file| file.directory[2] = 1),
        (12, |file| file.directory[..4].fill(0xff)),
        (12, |file| file.put_directory(&[2])),
        (12, |file| file.put_directory(&[2, 0, 0])),
        (12, |file| file.put_directory(&[2, 0, 0, 0])),
        (12, |file| file.put_directory(&file.directory.clone()[..12])),
        (12, |file| file.put_directory(&file.directory.clone()[..19])),
        (12, |file| file.put_directory(&file.directory.clone()[..21])),
        (12, |file| {
            file.put_directory(&[&file.directory[..], b"c"].concat())
        }),
        (12, |file| file.pair(0, 1, 1)),
        (12, |file| file.pair(0, u32::MAX, 2)),
        (12, |file| file.pair(1, 0, 1)),
        (12, |file| file.pair(1, 2, 1)),
        (12, |file| file.pair(1, u32::MAX, 1)),
        (12, |file| file.pair(0, 0, 0)),
        (12, |file| file.pair(0, 0, u32::MAX)),
        (12, |file| file.pair(1, 1, 0)),
        (12, |file| file.pair(1, 1, 2)),
        (12, |file| file.pair(1, 1, u32::MAX)),
        (12, |file| {
            file.pair(0, 0, u32::MAX);
            file.pair(1, u32::MAX, 3);
        }),
        (13, |file| file.directory[21] = b'a'),
        (13, |file| file.directory[21] = b'`'),
        (13, |file| file.directory[20] = 0xff),
        (13, |file| {
            file.pair(0, 0, 2);
            file.pair(1, 2, 0);
        }),
        (13, |file| {
            file.pair(0, 0, 2);
            file.pair(1, 2, 1);
            file.put_directory(&[&file.directory[..20], b"aba"].concat());
        }),
        (13, |file| {
            file.pair(0, 0, 0);
            file.pair(1, 0, 0);
            file.put_directory(&file.directory.clone()[..20]);
        }),
        (14, |file| file.records_len = 0),
        (14, |file| file.records_len = 35),
        (14, |file| file.records_len = 37),
        (14, |file| file.records_len = 72),
        (14, |file| file.records_len = 36 + (1 << 32)),
        (14, |file| file.records_len = u64::MAX),
        (14, |file| file.records_len = u64::MAX - 7),
        (14, |file| {
            file.addresses.clear();
            file.records.pop();
        }),
        (14, |file| {
            file.addresses.clear();
            file.records.clear();
        }),
        (14, |file| {
            file.records_len = 72;
            file.records.extend(file.records.clone());
        }),
        (14, |file| {
            file.records_len = 0;
            file.records.clear();
        }),
        (15, |file| file.widths(0, 1, 0)),
        (15, |file| file.widths(0, 0, 2)),
        (15, |file| file.widths(0, 57, 2)),
        (15, |file| file.widths(0, 1, 57)),
        (15, |file| file.widths(0, 255, 255)),
        (15, |file| file.widths(0, 56, 56)),
        (15, |file| {
            file.widths(0, 57, 2);
            file.addresses = vec![0; 99];
        }),
        (15, |file| {
            file.widths(0, 1, 57);
            file.addresses = vec![0; 99];
        }),
        (15, |file| file.record(0, 34, &[0, 0])),
        (15, |file| file.record(0, 34, &[2, 0])),
        (15, |file| file.record(0, 34, &[1, 1])),
        (15, |file| file.record(0, 34, &[0xff, 0xff])),
        (15, |file| file.offset(0, 1)),
        (15, |file| file.offset(0, 1 << 32)),
        (15, |file| file.offset(0, 1 << 61)),
        (15, |file| file.offset(0, u64::MAX)),
        (15, |file| file.addresses.clear()),
        (15, |file| {
            file.widths(0, 4, 3);
            file.addresses = vec![0x0c];
        }),
        (16, |file| file.first_start(0, LIMIT - 2)),
        (16, |file| file.first_start(0, LIMIT)),
        (16, |file| file.first_start(0, u64::MAX)),
        (16, |file| file.first_start(0, u64::MAX - 1)),
        (16, |file| file.first_ord(0, LIMIT - 1)),
        (16, |file| file.first_ord(0, LIMIT)),
        (16, |file| file.first_ord(0, u64::MAX)),
        (16, |file| file.slopes(0, 1, 0)),
        (16, |file| file.addresses[0] = 0),
        // 0..3, 3..0
        (16, |file| {
            file.slopes(0, 0, 1);
            file.widths(0, 1, 3);
            file.addresses = vec![0x4f];
        }),
        (16, |file| {
            file.slopes(0, 0, 0);
            file.widths(0, 56, 56);
            file.addresses = vec![0; 21];
        }),
        (16, |file| {
            file.slopes(0, u32::MAX, u32::MAX);
            file.widths(0, 56, 56);
            file.addresses = vec![0xff; 21];
        }),
    ]
}

/// Records that the 85 bytes don't have, of the same version.
pub fn others(right: Opened) -> Vec<Opened> {
    let group = Version::of(right.version).map_or(0, |version| version.group_len() as u64);
    let mut records = Vec::new();
    for n in [
        0,
        1,
        2,
        4,
        group,
        group + 1,
        65_536,
        65_537,
        1 << 32,
        1 << 63,
        u64::MAX,
    ] {
        records.push(Opened { n, ..right });
    }
    // more groups than there are records, which lie inside
    for n in [group + 1, 2 * group, 65_536] {
        records.push(Opened {
            n,
            records: (0, 85),
            ..right
        });
    }
    let places = [
        (85, 0),
        (86, 0),
        (0, 85),
        (0, 86),
        (85, 1),
        (1, 85),
        (0, 0),
        (0, u64::MAX),
        (u64::MAX, 0),
        (u64::MAX, 1),
        (u64::MAX, 2),
        (1 << 63, 1 << 63),
        (u64::MAX - 30, 62),
    ];
    for place in places {
        for part in 0..3 {
            let mut record = right;
            *[
                &mut record.directory,
                &mut record.records,
                &mut record.addresses,
            ][part] = place;
            records.push(record);
        }
    }
    // parts that begin or end at another byte
    for (from, length) in [(38, 36), (40, 36), (39, 35), (39, 37), (0, 36), (49, 36)] {
        records.push(Opened {
            records: (from, length),
            ..right
        });
    }
    for (from, length) in [
        (0, 3),
        (0, 4),
        (0, 11),
        (0, 12),
        (0, 28),
        (0, 30),
        (1, 31),
        (8, 31),
        (44, 31),
    ] {
        records.push(Opened {
            directory: (from, length),
            ..right
        });
    }
    for (from, length) in [(75, 1), (74, 2), (76, 2), (0, 2), (83, 2)] {
        records.push(Opened {
            addresses: (from, length),
            ..right
        });
    }
    let small = opening::open(V3, &smallest().bytes())
        .record
        .with_version(right.version);
    records.push(small);
    // another number of terms, alone and with another place
    for terms in [0, 1, 4, 5, 9, 10, LIMIT, 1 << 63, u64::MAX] {
        records.push(right.with_terms(terms));
        let (from, length) = right.records;
        records.push(Opened {
            records: (from.wrapping_sub(1), length),
            ..right.with_terms(terms)
        });
    }
    records
}

/// The record with other versions, most of which there aren't: alone, and with another place or number of terms.
pub fn other_versions(right: Opened) -> Vec<Opened> {
    let known = VERSIONS.map(|version| version.number());
    let all = NO_VERSIONS.into_iter().chain(known);
    let mut records = Vec::new();
    for version in all.filter(|&version| version != right.version) {
        let record = right.with_version(version);
        let (from, length) = right.records;
        records.extend([record, record.with_terms(0), record.with_terms(u64::MAX)]);
        records.push(Opened {
            records: (from.wrapping_sub(1), length),
            ..record
        });
    }
    records
}
