//! Files that are opened with other versions than their own, and records of another version.

use model::faults::{faults, other_versions};
use model::files::{File, smallest, two_group_file, worked_file};
use model::numbers::Numbers;
use model::opening::{self, Opened};
use model::version::{NO_VERSIONS, V3, V4, VERSION_BAD, VERSIONS, Version};

use crate::indexes::Indexes;

/// Some of the numbers that aren't versions.
const SOME: [u64; 4] = [0, 2, 5, u64::MAX];

/// Openings with each version, and with numbers that aren't versions.
pub fn openings(indexes: &mut Indexes) {
    indexes.comment("numbers that aren't versions: the 85 bytes, with 12 terms and with 9");
    assert_eq!(indexes.open(&worked_file().bytes()), 0);
    for version in NO_VERSIONS {
        for terms in [12, 9] {
            assert_eq!(indexes.reopen_as(version, terms), VERSION_BAD);
        }
    }
    refused(indexes);
    indexes
        .comment("files of one version opened with the other: up to 128 blocks they open, else 14");
    let mut rng = Numbers::from_seed(76);
    for count in [2, 3, 127, 128, 129, 255, 256, 257, 511, 512, 513, 65_536] {
        for version in VERSIONS {
            assert_eq!(indexes.open_by_rule(version, count), 0);
            indexes.look_up(&mut rng, 0);
            let (terms, other) = (indexes.terms, version.other());
            if indexes.reopen_as(other.number(), terms) == 0 {
                assert!(count <= 128);
                indexes.look_up(&mut rng, 0);
            } else {
                assert!(count > 128 && indexes.opening.no() == 14);
            }
            assert_eq!(indexes.reopen_as(5, terms), VERSION_BAD);
            assert_eq!(indexes.reopen_as(version.number(), count), 0);
            indexes.id(count - 1);
        }
    }
}

/// 30 comes before every other row, no byte and one too few included.
fn refused(indexes: &mut Indexes) {
    indexes.comment("numbers that aren't versions: files that are refused with 3 and with 4");
    let mut files = vec![vec![], vec![0; 7], vec![0; 8], 1u64.to_le_bytes().to_vec()];
    let mut last = 0;
    for (row, fault) in faults() {
        // the first one of each row
        if row != last {
            files.push(smallest().with(fault).bytes());
        }
        last = row;
    }
    for bytes in files {
        let no = indexes.open(&bytes);
        assert_ne!(no, 0);
        assert_eq!(indexes.reopen_as(V4.number(), indexes.terms), no);
        for version in SOME {
            assert_eq!(indexes.reopen_as(version, indexes.terms), VERSION_BAD);
        }
    }
}

/// Lookups with records of other versions.
pub fn records(indexes: &mut Indexes) {
    indexes.comment(
        "the 85 bytes with their record of another version: 20, but with the other one of the two",
    );
    with_others(indexes, V3, &worked_file(), 12, &NO_VERSIONS);
    indexes.comment(
        "the same with files of two groups, in which ids split otherwise by the other version",
    );
    for version in VERSIONS {
        with_others(indexes, version, &two_group_file(version, 2), 600, &SOME);
    }
}

/// With those of the records whose version is one, or one of these numbers.
fn with_others(indexes: &mut Indexes, version: Version, file: &File, terms: u64, none: &[u64]) {
    let bytes = file.bytes();
    assert_eq!(indexes.open_as(version, &bytes), 0);
    let right = indexes.opening.record.with_terms(terms);
    let mut records = other_versions(right);
    records
        .retain(|record| Version::of(record.version).is_some() || none.contains(&record.version));
    for record in records {
        let opens = |version| opening::open(version, &bytes).opens(record);
        if record.unfit(bytes.len()) {
            nothing(indexes, record);
        } else if Version::of(record.version).is_some_and(opens) {
            assert_eq!(indexes.reopen_as(record.version, record.terms), 0);
            indexes.record(record);
            indexes.look_up(&mut Numbers::from_seed(77), 0);
            assert_eq!(indexes.reopen_as(version.number(), terms), 0);
        } else {
            indexes.free(record);
        }
    }
}

/// Lookups of which each gets 20, and no separator, whatever is asked for.
fn nothing(indexes: &mut Indexes, record: Opened) {
    indexes.record(record);
    for id in [0, record.n, u64::MAX] {
        indexes.line(format!("i {id} 20 0 0 0"));
        indexes.line(format!("p {id} 0 0 0"));
    }
    for ord in [0, 5, u64::MAX] {
        indexes.line(format!("o {ord} 20 0 0 0 0"));
    }
    for key in ["x", "x6400", "xffffff"] {
        indexes.line(format!("k {key} 20 0"));
        indexes.line(format!("a {key} 20 0 0 0 0"));
    }
}
