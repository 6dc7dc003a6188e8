//! Damaged files: opened, then looked up with the record of the whole file.

use model::blocks::{random, touching};
use model::faults::faults;
use model::files::{File as Parts, rising, short_keys, smallest, two_group_file, worked_file};
use model::foreign::{self, Group};
use model::numbers::Numbers;
use model::opening::{self, Opened};
use model::settings::{LIMIT, WIDEST};
use model::version::{VERSIONS, Version};

use super::lookups;
use crate::asked::quietly;
use crate::calls::intervals::Pattern;
use crate::calls::opened::{self, File};
use crate::tally::Tally;

/// Files of up to 128 blocks are the same in all versions: of them version 4 gets a part of the damage.
pub fn run(tally: &mut Tally) {
    for version in VERSIONS {
        every_byte(tally, version);
        some_bytes(tally, version);
        cut(tally, version);
        numbers(tally, version);
        pairs(tally, version);
        by_row(tally, version);
        places(tally, version);
        random_ones(tally, version, version.pick(20_000, 8_000));
    }
}

/// Numbers at which a sum or a test can go wrong.
const EDGES: [u64; 15] = [
    0,
    1,
    2,
    35,
    37,
    57,
    127,
    1025,
    65_537,
    LIMIT - 1,
    LIMIT,
    1 << 61,
    1 << 63,
    u64::MAX - 15,
    u64::MAX,
];

/// A file of a version, and the record that it has while it is whole.
struct Whole {
    version: Version,
    bytes: Vec<u8>,
    record: Opened,
    pattern: Pattern,
}

impl Whole {
    fn new(version: Version, bytes: Vec<u8>) -> Whole {
        let opening = opening::open(version, &bytes);
        assert_eq!(opening.no(), 0);
        let words: Vec<&[u8]> = opening
            .keys
            .iter()
            .take(4)
            .map(|key| &key[..key.len().min(8)])
            .collect();
        Whole {
            version,
            bytes,
            record: opening.record,
            pattern: Pattern::of(&model::automaton::Table::words(&words)),
        }
    }

    /// Opens other bytes; lookups with the record that they have, and with the whole file's. The number of terms goes by the bytes:
    /// ordinals are searched for below it alone.
    fn with(&self, tally: &mut Tally, bytes: &[u8]) {
        let mut file = opened::open(tally, self.version, bytes);
        if file.opening().no() == 0 {
            self.look_up(tally, &file);
        }
        if !file.opening().is_but_for_terms(self.record) {
            let terms = file.by_turns(&[u64::MAX, u64::MAX, self.record.terms, 6, 0]);
            file.set_record(self.record.with_terms(terms));
            self.look_up(tally, &file);
        }
    }

    fn look_up(&self, tally: &mut Tally, file: &File) {
        lookups::some(tally, file);
        let room = usize::try_from(file.n()).unwrap_or(0).min(70_000);
        file.list(tally, &self.pattern, room);
    }
}

/// Files of few bytes.
fn short(version: Version) -> Vec<Whole> {
    let wide = |blocks: &[_], range_width, ord_width, offset| {
        let group = Group {
            blocks,
            offset,
            range_slope: 7,
            ord_slope: 1,
            range_width,
            ord_width,
        };
        foreign::store(&[group], vec![0xee; offset + group.length() + 1])
    };
    let keys = [b"".to_vec(), b"\x00".to_vec(), b"\xff\xff".to_vec()];
    let top = touching(LIMIT - 11, &[5, 5, 0], LIMIT - 9, &[1, 7]);
    [
        worked_file(),
        smallest(),
        Parts::new(&keys, &wide(&top, 56, 50, 2)),
        Parts::new(&keys[..2], &wide(&top[..2], 4, 9, 0)),
        Parts::written(version, &top, &keys),
    ]
    .into_iter()
    .map(|parts| Whole::new(version, parts.bytes()))
    .collect()
}

/// Files of two groups.
fn longer(version: Version, rng: &mut Numbers) -> Vec<Whole> {
    let count = version.group_len() as u64 + 12;
    let blocks = random(rng, count, 12, 6, 20, 20);
    let keys = rising(rng, count, 4);
    [
        two_group_file(version, 2),
        two_group_file(version, 1),
        Parts::written(version, &blocks, &keys),
    ]
    .into_iter()
    .map(|parts| Whole::new(version, parts.bytes()))
    .collect()
}

/// Every byte of the short files with every value.
fn every_byte(tally: &mut Tally, version: Version) {
    tally.section_of(
        version,
        "damage: every byte of short files with every value",
    );
    for whole in short(version) {
        for at in 0..whole.bytes.len() {
            for value in (0..=255).step_by(version.pick(1, 3)) {
                let mut bytes = whole.bytes.clone();
                bytes[at] = value;
                whole.with(tally, &bytes);
            }
        }
    }
}

/// Every byte of longer files with some values.
fn some_bytes(tally: &mut Tally, version: Version) {
    tally.section_of(
        version,
        "damage: every byte of files of two groups with some values",
    );
    for whole in longer(version, &mut Numbers::from_seed(109)) {
        for at in 0..whole.bytes.len() {
            let old = whole.bytes[at];
            for value in [old ^ 1, old ^ 0x80, 0, 0xff, old.wrapping_add(2)] {
                let mut bytes = whole.bytes.clone();
                bytes[at] = value;
                whole.with(tally, &bytes);
            }
        }
    }
}

/// Every front, every end; every byte left out, and one put in at every place.
fn cut(tally: &mut Tally, version: Version) {
    tally.section_of(
        version,
        "damage: every front, every end, a byte less or more at every place",
    );
    let mut rng = Numbers::from_seed(110);
    let mut all = short(version);
    all.extend(longer(version, &mut rng));
    for whole in all {
        let bytes = &whole.bytes;
        for at in (0..bytes.len()).step_by(version.pick(1, 2)) {
            whole.with(tally, &bytes[..at]);
            whole.with(tally, &bytes[at..]);
            whole.with(tally, &[&bytes[..at], &bytes[at + 1..]].concat());
            whole.with(
                tally,
                &[&bytes[..at], &[rng.next() as u8], &bytes[at..]].concat(),
            );
        }
    }
}

/// A number of 1, 2, 4 or 8 bytes at every place of the short files.
fn numbers(tally: &mut Tally, version: Version) {
    tally.section_of(
        version,
        "damage: edge numbers of 2, 4 and 8 bytes at every place",
    );
    for whole in short(version) {
        for &width in version.pick(&[2, 4, 8][..], &[4]) {
            for at in 0..=whole.bytes.len() - width {
                for edge in EDGES {
                    let mut bytes = whole.bytes.clone();
                    bytes[at..at + width].copy_from_slice(&edge.to_le_bytes()[..width]);
                    whole.with(tally, &bytes);
                }
            }
        }
    }
}

/// Two bytes at once, in the smallest file: every two places.
fn pairs(tally: &mut Tally, version: Version) {
    tally.section_of(
        version,
        "damage: every two bytes of the smallest file with some values",
    );
    let whole = Whole::new(version, smallest().bytes());
    for one in 0..whole.bytes.len() {
        for other in (one + 1..whole.bytes.len()).step_by(version.pick(1, 5)) {
            for first in [
                0,
                whole.bytes[one] ^ 1,
                whole.bytes[one].wrapping_add(1),
                0xff,
            ] {
                for second in [0, whole.bytes[other] ^ 1, 0xff] {
                    let mut bytes = whole.bytes.clone();
                    bytes[one] = first;
                    bytes[other] = second;
                    opened::open(tally, version, &bytes);
                }
            }
        }
    }
}

/// Faults by their rows, alone and every two.
fn by_row(tally: &mut Tally, version: Version) {
    tally.section_of(version, "damage: faults by their rows, every two");
    let file = smallest();
    let faults = faults();
    for &(_, one) in &faults {
        let broken = file.with(one);
        opened::open(tally, version, &broken.bytes());
        for &(_, other) in &faults {
            // a fault may ask for bytes that another took away
            if let Some(bytes) = quietly(|| broken.with(other).bytes()) {
                opened::open(tally, version, &bytes);
            }
        }
    }
}

/// A full group with every two widths and with other block counts, and address bytes for the widest: where the fields end decides
/// nothing, so that widths and count alone are to be seen.
fn places(tally: &mut Tally, version: Version) {
    tally.section_of(
        version,
        "damage: a full group with every two widths, and other block counts",
    );
    let full = version.group_len();
    let blocks = touching(0, &vec![2; full], 0, &vec![1; full - 1]);
    let widest = Group {
        blocks: &blocks,
        offset: 0,
        range_slope: 2,
        ord_slope: 1,
        range_width: WIDEST,
        ord_width: WIDEST,
    };
    let store = foreign::store(&[widest], vec![0; 64 * full]);
    let file = Parts::new(&short_keys(full), &store);
    let whole = Whole::new(version, file.bytes());
    let mut part = file.clone();
    let every = version.pick(1, 7);
    for range in 0..=255 {
        // other widths by turns, and the ends of their range with each
        let ends = AROUND_WIDTHS.into_iter().filter(|_| every > 1);
        for ord in (range % every..=255).step_by(every.into()).chain(ends) {
            part.widths(0, ord, range);
            opened::open(tally, version, &part.bytes());
        }
    }
    for range in AROUND_WIDTHS {
        for ord in AROUND_WIDTHS {
            part.widths(0, ord, range);
            whole.with(tally, &part.bytes());
        }
    }
    for (range, ord) in [(1, 1), (WIDEST, WIDEST), (255, 255)] {
        part.widths(0, ord, range);
        for power in 0..=16 {
            for count in [(1u32 << power) - 1, 1 << power, (1 << power) + 1] {
                part.record(0, 34, &(count as u16).to_le_bytes());
                whole.with(tally, &part.bytes());
            }
        }
    }
}

/// Widths around the ends of their range, and the greatest.
const AROUND_WIDTHS: [u8; 12] = [0, 1, 2, 55, 56, 57, 58, 63, 64, 127, 128, 255];

/// Many bytes at once, by chance; or no file at all.
fn random_ones(tally: &mut Tally, version: Version, count: u64) {
    tally.section_of(version, "damage: by chance, up to six bytes");
    let mut rng = Numbers::from_seed(111);
    let mut all = short(version);
    all.extend(longer(version, &mut rng));
    for _ in 0..count {
        let at = rng.below(all.len() as u64) as usize;
        let whole = &all[at];
        let mut bytes = whole.bytes.clone();
        if rng.one_in(20) {
            bytes = rng.bytes(whole.bytes.len() as u64 / 4);
        } else {
            for _ in 0..rng.within(2, 6) {
                let at = rng.below(bytes.len() as u64) as usize;
                bytes[at] = match rng.below(3) {
                    0 => rng.next() as u8,
                    1 => bytes[at] ^ (1 << rng.below(8)),
                    _ => rng.pick(&[0, 1, 0xff]),
                };
            }
        }
        whole.with(tally, &bytes);
    }
}
