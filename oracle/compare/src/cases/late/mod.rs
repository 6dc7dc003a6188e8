//! Files of 20,000 bytes to some megabytes, with each of rows 10 to 16 broken late: in the last key, the last pair, the last group,
//! its last field, or in those before them and in the middle.

mod directories;
mod stores;

use model::automaton::Table;
use model::blocks::{by_rule, random};
use model::files::File as Parts;
use model::foreign::{self, near};
use model::numbers::Numbers;
use model::rust::{self, Block};
use model::settings::{LIMIT, MOST_BLOCKS};
use model::version::{VERSIONS, Version};

use crate::calls::intervals::Pattern;
use crate::calls::opened;
use crate::tally::Tally;

pub fn run(tally: &mut Tally) {
    for version in VERSIONS {
        in_version(tally, version);
    }
}

fn in_version(tally: &mut Tally, version: Version) {
    let mut rng = Numbers::from_seed(133);
    let files = files(version, &mut rng);
    for (section, run) in [
        (
            "late: rows 10 and 11, 20,000 bytes to 4 megabytes",
            directories::footers as fn(&mut Tally, &Whole),
        ),
        ("late: row 12", directories::pairs),
        ("late: row 13", directories::orders),
        ("late: row 14", stores::records),
        ("late: row 15", stores::groups),
        ("late: row 16", stores::values),
        ("late: two rows, the later one early", two_rows),
    ] {
        tally.section_of(version, section);
        for whole in &files {
            run(tally, whole);
        }
    }
}

/// A file that opens, in parts.
struct Whole {
    version: Version,
    keys: Vec<Vec<u8>>,
    store: Vec<u8>,
    parts: Parts,
    blocks: Vec<Block>,
    /// takes what begins with the last key's first bytes
    pattern: Pattern,
}

/// A fault at a place: of a pair, or of a group.
type Fault = fn(&mut Parts, usize);

impl Whole {
    fn new(version: Version, keys: Vec<Vec<u8>>, store: Vec<u8>, blocks: Vec<Block>) -> Whole {
        let parts = Parts::new(&keys, &store);
        assert!((20_000..8_000_000).contains(&parts.bytes().len()));
        let last = keys.last().expect("a key");
        let pattern = Pattern::of(&Table::beginning(&last[..last.len().min(40)]));
        Whole {
            version,
            keys,
            store,
            parts,
            blocks,
            pattern,
        }
    }

    /// The last, the one before it, and one in the middle.
    fn places(&self, count: usize) -> [usize; 3] {
        [count - 1, count - 2, count / 2]
    }

    fn groups(&self) -> usize {
        self.keys.len().div_ceil(self.version.group_len())
    }

    /// The file with another list of keys.
    fn with_keys(&self, change: impl FnOnce(&mut Vec<Vec<u8>>)) -> Parts {
        let mut keys = self.keys.clone();
        change(&mut keys);
        Parts::new(&keys, &self.store)
    }

    /// Opens a broken file, which must get this row; then lookups in it with the whole file's record, at its end.
    fn open(&self, tally: &mut Tally, row: u64, parts: &Parts) {
        let mut file = opened::open(tally, self.version, &parts.bytes());
        assert_eq!(file.opening().no(), row, "a fault of another row");
        let whole = self.record();
        file.set_record(whole);
        let last = self.keys.len() - 1;
        file.id(tally, last as u64);
        file.separator(tally, last as u64);
        // the last ordinal, and the number of terms
        file.ord(tally, whole.terms - 1);
        file.ord(tally, whole.terms);
        file.key(tally, &self.keys[last]);
        file.address(tally, &self.keys[last - 1]);
        file.list(tally, &self.pattern, self.keys.len());
    }

    /// Opens a file that gets 16, or may open too.
    fn any(&self, tally: &mut Tally, parts: &Parts, certain: bool) {
        let row = self.row(parts);
        assert!(row == 16 || row == 0 && !certain);
        self.open(tally, row, parts);
    }

    /// The row that the model gives.
    fn row(&self, parts: &Parts) -> u64 {
        model::opening::open(self.version, &parts.bytes()).no()
    }

    fn record(&self) -> model::opening::Opened {
        let Parts {
            directory,
            records,
            addresses,
            ..
        } = &self.parts;
        let (d, r, a) = (
            directory.len() as u64,
            records.len() as u64,
            addresses.len() as u64,
        );
        model::opening::Opened {
            n: self.keys.len() as u64,
            directory: (0, d),
            records: (d + 8, r),
            addresses: (d + 8 + r, a),
            terms: self.blocks[self.blocks.len() - 1].ord + 1,
            version: self.version.number(),
        }
    }
}

/// Rising keys: a front, a number of three bytes, and up to so many bytes after it.
fn keys(rng: &mut Numbers, count: usize, front: u64, after: u64) -> Vec<Vec<u8>> {
    let front = rng.bytes(front);
    let key = |i: usize| {
        let length = rng.below(after + 1);
        [&front[..], &i.to_be_bytes()[5..], &rng.bytes(length)].concat()
    };
    (0..count).map(key).collect()
}

/// Blocks, bytes in front of a key's number and behind it.
const OF_3: [(usize, u64, u64); 6] = [
    (600, 20, 20),
    (900, 14, 3),
    (3000, 2, 40),
    (4001, 997, 20),
    (20_000, 3, 7),
    (MOST_BLOCKS, 1, 4),
];

const OF_4: [(usize, u64, u64); 4] = [
    (1500, 14, 3),
    (3000, 2, 40),
    (7701, 60, 9),
    (MOST_BLOCKS, 1, 4),
];

fn files(version: Version, rng: &mut Numbers) -> Vec<Whole> {
    let mut files = Vec::new();
    for &(count, front, after) in version.pick(&OF_3[..], &OF_4) {
        let blocks = match count % 2 {
            0 => random(rng, count as u64, 12, 7, 20, 20),
            _ => by_rule(529 * 77 + 23 * 9 + 11, count as u64),
        };
        let keys = keys(rng, count, front, after);
        let store = rust::write_store(version, &blocks);
        files.push(Whole::new(version, keys, store, blocks));
    }
    files.push(foreign(version, rng));
    for whole in &files {
        let opening = model::opening::open(version, &whole.parts.bytes());
        assert_eq!(opening.record, whole.record());
    }
    files
}

/// Groups that no writer would write so, with bytes between them.
fn foreign(version: Version, rng: &mut Numbers) -> Whole {
    let blocks = random(rng, 1700, 20, 9, 30, 30);
    let (mut groups, mut offset) = (Vec::new(), 3);
    for part in blocks.chunks(version.group_len()) {
        let group = near(rng, part, offset);
        offset += group.length() + rng.below(5) as usize;
        groups.push(group);
    }
    let room = groups.last().map_or(0, |last| last.offset + last.length());
    let store = foreign::store(&groups, rng.bytes(room as u64));
    let keys = keys(rng, blocks.len(), 5, 9);
    Whole::new(version, keys, store, blocks.clone())
}

/// A late fault of one row and an early one of a later row: the first row is given.
fn two_rows(tally: &mut Tally, whole: &Whole) {
    let late = whole.groups() - 1;
    let early: [(u64, fn(&mut Parts)); 4] = [
        (14, |parts| parts.records_len += 1),
        (15, |parts| parts.widths(0, 57, 57)),
        (16, |parts| parts.first_start(0, LIMIT)),
        (16, |parts| parts.first_ord(0, u64::MAX)),
    ];
    for (row, fault) in early {
        let mut parts = whole.parts.clone();
        parts.pair(whole.keys.len() - 1, 7, 7);
        fault(&mut parts);
        whole.open(tally, 12, &parts);
        let mut parts = whole.with_keys(|keys| keys.swap(0, whole.keys.len() - 1));
        fault(&mut parts);
        whole.open(tally, 13, &parts);
        if row == 16 {
            for group_fault in stores::GROUP_FAULTS {
                let mut parts = whole.parts.clone();
                group_fault(&mut parts, late);
                fault(&mut parts);
                whole.open(tally, 15, &parts);
            }
        }
    }
}
