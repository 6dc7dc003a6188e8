//! The list of batches: lookups of several keys at once, in files of the list of indexes' forms.

use std::collections::BTreeSet;
use std::fmt::Write;

use model::around;
use model::batch::{Cause, KeyList, NO_ID, Separators};
use model::faults::{other_versions, others};
use model::files::{by_rule, two_group_file, worked_file};
use model::key_lists::{LAYOUTS, Layout, ORDERS, Order, WAYS, refused};
use model::numbers::Numbers;
use model::opening::{self, Opened, Opening};
use model::rust::Index;
use model::settings::MOST_KEYS;
use model::version::{V3, V4, VERSIONS, Version};

use crate::indexes;
use crate::text::{hex, numbers};

/// Room for more ids than this isn't asked for, and no line has more numbers: the program that replays the list has no more room.
const MOST_ROOM: usize = 80;
const MOST_NUMBERS: usize = 520;

/// The lines so far, and the file that the next ones are about.
struct Batches {
    text: String,
    bytes: Vec<u8>,
    opening: Opening,
    rust: Option<Index>,
    record: Opened,
    /// the sets of causes of row 26 that came up with the file's own record
    causes: BTreeSet<Vec<Cause>>,
}

impl Batches {
    fn comment(&mut self, line: &str) {
        writeln!(self.text, "# {line}").unwrap();
    }

    fn open(&mut self, line: &str, version: Version, bytes: Vec<u8>) {
        self.opening = opening::open(version, &bytes);
        assert_eq!(self.opening.no(), 0);
        self.rust = indexes::rust(&bytes, &self.opening);
        self.record = self.opening.record;
        self.bytes = bytes;
        let terms = self.record.terms;
        let record = numbers(&self.record.numbers());
        writeln!(self.text, "{line} {terms} 0 {}", record.trim_end()).unwrap();
    }

    fn open_bytes(&mut self, version: Version, bytes: Vec<u8>) {
        let line = format!("f {} {}", hex(&bytes), version.number());
        self.open(&line, version, bytes);
    }

    fn open_by_rule(&mut self, version: Version, count: u64) {
        let line = format!("g {} {count}", version.number());
        self.open(&line, version, by_rule(version, count).bytes());
    }

    /// The file by a version, if the number is one.
    fn read_as(&mut self, version: u64) {
        if let Some(version) = Version::of(version) {
            self.opening = opening::open(version, &self.bytes);
            self.rust = indexes::rust(&self.bytes, &self.opening);
        }
    }

    fn set_record(&mut self, record: Opened) {
        self.record = record;
        writeln!(self.text, "m {}", numbers(&record.numbers()).trim_end()).unwrap();
    }

    fn line(&mut self, kind: char, list: &KeyList, room: usize, answer: &[u64]) {
        let KeyList { pairs, bytes } = list;
        assert!(room <= MOST_ROOM && pairs.len() + answer.len() + 2 <= MOST_NUMBERS);
        let given = [&[room as u64, pairs.len() as u64], &pairs[..], answer].concat();
        let line = format!("{kind} {} {}", hex(bytes), numbers(&given));
        writeln!(self.text, "{}", line.trim_end()).unwrap();
    }

    /// With the file's own record, or with one that fails by itself.
    fn exact(&mut self, list: &KeyList, room: usize) {
        if self.record.unfit(self.bytes.len()) {
            self.line('b', list, room, &[20]);
            return;
        }
        assert!(self.opening.opens(self.record));
        self.causes.insert(list.causes(room));
        let (no, entries) = Separators::new(&self.opening.keys).locate(list, room);
        if no == 0 {
            let index = self.rust.as_ref().unwrap();
            let found = |key: &[u8]| index.locate_with_key(key).unwrap_or(NO_ID);
            let rust: Vec<u64> = list.keys().into_iter().map(found).collect();
            assert_eq!(entries, rust);
        }
        self.line('b', list, room, &[&[no], &entries[..]].concat());
    }

    /// With a record that may not be the file's, and doesn't fail by itself.
    fn free(&mut self, list: &KeyList, room: usize) {
        assert!(!self.record.unfit(self.bytes.len()));
        self.line('B', list, room, &[]);
    }
}

pub fn list() -> String {
    let mut batches = Batches {
        text: String::new(),
        bytes: Vec::new(),
        opening: Opening::new(V3),
        rust: None,
        record: Opened::default(),
        causes: BTreeSet::new(),
    };
    for line in [
        "Batches: lookups of several keys at once. f, g and m as above.",
        "b BYTES ROOM WORDS W .. NO ID ..: keys as pairs of offset and length over BYTES, WORDS numbers in all; an id area of ROOM",
        "numbers. NO is the number; where it is 0 an id for each key follows, 2^64 - 1 for a key above the last separator. The ids stand",
        "at the front of the area, and all else in it stays; after a refusal all of it does. Ids are those of the Rust's",
        "locate_with_key, one key at a time; 20 (only with a record that fails by itself, as one of another version than 3 and 4 does)",
        "and 26 are from a plain model of document 02.",
        "B BYTES ROOM WORDS W ..: with a record that may not belong to the file. 20 or 26, and the area stays; or 0, and an entry for",
        "each key that is below n or 2^64 - 1.",
    ] {
        batches.comment(line);
    }
    taken(&mut batches);
    refusals(&mut batches);
    large(&mut batches);
    other_records(&mut batches);
    let sets = 1 << Cause::ALL.len();
    assert_eq!(batches.causes.len(), sets, "a set of causes is missing");
    batches.text
}

/// Lists over the worked case, and over two groups.
fn taken(batches: &mut Batches) {
    batches.comment("no keys; empty ones, at the area's end too; equal offsets, parts that overlap; keys that fall or come again");
    batches.open_bytes(V3, worked_file().bytes());
    for room in [0, 1, 3] {
        batches.exact(&KeyList::default(), room);
    }
    let bytes = b"gfbd".to_vec();
    for pairs in [
        &[][..],
        &[0, 0],
        &[4, 0],
        &[0, 1],
        &[1, 1],
        &[0, 4],
        &[0, 0, 0, 1, 0, 2, 0, 4],
        &[0, 2, 1, 2, 2, 2, 3, 1, 4, 0],
        &[1, 1, 2, 1, 2, 1, 3, 1],
        &[3, 1, 3, 1, 3, 1],
        &[0, 1, 1, 1, 2, 1, 3, 0, 4, 0, 4, 0],
    ] {
        let list = KeyList {
            pairs: pairs.to_vec(),
            bytes: bytes.clone(),
        };
        for more in [0, 2] {
            batches.exact(&list, list.count() + more);
        }
    }
    let mut rng = Numbers::from_seed(91);
    for version in VERSIONS {
        batches.open_bytes(version, two_group_file(version, 2).bytes());
        let n = batches.record.n;
        let ids = around::ids(version, &mut rng, n, 4);
        let pool: Vec<Vec<u8>> = around::keys(&batches.opening.keys, &ids)
            .into_iter()
            .collect();
        let counts = match version {
            V3 => &[2, 7, 9, MOST_KEYS - 1, MOST_KEYS][..],
            V4 => &[2, 9, MOST_KEYS],
        };
        for (i, order) in ORDERS.into_iter().enumerate() {
            for &count in counts {
                let keys = order.keys(&mut rng, &pool, count);
                batches.exact(&LAYOUTS[(i + count) % 3].list(&keys), count + i % 2);
            }
        }
    }
}

/// Each set of causes.
fn refusals(batches: &mut Batches) {
    batches.comment(
        "each set of the causes of 26: at the first, a middle and the last pair, sums from 2^64 on",
    );
    batches.open_bytes(V3, worked_file().bytes());
    for which in 0..1 << Cause::ALL.len() {
        let chosen = |k: &usize| which >> k & 1 == 1;
        let picked = (0..Cause::ALL.len()).filter(chosen);
        let causes: Vec<Cause> = picked.map(|k| Cause::ALL[k]).collect();
        // long lists are long lines: one of each
        let ways = if causes.contains(&Cause::TooMany) {
            1
        } else {
            WAYS
        };
        for way in 0..ways {
            let (list, room) = refused(3, &causes, way % 3, way);
            assert_eq!(list.causes(room), causes);
            batches.exact(&list, room);
        }
    }
    let keys = [b"a"; MOST_KEYS + 1];
    for count in [MOST_KEYS - 1, MOST_KEYS, MOST_KEYS + 1] {
        let list = Layout::Touching.list(&keys[..count]);
        for room in [count - 1, count, count + 1] {
            batches.exact(&list, room);
        }
        let mut odd = list.clone();
        odd.pairs.pop();
        batches.exact(&odd, count);
    }
}

/// Sizes around those at which searches begin to go side by side, and the largest.
fn large(batches: &mut Batches) {
    batches.comment("large files: 7, 8, 9, 63 and 64 keys");
    let mut rng = Numbers::from_seed(92);
    for (version, n) in [
        (V3, 4_095),
        (V3, 4_096),
        (V3, 4_097),
        (V3, 8_192),
        (V3, 65_535),
        (V3, 65_536),
        (V4, 129),
        (V4, 513),
        (V4, 4_096),
        (V4, 65_536),
    ] {
        batches.open_by_rule(version, n);
        let ids = around::ids(version, &mut rng, n, 20);
        let pool: Vec<Vec<u8>> = around::keys(&batches.opening.keys, &ids)
            .into_iter()
            .collect();
        for count in [7, 8, 9, MOST_KEYS - 1, MOST_KEYS] {
            let order = rng.pick(&[Order::Falling, Order::Mixed, Order::Turns]);
            let keys = order.keys(&mut rng, &pool, count);
            batches.exact(&rng.pick(&LAYOUTS).list(&keys), count);
        }
    }
}

/// A low key so often, with one above all others at a place.
fn with_one(count: usize, place: usize) -> KeyList {
    let mut keys = vec![&[][..]; count];
    keys[place] = b"\xff";
    Layout::Touching.list(&keys)
}

/// Records that fail by themselves are refused before the list; others are left free.
fn other_records(batches: &mut Batches) {
    batches.comment("records that aren't the file's: 20 before 26, and where a record doesn't fail by itself left free");
    batches.open_bytes(V3, worked_file().bytes());
    let (right, len) = (batches.record, batches.bytes.len());
    let (bad, _) = refused(2, &[Cause::Falls], 1, 0);
    for record in others(right).into_iter().chain(other_versions(right)) {
        batches.read_as(record.version);
        batches.set_record(record);
        if record.unfit(len) || batches.opening.opens(record) {
            batches.exact(&with_one(2, 1), 3);
            batches.exact(&bad, 1);
            batches.exact(&KeyList::default(), 0);
        } else {
            batches.free(&with_one(2, 1), 3);
            batches.free(&bad, 1);
        }
    }
    batches.comment("the last key is outside: it is met at the first, a middle and the last key");
    for (version, n) in [(V3, 3), (V3, 4_096), (V4, 4_096)] {
        batches.open_by_rule(version, n);
        let own = batches.record;
        let directory = (0, own.directory.1 - 1);
        batches.set_record(Opened { directory, ..own });
        for count in [3, 8, MOST_KEYS] {
            for place in [0, count / 2, count - 1] {
                batches.free(&with_one(count, place), count);
            }
        }
        batches.set_record(own);
        batches.exact(&with_one(9, 4), 9);
    }
}
