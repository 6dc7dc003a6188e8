//! The list of patterns: automata, and the calls that take one.

use std::collections::{BTreeMap, BTreeSet, HashSet};
use std::fmt::Write;

use model::automaton::{Interval, Table, mark, number, room, table_hits};
use model::first::first;
use model::kinds::{KINDS, kinds};
use model::opening::{self, Hit, Opened, Opening};
use model::rust::Index;
use model::version::{V3, Version};

use crate::intervals;
use crate::listings;
use crate::refused_tables;
use crate::text::{hex, numbers};

/// The lines so far, and what the next call is about.
pub struct Patterns {
    text: String,
    /// the automaton's bytes, what they break, and their table if they break nothing
    bytes: Vec<u8>,
    hits: Vec<Hit>,
    table: Option<Table>,
    opening: Opening,
    /// the file's length, and the record that the next listing uses
    len: usize,
    record: Opened,
    /// the Rust's index, if the file opens
    rust: Option<Index>,
    /// what was hit together in a call of each kind
    seen: BTreeSet<(char, Vec<Hit>)>,
    /// lines of each kind of examples
    kinds: BTreeMap<&'static str, usize>,
    /// the calls since the automaton or the file changed
    calls: HashSet<String>,
}

impl Patterns {
    pub fn comment(&mut self, line: &str) {
        writeln!(self.text, "# {line}").unwrap();
    }

    fn line(&mut self, line: String) {
        writeln!(self.text, "{line}").unwrap();
    }

    /// A call, unless it was made just before. Returns whether it is new.
    fn call(&mut self, kind: char, hits: Vec<Hit>, line: String) -> bool {
        let new = self.calls.insert(line.clone());
        if new {
            self.seen.insert((kind, hits));
            self.line(line);
        }
        new
    }

    fn set(&mut self, bytes: Vec<u8>, line: String) {
        self.line(line);
        self.calls.clear();
        self.hits = table_hits(&bytes);
        self.table = self.hits.is_empty().then(|| Table::read(&bytes));
        self.bytes = bytes;
    }

    /// The automaton's bytes.
    pub fn bytes(&self) -> &[u8] {
        &self.bytes
    }

    /// The row that the automaton breaks, or 0.
    pub fn no(&self) -> u64 {
        number(&self.hits)
    }

    /// Sets the automaton by its bytes.
    pub fn set_bytes(&mut self, bytes: &[u8]) {
        self.set(bytes.to_vec(), format!("t {}", hex(bytes)));
    }

    pub fn set_runs(&mut self, table: &Table) {
        let line = format!("w {} {}", hex(&table.flags), hex(&table.runs()));
        self.set(table.bytes(), line);
    }

    /// By the rule: the next state of s with byte b is (s * a + c + b / d) mod m. There may be too many states.
    pub fn set_rule(&mut self, flags: &[u8], (a, c, d): (usize, usize, usize)) {
        let m = flags.len();
        let next = (0..256 * m).map(|i| ((i / 256 * a + c + i % 256 / d) % m) as u8);
        let bytes = [m as u8].into_iter().chain(flags.iter().copied());
        let line = format!("r {} {a} {c} {d}", hex(flags));
        self.set(bytes.chain(next).collect(), line);
    }

    /// By draws from a seed below 2^31; k draws of 256 lead to the last state, which stays.
    pub fn set_drawn(&mut self, table: &Table, seed: u64, k: u64) {
        let line = format!("d {} {seed} {k}", hex(&table.flags));
        self.set(table.bytes(), line);
    }

    /// Puts bytes in place of the automaton's own, or behind them.
    pub fn change(&mut self, at: usize, part: &[u8]) {
        let mut bytes = self.bytes.clone();
        bytes.resize(bytes.len().max(at + part.len()), 0);
        bytes[at..at + part.len()].copy_from_slice(part);
        self.set(bytes, format!("c {at} {}", hex(part)));
    }

    /// Keeps the automaton's front.
    pub fn cut(&mut self, length: usize) {
        let bytes = self.bytes[..length].to_vec();
        self.set(bytes, format!("n {length}"));
    }

    pub fn block(&mut self, interval: &Interval) {
        self.block_beside(interval, b"");
    }

    /// With these bytes in place of a start that is absent.
    pub fn block_beside(&mut self, interval: &Interval, absent: &[u8]) {
        let no = number(&self.hits);
        let answer = self
            .table
            .as_ref()
            .is_some_and(|table| mark(table, interval));
        let keys = keys(interval, absent);
        let line = format!("b {keys} {no} {}", u8::from(answer));
        self.call('b', self.hits.clone(), line);
    }

    pub fn example(&mut self, interval: &Interval, room: usize) {
        self.example_beside(interval, b"", room);
    }

    pub fn example_beside(&mut self, interval: &Interval, absent: &[u8], lent: usize) {
        let mut hits = self.hits.clone();
        if lent < room(interval) {
            hits.push((24, "room"));
        }
        let found = self.table.as_ref().map(|table| found(table, interval));
        if found == Some(None) {
            hits.push((25, "no string"));
        }
        let no = number(&hits);
        let string = found.flatten().filter(|_| no == 0).unwrap_or_default();
        let keys = keys(interval, absent);
        let line = format!("e {keys} {lent} {no} {}", hex(&string));
        if self.call('e', hits, line) && no == 0 {
            let table = self.table.as_ref().expect("a table");
            for kind in kinds(table, interval.0.as_deref(), &interval.1, &string) {
                *self.kinds.entry(kind).or_default() += 1;
            }
        }
    }

    /// The mark, and an example with room enough and no more.
    pub fn both(&mut self, interval: &Interval) {
        self.block(interval);
        self.example(interval, room(interval));
    }

    /// Opens a file of version 3.
    pub fn open(&mut self, bytes: &[u8]) -> u64 {
        self.open_as(V3, bytes)
    }

    /// Of any version.
    pub fn open_as(&mut self, version: Version, bytes: &[u8]) -> u64 {
        self.opening = opening::open(version, bytes);
        self.len = bytes.len();
        self.record = self.opening.record;
        let no = self.opening.no();
        self.rust = (no == 0).then(|| Index::open(version, bytes));
        self.calls.clear();
        let n = self.opening.answer(self.opening.record.terms).n;
        self.line(format!("f {} {} {n}", hex(bytes), version.number()));
        no
    }

    /// The record of the current file, or the one that it would have.
    pub fn record(&self) -> Opened {
        self.opening.record
    }

    pub fn n(&self) -> usize {
        self.opening.keys.len()
    }

    /// Sets the record.
    pub fn set_record(&mut self, record: Opened) {
        let text = numbers(&record.numbers());
        self.record = record;
        self.calls.clear();
        self.line(format!("m {}", text.trim_end()));
    }

    /// The marks of the file's blocks.
    fn marks(&self, table: &Table) -> Vec<u8> {
        let keys = &self.opening.keys;
        let mut marks = vec![0; keys.len()];
        for id in self.rust.as_ref().unwrap().get_block_for_automaton(table) {
            marks[id as usize] = 1;
        }
        for (i, key) in keys.iter().enumerate() {
            let interval = (i.checked_sub(1).map(|i| keys[i].clone()), key.clone());
            assert_eq!(marks[i] == 1, mark(table, &interval));
        }
        marks
    }

    /// A listing of the current file, with its own record or with one that fails by itself.
    pub fn listing(&mut self, room: usize) {
        assert!(self.rust.is_some());
        if self.record.unfit(self.len) {
            self.call('l', vec![(20, "record")], format!("l {room} 20 0 x"));
            return;
        }
        let mut hits = self.hits.clone();
        if room < self.n() {
            hits.push((24, "marks"));
        }
        let no = number(&hits);
        let marks = match &self.table {
            Some(table) if no == 0 => self.marks(table),
            _ => vec![],
        };
        let count = marks.iter().filter(|&&mark| mark == 1).count();
        let line = format!("l {room} {no} {count} {}", hex(&marks));
        self.call('l', hits, line);
    }

    /// A listing whose answer is left free.
    pub fn free(&mut self, room: usize) {
        self.line(format!("L {room}"));
    }
}

/// The example, which there is exactly where the Rust's mark is 1.
pub fn found(table: &Table, interval: &Interval) -> Option<Vec<u8>> {
    let found = first(table, interval.0.as_deref(), &interval.1);
    assert_eq!(found.is_some(), mark(table, interval));
    found
}

/// The keys of a line, with these bytes in place of a start that is absent.
fn keys((start, end): &Interval, absent: &[u8]) -> String {
    let has = u8::from(start.is_some());
    let start = hex(start.as_deref().unwrap_or(absent));
    format!("{has} {start} {}", hex(end))
}

pub fn list() -> String {
    let mut patterns = Patterns {
        text: String::new(),
        bytes: Vec::new(),
        hits: table_hits(&[]),
        table: None,
        opening: Opening::new(V3),
        len: 0,
        record: Opened::default(),
        rust: None,
        seen: BTreeSet::new(),
        kinds: BTreeMap::new(),
        calls: HashSet::new(),
    };
    for line in [
        "Automata, and the calls that take one, written by oracle/write-answers. Numbers are decimal, a byte string is x and its",
        "lower-case hex. A call's number is document 01's, from a plain model of it; after a refusal all else is 0.",
        "The automaton of the next lines:",
        "t TABLE: these bytes",
        "w FLAGS RUNS: a flag for each state; the next states, row by row, as runs: how many less one, and the state",
        "r FLAGS A C D: the next state of s with byte b is (s * A + C + b / D, rounded down) mod the count of flags",
        "d FLAGS SEED K: x = SEED. For each state but the last, and each byte, x becomes (x * 1103515245 + 12345) mod 2^31. With v",
        "= x / 65536, rounded down, the next state is the last one if v mod 256 < K, else v / 256, rounded down, mod the count",
        "of flags. The last state stays.",
        "c AT BYTES: these bytes in place of the automaton's own from AT on, beyond its end too",
        "n LENGTH: its front",
        "The calls, over keys above START and not above END; HAS is 0 where START is absent, whatever stands there:",
        "b HAS START END NO MARK: can_block_match_automaton of the Rust (tantivy-sstable 0.27.0); a plain search for an accepted",
        "string gives the same",
        "e HAS START END ROOM NO STRING: the example, written to ROOM bytes: the shortest accepted string, and of those the lowest in byte",
        "order, from a breadth-first search. It has number 25 where the mark is 0.",
        "f FILE VERSION N: opens a file, with this version and one term more than its last first ordinal, whose record the next lines",
        "use; its count of blocks, 0 if it is refused",
        "l ROOM NO COUNT MARKS: a listing to ROOM bytes; the marks are get_block_for_automaton of SSTableIndexV3, its FST a stand-in, and",
        "for version 4 its STORE_BLOCK_LEN 256. 20 with a record of another version than 3 and 4",
        "m N DIRECTORY LEN RECORDS LEN ADDRESSES LEN TERMS VERSION: sets the record for the next lines, which may not belong to the file",
        "L ROOM: a listing whose answer is left free. It has a number of 20 to 24, or marks of 0 and 1 and the count of its ones.",
    ] {
        patterns.comment(line);
    }
    intervals::worked(&mut patterns);
    refused_tables::tables(&mut patterns);
    intervals::lists(&mut patterns);
    intervals::examples(&mut patterns);
    listings::files(&mut patterns);
    listings::left_free(&mut patterns);
    check_seen(&patterns);
    patterns.text
}

/// Every part of a row that can be hit alone, and every two rows that can be hit together; every kind of examples.
fn check_seen(patterns: &Patterns) {
    for kind in KINDS {
        let lines = patterns.kinds.get(kind).copied().unwrap_or_default();
        assert!(lines >= intervals::OF_A_KIND, "{kind}: {lines}");
    }
    let table = [
        (21, "empty"),
        (21, "no states"),
        (21, "over 64 states"),
        (21, "length"),
        (22, "flag"),
        (23, "next state"),
    ];
    for (kind, more) in [
        ('b', vec![]),
        ('l', vec![(24, "marks")]),
        ('e', vec![(24, "room"), (25, "no string")]),
    ] {
        let hits: Vec<Hit> = table.into_iter().chain(more).collect();
        for &hit in &hits {
            let alone = patterns.seen.contains(&(kind, vec![hit]));
            assert!(alone, "{kind} {hit:?} alone");
        }
        let rows: BTreeSet<u64> = hits.iter().map(|hit| hit.0).collect();
        for &first in &rows {
            for &later in rows.range(first + 1..) {
                // an automaton that is refused has no strings
                let both = |(call, hits): &(char, Vec<Hit>)| {
                    let seen: BTreeSet<u64> = hits.iter().map(|hit| hit.0).collect();
                    *call == kind && seen == BTreeSet::from([first, later])
                };
                let can = later < 25 || first == 24;
                assert!(
                    !can || patterns.seen.iter().any(both),
                    "{kind} {first} {later}"
                );
            }
        }
    }
}
