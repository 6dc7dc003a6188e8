//! The list of calls: builders that are added to, shortened and finished.

use std::collections::BTreeSet;
use std::fmt::Write;

use model::areas::{Areas, Entry, MARK, MOST, Machine, View, by_rule, first, hits, index};
use model::blocks::{FAR, TOO_FAR, WORKED, block, widest};
use model::files::short_keys;
use model::numbers::Numbers;
use model::settings::{LIMIT, STRIDE};
use model::sums::remainder;
use model::version::{NO_VERSIONS, V3, V4, VERSION_BAD, VERSIONS, Version};
use tantivy_sstable::access::{self, Block};

use crate::text::{hex, numbers};

/// The program that replays the list has no more bytes for an index.
const MOST_ROOM: usize = 4_096;

/// The calls so far. A fresh builder is followed by the plain machine and by the areas, and both must agree.
struct Calls {
    text: String,
    machine: Option<Machine>,
    areas: Areas,
    /// a call's letter and all rows that held, by their numbers
    seen: BTreeSet<(char, Vec<u64>)>,
    /// parts of row 8 that were broken together
    seen_broken: BTreeSet<Vec<u64>>,
}

impl Calls {
    fn comment(&mut self, line: &str) {
        writeln!(self.text, "# {line}").unwrap();
    }

    fn line(&mut self, line: String) {
        writeln!(self.text, "{line}").unwrap();
    }

    fn fresh(&mut self, room: usize, key_room: usize) {
        self.machine = Some(Machine {
            entries: Vec::new(),
            room,
            key_room,
        });
        self.areas = Areas {
            n: 0,
            blocks: vec![u64::from_le_bytes([MARK; 8]); room],
            keys: vec![MARK; key_room],
        };
        self.line(format!("n {room} {key_room}"));
    }

    fn raw(&mut self, n: u64, blocks: &[u64], keys: &[u8]) {
        self.machine = None;
        self.areas = Areas {
            n,
            blocks: blocks.to_vec(),
            keys: keys.to_vec(),
        };
        self.line(format!(
            "r {n} {} {}{}",
            blocks.len(),
            numbers(blocks),
            hex(keys)
        ));
    }

    /// Returns the number.
    fn add(&mut self, block: Block, key: &[u8]) -> u64 {
        let rows = self.areas.view(self.areas.n).add_rows(block, key);
        let no = first(&rows);
        if let Some(machine) = &mut self.machine {
            assert_eq!(rows, machine.view().add_rows(block, key));
            assert!(no != 1);
            if no == 0 {
                machine.entries.push((block, key.to_vec()));
            }
        }
        if no == 0 {
            self.areas.add(block, key);
        }
        self.agree();
        self.seen.insert(('a', rows));
        let Block { start, end, ord } = block;
        self.line(format!("a {start} {end} {ord} {} {no}", hex(key)));
        no
    }

    /// Returns the number.
    fn shorten(&mut self, next: &[u8]) -> u64 {
        let view = self.areas.view(self.areas.n);
        let rows = view.shorten_rows(next);
        let no = first(&rows);
        if let Some(machine) = &self.machine {
            assert_eq!(rows, machine.view().shorten_rows(next));
            assert!(no != 1);
        }
        if let (0, Some((_, key))) = (no, view.last) {
            let short = access::find_shorter_str_in_between(&key, next);
            self.areas.replace_last_key(&short);
            if let Some(machine) = &mut self.machine {
                machine.entries.last_mut().unwrap().1 = short;
            }
        }
        self.agree();
        self.seen.insert(('k', rows));
        self.line(format!("k {} {no}", hex(next)));
        no
    }

    fn agree(&self) {
        if let Some(machine) = &self.machine {
            assert_eq!(machine.entries, self.areas.entries());
        }
    }

    fn state(&mut self) {
        let machine = self.machine.as_ref().unwrap();
        let line = format!("e {} {}", machine.entries.len(), hex(&machine.joined()));
        self.line(line);
    }

    /// How long the index of this version is.
    fn total(&self, version: Version) -> usize {
        index(version, &self.areas.entries()).0.len()
    }

    /// By version 3. Returns the number.
    fn finish(&mut self, room: usize) -> u64 {
        self.finish_as(V3.number(), room)
    }

    /// Returns the number.
    fn finish_as(&mut self, number: u64, room: usize) -> u64 {
        assert!(room <= MOST_ROOM);
        let version = Version::of(number);
        let mut rows = hits(&[
            (VERSION_BAD, version.is_none()),
            (1, self.areas.view(self.areas.n).row_1()),
        ]);
        // beyond these counts nothing is there to look at
        let broken = if self.areas.n <= 300 {
            self.areas.broken()
        } else {
            BTreeSet::new()
        };
        rows.extend(hits(&[(8, !broken.is_empty())]));
        let (bytes, directory) = match version {
            Some(version) if rows.is_empty() => index(version, &self.areas.entries()),
            _ => Default::default(),
        };
        let short = if rows.is_empty() {
            room < bytes.len()
        } else {
            // what result there would be has bytes where there are two blocks
            room == 0 && self.areas.n > 1
        };
        rows.extend(hits(&[(9, short)]));
        if self.machine.is_some() {
            assert!(rows.iter().all(|row| [VERSION_BAD, 9].contains(row)));
        }
        let no = first(&rows);
        if no == 0 {
            let total = bytes.len();
            let bytes = hex(&bytes);
            self.line(format!("f {number} {room} 0 {total} {directory} {bytes}"));
        } else {
            self.line(format!("f {number} {room} {no} 0 0 x"));
        }
        if no == 8 {
            self.seen_broken.insert(broken.into_iter().collect());
        }
        rows.sort_unstable();
        self.seen.insert(('f', rows));
        no
    }

    /// Finishes by version 3 with the output one byte short and exactly full.
    fn finish_all(&mut self) {
        self.finish_all_as(V3);
    }

    fn finish_all_as(&mut self, version: Version) {
        let total = self.total(version);
        if total > 0 {
            assert_eq!(self.finish_as(version.number(), total - 1), 9);
        }
        assert_eq!(self.finish_as(version.number(), total), 0);
    }

    /// Finishes by numbers that aren't versions: some of them, or all.
    fn finish_as_none(&mut self, all: bool, rooms: &[usize]) {
        let chosen = |number: &u64| all || [0, 2, 5, u64::MAX].contains(number);
        for number in NO_VERSIONS.into_iter().filter(chosen) {
            for &room in rooms {
                assert_eq!(self.finish_as(number, room), VERSION_BAD);
            }
        }
    }

    /// Blocks by the rule, then one more block.
    fn many(&mut self, count: u32, more: Block, key: &[u8]) {
        let view = |n: u32| View {
            n: n.into(),
            room: STRIDE as u128 * (MOST + 1),
            key_room: 4 * (MOST + 1),
            taken: 4 * u128::from(n),
            last: n.checked_sub(1).map(by_rule),
        };
        for i in 0..count {
            let (block, key) = by_rule(i);
            assert!(view(i).add_rows(block, &key).is_empty());
        }
        let rows = view(count).add_rows(more, key);
        let no = first(&rows);
        self.seen.insert(('a', rows));
        let Block { start, end, ord } = more;
        self.line(format!("m {count} {start} {end} {ord} {} {no}", hex(key)));
    }

    /// Blocks by the rule, finished with the output exactly full and one byte short.
    fn large_index(&mut self, version: Version, count: u32) {
        let entries: Vec<Entry> = (0..count).map(by_rule).collect();
        let (bytes, directory) = index(version, &entries);
        let total = bytes.len();
        let rest = remainder(&bytes);
        let front = format!("h {} {count}", version.number());
        self.line(format!("{front} {total} 0 {total} {directory} {rest}"));
        self.line(format!("{front} {} 9 0 0 0", total - 1));
    }
}

pub fn list() -> String {
    let mut calls = Calls {
        text: String::new(),
        machine: None,
        areas: Areas {
            n: 0,
            blocks: Vec::new(),
            keys: Vec::new(),
        },
        seen: BTreeSet::new(),
        seen_broken: BTreeSet::new(),
    };
    for line in [
        "Calls of the builder and their answers, written by oracle/write-answers. A letter first, one line a call.",
        "Numbers are decimal, a byte string is x and its lower-case hex. A call's number is document 01's, from a plain model of its",
        "machine and table; an index is what the Rust's builder writes, a key is shortened by the Rust's find_shorter_str_in_between.",
        "n ROOM KEYROOM: a fresh builder, areas of ROOM numbers and KEYROOM bytes",
        "r N COUNT V1 .. VCOUNT KEYS: a builder with the count N over these two areas",
        "a START END ORD KEY NO: an add    k NEXTKEY NO: a shorten",
        "e N KEYS: the count now, and all keys joined",
        "f VERSION ROOM NO TOTAL DIRECTORY INDEX: a finish into ROOM bytes. For version 4 the Rust's STORE_BLOCK_LEN is 256; 30 where",
        "VERSION is neither 3 nor 4",
        "m COUNT START END ORD KEY NO: COUNT adds by the rule are taken, in areas of 5 x 65,537 numbers and 4 x 65,537 bytes; then one",
        "more add. The rule: s(i) is 65,536 x i + (40,503 x i mod 65,536); block i goes from s(i) to s(i + 1), its ordinal is",
        "1,000 x i + (617 x i mod 1,000), its key the 4 bytes of i, highest first",
        "h VERSION COUNT ROOM NO TOTAL DIRECTORY REMAINDER: COUNT adds by the rule, then a finish into ROOM bytes; the index as one",
        "number, its first byte the highest, has this remainder modulo 2^56 - 5",
    ] {
        calls.comment(line);
    }
    worked_case(&mut calls);
    keys(&mut calls);
    rooms(&mut calls);
    add_pairs(&mut calls);
    far(&mut calls);
    long_keys(&mut calls);
    counts(&mut calls);
    areas_that_do_not_fit(&mut calls);
    broken_records(&mut calls);
    random(&mut calls);
    calls.comment("the most blocks");
    let ((before, before_key), (after, after_key)) = (by_rule(65_535), by_rule(65_536));
    calls.many(65_536, after, &after_key);
    let repeated = block(after.start, after.end, before.ord);
    calls.many(65_536, repeated, &after_key);
    calls.many(65_535, before, &before_key);
    calls.comment("one group and more");
    for count in [127, 128, 129, 255, 256, 257, 511, 512, 513, 1000, 65_536] {
        for version in VERSIONS {
            calls.large_index(version, count);
        }
    }
    for (count, version) in [(0, 0), (1, 2), (129, 5), (257, u64::MAX)] {
        calls.line(format!("h {version} {count} 30000 {VERSION_BAD} 0 0 0"));
    }
    check_seen(&calls);
    calls.text
}

/// Every row, and every two rows that can hold together.
fn check_seen(calls: &Calls) {
    let seen = |letter: char, rows: &[u64]| {
        let mut rows: BTreeSet<u64> = rows.iter().copied().collect();
        // where the areas don't hold the blocks at hand, there is no room for one more
        if letter == 'a' && rows.contains(&1) {
            rows.insert(7);
        }
        let rows: Vec<u64> = rows.into_iter().collect();
        assert!(
            calls.seen.contains(&(letter, rows.clone())),
            "{letter} {rows:?}"
        );
    };
    for (letter, rows) in [
        ('a', &[1, 2, 3, 4, 5, 6, 7][..]),
        ('k', &[1, 2, 6]),
        ('f', &[VERSION_BAD, 1, 8, 9]),
    ] {
        seen(letter, &[]);
        for (i, &row) in rows.iter().enumerate() {
            seen(letter, &[row]);
            for &later in &rows[i + 1..] {
                seen(letter, &[row, later]);
            }
        }
    }
    for part in [0, 2, 3, 4, 5, 6] {
        assert!(calls.seen_broken.contains(&vec![part]), "8 by {part}");
    }
}

fn worked_case(calls: &mut Calls) {
    calls.comment("the case that document 01 works by hand: 85 bytes");
    calls.fresh(15, 3);
    for (block, key) in WORKED.into_iter().zip([b"\x62", b"\x64", b"\x66"]) {
        assert_eq!(calls.add(block, key), 0);
    }
    calls.state();
    assert_eq!(calls.total(V3), 85);
    calls.finish_all();
    calls.finish(100);
    calls.finish(0);
    calls.comment("the same by version 4, and by numbers that aren't versions");
    calls.finish_all_as(V4);
    calls.finish_as_none(true, &[85]);
    calls.finish_as_none(false, &[100, 84, 0]);
}

fn keys(calls: &mut Calls) {
    calls.comment("shortened keys");
    for (key, next) in [
        (&b"abcdef"[..], &b"abf"[..]),
        (b"ab", b"abc"),
        (b"\x61\xff\xff", b"\x62"),
        (b"\x61\xff\x01", b"\x62"),
        (b"a", b"b"),
        (b"", b"a"),
        (b"", b"\x00"),
        (b"\x61\xff\xff\x00\x07", b"\x62"),
        (b"\x61\xff\xff\xff\xfe", b"\x62\x00"),
        (b"\xff\xff\xff", b"\xff\xff\xff\x00"),
        (b"\xfe\x00\x00", b"\xff"),
    ] {
        calls.fresh(10, 12);
        assert_eq!(calls.add(block(0, 1, 0), key), 0);
        assert_eq!(calls.shorten(next), 0);
        calls.state();
        calls.shorten(key);
        assert_eq!(calls.add(block(1, 1, 1), next), 0);
        calls.state();
        calls.finish_all();
    }
    calls.comment("shortened again and again: ab before b gives ac, then ad");
    calls.fresh(10, 4);
    calls.add(block(0, 1, 0), b"ab");
    for _ in 0..3 {
        assert_eq!(calls.shorten(b"b"), 0);
        calls.state();
    }
    assert_eq!(calls.add(block(1, 2, 1), b"ac"), 6);
    assert_eq!(calls.add(block(1, 2, 1), b"ae"), 6);
    assert_eq!(calls.shorten(b"ae"), 6);
    assert_eq!(calls.add(block(1, 2, 1), b"af"), 0);
    calls.state();
    calls.finish_all();
}

fn rooms(calls: &mut Calls) {
    calls.comment("no block: a shorten changes nothing, a finish writes nothing");
    calls.fresh(0, 0);
    assert_eq!(calls.shorten(b""), 0);
    assert_eq!(calls.shorten(b"abc"), 0);
    calls.state();
    calls.finish(0);
    calls.finish(5);
    calls.finish_all_as(V4);
    calls.finish_as_none(false, &[0, 5]);
    assert_eq!(calls.add(block(0, 0, 0), b""), 7);
    calls.comment("one block");
    calls.fresh(5, 0);
    assert_eq!(calls.add(block(3, 3, 7), b"a"), 7);
    assert_eq!(calls.add(block(3, 3, 7), b""), 0);
    assert_eq!(calls.add(block(3, 3, 8), b"a"), 7);
    calls.state();
    calls.finish(0);
    calls.finish(9);
    calls.finish_all_as(V4);
    calls.finish_as_none(false, &[0, 9]);
    calls.comment("the first of two keys is empty; areas exactly full");
    calls.fresh(10, 1);
    assert_eq!(calls.add(block(LIMIT - 2, LIMIT - 1, 0), b""), 0);
    assert_eq!(
        calls.add(block(LIMIT - 1, LIMIT - 1, LIMIT - 1), b"\x00"),
        0
    );
    calls.state();
    calls.finish_all();
    calls.finish_all_as(V4);
    calls.comment("areas one short");
    calls.fresh(9, 100);
    assert_eq!(calls.add(block(0, 1, 0), b"a"), 0);
    assert_eq!(calls.add(block(1, 2, 1), b"b"), 7);
    calls.fresh(4, 100);
    assert_eq!(calls.add(block(0, 1, 0), b"a"), 7);
    calls.fresh(10, 5);
    assert_eq!(calls.add(block(0, 1, 0), b"abc"), 0);
    assert_eq!(calls.add(block(1, 2, 1), b"abd"), 7);
    assert_eq!(calls.add(block(1, 2, 1), b"bc"), 0);
    calls.state();
    calls.comment("a key has room because the one before was shortened");
    calls.fresh(10, 8);
    assert_eq!(calls.add(block(0, 1, 0), b"abcdef"), 0);
    assert_eq!(calls.add(block(1, 2, 1), b"abfg"), 7);
    assert_eq!(calls.shorten(b"abfg"), 0);
    calls.state();
    assert_eq!(calls.add(block(1, 2, 1), b"abfgh"), 7);
    assert_eq!(calls.add(block(1, 2, 1), b"abfg"), 0);
    calls.state();
    calls.finish_all();
}

fn add_pairs(calls: &mut Calls) {
    calls.comment("rows 3 to 7, alone and two at a time");
    // behind one block 10..20 from ordinal 5 on with key m, in areas with room for a key of two bytes
    calls.fresh(10, 3);
    assert_eq!(calls.add(block(21, 20, 5), b"m"), 3);
    assert_eq!(calls.add(block(10, LIMIT, 5), b"m"), 3);
    assert_eq!(calls.add(block(10, 20, LIMIT), b"m"), 3);
    assert_eq!(calls.add(block(10, u64::MAX, u64::MAX), b"mmmm"), 3);
    assert_eq!(calls.add(block(10, 20, 5), b"m"), 0);
    // each row's ways to be hit, and none
    let starts = [(20, 20), (20, 19), (19, 20), (21, 20), (20, LIMIT)];
    for (start, end) in starts {
        for ord in [6, 5, 4] {
            for key in [&b"n"[..], b"m", b"l", b"lll", b"nnn", b""] {
                let block = block(start, end, ord);
                let rows = calls.areas.view(1).add_rows(block, key);
                if (1..=2).contains(&rows.len()) || ord == 4 && key == b"lll" {
                    calls.add(block, key);
                }
            }
        }
    }
    for ord in [LIMIT - 1, LIMIT, u64::MAX] {
        calls.add(block(20, 20, ord), b"nnn");
    }
    assert_eq!(calls.shorten(b"m"), 6);
    assert_eq!(calls.shorten(b""), 6);
    calls.state();
    assert_eq!(calls.add(block(20, LIMIT - 1, LIMIT - 1), b"nn"), 0);
    calls.state();
    calls.finish_all();
}

fn far(calls: &mut Calls) {
    calls.comment(
        "ends and ordinals of 2^48 - 1, 2^48, 2^54 and 2^55 - 1; 2^55 and 2^64 - 1 are refused",
    );
    for far in FAR {
        calls.fresh(15, 3);
        for too_far in TOO_FAR {
            assert_eq!(calls.add(block(0, too_far, 0), b"a"), 3);
            assert_eq!(calls.add(block(0, far, too_far), b"a"), 3);
        }
        assert_eq!(calls.add(block(0, far, 0), b"a"), 0);
        for too_far in TOO_FAR {
            assert_eq!(calls.add(block(far, too_far, far), b"b"), 3);
            assert_eq!(calls.add(block(far, far, too_far), b"b"), 3);
        }
        assert_eq!(calls.add(block(far, far, far), b"b"), 0);
        calls.state();
        for version in VERSIONS {
            calls.finish_all_as(version);
        }
        calls.fresh(10, 2);
        assert_eq!(calls.add(block(far, far, far - 1), b"a"), 0);
        assert_eq!(calls.add(block(far, far, far), b"b"), 0);
        calls.finish_all();
    }
    calls.comment("a block from 0 to 2^55 - 1, a step of the ordinals as long: fields of 56 bits, in full groups and others");
    for (version, count) in [(V3, 9), (V4, 9), (V3, 128), (V3, 129), (V4, 129)] {
        let keys = short_keys(count);
        calls.fresh(STRIDE * count, 2 * count);
        for (&block, key) in widest(count).iter().zip(&keys) {
            assert_eq!(calls.add(block, key), 0);
        }
        calls.finish_all_as(version);
    }
}

fn long_keys(calls: &mut Calls) {
    calls.comment("keys of 1,024 and 1,025 bytes");
    let long = vec![b'm'; 1025];
    let full = &long[..1024];
    calls.fresh(10, 1030);
    assert_eq!(calls.add(block(0, 1, 0), &long), 2);
    assert_eq!(calls.shorten(&long), 2);
    assert_eq!(calls.add(block(0, 1, 0), full), 0);
    calls.state();
    // a next key as long as may be, above it by its last byte alone: nothing is left to raise
    assert_eq!(calls.shorten(&[&full[1..], b"n"].concat()), 0);
    // a longer one that isn't above it
    assert_eq!(calls.shorten(&[&b"l"[..], full].concat()), 2);
    assert_eq!(calls.shorten(b"n"), 0);
    calls.state();
    let over = vec![b'z'; 1025];
    let below = vec![b'a'; 1025];
    // room is left for the key, or not
    calls.fresh(10, 1028);
    assert_eq!(calls.add(block(0, 1, 0), b"mmm"), 0);
    assert_eq!(calls.add(block(1, 0, 1), &over), 2);
    assert_eq!(calls.add(block(2, 2, 1), &over), 2);
    assert_eq!(calls.add(block(1, 2, 0), &over), 2);
    assert_eq!(calls.add(block(1, 2, 1), &below), 2);
    assert_eq!(calls.shorten(&over[1..]), 0);
    calls.state();
    calls.fresh(5, 1028);
    assert_eq!(calls.add(block(0, 1, 0), b"m"), 0);
    assert_eq!(calls.add(block(1, 2, 1), &over), 2);
    assert_eq!(calls.add(block(9, 2, 0), &below), 2);
}

fn counts(calls: &mut Calls) {
    let mut rng = Numbers::from_seed(61);
    calls.comment("129 blocks: two groups in version 3, one in version 4");
    count(calls, &mut rng, 129);
    calls.comment("257 blocks: three groups in version 3, two in version 4");
    count(calls, &mut rng, 257);
}

fn count(calls: &mut Calls, rng: &mut Numbers, count: u16) {
    calls.fresh(STRIDE * usize::from(count), 2 * usize::from(count) + 2);
    let (mut at, mut ord) = (1000, 0);
    for i in 0..count {
        let end = at + rng.below(300);
        let mut key = vec![b'a' + (i / 26) as u8, b'a' + (i % 26) as u8];
        if i % 3 == 0 {
            key.push(b'!');
        }
        if i > 0 && i % 2 == 0 {
            calls.shorten(&key);
        }
        assert_eq!(calls.add(block(at, end, ord), &key[..2]), 0);
        at = end;
        ord += rng.within(1, 40);
    }
    assert_eq!(calls.add(block(at, at, ord), b"z"), 7);
    calls.state();
    for version in VERSIONS {
        calls.finish_all_as(version);
    }
}

fn areas_that_do_not_fit(calls: &mut Calls) {
    calls.comment("row 1");
    let one = [10, 20, 5, 0, 1];
    let fits = block(20, 21, 6);
    let fifth = u64::MAX / 5 + 1;
    for (n, blocks, keys) in [
        (1, &[][..], &b""[..]),
        (1, &one[..4], b"m"),
        (2, &one, b"m"),
        (65_536, &one, b"m"),
        (65_537, &one, b"m"),
        (fifth, &one, b"m"),
        (fifth + 1, &one, b"m"),
        (u64::MAX, &one, b"m"),
        (1 << 63, &[], b""),
        (1, &one, b""),
        (1, &[10, 20, 5, 1, 1], b"m"),
        (1, &[10, 20, 5, 2, 0], b"m"),
        (1, &[10, 20, 5, u64::MAX, 1], b"m"),
        (1, &[10, 20, 5, 1, u64::MAX], b"m"),
        (1, &[10, 20, 5, u64::MAX, u64::MAX], b"m"),
    ] {
        calls.raw(n, blocks, keys);
        assert_eq!(calls.add(fits, b"n"), 1);
        assert_eq!(calls.shorten(b"n"), 1);
        assert_eq!(calls.finish(100), 1);
        assert_eq!(calls.finish(0), 1);
        assert_eq!(calls.finish_as(V4.number(), 100), 1);
        assert_eq!(calls.finish_as(5, 100), VERSION_BAD);
    }
    calls.comment("row 1 beside each other row: a last key of two bytes in a key area of one");
    calls.raw(1, &[10, 20, 5, 0, 2, 0, 0, 0, 0, 0], b"m");
    let long = vec![b'n'; 1025];
    for (block, key) in [
        (block(20, 19, 6), &b"n"[..]),
        (block(21, 21, 6), b"n"),
        (block(20, 21, 5), b"n"),
        (fits, b"l"),
        (fits, &long),
    ] {
        assert_eq!(calls.add(block, key), 1);
    }
    assert_eq!(calls.shorten(b"l"), 1);
    assert_eq!(calls.shorten(&long), 1);
    calls.comment("row 1 beside row 8, and beside neither");
    calls.raw(2, &[0, 1, 0, 0, 2, 1, 2, 1, 2, 3], b"mmmm");
    assert_eq!(calls.finish(0), 1);
    assert_eq!(calls.finish(100), 1);
    calls.raw(2, &[0, 1, 0, 0, 2, 1, 2, 1, 1, 3], b"abcd");
    assert_eq!(calls.finish(100), 8);
    calls.finish_as_none(false, &[100]);
    calls.raw(2, &[0, 1, 0, 0, 2, 1, 2, 1, 3, 2], b"abcd");
    assert_eq!(calls.finish(100), 1);
    calls.raw(2, &[0, 1, 0, 0, 2, 1, 2, 1, 2, 3], b"abcd");
    assert_eq!(calls.finish(0), 1);
    assert_eq!(calls.finish(100), 1);
    calls.finish_as_none(false, &[0, 100]);
}

fn broken_records(calls: &mut Calls) {
    calls.comment("row 8: three blocks that are right, then each number changed");
    let right = [10, 20, 5, 0, 2, 20, 30, 6, 2, 1, 30, 30, 9, 3, 2];
    let keys = b"abbbc\xff";
    calls.raw(3, &right, keys);
    calls.finish_all();
    calls.raw(2, &right, keys);
    calls.finish_all();
    for (place, values) in [
        (0, &[9, 21, u64::MAX][..]),
        (1, &[9, 19, LIMIT]),
        (2, &[6, LIMIT, u64::MAX]),
        (3, &[1, 2, u64::MAX]),
        (4, &[0, 1, 3, u64::MAX - 1, u64::MAX]),
        (5, &[19, 21, 31]),
        (6, &[19, 29, 31, LIMIT]),
        (7, &[4, 5, 9, LIMIT]),
        (8, &[0, 1, 3, 1 << 63]),
        (9, &[0, 2, 3]),
        (10, &[29, 31]),
        (11, &[29, LIMIT - 1, LIMIT, u64::MAX]),
        (12, &[6, 5, LIMIT - 1, LIMIT, u64::MAX]),
        (13, &[0, 2, 4]),
        (14, &[0, 1, 3]),
    ] {
        for &value in values {
            let mut blocks = right;
            blocks[place] = value;
            calls.raw(3, &blocks, keys);
            let version = VERSIONS[place % 2];
            calls.finish_as(version.number(), 90);
        }
    }
    calls.comment("row 8: a key that isn't above the one before");
    for keys in [
        &b"abaabc"[..],
        b"ababbb",
        b"abbbab",
        b"abbb\x62\x00",
        b"abbba\xff",
        b"bcbbcc",
        b"\xff\xffbbcc",
    ] {
        calls.raw(3, &right, keys);
        calls.finish(90);
    }
    calls.raw(
        3,
        &[10, 20, 5, 0, 2, 20, 30, 6, 2, 2, 30, 30, 9, 4, 2],
        b"abababc",
    );
    calls.finish(90);
    calls.comment("row 8 with one block");
    for blocks in [
        [0, 1, 0, 0, 1],
        [0, 1, 0, 1, 0],
        [1, 0, 0, 0, 1],
        [0, LIMIT, 0, 0, 1],
        [0, 1, LIMIT, 0, 1],
    ] {
        calls.raw(1, &blocks, b"a");
        calls.finish(0);
        calls.finish(9);
        // an add and a shorten look at the last record's key, its end and its ordinal alone
        calls.add(block(1, 2, 1), b"");
        calls.shorten(b"b");
    }
    calls.comment(
        "row 8 by several rows at once, and a key area that is too short for a key in front",
    );
    calls.raw(2, &[0, 1, 0, 0, 1024, 1, 2, 1, 5, 1], b"0123456789");
    calls.finish(0);
    calls.finish(90);
    calls.raw(2, &[5, 1, LIMIT, 1, 1, 7, 3, 2, 0, 1], b"ba");
    calls.finish(0);
    calls.finish(90);
    calls.raw(2, &[0, 1, 0, 0, u64::MAX, 1, 2, 1, u64::MAX, 1], b"ab");
    calls.finish(90);
    calls.raw(2, &[0, 1, 0, 0, u64::MAX, 1, 2, 1, 0, 1], b"ab");
    calls.finish(90);
    calls.raw(2, &[0, 1, 0, 0, 1, 1, 2, 1, 1, 1025], &vec![b'b'; 1026]);
    assert_eq!(calls.finish(3000), 8);
    calls.comment("a builder over broken areas takes what its last record allows");
    calls.raw(
        1,
        &[7, 20, 5, 1, 2, 0, 0, 0, 0, 0, 0],
        b"\x00ab\xee\xee\xee",
    );
    assert_eq!(calls.shorten(b"b"), 0);
    assert_eq!(calls.add(block(20, 21, 6), b"ac"), 6);
    assert_eq!(calls.add(block(20, 21, 6), b"bcde"), 7);
    assert_eq!(calls.add(block(20, 21, 6), b"bcd"), 0);
    assert_eq!(calls.finish(90), 8);
    calls.raw(0, &[7, 20, 5, 1, 2], b"ab");
    assert_eq!(calls.finish(0), 0);
    assert_eq!(calls.add(block(3, 4, 0), b"a"), 0);
    calls.finish(0);
}

fn random(calls: &mut Calls) {
    calls.comment("by chance");
    let mut rng = Numbers::from_seed(62);
    for round in 0..13 {
        let count = rng.within(1, 9);
        calls.fresh(
            STRIDE * count as usize + rng.below(3) as usize,
            8 * count as usize,
        );
        let (mut at, mut ord) = (rng.bits(20), rng.bits(6));
        let mut key = Vec::new();
        for i in 0..count + 1 {
            let front = rng.below(key.len() as u64 + 1) as usize;
            let mut next = key[..front].to_vec();
            let length = rng.within(1, 6);
            next.extend((0..length).map(|_| rng.pick(&[0x00, 0x61, 0x62, 0xfe, 0xff])));
            if i > 0 && rng.one_in(2) {
                calls.shorten(&next);
            }
            let bits = rng.pick(&[3, 10, 30]);
            let end = at + rng.bits(bits);
            let start = if rng.one_in(12) { at + 1 } else { at };
            if calls.add(block(start, end, ord), &next) == 0 {
                at = end;
                let bits = rng.pick(&[1, 4, 20]);
                ord += 1 + rng.bits(bits);
                key = next;
            } else if rng.one_in(4) {
                ord += 1;
            }
        }
        calls.state();
        let version = VERSIONS[round % 2];
        let room = calls.total(version) + rng.below(3) as usize;
        calls.finish_as(version.number(), room);
    }
}
