//! The list of indexes: files that are opened, and lookups in them.

use std::collections::BTreeSet;
use std::fmt::Write;

use model::around::{self, beside};
use model::blocks::{self, FAR, far_first, most_bits, touching, widest as widest_blocks};
use model::faults::others;
use model::files::{self, Fault, File, rising, short_keys, smallest, two_group_file, worked_file};
use model::foreign::{self, Group, WIDES};
use model::numbers::Numbers;
use model::opening::{self, Hit, Opened, Opening, TERMS_BAD};
use model::rust::{Block, Index};
use model::settings::LIMIT;
use model::version::{V3, V4, VERSION_BAD, VERSIONS, Version};

use crate::other_versions;
use crate::refused;
use crate::text::{hex, numbers};

/// The most bytes that a change replaces.
const LONGEST_CHANGE: usize = 128;

/// The lines so far, and the file that the next lookup is in.
pub struct Indexes {
    text: String,
    pub bytes: Vec<u8>,
    /// of the version that it was last opened with
    pub opening: Opening,
    /// the number of terms that it was last opened with
    pub terms: u64,
    /// the Rust's, if the file opens
    rust: Option<Index>,
    /// how many files were opened: their numbers of terms take turns
    opened: usize,
    seen: BTreeSet<Vec<Hit>>,
    /// the numbers of openings that would get 28 too
    seen_with_28: BTreeSet<u64>,
    /// the numbers that openings with numbers that aren't versions would get else
    seen_with_30: BTreeSet<u64>,
}

impl Indexes {
    pub fn comment(&mut self, line: &str) {
        writeln!(self.text, "# {line}").unwrap();
    }

    pub fn line(&mut self, line: String) {
        writeln!(self.text, "{line}").unwrap();
    }

    /// Opens a file of version 3, with some number of terms that is enough. Returns the number.
    pub fn open(&mut self, bytes: &[u8]) -> u64 {
        self.open_as(V3, bytes)
    }

    /// Of any version.
    pub fn open_as(&mut self, version: Version, bytes: &[u8]) -> u64 {
        let line = format!("f {} {}", hex(bytes), version.number());
        self.open_by(version, bytes, line)
    }

    /// The file of so many blocks by the rule of the list's comment.
    pub fn open_by_rule(&mut self, version: Version, count: u64) -> u64 {
        let bytes = files::by_rule(version, count).bytes();
        let line = format!("g {} {count}", version.number());
        self.open_by(version, &bytes, line)
    }

    fn open_by(&mut self, version: Version, bytes: &[u8], line: String) -> u64 {
        self.bytes = bytes.to_vec();
        self.read_as(version);
        self.terms = self.turn(&self.opening);
        self.opened += 1;
        self.answer_own(line)
    }

    fn read_as(&mut self, version: Version) {
        self.opening = opening::open(version, &self.bytes);
        self.rust = rust(&self.bytes, &self.opening);
    }

    /// Opens the current file again, with so many terms. Returns the number.
    fn reopen(&mut self, terms: u64) -> u64 {
        self.reopen_as(self.opening.version.number(), terms)
    }

    /// With any number for its version, of which lookups then are.
    pub fn reopen_as(&mut self, version: u64, terms: u64) -> u64 {
        let line = format!("t {version}");
        self.terms = terms;
        let Some(version) = Version::of(version) else {
            self.seen_with_30.insert(self.opening.number(terms));
            let zeros = numbers(&Opened::default().numbers());
            self.line(format!("{line} {terms} {VERSION_BAD} {}", zeros.trim_end()));
            return VERSION_BAD;
        };
        if version != self.opening.version {
            self.read_as(version);
        }
        self.answer_own(line)
    }

    /// A number of terms: enough for a file that opens, any for one that is refused anyway.
    fn turn(&self, opening: &Opening) -> u64 {
        let all = around::terms(opening.last_ord().unwrap_or(5));
        match opening.no() {
            0 => all[2 + self.opened % 4],
            _ => all[self.opened % 6],
        }
    }

    /// Of the current file, with its number of terms.
    fn answer_own(&mut self, line: String) -> u64 {
        let none = Opening::new(self.opening.version);
        let opening = std::mem::replace(&mut self.opening, none);
        let no = self.answer(line, &opening, self.terms);
        self.opening = opening;
        no
    }

    fn answer(&mut self, line: String, opening: &Opening, terms: u64) -> u64 {
        self.seen.insert(opening.hits.clone());
        let no = opening.number(terms);
        if opening.hits_with(terms).len() > opening.hits.len() {
            self.seen_with_28.insert(no);
        }
        let record = numbers(&opening.answer(terms).numbers());
        self.line(format!("{line} {terms} {no} {}", record.trim_end()));
        no
    }

    /// Opens the current file with some bytes changed, which is as long; the current one stays.
    pub fn change(&mut self, bytes: &[u8]) -> u64 {
        assert_eq!(bytes.len(), self.bytes.len());
        let differs = |i: &usize| bytes[*i] != self.bytes[*i];
        let at = (0..bytes.len()).find(differs).expect("a change");
        let last = (0..bytes.len()).rfind(differs).expect("a change");
        assert!(last + 1 - at <= LONGEST_CHANGE);
        let version = self.opening.version;
        let line = format!("c {} {at} {}", version.number(), hex(&bytes[at..=last]));
        let opening = opening::open(version, bytes);
        rust(bytes, &opening);
        let terms = self.turn(&opening);
        self.opened += 1;
        self.answer(line, &opening, terms)
    }

    pub fn id(&mut self, id: u64) {
        let found = self.rust.as_ref().unwrap().get_block(id);
        assert_eq!(found, self.opening.by_id(id));
        match found {
            Some(block) => self.line(format!("i {id} 0 {}", address(block))),
            None => self.line(format!("i {id} 17 0 0 0")),
        }
    }

    pub fn ord(&mut self, ord: u64) {
        match self.opening.by_ord(self.terms, ord) {
            // the Rust panics below the first, and knows of no number of terms
            Err(no) => self.line(format!("o {ord} {no} 0 0 0 0")),
            Ok(found) => {
                let (id, block) = self.rust.as_ref().unwrap().get_and_locate_with_ord(ord);
                assert_eq!((id, block), found);
                self.line(format!("o {ord} 0 {id} {}", address(block)));
            }
        }
    }

    /// By key: the id, and the id with the address.
    pub fn key(&mut self, key: &[u8]) {
        self.located(key);
        let rust = self.rust.as_ref().unwrap();
        let text = hex(key);
        match (rust.locate_with_key(key), rust.get_block_with_key(key)) {
            (Some(id), Some(block)) => self.line(format!("a {text} 0 {id} {}", address(block))),
            _ => self.line(format!("a {text} 19 0 0 0 0")),
        }
    }

    /// By key: the id alone.
    fn located(&mut self, key: &[u8]) {
        let found = self.rust.as_ref().unwrap().locate_with_key(key);
        assert_eq!(found, self.opening.by_key(key));
        match found {
            Some(id) => self.line(format!("k {} 0 {id}", hex(key))),
            None => self.line(format!("k {} 19 0", hex(key))),
        }
    }

    pub fn separator(&mut self, id: u64) {
        match self.opening.place(id) {
            Some((offset, length)) => self.line(format!("p {id} 1 {offset} {length}")),
            None => self.line(format!("p {id} 0 0 0")),
        }
    }

    /// Sets a record that may not belong to the current file.
    pub fn record(&mut self, record: Opened) {
        let text = numbers(&record.numbers());
        self.line(format!("m {}", text.trim_end()));
    }

    /// Lookups whose answers are left free.
    pub fn free(&mut self, record: Opened) {
        self.record(record);
        let last = record.n.wrapping_sub(1);
        for line in [
            "I 0".to_string(),
            format!("I {last}"),
            "O 5".to_string(),
            format!("O {}", record.terms.saturating_sub(1)),
            format!("O {}", record.terms),
            "K x6400".to_string(),
            "A x62".to_string(),
            "P 0".to_string(),
            format!("P {last}"),
        ] {
            self.line(line);
        }
    }

    /// Lookups around every boundary. Of a long index, those at the ends of groups and `some` others.
    pub fn look_up(&mut self, rng: &mut Numbers, some: usize) {
        assert_eq!(self.opening.no(), 0);
        let n = self.opening.record.n;
        let version = self.opening.version;
        let chosen = around::ids(version, rng, n, some);
        let mut ids = chosen.clone();
        ids.extend([n, n.next_multiple_of(version.group_len() as u64), u64::MAX]);
        for id in ids {
            self.id(id);
        }
        for ord in around::ords(&self.opening.blocks, &chosen, self.terms) {
            self.ord(ord);
        }
        for (i, key) in around::keys(&self.opening.keys, &chosen).iter().enumerate() {
            if i % 2 == 0 {
                self.key(key);
            } else {
                self.located(key);
            }
        }
        for id in chosen.into_iter().chain([n, u64::MAX]) {
            self.separator(id);
        }
    }
}

fn address(block: Block) -> String {
    let Block { start, end, ord } = block;
    format!("{start} {end} {ord}")
}

/// The Rust's index of a file that opens; it must hold the model's blocks and keys.
pub fn rust(bytes: &[u8], opening: &Opening) -> Option<Index> {
    if opening.no() != 0 {
        return None;
    }
    let index = Index::open(opening.version, bytes);
    assert_eq!(opening.blocks.len(), opening.keys.len());
    for id in 0..=opening.record.n {
        assert_eq!(index.get_block(id), opening.by_id(id));
    }
    let mut at = opening.place(0).unwrap().0 as usize;
    for (id, key) in opening.keys.iter().enumerate() {
        assert_eq!(index.locate_with_key(key), Some(id as u64));
        assert_eq!(&bytes[at..at + key.len()], key);
        at += key.len();
    }
    let last = opening.place(opening.record.n - 1).unwrap();
    assert_eq!(last.0 + last.1, at as u64);
    Some(index)
}

pub fn list() -> String {
    let mut indexes = Indexes {
        text: String::new(),
        bytes: Vec::new(),
        opening: Opening::new(V3),
        terms: 0,
        rust: None,
        opened: 0,
        seen: BTreeSet::new(),
        seen_with_28: BTreeSet::new(),
        seen_with_30: BTreeSet::new(),
    };
    for line in [
        "Indexes that are opened and lookups in them, written by oracle/write-answers. Numbers are decimal, a byte string is x and",
        "its lower-case hex. A call's number is document 01's or 02's; after a refusal all else is 0.",
        "f FILE VERSION TERMS NO N DIRECTORY LEN RECORDS LEN ADDRESSES LEN TERMS VERSION: opening a file, which the next lines are",
        "about, with this version and so many terms: the number, n, the places of the directory, the group records and the address",
        "bytes, and the number of terms and the version again. All from a plain model of documents 01 and 02; 30 where VERSION is neither",
        "3 nor 4.",
        "c VERSION AT BYTES TERMS NO N ..: opening the file with these bytes in place of its own from AT on; the file itself stays. From",
        "the model.",
        "g VERSION COUNT TERMS NO N ..: as f; the file by the rule: COUNT keys, key i the 3 bytes of i, highest first; groups of offset 0,",
        "first start and first ordinal the first block's id, slopes 1, widths 1; for version 3 32 address bytes FF, for version 4 64. So",
        "block i is i..i + 1 from ordinal i on. From the model.",
        "t VERSION TERMS NO N ..: opening the same file again, with this version and so many terms; the next lines are about this opening.",
        "From the model.",
        "Lookups in the file as it was opened. Blocks and ids are those of the Rust (tantivy-sstable 0.27.0), its FST a stand-in, and for",
        "version 4 its STORE_BLOCK_LEN 256:",
        "i ID NO START END ORD: by id, BlockAddrStore::get; 17 where that finds nothing",
        "o ORDINAL NO ID START END ORD: by ordinal, binary_search_ord; 18 below the first, where the Rust panics, and 29 from the number",
        "of terms on, where it gives the last block, from the model",
        "k KEY NO ID: by key, locate_with_key of SSTableIndexV3; 19 where that finds nothing",
        "a KEY NO ID START END ORD: an address by key, get_block_with_key of SSTableIndexV3; 19 likewise",
        "p ID FOUND OFFSET LEN: a separator by id, its place in the file; FOUND is 0 or 1. From the model.",
        "m N DIRECTORY LEN RECORDS LEN ADDRESSES LEN TERMS VERSION: sets the record for the next lines, which may not belong to the file;",
        "one of another version than 3 and 4 gets 20 in each lookup, and no separator",
        "I ID, O ORDINAL, K KEY, A KEY, P ID: a lookup whose answer is left free. It has number 0 with an id below n and",
        "start <= end < 2^55, or the call's own row, or 20; a separator is some part of the file. By ordinal 0 comes up below TERMS",
        "alone; 18 below F alone, the number in the 8 bytes from RECORDS + 16 on; 29 alone where neither F nor TERMS is above.",
    ] {
        indexes.comment(line);
    }
    worked_case(&mut indexes);
    written(&mut indexes);
    far(&mut indexes);
    refused::files(&mut indexes);
    foreign_files(&mut indexes);
    by_rule(&mut indexes);
    other_terms(&mut indexes);
    other_versions::openings(&mut indexes);
    read_at_the_limit(&mut indexes);
    left_free(&mut indexes);
    other_versions::records(&mut indexes);
    check_seen(&indexes);
    indexes.text
}

/// Every part of a row that can be hit alone, and every two rows that can be hit together.
fn check_seen(indexes: &Indexes) {
    let with_28 = (10..=16).chain([TERMS_BAD]).collect();
    assert_eq!(indexes.seen_with_28, with_28);
    let with_30 = [0].into_iter().chain(10..=16).chain([TERMS_BAD]).collect();
    assert_eq!(indexes.seen_with_30, with_30);
    for hit in [
        (10, "under 8 bytes"),
        (10, "directory length"),
        (11, "directory length"),
        (12, "no count"),
        (12, "count"),
        (12, "offset"),
        (12, "long key"),
        (12, "length"),
        (13, "keys"),
        (14, "records' length"),
        (14, "beyond the store"),
        (15, "range width"),
        (15, "ordinal width"),
        (15, "block count"),
        (15, "fields"),
        (16, "first ordinal"),
        (16, "range value"),
        (16, "ordinal value"),
        (16, "end below start"),
        (16, "join"),
        (16, "ordinals"),
    ] {
        assert!(indexes.seen.contains(&vec![hit]), "{hit:?} alone");
    }
    // behind a directory length beyond the file there is no store to look at
    let mut rows: Vec<(u64, u64)> = vec![(11, 10), (10, 12), (10, 13)];
    for low in 12..16 {
        rows.extend((low + 1..=16).map(|high| (low, high)));
    }
    for (first, later) in rows {
        let both = |hits: &Vec<Hit>| {
            hits.first().is_some_and(|hit| hit.0 == first)
                && hits.iter().any(|hit| hit.0 == later)
                && hits.iter().all(|hit| hit.0 == first || hit.0 == later)
        };
        assert!(indexes.seen.iter().any(both), "{first} before {later}");
    }
}

fn worked_case(indexes: &mut Indexes) {
    indexes.comment("the case that documents 01 and 02 work by hand: 85 bytes, 12 terms");
    let bytes = worked_file().bytes();
    assert_eq!(bytes.len(), 85);
    assert_eq!(indexes.open(&bytes), 0);
    for version in VERSIONS {
        assert_eq!(indexes.reopen_as(version.number(), 12), 0);
        worked_lookups(indexes);
    }
}

fn worked_lookups(indexes: &mut Indexes) {
    for id in [0, 1, 2, 3, 4, 128, 256, 1 << 32, u64::MAX] {
        indexes.id(id);
        indexes.separator(id);
    }
    for ord in [
        0,
        1,
        3,
        4,
        5,
        8,
        9,
        10,
        11,
        12,
        13,
        1_000_000,
        LIMIT,
        u64::MAX,
    ] {
        indexes.ord(ord);
    }
    for key in [
        "", "\0", "a", "b", "b\0", "c", "d", "dd", "e", "f", "f\0", "g", "zzzzzzzz",
    ] {
        indexes.key(key.as_bytes());
    }
    for key in [&b"a\xff\xff"[..], b"c\xff", b"e\xff", b"\xff"] {
        indexes.key(key);
    }
}

fn written(indexes: &mut Indexes) {
    indexes.comment(
        "two blocks, by the Rust's SSTableIndexBuilder; empty blocks, the greatest numbers",
    );
    let mut rng = Numbers::from_seed(71);
    let two = |one: &[u8], other: &[u8]| vec![one.to_vec(), other.to_vec()];
    let top = LIMIT - 1;
    for (blocks, keys) in [
        (touching(0, &[1, 1], 0, &[1]), two(b"", b"\x00")),
        (touching(0, &[0, 0], 0, &[1]), two(b"\xff", b"\xff\xff")),
        (
            touching(top, &[0, 0], top - 1, &[1]),
            two(b"a\xff\xff", b"b"),
        ),
        (touching(0, &[top, 0], 0, &[top]), two(b"a", b"a\x00")),
        (
            touching(1 << 40, &[0, LIMIT / 2], 7, &[LIMIT / 2]),
            two(b"\x00", b"\x00\x00\x00"),
        ),
    ] {
        assert_eq!(indexes.open(&File::written(V3, &blocks, &keys).bytes()), 0);
        indexes.look_up(&mut rng, 0);
    }
    indexes.comment("keys of 1,024 bytes, and keys with runs of FF");
    let long = |byte: u8, length: usize, last: u8| [vec![byte; length], vec![last]].concat();
    let keys = [
        vec![],
        long(0x61, 1023, 0x61),
        long(0x61, 1023, 0x62),
        long(0xff, 1023, 0xff),
    ];
    let blocks = touching(5, &[3, 0, 1000, 7], 2, &[1, 5, 900]);
    assert_eq!(indexes.open(&File::written(V3, &blocks, &keys).bytes()), 0);
    for id in 0..5 {
        indexes.id(id);
        indexes.separator(id);
    }
    for key in [
        vec![],
        vec![0x61],
        long(0x61, 1022, 0x61),
        long(0x61, 1023, 0x61),
        long(0x61, 1024, 0x00),
        long(0x61, 1023, 0x62),
        long(0x61, 1023, 0x63),
        long(0xff, 1022, 0xff),
        long(0xff, 1023, 0xff),
        long(0xff, 1024, 0x00),
        long(0xff, 2000, 0xff),
    ] {
        indexes.located(&key);
    }
    indexes.key(b"\xff\xff");
    let runs = [
        &b"\xff"[..],
        b"\xff\xfe\xff",
        b"\xff\xff",
        b"\xff\xff\x00",
        b"\xff\xff\xff\xfe",
        b"\xff\xff\xff\xff",
    ];
    let keys: Vec<Vec<u8>> = runs.iter().map(|key| key.to_vec()).collect();
    let blocks = touching(0, &[9, 9, 9, 9, 9, 9], 10, &[10; 5]);
    assert_eq!(indexes.open(&File::written(V3, &blocks, &keys).bytes()), 0);
    indexes.look_up(&mut rng, 0);
    indexes.comment("some blocks");
    for count in 4..=8 {
        let most = most_bits(count);
        let (length_bits, step_bits) = (rng.within(2, most), rng.within(0, most));
        let blocks = blocks::random(&mut rng, count, length_bits, step_bits, 20, 20);
        let keys = rising(&mut rng, count, 5);
        assert_eq!(indexes.open(&File::written(V3, &blocks, &keys).bytes()), 0);
        indexes.look_up(&mut rng, 0);
    }
    indexes.comment(
        "up to a group's 128 or 256 blocks, one group and more; opened with the other version too",
    );
    for (version, count, length_bits, step_bits) in [
        (V3, 127, 3, 0),
        (V3, 128, 20, 9),
        (V3, 129, 4, 2),
        (V3, 256, 2, 1),
        (V3, 257, 9, 5),
        (V4, 2, 9, 3),
        (V4, 3, 30, 20),
        (V4, 128, 4, 4),
        (V4, 129, 8, 0),
        (V4, 255, 3, 2),
        (V4, 256, 20, 9),
        (V4, 257, 9, 5),
        (V4, 513, 2, 1),
    ] {
        let blocks = blocks::random(&mut rng, count, length_bits, step_bits, 30, 20);
        let keys = rising(&mut rng, count, 4);
        let bytes = File::written(version, &blocks, &keys).bytes();
        assert_eq!(indexes.open_as(version, &bytes), 0);
        indexes.look_up(&mut rng, 3);
        let no = if count <= 128 { 0 } else { 14 };
        let other = version.other().number();
        assert_eq!(indexes.reopen_as(other, indexes.terms), no);
    }
}

/// Far numbers, as the Rust's builder writes them.
fn far(indexes: &mut Indexes) {
    let mut rng = Numbers::from_seed(76);
    let keys = [b"a".to_vec(), b"b".to_vec()];
    indexes.comment(
        "ends and ordinals of 2^48 - 1, 2^48, 2^54 and 2^55 - 1: read in fields, and first ones",
    );
    for (version, far) in VERSIONS.into_iter().cycle().zip(FAR) {
        for blocks in [
            touching(0, &[far, 0], 0, &[far]),
            touching(far, &[0, 0], far - 1, &[1]),
        ] {
            let file = File::written(version, &blocks, &keys);
            assert_eq!(indexes.open_as(version, &file.bytes()), 0);
            indexes.look_up(&mut rng, 0);
        }
    }
    indexes.comment("a block from 0 to 2^55 - 1, a step of the ordinals as long: fields of 56 bits, in full groups and others");
    for (version, count) in [(V3, 9), (V4, 17), (V3, 129)] {
        let file = File::written(version, &widest_blocks(count), &short_keys(count));
        assert_eq!(indexes.open_as(version, &file.bytes()), 0);
        indexes.look_up(&mut rng, 2);
    }
    indexes.comment(
        "the same and ordinals that rise by 1: the fields of 56 bits begin at each bit of a byte",
    );
    for (version, count) in [(V3, 9), (V4, 16), (V4, 257)] {
        let file = File::written(version, &far_first(count), &short_keys(count));
        assert_eq!(indexes.open_as(version, &file.bytes()), 0);
        indexes.look_up(&mut rng, 0);
    }
}

/// Foreign files that keep the rules.
fn foreign_files(indexes: &mut Indexes) {
    let mut rng = Numbers::from_seed(73);
    indexes.comment("foreign files of one group: slopes that aren't the best, widths up to 56, fields of 0, bytes before and behind the");
    indexes.comment("fields, padding bits that aren't 0");
    for round in 0..12 {
        let count = rng.within(2, 6);
        let most = most_bits(count);
        let (length_bits, step_bits) = (rng.within(2, most), rng.within(0, most));
        let blocks = blocks::random(&mut rng, count, length_bits, step_bits, 20, 40);
        let keys = rising(&mut rng, count, 4);
        let offset = rng.pick(&[0, 0, 1, 3]);
        let group = foreign::group(&mut rng, &blocks, offset, round % 3 == 0);
        let behind = rng.pick(&[0, 0, 1, 9]);
        let junk = rng.bytes((offset + group.length()) as u64 + behind);
        let version = VERSIONS[round / 3 % 2];
        open_foreign(indexes, version, &keys, &[group], junk);
        indexes.look_up(&mut rng, 0);
    }
    indexes.comment("foreign files of fields of 56 bits from each bit of a byte on, the last ones at the end of the address bytes");
    for (wide, counts) in WIDES.into_iter().zip([[9, 16], [16, 9]]) {
        for (version, count) in VERSIONS.into_iter().zip(counts) {
            let blocks = wide.blocks(&mut rng, count);
            let group = wide.group(&blocks, 0);
            let junk = rng.bytes(group.length() as u64);
            open_foreign(indexes, version, &short_keys(count), &[group], junk);
            indexes.look_up(&mut rng, 0);
        }
    }
    for version in VERSIONS {
        more_groups(indexes, &mut rng, version);
        widest(indexes, &mut rng, version);
    }
}

fn more_groups(indexes: &mut Indexes, rng: &mut Numbers, version: Version) {
    indexes.comment("foreign files of more groups: gaps, another order, one set of fields for two groups, groups that overlap");
    let group = version.group_len();
    let blocks = blocks::random(rng, group as u64 + 3, 5, 2, 20, 20);
    let keys = rising(rng, group as u64 + 3, 4);
    let second = foreign::near(rng, &blocks[group..], 2);
    let first = foreign::near(rng, &blocks[..group], 7 + second.length());
    let junk = rng.bytes((first.offset + first.length() + 2) as u64);
    open_foreign(indexes, version, &keys, &[first, second], junk);
    indexes.look_up(rng, 2);
    let lengths: Vec<u64> = (0..group + 3).map(|i| (i % group % 5) as u64).collect();
    let blocks = touching(70, &lengths, 5, &vec![1; group + 2]);
    let first = foreign::near(rng, &blocks[..group], 1);
    let shared = Group {
        blocks: &blocks[group..],
        ..first
    };
    let junk = rng.bytes(1 + first.length() as u64);
    open_foreign(indexes, version, &keys, &[first, shared], junk);
    indexes.look_up(rng, 2);
    let blocks = touching(9, &vec![6; group + 3], 3, &vec![2; group + 2]);
    let same = Group {
        blocks: &blocks[..group],
        offset: 0,
        range_slope: 6,
        ord_slope: 2,
        range_width: 4,
        ord_width: 4,
    };
    let inside = Group {
        blocks: &blocks[group..],
        offset: 60,
        ..same
    };
    let zeros = vec![0; same.length()];
    open_foreign(indexes, version, &keys, &[same, inside], zeros);
    indexes.look_up(rng, 2);
}

fn widest(indexes: &mut Indexes, rng: &mut Numbers, version: Version) {
    indexes.comment("the widest fields in a full group");
    let group = version.group_len();
    let bits = most_bits(group as u64 + 1);
    let blocks = blocks::random(rng, group as u64 + 1, bits, bits, 20, 20);
    let wide = Group {
        blocks: &blocks[..group],
        offset: 1,
        range_slope: u32::MAX,
        ord_slope: 0,
        range_width: 56,
        ord_width: 55,
    };
    let second = Group {
        blocks: &blocks[group..],
        offset: 1 + wide.length(),
        ..wide
    };
    let junk = rng.bytes((second.offset + second.length()) as u64);
    let keys = rising(rng, group as u64 + 1, 4);
    open_foreign(indexes, version, &keys, &[wide, second], junk);
    indexes.look_up(rng, 2);
}

fn open_foreign(
    indexes: &mut Indexes,
    version: Version,
    keys: &[Vec<u8>],
    groups: &[Group],
    junk: Vec<u8>,
) {
    let file = File::new(keys, &foreign::store(groups, junk));
    assert_eq!(indexes.open_as(version, &file.bytes()), 0);
    let blocks: Vec<Block> = groups
        .iter()
        .flat_map(|group| group.blocks.to_vec())
        .collect();
    assert_eq!(indexes.opening.blocks, blocks);
    assert_eq!(indexes.opening.keys, keys);
}

/// Files by the rule in the list's comment.
fn by_rule(indexes: &mut Indexes) {
    indexes.comment("the most blocks, and one more");
    for version in VERSIONS {
        for (count, no) in [(129u64, 0), (65_535, 0), (65_537, 12), (65_536, 0)] {
            assert_eq!(indexes.open_by_rule(version, count), no);
        }
        let group = version.group_len() as u64;
        for id in [
            0,
            group - 1,
            group,
            32_767,
            32_768,
            65_535 - group,
            65_536 - group,
            65_535,
            65_536,
            u64::MAX,
        ] {
            indexes.id(id);
            indexes.ord(id);
            indexes.separator(id);
            let key = (id.min(1 << 23) as u32).to_be_bytes();
            indexes.key(&key[1..]);
            indexes.key(&[&key[1..], &[0]].concat());
            indexes.key(&key[1..3]);
        }
    }
}

/// Files opened with each number of terms, and ordinals around it.
fn other_terms(indexes: &mut Indexes) {
    indexes
        .comment("other numbers of terms: too few, just enough and more than there are ordinals");
    let mut rng = Numbers::from_seed(75);
    let top = touching(LIMIT - 3, &[1, 1], LIMIT - 9, &[8]);
    let mut made = vec![worked_file(), smallest()];
    made.push(File::written(V3, &top, &[b"a".to_vec(), b"b".to_vec()]));
    for count in [3, 6] {
        let blocks = blocks::random(&mut rng, count, 9, 6, 20, 20);
        made.push(File::written(V3, &blocks, &rising(&mut rng, count, 4)));
    }
    for file in made {
        assert_eq!(indexes.open(&file.bytes()), 0);
        each_number(indexes);
    }
    for (version, count) in [
        (V3, 128),
        (V3, 129),
        (V3, 65_536),
        (V4, 129),
        (V4, 256),
        (V4, 257),
        (V4, 65_536),
    ] {
        assert_eq!(indexes.open_by_rule(version, count), 0);
        each_number(indexes);
    }
}

fn each_number(indexes: &mut Indexes) {
    let blocks = &indexes.opening.blocks;
    let (first, last) = (blocks[0].ord, blocks[blocks.len() - 1].ord);
    let before = blocks[blocks.len() - 2].ord;
    let more = [1, first, before + 1, last + 3, 1 << 63];
    for terms in around::terms(last).into_iter().chain(more) {
        if indexes.reopen(terms) == 0 {
            let ends = [first, last, terms].map(beside);
            for ord in BTreeSet::from_iter(ends.into_iter().flatten()) {
                indexes.ord(ord);
            }
        }
    }
}

/// A value just below the limit, or at it, which the values beside it don't fit.
fn read_at_the_limit(indexes: &mut Indexes) {
    indexes.comment("an end or an ordinal of 2^55 - 1 or 2^55 beside lower ones: the file is refused. With the record that it would have a lookup");
    indexes.comment("gives a block of the first, and 20 where it reads the second");
    let (blocks, keys) = (touching(9, &[1, 1, 1], 9, &[3, 3]), short_keys(3));
    let file = |blocks: &[Block]| {
        let group = Group {
            blocks,
            offset: 0,
            range_slope: 2,
            ord_slope: 2,
            range_width: 56,
            ord_width: 56,
        };
        File::new(&keys, &foreign::store(&[group], vec![0; group.length()])).bytes()
    };
    let record = opening::open(V3, &file(&blocks)).record;
    for number in [LIMIT - 1, LIMIT] {
        for (at, is_end) in [(0, true), (1, true), (1, false)] {
            let mut changed = blocks.clone();
            match is_end {
                true => {
                    changed[at].end = number;
                    changed[at + 1].start = number;
                }
                false => changed[at].ord = number,
            }
            assert_eq!(indexes.open(&file(&changed)), 16);
            indexes.record(record);
            let (key, found) = (hex(&keys[at]), address(changed[at]));
            if number < LIMIT {
                indexes.line(format!("i {at} 0 {found}"));
                indexes.line(format!("a {key} 0 {at} {found}"));
            } else {
                indexes.line(format!("i {at} 20 0 0 0"));
                indexes.line(format!("a {key} 20 0 0 0 0"));
            }
        }
    }
}

/// Records that don't belong to the file.
fn left_free(indexes: &mut Indexes) {
    indexes.comment("left free: refused files, with the record that they would have");
    let file = smallest();
    let wide: Fault = |file| {
        file.slopes(0, 0, 0);
        file.widths(0, 56, 56);
        file.addresses = vec![0; 21];
    };
    let chosen: [Fault; 12] = [
        |file| file.pair(1, u32::MAX, 1),
        |file| file.pair(0, u32::MAX, u32::MAX),
        |file| file.directory[20] = 0xff,
        |file| file.widths(0, 0, 0),
        |file| file.widths(0, 255, 255),
        |file| file.record(0, 34, &[0, 0]),
        |file| file.offset(0, u64::MAX),
        |file| file.first_start(0, LIMIT),
        |file| file.first_start(0, u64::MAX),
        |file| file.first_ord(0, u64::MAX),
        |file| file.slopes(0, 1, 0),
        wide,
    ];
    for fault in chosen {
        assert_ne!(indexes.open(&file.with(fault).bytes()), 0);
        let record = Opened {
            records: (30, 36),
            ..indexes.opening.record
        };
        for terms in [LIMIT, 6, 0] {
            indexes.free(record.with_terms(terms));
        }
    }
    let file = two_group_file(V3, 2);
    let bytes = file.with(|file| file.widths(1, 57, 0)).bytes();
    assert_eq!(indexes.open(&bytes), 15);
    for terms in [LIMIT, 129] {
        indexes.free(indexes.opening.record.with_terms(terms));
        indexes.line("O 128".to_string());
        indexes.line("O 129".to_string());
        indexes.line("I 129".to_string());
    }
    indexes.comment("left free: no bytes at all, with the record of the 85 bytes and with none");
    let right = opening::open(V3, &worked_file().bytes())
        .record
        .with_terms(12);
    assert_eq!(indexes.open(b""), 10);
    indexes.free(right);
    indexes.free(Opened::default());
    indexes.comment("left free: the 85 bytes with records that aren't theirs");
    assert_eq!(indexes.open(&worked_file().bytes()), 0);
    for record in others(right.with_terms(1000)) {
        indexes.free(record);
    }
    indexes.comment("their own record again, with 12 terms");
    indexes.record(right);
    indexes.terms = 12;
    for id in 0..4 {
        indexes.id(id);
        indexes.separator(id);
    }
    for ord in [0, 3, 4, 11, 12, 1_000_000] {
        indexes.ord(ord);
    }
    for key in ["a", "b", "c", "f", "g"] {
        indexes.key(key.as_bytes());
    }
}
