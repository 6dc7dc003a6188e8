//! What replaying a list answers and leaves: numbers from the plain model of documents 01 and 02, indexes, lookups and marks from the
//! Rust.

use std::fmt::Write;

use tantivy_sstable::access;

use model::areas::{Areas, Entry, MARK, Machine, first, index};
use model::automaton::{Table, mark, number, table_hits};
use model::canonical;
use model::opening::{self, Opening, TERMS_BAD};
use model::rust::Index;
use model::settings::{LONGEST_KEY, STRIDE};
use model::version::{VERSION_BAD, Version};

use crate::list_bytes::{Call, List, NO_LIST, NO_ROOM, Question, decode};
use crate::text::hex;

/// A prime.
const MODULUS: u64 = (1 << 32) - 5;

/// An answer's five numbers.
pub type Cells = [u64; 5];

/// Lengths of the lent areas: blocks and answers in numbers, keys and output in bytes.
#[derive(Clone, Copy, Debug, PartialEq)]
pub struct Rooms {
    pub blocks: usize,
    pub keys: usize,
    pub out: usize,
    pub answers: usize,
}

/// What a list answers and leaves.
pub struct Replayed {
    pub no: u64,
    /// of the calls, of finish, of opening, of the questions
    pub calls: Vec<u64>,
    pub finish: u64,
    pub opening: u64,
    pub questions: Vec<Cells>,
    /// all of the above
    cells: Vec<Cells>,
    index: Vec<u8>,
    areas: [u64; 4],
}

impl Replayed {
    /// As the program prints it.
    pub fn text(&self, place: usize) -> String {
        let mut text = format!("list {place}: {}\n", self.no);
        for [no, a, b, c, d] in &self.cells {
            writeln!(text, "{no} {a} {b} {c} {d}").unwrap();
        }
        if self.no == 0 {
            writeln!(text, "{}", hex(&self.index)).unwrap();
        }
        let [blocks, keys, out, answers] = self.areas;
        writeln!(text, "areas {blocks} {keys} {out} {answers}").unwrap();
        text
    }
}

/// The remainder of the number whose digits to the base 65,599 these are, the first one highest.
fn remainder(digits: impl IntoIterator<Item = u64>) -> u64 {
    digits
        .into_iter()
        .fold(0, |h, digit| (65_599 * h + digit % MODULUS) % MODULUS)
}

fn bytes_remainder(bytes: &[u8]) -> u64 {
    remainder(bytes.iter().map(|&byte| byte.into()))
}

/// A fresh builder, followed by the plain machine and by its areas; both must agree.
struct Builder {
    machine: Machine,
    areas: Areas,
}

impl Builder {
    fn fresh(rooms: Rooms) -> Builder {
        Builder {
            machine: Machine {
                entries: Vec::new(),
                room: rooms.blocks,
                key_room: rooms.keys,
            },
            areas: Areas {
                n: 0,
                blocks: vec![u64::from_le_bytes([MARK; 8]); rooms.blocks],
                keys: vec![MARK; rooms.keys],
            },
        }
    }

    /// Makes a call. Returns its number.
    fn make(&mut self, call: &Call) -> u64 {
        let view = self.machine.view();
        let no = first(&match call {
            Call::Add(block, key) => view.add_rows(*block, key),
            Call::Shorten(next) => view.shorten_rows(next),
        });
        if no == 0 {
            self.accept(call);
        }
        assert!(no != 1);
        assert_eq!(self.machine.entries, self.areas.entries());
        no
    }

    fn accept(&mut self, call: &Call) {
        match call {
            Call::Add(block, key) => {
                self.machine.entries.push((*block, key.clone()));
                self.areas.add(*block, key);
            }
            Call::Shorten(next) => {
                if let Some(last) = self.machine.entries.last_mut() {
                    last.1 = access::find_shorter_str_in_between(&last.1, next);
                    self.areas.replace_last_key(&last.1);
                }
            }
        }
    }
}

/// The entries that calls leave where the areas are big enough, and how many key bytes they take at most on the way.
pub fn entries(calls: &[Call]) -> (Vec<Entry>, usize) {
    let mut builder = Builder::fresh(Rooms {
        blocks: STRIDE * calls.len(),
        keys: LONGEST_KEY * calls.len(),
        out: 0,
        answers: 0,
    });
    let mut keys = 0;
    for call in calls {
        builder.make(call);
        keys = keys.max(builder.machine.joined().len());
    }
    (builder.machine.entries, keys)
}

/// Room for all that the calls take, the index of this version and the answers, and no more.
pub fn rooms(version: Version, calls: &[Call], questions: usize) -> Rooms {
    let (entries, keys) = entries(calls);
    Rooms {
        blocks: STRIDE * entries.len(),
        keys,
        out: index(version, &entries).0.len(),
        answers: 5 * (calls.len() + 2 + questions),
    }
}

/// The index of the Rust, beside the model's, opened with so many terms.
struct Opened {
    bytes: Vec<u8>,
    rust: Index,
    model: Opening,
    terms: u64,
}

impl Opened {
    fn by_id(&self, id: u64) -> Cells {
        let found = self.rust.get_block(id);
        assert_eq!(found, self.model.by_id(id));
        match found {
            Some(block) => [0, 0, block.start, block.end, block.ord],
            None => [17, 0, 0, 0, 0],
        }
    }

    fn by_ordinal(&self, ord: u64) -> Cells {
        match self.model.by_ord(self.terms, ord) {
            // the Rust panics below the first, and knows of no number of terms
            Err(no) => [no, 0, 0, 0, 0],
            Ok(due) => {
                let (id, block) = self.rust.get_and_locate_with_ord(ord);
                assert_eq!((id, block), due);
                [0, id, block.start, block.end, block.ord]
            }
        }
    }

    fn by_key(&self, key: &[u8]) -> Cells {
        let found = self.rust.locate_with_key(key);
        assert_eq!(found, self.model.by_key(key));
        match found {
            Some(id) => [0, id, 0, 0, 0],
            None => [19, 0, 0, 0, 0],
        }
    }

    fn address_by_key(&self, key: &[u8]) -> Cells {
        let [no, id, ..] = self.by_key(key);
        match self.rust.get_block_with_key(key) {
            Some(block) => [no, id, block.start, block.end, block.ord],
            None => [no, 0, 0, 0, 0],
        }
    }

    fn separator(&self, id: u64) -> Cells {
        let Some((offset, length)) = self.model.place(id) else {
            return [0; 5];
        };
        let part = &self.bytes[offset as usize..][..length as usize];
        assert_eq!(part, self.model.keys[id as usize]);
        [0, offset, length, 1, 0]
    }

    fn mark(&self, block: u64, table: &[u8]) -> Cells {
        let no = number(&table_hits(table));
        if no != 0 {
            return [no, 0, 0, 0, 0];
        }
        let table = Table::read(table);
        let ids = self.rust.get_block_for_automaton(&table);
        for (i, key) in self.model.keys.iter().enumerate() {
            let before = i.checked_sub(1).map(|i| self.model.keys[i].clone());
            assert_eq!(
                ids.contains(&(i as u64)),
                mark(&table, &(before, key.clone()))
            );
        }
        [0, ids.len() as u64, ids.contains(&block).into(), 0, 0]
    }

    fn answer(&self, question: &Question) -> Cells {
        match question {
            Question::Id(id) => self.by_id(*id),
            Question::Ordinal(ord) => self.by_ordinal(*ord),
            Question::Key(key) => self.by_key(key),
            Question::Address(key) => self.address_by_key(key),
            Question::Separator(id) => self.separator(*id),
            Question::Mark(block, table) => self.mark(*block, table),
        }
    }
}

/// Replays a list in areas full of marks.
pub fn replay(bytes: &[u8], rooms: Rooms) -> Replayed {
    let builder = Builder::fresh(rooms);
    let Some(list) = decode(bytes) else {
        return refused(NO_LIST, builder, rooms);
    };
    if rooms.answers < 5 * (list.calls.len() + 2 + list.questions.len()) {
        return refused(NO_ROOM, builder, rooms);
    }
    run(builder, rooms, &list)
}

fn refused(no: u64, builder: Builder, rooms: Rooms) -> Replayed {
    Replayed {
        no,
        calls: Vec::new(),
        finish: 0,
        opening: 0,
        questions: Vec::new(),
        cells: Vec::new(),
        index: Vec::new(),
        areas: areas(&builder, &[], &[], rooms),
    }
}

/// The remainders of the four areas: what was written stands in front, marks behind.
fn areas(builder: &Builder, index: &[u8], cells: &[Cells], rooms: Rooms) -> [u64; 4] {
    let mut out = vec![MARK; rooms.out];
    out[..index.len()].copy_from_slice(index);
    let mut answers = vec![u64::from_le_bytes([MARK; 8]); rooms.answers];
    answers[..5 * cells.len()].copy_from_slice(&cells.concat());
    [
        remainder(builder.areas.blocks.iter().copied()),
        bytes_remainder(&builder.areas.keys),
        bytes_remainder(&out),
        remainder(answers),
    ]
}

fn run(mut builder: Builder, rooms: Rooms, list: &List) -> Replayed {
    let calls: Vec<u64> = list.calls.iter().map(|call| builder.make(call)).collect();
    let entries = &builder.machine.entries;
    let made = match Version::of(list.settings.version) {
        Some(version) => made(version, list, entries, rooms.out),
        None => Made::refused(VERSION_BAD, [VERSION_BAD; 2], list),
    };
    let alone = |no: u64| [no, 0, 0, 0, 0];
    let mut cells: Vec<Cells> = calls.iter().copied().map(alone).collect();
    let [opening, check] = made.opening;
    cells.extend([made.finish, [opening, check, 0, 0, 0]]);
    cells.extend(&made.questions);
    Replayed {
        no: 0,
        areas: areas(&builder, &made.index, &cells, rooms),
        calls,
        finish: made.finish[0],
        opening,
        questions: made.questions,
        cells,
        index: made.index,
    }
}

/// What comes behind the calls.
struct Made {
    finish: Cells,
    /// opening's number and the check's
    opening: [u64; 2],
    questions: Vec<Cells>,
    index: Vec<u8>,
}

impl Made {
    /// A finish that is refused, and what then doesn't open.
    fn refused(finish: u64, opening: [u64; 2], list: &List) -> Made {
        Made {
            finish: [finish, 0, 0, 0, 0],
            opening,
            questions: vec![[opening[0], 0, 0, 0, 0]; list.questions.len()],
            index: Vec::new(),
        }
    }
}

/// The index of the entries in so many bytes, opened and asked.
fn made(version: Version, list: &List, entries: &[Entry], room: usize) -> Made {
    let (bytes, directory) = index(version, entries);
    if bytes.len() > room {
        return Made::refused(9, [10; 2], list);
    }
    let terms = list.settings.terms;
    let opening = opening::open(version, &bytes);
    let enough = entries.last().is_some_and(|last| terms > last.0.ord);
    let no = opening.number(terms);
    let check = canonical::number(&opening, &bytes);
    // what finish wrote opens where the terms are enough, and is canonical in any case
    let due = match (entries.len() > 1, enough) {
        (false, _) => [10, 10],
        (true, false) => [TERMS_BAD, 0],
        (true, true) => [0, 0],
    };
    assert_eq!([no, check], due);
    let questions = match no {
        0 => answers(opening, &bytes, list, entries),
        _ => vec![[no, 0, 0, 0, 0]; list.questions.len()],
    };
    Made {
        finish: [0, bytes.len() as u64, directory, 0, 0],
        opening: [no, check],
        questions,
        index: bytes,
    }
}

/// The answers to the questions, where what is read is the entries.
fn answers(opening: Opening, bytes: &[u8], list: &List, entries: &[Entry]) -> Vec<Cells> {
    let blocks = opening.blocks.iter().copied();
    let read: Vec<Entry> = blocks.zip(opening.keys.clone()).collect();
    assert_eq!(read, entries);
    let opened = Opened {
        rust: Index::open(opening.version, bytes),
        bytes: bytes.to_vec(),
        model: opening,
        terms: list.settings.terms,
    };
    let questions = list.questions.iter();
    questions.map(|question| opened.answer(question)).collect()
}
