//! Lists of calls and questions, and what replaying them answers and leaves.

use std::collections::BTreeSet;
use std::fmt::Write;

use tantivy_sstable::access;

use model::areas::Entry;
use model::around::{self, beside};
use model::automaton::Table;
use model::blocks::{WORKED, block};
use model::numbers::Numbers;
use model::patterns::ring;
use model::rust::Block;
use model::settings::LIMIT;
use model::version::{NO_VERSIONS, V3, V4, VERSION_BAD, VERSIONS, Version};

use crate::damaged_lists;
use crate::list_bytes::{Call, List, NO_LIST, NO_ROOM, Question, Settings, decode, encode};
use crate::replayed::{self, Replayed, Rooms};
use crate::text::hex;

/// The longest areas of the program, and the longest list.
const MOST: Rooms = Rooms {
    blocks: 1300,
    keys: 4096,
    out: 4096,
    answers: 2048,
};
const LONGEST: usize = 32_768;
/// The most parts of a line.
const PARTS: usize = 256;
/// So many equal bytes make a part of their own.
const RUN: usize = 12;

/// The lists so far, and what the program prints.
pub struct Lists {
    input: String,
    output: String,
    count: usize,
    /// what was asked, and its number
    seen: BTreeSet<(&'static str, u64)>,
}

/// The bytes in parts, each with how often it stands there.
fn parts(bytes: &[u8]) -> Vec<(usize, Vec<u8>)> {
    let mut parts: Vec<(usize, Vec<u8>)> = Vec::new();
    for run in bytes.chunk_by(|one, other| one == other) {
        match parts.last_mut() {
            _ if run.len() >= RUN => parts.push((run.len(), vec![run[0]])),
            Some((1, part)) => part.extend(run),
            _ => parts.push((1, run.to_vec())),
        }
    }
    parts
}

fn call_kind(call: &Call) -> &'static str {
    match call {
        Call::Add(..) => "add",
        Call::Shorten(_) => "shorten",
    }
}

fn question_kind(question: &Question) -> &'static str {
    match question {
        Question::Id(_) => "id",
        Question::Ordinal(_) => "ordinal",
        Question::Key(_) => "key",
        Question::Address(_) => "address",
        Question::Separator(_) => "separator",
        Question::Mark(..) => "mark",
    }
}

impl Lists {
    pub fn comment(&mut self, line: &str) {
        writeln!(self.input, "# {line}").unwrap();
    }

    /// A list in these areas.
    pub fn bytes(&mut self, bytes: &[u8], rooms: Rooms) -> Replayed {
        let Rooms {
            blocks,
            keys,
            out,
            answers,
        } = rooms;
        assert!(blocks <= MOST.blocks && keys <= MOST.keys, "{rooms:?}");
        assert!(out <= MOST.out && answers <= MOST.answers, "{rooms:?}");
        assert!(bytes.len() <= LONGEST);
        let parts = parts(bytes);
        assert!(parts.len() <= PARTS, "{}", parts.len());
        write!(self.input, "l {blocks} {keys} {out} {answers}").unwrap();
        for (count, part) in parts {
            write!(self.input, " {count} {}", hex(&part)).unwrap();
        }
        self.input.push('\n');
        let replayed = replayed::replay(bytes, rooms);
        self.count += 1;
        self.output.push_str(&replayed.text(self.count));
        self.note(bytes, &replayed);
        replayed
    }

    fn note(&mut self, bytes: &[u8], replayed: &Replayed) {
        self.seen.insert(("list", replayed.no));
        let list = decode(bytes).filter(|_| replayed.no == 0);
        let Some(List {
            calls, questions, ..
        }) = list
        else {
            return;
        };
        for (call, &no) in calls.iter().zip(&replayed.calls) {
            self.seen.insert((call_kind(call), no));
        }
        self.seen.insert(("finish", replayed.finish));
        self.seen.insert(("opening", replayed.opening));
        for (question, cells) in questions.iter().zip(&replayed.questions) {
            self.seen.insert((question_kind(question), cells[0]));
        }
    }

    /// A number of terms that is enough for what the calls leave, by turns.
    fn turn(&self, calls: &[Call]) -> u64 {
        around::terms(last_ord(calls))[2 + self.count % 4]
    }

    /// Calls and questions in areas that are just big enough.
    pub fn list(&mut self, calls: &[Call], questions: &[Question]) -> Replayed {
        self.with_terms(self.turn(calls), calls, questions)
    }

    /// The same with so many terms.
    fn with_terms(&mut self, terms: u64, calls: &[Call], questions: &[Question]) -> Replayed {
        self.with(Settings::of(V3, terms), calls, questions)
    }

    /// The same with any version, in areas that are big enough for version 3 where there is no such version.
    fn with(&mut self, settings: Settings, calls: &[Call], questions: &[Question]) -> Replayed {
        let questions = beside_terms(settings.terms, questions);
        let version = Version::of(settings.version).unwrap_or(V3);
        let rooms = replayed::rooms(version, calls, questions.len());
        self.bytes(&encode(settings, calls, &questions), rooms)
    }

    /// In areas with room behind.
    fn wide(&mut self, calls: &[Call], questions: &[Question]) -> Replayed {
        let settings = Settings::of(VERSIONS[self.count % 2], self.turn(calls));
        let questions = beside_terms(settings.terms, questions);
        let fit = replayed::rooms(V3, calls, questions.len());
        let rooms = Rooms {
            blocks: fit.blocks + 12,
            keys: fit.keys + 7,
            out: fit.out + 9,
            answers: fit.answers + 6,
        };
        self.bytes(&encode(settings, calls, &questions), rooms)
    }
}

/// The first ordinal of the last block that the calls leave where the areas are big enough.
fn last_ord(calls: &[Call]) -> u64 {
    let entries = replayed::entries(calls).0;
    entries.last().map_or(3, |last| last.0.ord)
}

/// Where there are questions by ordinal, also those on both sides of the number of terms.
fn beside_terms(terms: u64, questions: &[Question]) -> Vec<Question> {
    let by_ordinal = |question: &Question| matches!(question, Question::Ordinal(_));
    let mut all = questions.to_vec();
    if all.iter().any(by_ordinal) {
        for question in [terms.saturating_sub(1), terms].map(Question::Ordinal) {
            if !all.contains(&question) {
                all.push(question);
            }
        }
    }
    all
}

pub fn add(start: u64, end: u64, ord: u64, key: &[u8]) -> Call {
    Call::Add(block(start, end, ord), key.to_vec())
}

pub fn shorten(next: &[u8]) -> Call {
    Call::Shorten(next.to_vec())
}

/// Adds of blocks with these keys, each 10 bytes and 3 ordinals.
fn adds(keys: &[&[u8]]) -> Vec<Call> {
    let places = 0..keys.len() as u64;
    let given = places.zip(keys);
    given
        .map(|(i, key)| add(10 * i, 10 * i + 10, 3 * i + 5, key))
        .collect()
}

pub fn worked_calls() -> Vec<Call> {
    let keys = [b"\x62", b"\x64", b"\x66"];
    let given = WORKED.into_iter().zip(keys);
    given
        .map(|(block, key)| Call::Add(block, key.to_vec()))
        .collect()
}

/// Questions by number about blocks and what is beside them: all, or those of some blocks.
fn by_number(entries: &[Entry], some: &[usize]) -> Vec<Question> {
    let n = entries.len() as u64;
    let mut ids: BTreeSet<u64> = some.iter().map(|&i| i as u64).collect();
    let mut ords = BTreeSet::from([0, LIMIT, u64::MAX]);
    for &i in some {
        let Block { ord, .. } = entries[i].0;
        ords.extend([ord.saturating_sub(1), ord, ord + 1]);
    }
    ids.extend([n, n + 1, 1 << 32, u64::MAX]);
    let mut questions: Vec<Question> = ids.iter().copied().map(Question::Id).collect();
    questions.extend(ords.into_iter().map(Question::Ordinal));
    questions.extend(ids.into_iter().map(Question::Separator));
    questions
}

/// Questions by key about separators and what is beside them.
fn by_key(entries: &[Entry], some: &[usize]) -> Vec<Question> {
    let mut keys = BTreeSet::from([vec![], vec![0xff; 3]]);
    for &i in some {
        let key = &entries[i].1;
        keys.insert(key.clone());
        keys.insert([&key[..], &[0]].concat());
        if let Some((last, front)) = key.split_last() {
            keys.insert(front.to_vec());
            keys.insert([front, &[last.saturating_sub(1), 0xff]].concat());
        }
    }
    keys.into_iter()
        .enumerate()
        .map(|(i, key)| {
            if i % 2 == 0 {
                Question::Key(key)
            } else {
                Question::Address(key)
            }
        })
        .collect()
}

/// A mark of each block, and of one behind the last.
fn marks(count: usize, table: &Table) -> Vec<Question> {
    let bytes = table.bytes();
    let blocks = 0..=count as u64;
    blocks.map(|i| Question::Mark(i, bytes.clone())).collect()
}

/// All questions about all blocks.
fn all(calls: &[Call]) -> Vec<Question> {
    let entries = replayed::entries(calls).0;
    let some: Vec<usize> = (0..entries.len()).collect();
    [by_number(&entries, &some), by_key(&entries, &some)].concat()
}

/// The input and the output.
pub fn lists() -> (String, String) {
    let mut lists = Lists {
        input: String::new(),
        output: String::new(),
        count: 0,
        seen: BTreeSet::new(),
    };
    for line in [
        "Lists of calls and questions, written by oracle/write-answers; what they answer and leave stands in stdout beside this file.",
        "l BLOCKS KEYS OUT ANSWERS COUNT BYTES COUNT BYTES ..: a list, its areas' lengths in front (numbers, bytes, bytes, numbers). The",
        "list is its byte strings one behind the other, each as often as its COUNT says, in the format of crates/replay_format/specs/Format.antt.",
        "All areas are full of A5 before. Printed for each list: its place and number; if that is 0 each answer (five numbers) and the",
        "index; the remainder of each area when all is done, as digits to the base 65,599 modulo 2^32 - 5.",
    ] {
        lists.comment(line);
    }
    worked_cases(&mut lists);
    traps(&mut lists);
    few(&mut lists);
    other_terms(&mut lists);
    other_versions(&mut lists);
    rooms(&mut lists);
    rows(&mut lists);
    long_keys(&mut lists);
    counts(&mut lists);
    automata(&mut lists);
    damaged_lists::lists(&mut lists);
    random(&mut lists);
    check_seen(&lists);
    (lists.input, lists.output)
}

/// Every number that a list can get, of each call and question.
fn check_seen(lists: &Lists) {
    let kinds = [
        ("list", &[0, NO_LIST, NO_ROOM][..]),
        ("add", &[0, 2, 3, 4, 5, 6, 7]),
        ("shorten", &[0, 2, 6]),
        ("finish", &[0, 9, 30]),
        ("opening", &[0, 10, 28, 30]),
        ("id", &[0, 10, 17, 28, 30]),
        ("ordinal", &[0, 10, 18, 28, 29, 30]),
        ("key", &[0, 10, 19, 28, 30]),
        ("address", &[0, 10, 19, 28, 30]),
        ("separator", &[0, 10, 28, 30]),
        ("mark", &[0, 10, 21, 22, 23, 28, 30]),
    ];
    let due: BTreeSet<(&str, u64)> = kinds
        .iter()
        .flat_map(|&(kind, numbers)| numbers.iter().map(move |&no| (kind, no)))
        .collect();
    assert_eq!(lists.seen, due);
}

fn worked_cases(lists: &mut Lists) {
    lists.comment("the case that documents 01 and 02 work by hand: 85 bytes, 12 terms; ids 2 and 3; ordinals 3, 4, 11 and 1,000,000;");
    lists.comment("keys; marks");
    let calls = worked_calls();
    let mut questions = all(&calls);
    questions.extend([2, 3].map(Question::Id));
    questions.extend([3, 4, 11, 1_000_000].map(Question::Ordinal));
    for key in [b"a", b"b", b"c", b"d", b"e", b"f", b"g"] {
        questions.push(Question::Key(key.to_vec()));
        questions.push(Question::Address(key.to_vec()));
    }
    assert_eq!(replayed::rooms(V3, &calls, 0).out, 85);
    lists.with_terms(12, &calls, &questions);
    lists.wide(&calls, &marks(3, &Table::words(&[b"c"])));
    lists.comment("point (1, 2^40); no points in a second group come below");
    let wide = [add(0, 7, 0, b"a"), add(7, 9, 1 << 40, b"b")];
    lists.list(&wide, &all(&wide));
    lists.comment("shortened keys, the next block's key behind: those worked by hand first");
    for (key, next) in [
        (&b"abcdef"[..], &b"abf"[..]),
        (b"ab", b"abc"),
        (b"\x61\xff\xff", b"\x62"),
        (b"\x61\xff\x01", b"\x62"),
        (b"a", b"b"),
        (b"", b"a"),
        (b"", b"\x00"),
        (b"\x61\xff\xff\x00\x07", b"\x62"),
        (b"\x61\xff\xff\xff\xfe", b"\x62\x00"),
        (b"\xff\xff\xff", b"\xff\xff\xff\x00"),
        (b"\xfe\x00\x00", b"\xff"),
    ] {
        let calls = [add(0, 1, 0, key), shorten(next), add(1, 1, 1, next)];
        lists.list(&calls, &all(&calls));
    }
    lists.comment(
        "only c accepted: (b, d] and (c, d]; only the empty string: absent start and empty end",
    );
    lists.list(&adds(&[b"b", b"d"]), &marks(2, &Table::words(&[b"c"])));
    lists.list(&adds(&[b"c", b"d"]), &marks(2, &Table::words(&[b"c"])));
    lists.list(&adds(&[b"", b"a"]), &marks(2, &Table::words(&[b""])));
    lists.list(&adds(&[b"a", b"b"]), &marks(2, &Table::words(&[b""])));
}

fn traps(lists: &mut Lists) {
    lists.comment("errors seen in such code: widths in the fields' order; slope ties to the earlier point; a slope of more than 32 bits;");
    lists.comment("a before b gives b; the start key in its interval");
    let order = [
        add(0, 100, 0, b"a"),
        add(100, 5000, 1, b"b"),
        add(5000, 5001, 2, b"c"),
    ];
    lists.list(&order, &all(&order));
    // both ordinal slopes are 10; the later point alone gives 11, the earlier one alone would give 10
    assert_eq!(access::find_best_slope(&[10, 21]).0, 11);
    let ties = [
        add(0, 10, 0, b"a"),
        add(10, 21, 10, b"b"),
        add(21, 40, 21, b"c"),
    ];
    lists.list(&ties, &all(&ties));
    for bits in [31, 32, 33, 40, 47, 48, 54] {
        let far = 1 << bits;
        let cut = if bits < 32 { far as u32 } else { 0 };
        assert_eq!(access::find_best_slope(&[far]).0, cut);
        let calls = [
            add(0, far, 0, b"a"),
            add(far, far + 5, far, b"b"),
            add(far + 5, far + 5, far + 1, b"c"),
        ];
        lists.list(&calls, &all(&calls));
    }
    let raised = [
        add(0, 1, 0, b"a"),
        shorten(b"b"),
        add(1, 2, 1, b"b"),
        shorten(b"c"),
        add(2, 3, 2, b"c"),
    ];
    lists.list(&raised, &all(&raised));
    let keys: [&[u8]; 4] = [b"b", b"c", b"c\x00", b"d"];
    lists.list(&adds(&keys), &marks(4, &Table::words(&[b"c"])));
    lists.list(&adds(&keys), &marks(4, &Table::words(&[b"b", b"c\x00"])));
    lists.list(&adds(&keys), &marks(4, &Table::beginning(b"c")));
}

/// One question of each kind.
fn each_kind() -> Vec<Question> {
    vec![
        Question::Id(0),
        Question::Ordinal(0),
        Question::Key(b"a".to_vec()),
        Question::Address(b"a".to_vec()),
        Question::Separator(0),
        Question::Mark(0, Table::words(&[b"a"]).bytes()),
        Question::Mark(0, vec![]),
    ]
}

fn few(lists: &mut Lists) {
    lists.comment(
        "no call, no block, one block: nothing is written, and what isn't there doesn't open",
    );
    let first = add(3, 3, 7, b"");
    for calls in [
        vec![],
        vec![shorten(b"")],
        vec![shorten(b"abc"), shorten(b"a")],
        vec![add(1, 0, 0, b"a")],
        vec![first.clone()],
        vec![shorten(b"m"), first.clone()],
        vec![first.clone(), shorten(b"m"), shorten(b"")],
        vec![first, add(4, 4, 8, b"m"), add(3, 3, 7, b"m")],
    ] {
        lists.list(&calls, &[]);
        lists.wide(&calls, &each_kind());
    }
    lists.comment("shortened before the first block, twice, and refused in between");
    let calls = [
        shorten(b"ab"),
        add(0, 1, 0, b"ab"),
        shorten(b"b"),
        shorten(b"b"),
        shorten(b"b"),
        add(1, 2, 1, b"ac"),
        add(1, 2, 1, b"ae"),
        shorten(b"ae"),
        add(2, 2, 1, b"af"),
        add(1, 2, 0, b"af"),
        add(1, 2, 1, b"af"),
        shorten(b"ag"),
        shorten(b"af"),
        add(2, 3, 2, b"b"),
    ];
    lists.list(&calls, &all(&calls));
    lists.wide(&calls, &all(&calls));
}

fn other_terms(lists: &mut Lists) {
    lists.comment(
        "the same with other numbers of terms: too few, just enough, more than there are ordinals",
    );
    let ords = [0, 3, 4, 8, 9, 10, LIMIT, u64::MAX].map(Question::Ordinal);
    let more = [1, 4, 5, 8, 12, 1 << 63];
    for terms in around::terms(9).into_iter().chain(more) {
        lists.with_terms(terms, &worked_calls(), &ords);
    }
    for terms in [9, 12] {
        lists.with_terms(terms, &worked_calls(), &each_kind());
    }
    lists.comment("the first ordinal isn't 0: 18 below it, whatever the number of terms");
    let later = [add(7, 8, 20, b"a"), add(8, 8, 30, b"b")];
    let ords: Vec<Question> = [19, 20, 29, 30].map(Question::Ordinal).to_vec();
    for terms in around::terms(30).into_iter().chain([1, 20, 21]) {
        lists.with_terms(terms, &later, &ords);
    }
    lists.comment("the last add is refused: the last block is the one before");
    let refused = [add(0, 1, 0, b"a"), add(1, 2, 4, b"b"), add(2, 3, 9, b"b")];
    for terms in [0, 4, 5, 6, 9, 10] {
        lists.with_terms(terms, &refused, &all(&refused));
    }
    lists.comment("no index: it doesn't open, whatever the number of terms");
    for calls in [&[][..], &[add(3, 3, 7, b"")]] {
        for terms in [0, 7, 8, u64::MAX] {
            lists.with_terms(terms, calls, &[Question::Ordinal(7)]);
        }
    }
    let fit = replayed::rooms(V3, &worked_calls(), 1);
    for terms in [0, 12] {
        let settings = Settings::of(V3, terms);
        let bytes = encode(settings, &worked_calls(), &[Question::Ordinal(4)]);
        lists.bytes(&bytes, Rooms { out: 84, ..fit });
    }
    lists.comment("ordinals at the limit");
    let top = [add(0, 0, LIMIT - 9, b"a"), add(0, 0, LIMIT - 1, b"b")];
    for terms in around::terms(LIMIT - 1) {
        let ends = [LIMIT - 9, LIMIT - 1, u64::MAX].map(beside);
        let ords: Vec<Question> = ends.into_iter().flatten().map(Question::Ordinal).collect();
        lists.with_terms(terms, &top, &ords);
    }
}

fn other_versions(lists: &mut Lists) {
    lists.comment("the same with version 4, and with numbers that aren't versions");
    for version in VERSIONS {
        for terms in [9, 10, 12] {
            lists.with(Settings::of(version, terms), &worked_calls(), &each_kind());
        }
    }
    let refused = |replayed: Replayed| {
        let questions = replayed.questions.iter().map(|cells| cells[0]);
        let numbers = [replayed.finish, replayed.opening].into_iter();
        assert!(numbers.chain(questions).all(|no| no == VERSION_BAD));
    };
    for version in NO_VERSIONS {
        let terms = 12;
        refused(lists.with(Settings { version, terms }, &worked_calls(), &each_kind()));
    }
    lists.comment("no version, and what would be refused anyway: too few terms, no index, no room for it, calls that are refused");
    let few = [add(3, 3, 7, b"")];
    let bad = [add(0, 1, 0, b"a"), add(9, 2, 4, b"b"), shorten(b"a")];
    for version in [0, 2, 5, u64::MAX] {
        for (terms, calls) in [
            (0, &worked_calls()[..]),
            (9, &worked_calls()),
            (u64::MAX, &worked_calls()),
            (10, &few),
            (0, &[]),
            (1, &[]),
            (5, &bad),
        ] {
            refused(lists.with(Settings { version, terms }, calls, &[Question::Id(0)]));
        }
        let fit = replayed::rooms(V3, &worked_calls(), 1);
        for out in [84, 0] {
            let settings = Settings { version, terms: 12 };
            let bytes = encode(settings, &worked_calls(), &[Question::Id(0)]);
            refused(lists.bytes(&bytes, Rooms { out, ..fit }));
        }
    }
}

/// Lengths beside one that is just enough.
fn shorter(fit: usize) -> Vec<usize> {
    let lengths = [
        0,
        fit / 2,
        fit.saturating_sub(5),
        fit.saturating_sub(1),
        fit,
        fit + 1,
    ];
    BTreeSet::from(lengths).into_iter().collect()
}

fn rooms(lists: &mut Lists) {
    lists.comment("areas exactly full, one short, shorter and empty, one at a time");
    let shortened = vec![
        add(0, 1, 0, b"abcdef"),
        add(1, 2, 1, b"abfg"),
        shorten(b"abfg"),
        add(1, 2, 1, b"abfgh"),
        add(1, 2, 1, b"abfg"),
        shorten(b"b"),
        add(2, 9, 5, b"b"),
    ];
    for calls in [worked_calls(), shortened] {
        let questions = [
            Question::Id(1),
            Question::Ordinal(4),
            Question::Key(b"b".to_vec()),
            Question::Separator(1),
        ];
        let fit = replayed::rooms(V3, &calls, questions.len());
        let bytes = encode(Settings::of(V3, 12), &calls, &questions);
        for blocks in shorter(fit.blocks) {
            lists.bytes(&bytes, Rooms { blocks, ..fit });
        }
        for keys in shorter(fit.keys) {
            lists.bytes(&bytes, Rooms { keys, ..fit });
        }
        for out in shorter(fit.out) {
            lists.bytes(&bytes, Rooms { out, ..fit });
        }
        for answers in shorter(fit.answers) {
            lists.bytes(&bytes, Rooms { answers, ..fit });
        }
    }
    lists.comment("a key has room because the one before was shortened, or not");
    let calls = [
        add(0, 1, 0, b"abcdef"),
        add(1, 2, 1, b"abfg"),
        shorten(b"abfg"),
        add(1, 2, 1, b"abfgh"),
        add(1, 2, 1, b"abfg"),
    ];
    let questions = all(&calls);
    let fit = replayed::rooms(V3, &calls, questions.len());
    // with few terms: the second block's first ordinal is 1
    let bytes = encode(Settings::of(V3, 1), &calls, &questions);
    for keys in 6..=fit.keys {
        lists.bytes(&bytes, Rooms { keys, ..fit });
    }
    lists.bytes(&encode(Settings::of(V4, 2), &calls, &questions), fit);
}

fn rows(lists: &mut Lists) {
    lists.comment("rows 3 to 7 alone and together, behind no block and behind one");
    let mut calls = vec![
        add(21, 20, 5, b"m"),
        add(10, LIMIT, 5, b"m"),
        add(10, 20, LIMIT, b"m"),
        add(10, u64::MAX, u64::MAX, b"mmmm"),
        add(10, 20, 5, b"m"),
    ];
    for (start, end) in [(20, 20), (20, 19), (19, 20), (21, 20), (20, LIMIT)] {
        for ord in [6, 5, LIMIT] {
            for key in [&b"nnn"[..], b"m", b"l", b""] {
                // the last call alone fits
                calls.push(add(start, end, ord, key));
            }
        }
    }
    calls.push(shorten(b"m"));
    calls.push(shorten(b""));
    calls.push(add(20, LIMIT - 1, LIMIT - 1, b"nn"));
    calls.push(add(LIMIT - 1, LIMIT - 1, LIMIT - 1, b"o"));
    let questions = [
        Question::Id(0),
        Question::Id(1),
        Question::Ordinal(LIMIT - 1),
    ];
    for (blocks, keys) in [(10, 3), (10, 2), (9, 3), (5, 100), (15, 100)] {
        let rooms = Rooms {
            blocks,
            keys,
            out: 100,
            answers: 5 * (calls.len() + 5),
        };
        let settings = Settings::of(V3, LIMIT);
        lists.bytes(&encode(settings, &calls, &questions), rooms);
    }
    lists.comment("numbers at the limit");
    let top = LIMIT - 1;
    for calls in [
        vec![add(top - 1, top, 0, b""), add(top, top, top, b"\x00")],
        vec![add(0, top, top - 1, b"a"), add(top, top, top, b"b")],
        vec![
            add(0, 0, 0, b"a"),
            add(0, top, top, b"b"),
            add(top, LIMIT, LIMIT, b"c"),
        ],
        vec![
            add(0, LIMIT, 0, b"a"),
            add(0, top, LIMIT, b"a"),
            add(LIMIT, LIMIT, 1, b"a"),
        ],
        vec![
            add(u64::MAX, u64::MAX, u64::MAX, b"a"),
            add(0, 1, 0, b"a"),
            add(1, u64::MAX, 1, b"b"),
        ],
    ] {
        lists.wide(&calls, &all(&calls));
    }
}

fn long_keys(lists: &mut Lists) {
    lists.comment("keys of 0, 1,023, 1,024 and 1,025 bytes");
    let long = vec![b'm'; 1025];
    let (full, less) = (&long[..1024], &long[..1023]);
    let over = vec![b'z'; 1025];
    let below = vec![b'a'; 1025];
    let calls = [
        shorten(&long),
        add(0, 1, 0, b""),
        add(1, 2, 1, &long),
        add(1, 2, 1, less),
        shorten(&long),
        shorten(full),
        add(2, 3, 2, full),
        shorten(&over),
        shorten(&below),
        add(3, 0, 0, &below),
        shorten(&over[1..]),
        add(3, 4, 3, &over[..1024]),
    ];
    let questions = [
        Question::Separator(0),
        Question::Separator(1),
        Question::Separator(2),
        Question::Separator(3),
        Question::Key(long.clone()),
        Question::Key(full.to_vec()),
        Question::Key(less.to_vec()),
        Question::Address(over[..1024].to_vec()),
        Question::Address(over),
        Question::Key(vec![]),
    ];
    let fit = replayed::rooms(V4, &calls, questions.len());
    let bytes = encode(Settings::of(V4, 4), &calls, &questions);
    for keys in [fit.keys, fit.keys - 1, 2047, 2046, 1023, 1022] {
        lists.bytes(&bytes, Rooms { keys, ..fit });
    }
}

/// Block i of a long list: two letters as key, and what is between rises unevenly.
fn long_list(rng: &mut Numbers, count: u64) -> Vec<Call> {
    let (mut at, mut ord) = (rng.bits(20), rng.bits(10));
    let mut calls = Vec::new();
    for i in 0..count {
        let key = [b'A' + (i / 20) as u8, b'a' + (i % 20) as u8];
        if i % 7 == 3 {
            calls.push(shorten(&key));
        }
        let end = at + rng.below(300);
        calls.push(add(at, end, ord, &key));
        at = end;
        ord += rng.within(1, 40);
    }
    calls
}

fn counts(lists: &mut Lists) {
    lists.comment("one group and two, two and three: 127 to 129 and 255 to 257 blocks; in version 4 one group up to 256");
    let mut rng = Numbers::from_seed(71);
    for (version, count) in [
        (V3, 127),
        (V3, 128),
        (V3, 129),
        (V3, 255),
        (V3, 256),
        (V3, 257),
        (V4, 129),
        (V4, 256),
        (V4, 257),
    ] {
        let calls = long_list(&mut rng, count);
        let entries = replayed::entries(&calls).0;
        assert_eq!(entries.len() as u64, count);
        let last = entries.len() - 1;
        let some = [0, 1, 63, 64, 126, 127, 128, 129, 254, 255, 256, last];
        let some: Vec<usize> = some.into_iter().filter(|&i| i <= last).collect();
        let mut questions = by_number(&entries, &some);
        questions.extend(by_key(&entries, &some));
        for &i in &some[some.len() - 2..] {
            let word: &[u8] = &entries[i].1;
            questions.extend(
                [i - 1, i, i + 1].map(|i| Question::Mark(i as u64, Table::words(&[word]).bytes())),
            );
        }
        let settings = Settings::of(version, lists.turn(&calls));
        lists.with(settings, &calls, &questions);
    }
}

fn automata(lists: &mut Lists) {
    lists.comment("automata of 1, 2, 3 and 64 states");
    let mut rng = Numbers::from_seed(72);
    let keys: [&[u8]; 6] = [b"", b"a", b"a\xff", b"b", b"b\x00", b"c"];
    let calls = adds(&keys);
    let byte = |at: u8| Table::rule(vec![0, 1], move |_, b| usize::from(b == usize::from(at)));
    let mut tables = vec![
        Table::new(vec![0], vec![0; 256]),
        Table::new(vec![1], vec![0; 256]),
        Table::rule(vec![0, 1], |s, _| 1 - s),
        Table::rule(vec![1, 0], |_, _| 1),
        byte(0),
        byte(b'a'),
        byte(0xff),
        Table::words(&[b"a\xff\xff"]),
        Table::words(&[b"b", b""]),
        Table::beginning(b"b\x00"),
    ];
    tables.extend((0..3).map(|way| ring(&mut rng, 64, way)));
    let word: Vec<u8> = (0..62).map(|_| rng.pick(&[0x00, 0x61, 0xff])).collect();
    tables.push(Table::words(&[&[b"b", &word[1..]].concat()]));
    for table in &tables {
        let blocks = if table.flags.len() < 64 { 0..7 } else { 3..4 };
        let questions: Vec<Question> = blocks.map(|i| Question::Mark(i, table.bytes())).collect();
        lists.list(&calls, &questions);
    }
    lists.comment("automata that are refused: rows 21 to 23, alone and two at a time");
    let one = Table::new(vec![1], vec![0; 256]).bytes();
    let with = |changes: &[(usize, u8)]| {
        let mut bytes = one.clone();
        for &(at, byte) in changes {
            bytes[at] = byte;
        }
        bytes
    };
    let questions: Vec<Question> = [
        vec![],
        vec![0],
        vec![0; 258],
        vec![1],
        vec![65],
        one[..257].to_vec(),
        [&one[..], &[0]].concat(),
        [&one[..], &[1]].concat(),
        with(&[(0, 2)]),
        with(&[(0, 0)]),
        with(&[(1, 2)]),
        with(&[(1, 255)]),
        with(&[(2, 1)]),
        with(&[(257, 255)]),
        with(&[(1, 2), (257, 1)]),
        with(&[(0, 2), (1, 2)]),
        with(&[(0, 2), (257, 1)]),
        one.clone(),
    ]
    .into_iter()
    .map(|table| Question::Mark(2, table))
    .collect();
    lists.list(&calls, &questions);
    lists.list(&[], &questions);
    let many: Vec<u8> = [vec![65], vec![1; 65], vec![0; 65 * 256]].concat();
    lists.list(&calls, &[Question::Mark(0, many)]);
}

fn random(lists: &mut Lists) {
    lists.comment("by chance");
    let mut rng = Numbers::from_seed(73);
    for _ in 0..80 {
        let count = rng.within(1, 12);
        let mut calls = Vec::new();
        let (mut at, mut ord) = (rng.bits(20), rng.bits(6));
        let mut key = Vec::new();
        for _ in 0..count {
            let front = rng.below(key.len() as u64 + 1) as usize;
            let mut next = key[..front].to_vec();
            let length = rng.within(1, 5);
            next.extend((0..length).map(|_| rng.pick(&[0x00, 0x61, 0x62, 0xfe, 0xff])));
            if rng.one_in(3) {
                calls.push(shorten(&next));
            }
            let bits = rng.pick(&[3, 10, 30]);
            let end = at + rng.bits(bits);
            let start = if rng.one_in(12) { at + 1 } else { at };
            calls.push(add(start, end, ord, &next));
            if start == at && next > key {
                at = end;
                let bits = rng.pick(&[1, 4, 20]);
                ord += 1 + rng.bits(bits);
                key = next;
            }
        }
        by_chance(lists, &mut rng, &calls);
    }
}

/// Some questions, in areas that are big enough or just not.
fn by_chance(lists: &mut Lists, rng: &mut Numbers, calls: &[Call]) {
    let mut questions: Vec<Question> = all(calls);
    questions.retain(|_| rng.one_in(3));
    let last = last_ord(calls);
    let few = rng.below(last + 1);
    let terms = rng.pick(&[last, last + 1, last + 1, last + 2, LIMIT, u64::MAX, few]);
    questions = beside_terms(terms, &questions);
    let byte = rng.pick(&[0x00, 0x61, 0xfe, 0xff]);
    let table = Table::rule(vec![0, 1], |s, b| {
        usize::from(b == byte || s == 1 && b > byte)
    });
    questions.push(Question::Mark(rng.below(4), table.bytes()));
    let fit = replayed::rooms(V3, calls, questions.len());
    let near = |rng: &mut Numbers, fit: usize| (fit + rng.pick(&[0, 0, 1, 2, 6])).saturating_sub(1);
    let rooms = Rooms {
        blocks: near(rng, fit.blocks + 1),
        keys: near(rng, fit.keys + 1),
        out: near(rng, fit.out + 1),
        answers: fit.answers + rng.below(3) as usize,
    };
    let short = Rooms {
        blocks: near(rng, fit.blocks),
        keys: near(rng, fit.keys),
        ..rooms
    };
    let rooms = if rng.one_in(4) { short } else { rooms };
    let version = rng.pick(&[3, 3, 3, 4, 4, 4, 5]);
    let settings = Settings { version, terms };
    lists.bytes(&encode(settings, calls, &questions), rooms);
}
