//! Marks and examples: automata, and intervals of keys that tell them apart.

use model::automaton::{Interval, Table, mark, room};
use model::kinds::{KINDS, kinds};
use model::numbers::Numbers;
use model::patterns::{beside, chain, drawn, flags, interval, many, order, ring, small};
use model::tied::{self, ALPHABETS, few_rows, round_interval, rounds, steps};

use crate::patterns::{Patterns, found};

fn between(start: &[u8], end: &[u8]) -> Interval {
    (Some(start.to_vec()), end.to_vec())
}

fn upto(end: &[u8]) -> Interval {
    (None, end.to_vec())
}

/// The cases that document 01 works by hand, and those beside them.
pub fn worked(patterns: &mut Patterns) {
    patterns.comment("the cases that document 01 works by hand: only c, only the empty string; an absent start, whatever stands there;");
    patterns.comment("a start that isn't below the end");
    patterns.set_bytes(&Table::words(&[b"c"]).bytes());
    for interval in [
        between(b"b", b"d"),
        between(b"c", b"d"),
        between(b"b", b"c"),
        between(b"b", b"b\xff\xff"),
        between(b"", b"c"),
        between(b"", b"b"),
        upto(b"c"),
        upto(b"b\xff"),
        between(b"d", b"b"),
        between(b"c", b"c"),
        between(b"c\x00", b"c"),
        between(b"c", b""),
    ] {
        patterns.both(&interval);
    }
    patterns.set_bytes(&Table::words(&[b""]).bytes());
    for interval in [
        upto(b""),
        between(b"", b""),
        upto(b"a"),
        between(b"", b"a"),
        between(b"a", b""),
    ] {
        patterns.both(&interval);
        patterns.example(&interval, room(&interval) - 1);
        patterns.example(&interval, 0);
    }
    for flag in [0, 1] {
        patterns.set_bytes(&Table::new(vec![flag], vec![0; 256]).bytes());
        for interval in [
            upto(b""),
            upto(b"\xff\xff"),
            between(b"", b""),
            between(b"a", b"b"),
            between(b"a", b"a\x00"),
            between(b"b", b"a"),
            between(b"a\x00", b"a"),
            between(b"\xff", b"\xff\xff"),
        ] {
            patterns.both(&interval);
        }
        for absent in [&b"\x00"[..], b"a", b"b\xff", &[0xff; 100]] {
            let interval = upto(b"b");
            patterns.block_beside(&interval, absent);
            patterns.example_beside(&interval, absent, 65);
            patterns.example_beside(&interval, absent, 64);
        }
    }
}

pub fn lists(patterns: &mut Patterns) {
    let mut rng = Numbers::from_seed(5);
    patterns.comment("automata of 2 to 4 states");
    for round in 0..9 {
        let m = 2 + round % 3;
        let table = if rng.one_in(4) {
            let flags = (0..m).map(|_| rng.below(2) as u8).collect();
            Table::rule(flags, |_, _| rng.below(m as u64) as usize)
        } else {
            small(&mut rng, m)
        };
        patterns.set_bytes(&table.bytes());
        some(patterns, &mut rng, &table, 4, |rng| {
            interval(rng, &table, 3)
        });
    }
    words(patterns, &mut rng);
    patterns.comment("automata of few runs");
    for round in 0..160 {
        let table = small(&mut rng, 1 + round % 10);
        patterns.set_runs(&table);
        some(patterns, &mut rng, &table, 3, |rng| {
            interval(rng, &table, 5)
        });
    }
    paths(patterns, &mut rng);
    counting(patterns);
    patterns.comment("automata by a rule");
    for round in 0..108 {
        let m = many(&mut rng, round);
        let flags = flags(&mut rng, m);
        // A of 0 or with a divisor of M makes states that nothing leads to
        let a = rng.pick(&[0, 1, 1, 2, 3, 5, 8, 32]);
        let c = rng.below(m as u64) as usize;
        let d = rng.pick(&[1, 2, 16, 64, 97, 128, 255, 256]);
        patterns.set_rule(&flags, (a, c, d));
        let table = Table::rule(flags, |s, b| (s * a + c + b / d) % m);
        let longest = if rng.one_in(16) { 70 } else { 6 };
        some(patterns, &mut rng, &table, 3, |rng| {
            interval(rng, &table, longest)
        });
    }
    patterns.comment("drawn automata");
    for round in 0..90 {
        let m = many(&mut rng, round);
        let (table, seed, k) = drawn(&mut rng, m);
        patterns.set_drawn(&table, seed, k);
        some(patterns, &mut rng, &table, 3, |rng| {
            interval(rng, &table, 5)
        });
    }
    long_keys(patterns, &mut rng);
}

/// Intervals with and without an accepted string, and examples with more room and with too little.
fn some(
    patterns: &mut Patterns,
    rng: &mut Numbers,
    table: &Table,
    count: usize,
    make: impl Fn(&mut Numbers) -> Interval,
) {
    for i in 0..count {
        let interval = wanted(rng, table, i % 2 == 0, &make);
        patterns.both(&interval);
        let enough = room(&interval);
        match rng.below(6) {
            0 => patterns.example(&interval, enough - 1),
            1 => patterns.example(&interval, enough + rng.within(1, 40) as usize),
            2 => patterns.example(&interval, rng.below(enough as u64) as usize),
            _ => {}
        }
    }
}

/// An interval with this answer, if one is soon found; seldom one with START not below END.
fn wanted(
    rng: &mut Numbers,
    table: &Table,
    answer: bool,
    make: impl Fn(&mut Numbers) -> Interval,
) -> Interval {
    let any = rng.one_in(20);
    let mut last = (None, vec![]);
    for _ in 0..60 {
        let interval = make(rng);
        let (start, end) = &interval;
        if any || start.as_ref().is_none_or(|start| start < end) {
            if mark(table, &interval) == answer {
                return interval;
            }
            last = interval;
        }
    }
    last
}

/// Words and intervals beside them.
fn words(patterns: &mut Patterns, rng: &mut Numbers) {
    patterns.comment("one word, and intervals beside it");
    for word in [
        &b""[..],
        b"c",
        b"ab",
        b"abc",
        b"a\xff",
        b"\xff\xff",
        b"\x00",
        b"\x00\x00",
        b"b\x00\xff",
        b"\xa5\x5a",
    ] {
        let table = Table::words(&[word]);
        patterns.set_runs(&table);
        some(patterns, rng, &table, 8, |rng| beside(rng, word, word));
    }
    patterns.comment("more words, and all that begins with a word");
    for words in [
        &[&b"abcde"[..], b"abcfg"][..],
        &[b"a", b"ab", b"b"],
        &[b"", b"a\x00"],
        &[b"\xff", b"\xff\xff\xff"],
    ] {
        let table = Table::words(words);
        patterns.set_runs(&table);
        some(patterns, rng, &table, 8, |rng| interval(rng, &table, 5));
    }
    for word in [&b""[..], b"a", b"a\xff", b"\x00", b"\xff\xff\xff"] {
        let table = Table::beginning(word);
        patterns.set_runs(&table);
        some(patterns, rng, &table, 6, |rng| beside(rng, word, word));
    }
}

/// Long ways to acceptance.
fn paths(patterns: &mut Patterns, rng: &mut Numbers) {
    patterns.comment("one word through all states but one: up, down and in any order");
    for round in 0..12 {
        let m = if round < 9 {
            64
        } else {
            rng.within(9, 63) as usize
        };
        let order = order(rng, m, round);
        let (table, word) = chain(rng, &order);
        patterns.set_runs(&table);
        some(patterns, rng, &table, 2, |rng| {
            let cut = rng.below(word.len() as u64 + 1) as usize;
            let one = if rng.one_in(2) {
                word.clone()
            } else {
                word[..cut].to_vec()
            };
            beside(rng, &one, &word)
        });
    }
    patterns.comment("all bytes lead on through all states, up, down and in any order");
    for round in 0..6 {
        let table = ring(rng, 64, round);
        patterns.set_runs(&table);
        some(patterns, rng, &table, 4, |rng| interval(rng, &table, 3));
        patterns.both(&(Some(vec![0xff; 63]), vec![0xff; 64]));
        patterns.both(&(Some(vec![0xff; 62]), vec![0xff; 63]));
    }
}

/// 64 states that count the length.
fn counting(patterns: &mut Patterns) {
    patterns.comment("64 states that count the length: an example that fills the room, longer key + 64, to its last byte");
    for length in [2, 3, 10, 63, 64, 65] {
        let mut flags = vec![0; 64];
        flags[length % 64] = 1;
        patterns.set_rule(&flags, (1, 1, 256));
        // of the strings between, those of the start's length aren't above it
        let start = [&[0x61][..], &vec![0xff; length - 1]].concat();
        let interval = between(&start, b"\x62");
        assert_eq!(room(&interval), length + 64);
        patterns.both(&interval);
        patterns.example(&interval, length + 63);
        patterns.example(&interval, length + 65);
    }
    patterns.comment("exactly the strings of 00 up to a length, without and with the empty one");
    let mut flags = vec![0; 64];
    flags[2] = 1;
    patterns.set_rule(&flags, (1, 1, 256));
    for length in [0, 1, 2, 3, 65, 66, 67] {
        patterns.both(&(Some(vec![]), vec![0; length]));
        patterns.both(&(None, vec![0; length]));
    }
}

/// Keys of any length.
fn long_keys(patterns: &mut Patterns, rng: &mut Numbers) {
    patterns.comment("long keys, one of more than 1,024 bytes");
    patterns.set_runs(&ring(rng, 64, 2));
    let long = vec![0xff; 1100];
    patterns.both(&between(&long[..63], &long));
    patterns.both(&between(&long[..255], &long[..256]));
    let front = &long[..200];
    let word = [front, b"a"].concat();
    patterns.set_runs(&Table::rule(vec![0, 1], |_, b| usize::from(b == 0x61)));
    for interval in [
        between(front, &word),
        between(front, &[front, b"`"].concat()),
        between(&word, &[&word[..], b"`"].concat()),
        between(&[front, b"`\xff\xff"].concat(), &word),
    ] {
        patterns.both(&interval);
    }
}

/// How many examples of each kind are looked for.
pub const OF_A_KIND: usize = 8;

/// Examples of every kind that the model tells.
pub fn examples(patterns: &mut Patterns) {
    let mut rng = Numbers::from_seed(22);
    for kind in KINDS {
        patterns.comment(&format!("examples: {kind}"));
        for round in 0..OF_A_KIND {
            let is = |(table, interval): &(Table, Interval)| {
                let (start, end) = (interval.0.as_deref(), &interval.1);
                found(table, interval)
                    .is_some_and(|found| kinds(table, start, end, &found).contains(&kind))
            };
            let mut made = (0..10_000).map(|_| tied(&mut rng, round));
            let (table, interval) = made.find(is).expect("an example of the kind");
            patterns.set_runs(&table);
            patterns.both(&interval);
        }
    }
}

/// A table with several strings as short, most of them of few states, and an interval.
fn tied(rng: &mut Numbers, round: usize) -> (Table, Interval) {
    let bytes = rng.pick(&ALPHABETS);
    let m = rng.pick(&[1, 2, 3, 4, 6, 9]);
    let longest = rng.pick(&[2, 4, 9, 40]);
    match rng.below(12) {
        0 => {
            let (interval, table) = tied::full(rng, round, longest);
            (table, interval)
        }
        1..=3 => {
            let slope = rng.below(3);
            (rounds(rng, 12, slope), round_interval(rng, longest))
        }
        4..=7 => (few_rows(rng, m, bytes), tied::interval(rng, bytes, longest)),
        _ => (steps(rng, m, bytes), tied::interval(rng, bytes, longest)),
    }
}
