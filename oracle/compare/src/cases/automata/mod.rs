//! Marks and examples: every small automaton with every short interval, and larger ones by chance.

mod examples;

use model::automaton::{Interval, Table, room};
use model::numbers::Numbers;
use model::patterns::{beside, chain, drawn, flags, interval, many, order, ring, small};
use model::settings::MOST_STATES;

use super::keys;
use crate::calls::intervals::Pattern;
use crate::tally::Tally;

pub fn run(tally: &mut Tally) {
    every_small_one(tally);
    random(tally, 5_000);
    long(tally);
    refused(tally);
    examples::run(tally);
}

/// Every interval between these keys, also those with no start and those whose start isn't below the end.
fn every_interval(tally: &mut Tally, pattern: &Pattern, keys: &[Vec<u8>]) {
    for end in keys {
        pattern.all(tally, None, end);
        for start in keys {
            pattern.all(tally, Some(start), end);
        }
    }
}

/// Every table of `m` states that tells bytes apart only by the class they are in: below the first bound, and so on.
fn every_table(m: usize, bounds: &[u8]) -> impl Iterator<Item = Table> {
    let bounds = bounds.to_vec();
    let classes = bounds.len() + 1;
    let count = (1 << m) * m.pow((m * classes) as u32);
    (0..count).map(move |code| {
        let flags: Vec<u8> = (0..m).map(|state| (code >> state & 1) as u8).collect();
        let next =
            |state: usize, class: usize| (code >> m) / m.pow((state * classes + class) as u32) % m;
        let class = |byte: usize| bounds.iter().filter(|&&bound| byte >= bound.into()).count();
        Table::rule(flags, |state, byte| next(state, class(byte)))
    })
}

fn every_small_one(tally: &mut Tally) {
    tally.section("automata: every one of one state");
    for table in every_table(1, &[]) {
        let keys = keys::all(&[0x00, 0x01, 0x61, 0xfe, 0xff], 3);
        every_interval(tally, &Pattern::of(&table), &keys);
    }
    tally.section("automata: every one of two states over four classes of bytes");
    for table in every_table(2, &[0x61, 0x62, 0xff]) {
        let keys = keys::all(&[0x00, 0x61, 0xfe, 0xff], 2);
        every_interval(tally, &Pattern::of(&table), &keys);
    }
    tally.section("automata: every one of three states over two classes of bytes");
    for table in every_table(3, &[0x80]) {
        let keys = keys::all(&[0x7f, 0x80], 2);
        every_interval(tally, &Pattern::of(&table), &keys);
    }
}

/// Each call with room enough, more and less.
fn with_rooms(tally: &mut Tally, rng: &mut Numbers, pattern: &Pattern, interval: &Interval) {
    let (start, end) = (interval.0.as_deref(), &interval.1[..]);
    pattern.all(tally, start, end);
    let enough = room(interval);
    let lent = match rng.below(6) {
        0 => enough - 1,
        1 => enough + rng.within(1, 40) as usize,
        2 => rng.below(enough as u64) as usize,
        _ => return,
    };
    let length = rng.below(100);
    let absent = rng.bytes(length);
    pattern.block(tally, start, &absent, end);
    pattern.example(tally, start, &absent, end, lent);
}

/// A table of each kind in turn, and a word that it may know.
fn table(rng: &mut Numbers, round: u64) -> (Table, Vec<u8>) {
    let m = many(rng, round as usize);
    match round % 8 {
        0 | 1 => (small(rng, m), vec![]),
        2 => (drawn(rng, m).0, vec![]),
        3 => {
            let order = order(rng, m.max(2), round as usize / 8);
            chain(rng, &order)
        }
        4 => (ring(rng, m, round as usize / 8), vec![]),
        5 => (
            Table::rule(flags(rng, m), |s, b| (s + 1 + b / 128) % m),
            vec![],
        ),
        6 => {
            let length = rng.below(6);
            let word: Vec<u8> = (0..length)
                .map(|_| rng.pick(&[0x00, 0x61, 0xfe, 0xff]))
                .collect();
            (Table::beginning(&word), word)
        }
        _ => {
            let length = rng.below(62);
            let word: Vec<u8> = (0..length).map(|_| rng.pick(&[0x00, 0x61, 0xff])).collect();
            (Table::words(&[&word]), word)
        }
    }
}

/// Automata of 1 to 64 states, a third of them 64.
fn random(tally: &mut Tally, count: u64) {
    tally.section("automata: by chance, 1 to 64 states");
    let mut rng = Numbers::from_seed(119);
    for round in 0..count {
        let (table, word) = table(&mut rng, round);
        let pattern = Pattern::of(&table);
        for _ in 0..8 {
            let longest = rng.pick(&[3, 5, 9, 70]);
            let keys = if word.is_empty() || rng.one_in(3) {
                interval(&mut rng, &table, longest)
            } else {
                let cut = rng.below(word.len() as u64 + 1) as usize;
                let one = if rng.one_in(2) {
                    &word[..]
                } else {
                    &word[..cut]
                };
                beside(&mut rng, one, &word)
            };
            with_rooms(tally, &mut rng, &pattern, &keys);
        }
    }
}

/// 64 states that count the length: the example fills its room; keys of many bytes.
fn long(tally: &mut Tally) {
    tally.section("automata: 64 states that count the length, long keys");
    for accepted in 0..MOST_STATES {
        let mut flags = vec![0; MOST_STATES];
        flags[accepted] = 1;
        let pattern = Pattern::of(&Table::rule(flags, |state, _| (state + 1) % MOST_STATES));
        for length in (0..70).chain([127, 128, 1023, 1024, 1025, 3000]) {
            let start = [&[0x61][..], &vec![0xff; length]].concat();
            pattern.all(tally, Some(&start), b"\x62");
            pattern.all(tally, Some(&start[1..]), &vec![0xff; length + 1]);
            pattern.all(tally, None, &vec![0x00; length]);
            pattern.all(tally, Some(b""), &vec![0x00; length]);
        }
    }
}

/// Automata that break rows 21 to 23, alone and together.
fn refused(tally: &mut Tally) {
    tally.section("automata: refused ones");
    let mut rng = Numbers::from_seed(120);
    for m in [0, 1, 2, 3, 5, 63, 64, 65, 66, 128, 255] {
        let whole = [vec![m as u8], vec![1; m], vec![0; 256 * m]].concat();
        for length in [0, 1, 2, m, m + 1, m + 2, whole.len() - 1, whole.len()] {
            each(tally, &whole[..length.min(whole.len())]);
        }
        for more in [1, 255, 256, 257, 258] {
            each(tally, &[&whole[..], &vec![0; more]].concat());
        }
        for _ in 0..40 {
            let mut bytes = whole.clone();
            for _ in 0..rng.within(1, 3) {
                let at = match rng.below(4) {
                    0 => rng.below(m as u64 + 1),
                    1 => bytes.len() as u64 - 1,
                    _ => rng.below(bytes.len() as u64),
                };
                bytes[at as usize] = rng.pick(&[0, 1, 2, m as u8, m.wrapping_sub(1) as u8, 255]);
            }
            each(tally, &bytes);
        }
    }
    every_place(tally);
}

/// A flag of 2 and a next state that there isn't, at every place of an automaton of three states.
fn every_place(tally: &mut Tally) {
    let whole = Table::words(&[b"c"]).bytes();
    for at in 0..whole.len() {
        for byte in [2, 3, 255] {
            let mut bytes = whole.clone();
            bytes[at] = byte;
            each(tally, &bytes);
        }
    }
}

fn each(tally: &mut Tally, bytes: &[u8]) {
    let pattern = Pattern::new(bytes);
    pattern.all(tally, Some(b"b"), b"d");
    pattern.all(tally, None, b"");
    pattern.example(tally, Some(b"b"), b"", b"d", 64);
    pattern.example(tally, None, b"zz", b"", 0);
}
