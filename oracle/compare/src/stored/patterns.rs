//! Automata, and the calls that take one.

use model::opening::Opened;
use model::version::V3;

use super::Words;
use crate::calls::intervals::{CAN_BLOCK_MATCH, EXAMPLE, Pattern};
use crate::calls::listing::LIST;
use crate::calls::opened::{self, File, OPEN};
use crate::tally::Tally;

pub fn run(tally: &mut Tally, lines: &[&str]) {
    let mut pattern = Pattern::new(&[]);
    let mut file = opened::open(tally, V3, &[]);
    for line in lines {
        let (letter, mut words) = Words::new(line);
        match letter {
            "t" | "w" | "r" | "d" | "c" | "n" => {
                pattern = Pattern::new(&automaton(letter, &mut words, &pattern.bytes));
            }
            "f" => {
                let (version, number) = words.version();
                file = opened::open(tally, version, &words.bytes());
                file.reopen_as(tally, number, u64::MAX);
                let (got, due) = (file.n(), words.number());
                words.hold(tally, &OPEN, got, due);
            }
            "m" => file.set_record(Opened::of(words.numbers())),
            "b" | "e" => interval(tally, &pattern, letter, &mut words),
            _ => list(tally, &file, &pattern, letter, &mut words),
        }
    }
}

/// The next automaton; `old` are the bytes of the last one.
fn automaton(letter: &str, words: &mut Words, old: &[u8]) -> Vec<u8> {
    let mut bytes = old.to_vec();
    match letter {
        "t" => return words.bytes(),
        "n" => bytes.truncate(words.number() as usize),
        "c" => {
            let (at, part) = (words.number() as usize, words.bytes());
            bytes.resize(bytes.len().max(at + part.len()), 0);
            bytes[at..at + part.len()].copy_from_slice(&part);
        }
        _ => {
            let flags = words.bytes();
            let next = next_states(letter, words, flags.len());
            bytes = [&[flags.len() as u8], &flags[..], &next].concat();
        }
    }
    bytes
}

fn next_states(letter: &str, words: &mut Words, m: usize) -> Vec<u8> {
    if letter == "w" {
        let runs = words.bytes();
        let run = |run: &[u8]| vec![run[1]; usize::from(run[0]) + 1];
        return runs.chunks(2).flat_map(run).collect();
    }
    if letter == "r" {
        let [a, c, d] = words.numbers().map(|number| number as usize);
        let next = |i: usize| ((i / 256 * a + c + i % 256 / d) % m) as u8;
        return (0..256 * m).map(next).collect();
    }
    let [mut x, k] = words.numbers();
    let mut next = vec![m as u8 - 1; 256 * m];
    for state in &mut next[..256 * (m - 1)] {
        x = (x * 1_103_515_245 + 12_345) % (1 << 31);
        let v = x / 65_536;
        *state = if v % 256 < k {
            m as u8 - 1
        } else {
            (v / 256 % m as u64) as u8
        };
    }
    next
}

fn interval(tally: &mut Tally, pattern: &Pattern, letter: &str, words: &mut Words) {
    let has = words.number() == 1;
    let (given, end) = (words.bytes(), words.bytes());
    let start = has.then_some(&given[..]);
    if letter == "b" {
        let got = pattern.block(tally, start, &given, &end);
        let due = (words.number(), words.number());
        return words.hold(tally, &CAN_BLOCK_MATCH, got, due);
    }
    let got = pattern.example(tally, start, &given, &end, words.number() as usize);
    let due = (words.number(), words.bytes());
    words.hold(tally, &EXAMPLE, got, due);
}

fn list(tally: &mut Tally, file: &File, pattern: &Pattern, letter: &str, words: &mut Words) {
    let room = words.number() as usize;
    let (no, count, mut marks) = file.list(tally, pattern, room);
    if letter == "l" {
        let due = (words.number(), words.number(), words.bytes());
        marks.truncate(due.2.len());
        words.hold(tally, &LIST, (no, count, marks), due);
    }
}
