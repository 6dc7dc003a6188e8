//! Files that are opened, and lookups in them.

use model::batch::KeyList;
use model::files::by_rule;
use model::opening::Opened;
use model::version::{V3, Version};

use super::Words;
use crate::calls::batches::LOCATE_WITH_KEYS;
use crate::calls::lookups::{
    GET_BLOCK, GET_BLOCK_WITH_KEY, LOCATE_WITH_KEY, LOCATE_WITH_ORD, SEPARATOR,
};
use crate::calls::opened::{self, File, OPEN};
use crate::tally::Tally;

pub fn run(tally: &mut Tally, lines: &[&str]) {
    let mut file = opened::open(tally, V3, &[]);
    for line in lines {
        let (letter, mut words) = Words::new(line);
        match letter {
            "f" => {
                let (version, bytes) = (words.number(), words.bytes());
                file = open(tally, &mut words, version, &bytes);
            }
            "g" => {
                let (version, number) = words.version();
                let bytes = by_rule(version, words.number()).bytes();
                file = open(tally, &mut words, number, &bytes);
            }
            "c" => {
                let [version, at] = words.numbers();
                let (at, part) = (at as usize, words.bytes());
                let mut bytes = file.bytes.clone();
                bytes[at..at + part.len()].copy_from_slice(&part);
                open(tally, &mut words, version, &bytes);
            }
            "t" => {
                let version = words.number();
                reopen(tally, &mut words, version, &mut file)
            }
            "m" => file.set_record(Opened::of(words.numbers())),
            _ => look_up(tally, &file, letter, &mut words),
        }
    }
}

fn open(tally: &mut Tally, words: &mut Words, version: u64, bytes: &[u8]) -> File {
    let known = Version::of(version).unwrap_or(V3);
    let mut file = opened::open(tally, known, bytes);
    reopen(tally, words, version, &mut file);
    file
}

/// With the line's version and number of terms.
fn reopen(tally: &mut Tally, words: &mut Words, version: u64, file: &mut File) {
    let terms = words.number();
    let got = (file.reopen_as(tally, version, terms), file.numbers());
    let due = (words.number(), words.numbers());
    words.hold(tally, &OPEN, got, due);
}

/// Small letters have an answer, capitals are left free.
fn look_up(tally: &mut Tally, file: &File, letter: &str, words: &mut Words) {
    match letter {
        "i" => {
            let got = file.id(tally, words.number());
            let due = (words.number(), words.numbers());
            words.hold(tally, &GET_BLOCK, got, due);
        }
        "o" => {
            let got = file.ord(tally, words.number());
            let due = (words.number(), words.numbers());
            words.hold(tally, &LOCATE_WITH_ORD, got, due);
        }
        "k" => {
            let got = file.key(tally, &words.bytes());
            let due = (words.number(), words.numbers());
            words.hold(tally, &LOCATE_WITH_KEY, got, due);
        }
        "a" => {
            let got = file.address(tally, &words.bytes());
            let due = (words.number(), words.numbers());
            words.hold(tally, &GET_BLOCK_WITH_KEY, got, due);
        }
        "p" => {
            let got = file.separator(tally, words.number());
            let [found, offset, length] = words.numbers();
            let got = [u64::from(got != [0, 0]), got[0], got[1]];
            words.hold(tally, &SEPARATOR, got, [found, offset, length]);
        }
        "b" => {
            let (list, room) = batch(words);
            let (no, ids) = file.batch(tally, &list, room);
            let (due, entries) = (words.number(), words.rest());
            let front = if no == 0 { list.count() } else { 0 };
            words.hold(
                tally,
                &LOCATE_WITH_KEYS,
                (no, &ids[..front]),
                (due, &entries),
            );
        }
        "B" => {
            let (list, room) = batch(words);
            file.batch(tally, &list, room);
        }
        "I" => drop(file.id(tally, words.number())),
        "O" => drop(file.ord(tally, words.number())),
        "K" => drop(file.key(tally, &words.bytes())),
        "A" => drop(file.address(tally, &words.bytes())),
        "P" => drop(file.separator(tally, words.number())),
        other => panic!("{other} isn't known"),
    }
}

/// A list, and the room for its ids.
fn batch(words: &mut Words) -> (KeyList, usize) {
    let bytes = words.bytes();
    let (room, count) = (words.number() as usize, words.number());
    let pairs = (0..count).map(|_| words.number()).collect();
    (KeyList { pairs, bytes }, room)
}
