//! Calls of the builder.

use model::areas::{Areas, MARK, by_rule};
use model::blocks::block;
use model::settings::{MOST_BLOCKS, STRIDE};
use model::sums::remainder;

use super::Words;
use crate::calls::builder::Builder;
use crate::calls::building::{ADD, FINISH, SHORTEN};
use crate::tally::Tally;

pub fn run(tally: &mut Tally, lines: &[&str]) {
    let mut builder = Builder::fresh(0, 0);
    for line in lines {
        let (letter, mut words) = Words::new(line);
        match letter {
            "n" => {
                let [room, key_room] = words.numbers().map(|number| number as usize);
                builder = Builder::fresh(room, key_room);
            }
            "r" => {
                let [n, count] = words.numbers();
                let blocks = (0..count).map(|_| words.number()).collect();
                let keys = words.bytes();
                builder = Builder::raw(Areas { n, blocks, keys });
            }
            "m" | "h" => large(tally, letter, &mut words),
            _ => call(tally, &mut builder, letter, &mut words),
        }
    }
}

fn call(tally: &mut Tally, builder: &mut Builder, letter: &str, words: &mut Words) {
    match letter {
        "a" => {
            let [start, end, ord] = words.numbers();
            let key = words.bytes();
            let (got, due) = (
                builder.add(tally, block(start, end, ord), &key),
                words.number(),
            );
            words.hold(tally, &ADD, got, due);
        }
        "k" => {
            let next = words.bytes();
            let (got, due) = (builder.shorten(tally, &next), words.number());
            words.hold(tally, &SHORTEN, got, due);
        }
        // no call: what the calls before it have left
        "e" => {
            let (n, keys) = (words.number(), words.bytes());
            let entries = builder.areas.entries();
            let joined: Vec<u8> = entries.iter().flat_map(|entry| entry.1.clone()).collect();
            words.hold(tally, &SHORTEN, (entries.len() as u64, joined), (n, keys));
        }
        "f" => {
            let [version, room, no, total, directory] = words.numbers();
            let (got, bytes, len) = builder.finish_room(tally, version, room as usize);
            let got = (got, bytes.len() as u64, len, bytes);
            let due = (no, total, directory, words.bytes());
            words.hold(tally, &FINISH, got, due);
        }
        other => panic!("{other} isn't known"),
    }
}

/// Many adds by the rule, then one more add or a finish.
fn large(tally: &mut Tally, letter: &str, words: &mut Words) {
    let version = if letter == "h" { words.number() } else { 0 };
    let count = words.number();
    let mut builder = Builder::raw(Areas {
        n: 0,
        blocks: vec![u64::from_le_bytes([MARK; 8]); STRIDE * (MOST_BLOCKS + 1)],
        keys: vec![MARK; 4 * (MOST_BLOCKS + 1)],
    });
    for (block, key) in (0..count as u32).map(by_rule) {
        builder.add_unseen(tally, block, &key);
    }
    if letter == "m" {
        let [start, end, ord] = words.numbers();
        let key = words.bytes();
        let (got, due) = (
            builder.add(tally, block(start, end, ord), &key),
            words.number(),
        );
        return words.hold(tally, &ADD, got, due);
    }
    let [room, no, total, directory, rest] = words.numbers();
    let (got, bytes, len) = builder.finish_room(tally, version, room as usize);
    let got = [got, bytes.len() as u64, len, remainder(&bytes)];
    words.hold(tally, &FINISH, got, [no, total, directory, rest]);
}
