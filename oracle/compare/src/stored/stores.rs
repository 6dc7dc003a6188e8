//! Stores, and lookups in stores: these are made in an index that holds the store, opened with as many terms as there can be.

use model::blocks::{block, by_rule};
use model::files::File as Parts;
use model::rust::Block;
use model::sums::fnv;
use model::version::Version;

use super::Words;
use crate::calls::lookups::{GET_BLOCK, LOCATE_WITH_ORD};
use crate::calls::opened::{self, File};
use crate::calls::stores::{STORE, store, store_room};
use crate::tally::Tally;

pub fn run(tally: &mut Tally, lines: &[&str]) {
    for line in lines {
        let (letter, mut words) = Words::new(line);
        match letter {
            "s" => {
                let (version, _) = words.version();
                let blocks = blocks(&mut words);
                let got = store(tally, version, &blocks, &[0]);
                let due = words.bytes();
                words.hold(tally, &STORE, got, due);
            }
            "r" => {
                let [version, room, no] = words.numbers();
                let blocks = blocks(&mut words);
                let got = store_room(tally, version, &blocks, room as usize);
                words.hold(tally, &STORE, got, no);
            }
            "h" => {
                let (version, _) = words.version();
                let [seed, count, length, hash] = words.numbers();
                let got = store(tally, version, &by_rule(seed, count), &[0]);
                words.hold(tally, &STORE, (got.len() as u64, fnv(&got)), (length, hash));
            }
            _ => look_up(tally, letter, &mut words),
        }
    }
}

/// A count, and three numbers each.
fn blocks(words: &mut Words) -> Vec<Block> {
    let count = words.number();
    let block = |_| block(words.number(), words.number(), words.number());
    (0..count).map(block).collect()
}

/// No index has fewer than two blocks, and none has a term 2^64 - 1, so lookups in such stores and of that ordinal are left out.
fn look_up(tally: &mut Tally, letter: &str, words: &mut Words) {
    let (version, _) = words.version();
    let (bytes, n) = (words.bytes(), words.number());
    let asked = words.number();
    if n < 2 || letter == "o" && asked == u64::MAX {
        return;
    }
    let file = index(tally, version, &bytes, n);
    match letter {
        "i" => {
            let (got, due) = (file.id(tally, asked), (0, words.numbers()));
            words.hold(tally, &GET_BLOCK, got, due);
        }
        "u" => {
            let got = file.id(tally, asked);
            words.hold(tally, &GET_BLOCK, got, (17, [0; 3]));
        }
        "o" => {
            let (got, due) = (file.ord(tally, asked), (0, words.numbers()));
            words.hold(tally, &LOCATE_WITH_ORD, got, due);
        }
        other => panic!("{other} isn't known"),
    }
}

fn index(tally: &mut Tally, version: Version, store: &[u8], n: u64) -> File {
    let keys: Vec<Vec<u8>> = (0..n).map(|i| i.to_be_bytes()[5..].to_vec()).collect();
    let mut file = opened::open(tally, version, &Parts::new(&keys, store).bytes());
    file.reopen(tally, u64::MAX);
    file
}
