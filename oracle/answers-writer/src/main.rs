//! Writes the lists of answers, and the folder of files, into the folder that it is given; with `--stores SEED` it prints a list of
//! other stores.

mod addresses;
mod batches;
mod calls;
mod damaged_lists;
mod folder;
mod indexes;
mod intervals;
mod leaves;
mod list_bytes;
mod listings;
mod other_versions;
mod patterns;
mod refused;
mod refused_tables;
mod replayed;
mod replays;
mod stores;
mod text;
mod worked;

use std::path::Path;
use std::{env, fs};

/// A text that has no byte of room in a program's area isn't replayed.
const LONGEST_TEXT: usize = 655_359;

fn main() {
    let folder = env::args().nth(1).expect("the folder to write to");
    if folder == "--stores" {
        let seed = env::args()
            .nth(2)
            .and_then(|word| word.parse().ok())
            .expect("a seed");
        print!("{}", stores::list_from(seed, seed + 1));
        return;
    }
    worked::check();
    let (replays, answers) = replays::lists();
    // the lists of one entry are one text for the program that replays them
    let texts = [
        vec![("leaves.txt", leaves::list())],
        vec![
            ("stores.txt", stores::list()),
            ("addresses.txt", addresses::list()),
        ],
        vec![("calls.txt", calls::list())],
        vec![
            ("indexes.txt", indexes::list()),
            ("batches.txt", batches::list()),
        ],
        vec![("patterns.txt", patterns::list())],
        vec![("replays.txt", replays)],
        vec![("replayed.txt", answers)],
    ];
    for lists in texts {
        let len: usize = lists.iter().map(|list| list.1.len()).sum();
        for (name, list) in lists {
            assert!(
                len <= LONGEST_TEXT,
                "{name} with what it is joined to has {len} bytes"
            );
            fs::write(Path::new(&folder).join(name), &list).expect("the folder can be written to");
        }
    }
    folder::write(Path::new(&folder));
}
