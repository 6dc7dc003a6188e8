//! The files of the folder vectors/, opened and checked, and what their questions say of numbers of terms.

use std::fs;
use std::path::Path;

use model::version::{V3, V4, Version};

use crate::calls::canonical::CHECK_CANONICAL;
use crate::calls::lookups::LOCATE_WITH_ORD;
use crate::calls::opened::{self, File, OPEN};
use crate::tally::Tally;

pub fn run(tally: &mut Tally, root: &Path) {
    tally.section("stored: files");
    let folder = root.join("crates/file_vectors/data");
    let read = |name: &str| {
        let place = folder.join(name);
        fs::read(&place).unwrap_or_else(|why| panic!("{}: {why}", place.display()))
    };
    let text = |name: &str| String::from_utf8(read(name)).expect("text");
    let args = root.join("crates/file_vectors/args");
    let args = fs::read_to_string(&args).unwrap_or_else(|why| panic!("{}: {why}", args.display()));
    for name in args.lines().filter_map(|arg| arg.strip_suffix(".index")) {
        let mut file = opened::open(tally, version(name), &read(&format!("{name}.index")));
        let expected = text(&format!("{name}.expected"));
        let refused = expected.strip_prefix("refused ").map(number);
        tally.stored(&OPEN, file.opening().no() == refused.unwrap_or(0), name);
        match refused {
            Some(no) => tally.stored(&CHECK_CANONICAL, file.checked == no, name),
            None => ask(tally, &mut file, name, &text(&format!("{name}.questions"))),
        }
    }
}

/// A file's name says its version.
fn version(name: &str) -> Version {
    match name.starts_with("v4-") {
        true => V4,
        false => V3,
    }
}

/// Asks what has to do with the version, the number of terms and the check.
fn ask(tally: &mut Tally, file: &mut File, name: &str, questions: &str) {
    let kinds = |kind: &str| questions.lines().any(|line| line.starts_with(kind));
    assert!(["t ", "o ", "c "].into_iter().all(kinds), "{name}");
    for line in questions.lines() {
        let about = format!("{name}: {line}");
        let (kind, rest) = line.split_once(' ').expect("a letter");
        let words: Vec<&str> = rest.split(' ').collect();
        match (kind, &words[..]) {
            ("t", [terms, no]) => {
                file.reopen(tally, number(terms));
                let got = file.opening().number(number(terms));
                tally.stored(&OPEN, got == number(no), &about);
            }
            ("v", [version, no]) => {
                let got = file.reopen_as(tally, number(version), u64::MAX);
                tally.stored(&OPEN, got == number(no), &about);
            }
            ("o", [terms, ord, no, id]) => {
                file.reopen(tally, number(terms));
                let (got, found) = file.ord(tally, number(ord));
                let same = (got, found[0]) == (number(no), number(id));
                tally.stored(&LOCATE_WITH_ORD, same, &about);
            }
            ("c", [no]) => tally.stored(&CHECK_CANONICAL, file.checked == number(no), &about),
            ("i" | "k", _) => {}
            _ => panic!("{about} isn't known"),
        }
    }
}

fn number(word: &str) -> u64 {
    word.trim_end().parse().expect("a number")
}
