//! The stored lists of answers, which the gate replays, run through the library.

mod builders;
mod files;
mod indexes;
mod leaves;
mod patterns;
mod stores;

use std::fs;
use std::path::Path;

use model::version::{V3, Version};

use crate::calls::Call;
use crate::tally::Tally;

/// Runs every line of the lists that is a call of an exported function.
pub fn run(tally: &mut Tally, root: &Path) {
    let read = |list: &str| {
        let place = root.join("crates").join(list).join("stdin");
        fs::read_to_string(&place).unwrap_or_else(|why| panic!("{}: {why}", place.display()))
    };
    for (section, list, replay) in [
        (
            "stored: leaves",
            "leaf_vectors",
            leaves::run as fn(&mut Tally, &[&str]),
        ),
        ("stored: stores", "store_vectors", stores::run),
        ("stored: builders", "builder_vectors", builders::run),
        ("stored: indexes", "index_vectors", indexes::run),
        ("stored: patterns", "pattern_vectors", patterns::run),
    ] {
        tally.section(section);
        let text = read(list);
        let lines: Vec<&str> = text.lines().filter(|line| !line.starts_with('#')).collect();
        replay(tally, &lines);
    }
    files::run(tally, root);
}

/// The parts of a line after its letter: its numbers and its byte strings, each in turn.
struct Words<'a> {
    line: &'a str,
    numbers: std::vec::IntoIter<&'a str>,
    strings: std::vec::IntoIter<&'a str>,
}

impl<'a> Words<'a> {
    /// The letter, and what is after it.
    fn new(line: &'a str) -> (&'a str, Words<'a>) {
        let mut words = line.split(' ');
        let letter = words.next().expect("a letter");
        let (strings, numbers): (Vec<_>, Vec<_>) = words.partition(|word| word.starts_with('x'));
        let words = Words {
            line,
            numbers: numbers.into_iter(),
            strings: strings.into_iter(),
        };
        (letter, words)
    }

    fn number(&mut self) -> u64 {
        let word = self.numbers.next();
        let word = word.unwrap_or_else(|| panic!("{} is too short", self.line));
        word.parse()
            .unwrap_or_else(|_| panic!("no number in {}", self.line))
    }

    fn numbers<const N: usize>(&mut self) -> [u64; N] {
        std::array::from_fn(|_| self.number())
    }

    /// A version: 3 where there is no such one.
    fn version(&mut self) -> (Version, u64) {
        let number = self.number();
        (Version::of(number).unwrap_or(V3), number)
    }

    /// The numbers up to the line's end.
    fn rest(&mut self) -> Vec<u64> {
        let left = self.numbers.len();
        (0..left).map(|_| self.number()).collect()
    }

    fn bytes(&mut self) -> Vec<u8> {
        let word = self.strings.next();
        let word = word.unwrap_or_else(|| panic!("{} has no bytes", self.line));
        let digits = &word[1..];
        let byte = |i: usize| u8::from_str_radix(&digits[2 * i..2 * i + 2], 16).expect("hex");
        (0..digits.len() / 2).map(byte).collect()
    }

    /// The last call's answer must be the stored one.
    fn hold<T: PartialEq>(&self, tally: &mut Tally, call: &'static Call, got: T, stored: T) {
        tally.stored(call, got == stored, &self.line[..self.line.len().min(300)]);
    }
}
