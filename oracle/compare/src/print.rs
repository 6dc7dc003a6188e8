//! A print of a call and of all that it is given, so that the same call is counted once.

use std::collections::HashSet;
use std::hash::{BuildHasherDefault, Hasher};

use crate::calls::Call;

/// 64 bits of what was taken in so far.
#[derive(Clone, Copy, Debug)]
pub struct Print(u64);

/// Elements of a part.
pub trait Printed: Sized {
    fn word(part: &[Self]) -> u64;
    /// How many make a word.
    const WORD: usize;
}

impl Printed for u8 {
    const WORD: usize = 8;

    fn word(part: &[u8]) -> u64 {
        let mut bytes = [0; 8];
        bytes[..part.len()].copy_from_slice(part);
        u64::from_le_bytes(bytes)
    }
}

impl Printed for u64 {
    const WORD: usize = 1;

    fn word(part: &[u64]) -> u64 {
        part[0]
    }
}

impl Print {
    pub fn of(call: &'static Call) -> Print {
        Print::new().part(call.name.as_bytes())
    }

    pub fn new() -> Print {
        Print(0)
    }

    pub fn number(self, number: u64) -> Print {
        let folded =
            u128::from(number ^ 0x2d35_8dcc_aa6c_78a5) * u128::from(self.0 ^ 0x8bb8_4b93_962e_acc9);
        Print(folded as u64 ^ (folded >> 64) as u64)
    }

    pub fn numbers(self, numbers: &[u64]) -> Print {
        numbers
            .iter()
            .fold(self, |print, &number| print.number(number))
    }

    /// The length and the elements.
    pub fn part<T: Printed>(self, part: &[T]) -> Print {
        let print = self.number(part.len() as u64);
        part.chunks(T::WORD)
            .fold(print, |print, words| print.number(T::word(words)))
    }

    /// One of these, by what was taken in.
    pub fn turn(self, choices: &[u64]) -> u64 {
        choices[(self.0 >> 32) as usize % choices.len()]
    }

    /// What another print took in.
    pub fn and(self, other: Print) -> Print {
        self.number(other.0)
    }
}

/// The prints that there were.
#[derive(Default)]
pub struct Prints(HashSet<u64, BuildHasherDefault<Same>>);

impl Prints {
    /// Whether the print is new.
    pub fn add(&mut self, print: Print) -> bool {
        self.0.insert(print.0)
    }
}

/// A print is a hash already.
#[derive(Default)]
struct Same(u64);

impl Hasher for Same {
    fn write(&mut self, _: &[u8]) {
        unreachable!("prints are numbers");
    }

    fn write_u64(&mut self, number: u64) {
        self.0 = number;
    }

    fn finish(&self) -> u64 {
        self.0
    }
}
