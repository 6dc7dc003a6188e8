//! Shortened keys and common prefixes. The other lines are about functions that aren't exported.

use super::Words;
use crate::calls::building::SHORTEN;
use crate::calls::keys::{COMMON_PREFIX_LEN, common_prefix_len};
use crate::cases::keys::one_key;
use crate::tally::Tally;

pub fn run(tally: &mut Tally, lines: &[&str]) {
    for line in lines {
        let (letter, mut words) = Words::new(line);
        match letter {
            "s" => {
                let (left, right, short) = (words.bytes(), words.bytes(), words.bytes());
                let mut builder = one_key(&left, 2, 3);
                builder.shorten(tally, &right);
                words.hold(tally, &SHORTEN, builder.areas.entry(0).1, short);
            }
            "c" => {
                let (left, right) = (words.bytes(), words.bytes());
                let got = common_prefix_len(tally, &left, &right);
                let due = words.number();
                words.hold(tally, &COMMON_PREFIX_LEN, got, due);
            }
            _ => {}
        }
    }
}
