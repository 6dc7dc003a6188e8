//! Examples by the kinds of model::kinds: ties of every two parts of an interval, long ones, and states that are met again.

use model::kinds::KINDS;
use model::numbers::Numbers;
use model::patterns::many;
use model::settings::MOST_STATES;
use model::tied::{self, ALPHABETS, few_rows, interval, round_interval, rounds, steps};

use super::super::keys;
use super::{every_interval, every_table, with_rooms};
use crate::calls::intervals::Pattern;
use crate::tally::Tally;

/// How often each kind comes up in this topic, or more often.
const LEAST: u64 = 1_000;

pub fn run(tally: &mut Tally) {
    every_edge(tally);
    tied(tally, 4_000);
    again(tally, 9_000);
    full(tally, 2_000);
    tally.check_kinds(&KINDS, LEAST);
}

/// Every table of two states that tells 00, FF and the bytes between them apart.
fn every_edge(tally: &mut Tally) {
    tally.section("automata: every one of two states over 00, FF and what is between");
    for table in every_table(2, &[0x01, 0xff]) {
        let keys = keys::all(&[0x00, 0x01, 0xfe, 0xff], 2);
        every_interval(tally, &Pattern::of(&table), &keys);
    }
}

/// Tables in which many bytes come as near, over keys of few bytes.
fn tied(tally: &mut Tally, count: usize) {
    tally.section("automata: several strings as short, runs of FF and 00, start just below end");
    let mut rng = Numbers::from_seed(151);
    for round in 0..count {
        let bytes = ALPHABETS[round % ALPHABETS.len()];
        let m = many(&mut rng, round / 2);
        let table = if round % 2 == 0 {
            few_rows(&mut rng, m, bytes)
        } else {
            steps(&mut rng, m, bytes)
        };
        let pattern = Pattern::of(&table);
        for _ in 0..12 {
            let longest = rng.pick(&[2, 4, 9, 40]);
            let keys = interval(&mut rng, bytes, longest);
            with_rooms(tally, &mut rng, &pattern, &keys);
        }
    }
}

/// Keys of up to some hundred bytes that go round in some states.
fn again(tally: &mut Tally, count: u64) {
    tally.section("automata: keys that meet the same states again, with other bytes");
    let mut rng = Numbers::from_seed(152);
    for round in 0..count {
        let table = rounds(&mut rng, MOST_STATES, round % 3);
        let pattern = Pattern::of(&table);
        for _ in 0..10 {
            let longest = rng.pick(&[6, 30, 60, 300]);
            let keys = round_interval(&mut rng, longest);
            with_rooms(tally, &mut rng, &pattern, &keys);
        }
    }
}

/// All bytes lead on through all states, and the example takes the longer key's length and 64 bytes.
fn full(tally: &mut Tally, count: usize) {
    tally.section("automata: examples of the longer key and 64 bytes");
    let mut rng = Numbers::from_seed(153);
    for way in 0..count {
        let longest = rng.pick(&[3, 70, 300]);
        let (keys, table) = tied::full(&mut rng, way, longest);
        with_rooms(tally, &mut rng, &Pattern::of(&table), &keys);
    }
}
