//! Differences that the cases met: the table refuses a call, and the Rust, asked all the same, panics or answers. Each kind must be
//! one that docs/DIFFERENCES.md lists; where the Rust refuses too there is none.

use std::collections::BTreeSet;

use crate::asked::Outside::{self, Answers, Panics, Refuses};
use crate::tally::Tally;

/// A call, its row, what the Rust does there, and the marks of the list that say so. Two kinds have no row of their own and point at
/// the nearest: a slice whose start falls below its group's first panics with overflow checks (D25 speaks of a gap alone), and
/// shorten's assertion also fails for a next key of over 1,024 bytes (D35 speaks of row 6).
const MET: &[(&str, u64, Outside, &[&str])] = &[
    ("shorten", 2, Panics, &["D35"]),
    ("shorten", 2, Answers, &["D49"]),
    ("shorten", 6, Panics, &["D35"]),
    ("finish", 9, Answers, &["D32"]),
    ("store", 3, Panics, &["D22"]),
    ("store", 3, Answers, &["D22", "D23", "D24"]),
    ("store", 4, Panics, &["D25"]),
    ("store", 4, Answers, &["D25"]),
    ("store", 5, Panics, &["D27"]),
    ("store", 5, Answers, &["D26", "D27"]),
    ("store", 7, Answers, &["D28"]),
    ("store", 9, Answers, &["D50"]),
    ("open", 10, Panics, &["D1", "D3", "D4"]),
    ("open", 11, Answers, &["D2"]),
    ("open", 12, Answers, &["D5", "D6", "D7", "D8"]),
    ("open", 14, Panics, &["D10"]),
    ("open", 14, Answers, &["D9", "D41", "D52", "D53", "D54"]),
    (
        "open",
        15,
        Answers,
        &["D11", "D12", "D13", "D14", "D15", "D42"],
    ),
    (
        "open",
        16,
        Answers,
        &[
            "D16", "D17", "D18", "D19", "D20", "D37", "D38", "D39", "D40",
        ],
    ),
    ("locate_with_ord", 18, Panics, &["D21"]),
    ("locate_with_ord", 29, Answers, &["D51"]),
];

/// `known` are the marks of the list.
pub fn hold(tally: &mut Tally, known: &BTreeSet<String>) {
    println!("the Rust where the table refuses a call:");
    for (call, row, outside, often) in tally.outside() {
        if outside == Refuses {
            println!("  {call} {row}: refuses too, {often} calls");
            continue;
        }
        let met = MET
            .iter()
            .find(|met| (met.0, met.1, met.2) == (call, row, outside));
        let marks = met.map_or(&[][..], |met| met.3).join(" ");
        println!("  {call} {row}: {outside:?}, {often} calls: {marks}");
        let listed = met.is_some_and(|met| met.3.iter().all(|&mark| known.contains(mark)));
        tally.difference(listed, || {
            format!("{call} {row}: the Rust {outside:?}, and no listed difference says so")
        });
    }
}
