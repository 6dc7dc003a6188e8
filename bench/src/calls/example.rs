//! An example of a key of a pattern: in a block, and between keys of one's own.

use std::hint::black_box;

use super::listing::of_size;
use super::{Call, Family, Plots, Whose};
use crate::ffi;
use crate::inputs::{Input, Keys, Numbers};
use crate::measure::side;
use crate::patterns::{Table, dense_64, length_64, patterns_for, two_rings};
use crate::plot::Scale;
use crate::report::{Report, Row};
use crate::search;

pub const FAMILY: Family = Family {
    calls: &[EXAMPLE, OWN_KEYS],
    measure,
    measure_v4: None,
};

const EXAMPLE: Call = Call {
    what: "example",
    ours: "`rosmarel_example` for random blocks that have one; a row without figures has none among those tried",
    with: "a plain search for the same string, bench/src/search.rs",
    whose: Whose::Ours,
    says: "Both sides are ours, and the Rust has no such call. The search goes breadth first over states and bounds, tries no state and \
           byte twice along the keys, and allocates nothing. Both sides check the table and work out which states can match inside the \
           time.",
    scale: Scale::Time,
    plots: Plots::Lines,
};

const OWN_KEYS: Call = Call {
    what: "example, own keys",
    ours: "`rosmarel_example` between two keys that no index has",
    says: "As above, but n is the length of both keys. \"None\" has no example, and in \"late\" it is found in the last place of the start \
           or of the end; \"ties\" are strings of 63 bytes, one at each place of the start, of which the last place has the lowest.",
    plots: Plots::None,
    ..EXAMPLE
};

/// Blocks that are tried.
const TRIED: usize = 64;

/// Above the first key, if it is there, and not above the second.
type Interval<'a> = (Option<&'a [u8]>, &'a [u8]);

fn measure(report: &mut Report, input: &Input) {
    if !of_size(report, input) {
        return;
    }
    for (name, table) in patterns_for(input) {
        let load = format!("{}, {name}", input.kind.name());
        let row = Row::new(EXAMPLE.what, &load, input.n);
        if report.wants(&row) {
            of_blocks(report, input, &table, row);
        }
    }
    // no key of the index is looked at
    if input.kind == Keys::Short {
        for (load, table, [start, end]) in own_keys(input.n) {
            let row = Row::new(OWN_KEYS.what, load, input.n);
            if report.wants(&row) {
                has_one((Some(&start), &end), &table);
                of_intervals(report, &[(Some(&start), &end)], &table, row);
            }
        }
    }
}

fn of_blocks(report: &mut Report, input: &Input, table: &[u8], row: Row) {
    let mut numbers = Numbers(4);
    let intervals: Vec<Interval> = (0..TRIED)
        .map(|_| numbers.below(input.n))
        .map(|id| {
            let before = id.checked_sub(1);
            (before.map(|id| &input.keys[id][..]), &input.keys[id][..])
        })
        .filter(|&interval| has_one(interval, table))
        .collect();
    if !intervals.is_empty() {
        of_intervals(report, &intervals, table, row);
    }
}

/// A workload's name, its table, and two keys.
type OwnKeys = (&'static str, Vec<u8>, [Vec<u8>; 2]);

/// Between keys of n bytes.
fn own_keys(n: usize) -> Vec<OwnKeys> {
    let key = |first: u8, last: u8| [&[first][..], &vec![b'm'; n - 2], &[last]].concat();
    // nothing leaves the start above itself, and nothing follows z
    let none = || [key(b'a', b'z'), key(b'b', b'm')];
    let late_start = || [key(b'a', b'm'), key(b'b', b'm')];
    let late_end = || [key(b'a', b'z'), key(b'b', 0x7f)];
    vec![
        ("none (5)", two_rings(1), none()),
        ("none (63)", two_rings(30), none()),
        ("late in the start (5)", two_rings(1), late_start()),
        ("late in the start (63)", two_rings(30), late_start()),
        ("late in the end (5)", two_rings(1), late_end()),
        ("late in the end (63)", two_rings(30), late_end()),
        ("ties (64)", length_64(), [key(b'm', b'm'), key(b'z', b'z')]),
        (
            "at once (64)",
            dense_64(),
            [key(b'm', b'm'), key(b'z', b'z')],
        ),
    ]
}

/// The most that an example has beyond the longer key.
const BEYOND: usize = 64;

fn room(intervals: &[Interval]) -> Vec<u8> {
    let lens = intervals
        .iter()
        .flat_map(|(start, end)| [start.map_or(0, <[u8]>::len), end.len()]);
    vec![0; lens.max().unwrap_or(0) + BEYOND]
}

/// Whether the interval has an example; if so, ours is the string that the plain search finds.
fn has_one(interval: Interval, table: &[u8]) -> bool {
    let mut out = room(&[interval]);
    let mut plain_out = out.clone();
    let (start, end) = interval;
    let ours = ffi::example(start, end, table, &mut out).ok();
    let plain = search::first(start, end, &Table::read(table).unwrap(), &mut plain_out);
    assert_eq!(ours, plain);
    assert!(out == plain_out);
    ours.is_some()
}

fn of_intervals(report: &mut Report, intervals: &[Interval], table: &[u8], row: Row) {
    let mut out = room(intervals);
    let mut plain_out = out.clone();
    let ours = side(|| {
        for &(start, end) in black_box(intervals) {
            let _ = black_box(ffi::example(start, end, black_box(table), &mut out));
            black_box(&out);
        }
    });
    let plain = side(|| {
        for &(start, end) in black_box(intervals) {
            let automaton = Table::read(black_box(table)).unwrap();
            black_box(search::first(start, end, &automaton, &mut plain_out));
            black_box(&plain_out);
        }
    });
    let sides = vec![("ours", ours), ("plain search", plain)];
    report.measure(row, sides, intervals.len());
}
