//! Opening an index, beside a plain pass over its bytes and beside the Rust's.

use std::hint::black_box;

use common::OwnedBytes;
use tantivy_sstable::{Index as _, Rust, V3, V4, access};

use super::{Call, Family, IN_V4, Plots, Whose, in_version};
use crate::ffi;
use crate::inputs::Input;
use crate::measure::side;
use crate::plot::Scale;
use crate::report::{Report, Row};

pub const FAMILY: Family = Family {
    calls: &[PASS, PASS_V4, LOAD],
    measure,
    measure_v4: Some(measure_pass::<V4>),
};

pub const PASS: Call = Call {
    what: "opening",
    ours: "`rosmarel_open` with the least number of terms",
    with: "a plain pass that sums the file's bytes",
    whose: Whose::Ours,
    says: "The pass is ours: the ratio says nothing of tantivy.",
    scale: Scale::Speed,
    plots: Plots::One,
};

const PASS_V4: Call = Call {
    what: "opening, version 4",
    says: IN_V4,
    plots: Plots::None,
    ..PASS
};

const LOAD: Call = Call {
    what: "opening beside load",
    ours: "`rosmarel_open`, which looks at every key and block and holds the number of terms against the last one",
    with: "`SSTableIndexV3::load`, which looks at neither and takes no number of terms",
    whose: Whose::Both,
    says: "The work isn't equal, so there is no ratio. The Rust's time is mostly that of our stand-ins, which read two lengths.",
    scale: Scale::Time,
    plots: Plots::None,
};

/// The sum of all bytes. The compiler vectorises a sum of 32 bits; one of 64 it doesn't, for this processor.
#[inline(never)]
fn sum(bytes: &[u8]) -> u64 {
    let part = |part: &[u8]| part.iter().map(|&byte| u32::from(byte)).sum::<u32>();
    bytes
        .chunks(65_536)
        .map(|bytes| u64::from(part(bytes)))
        .sum()
}

/// The same, a byte at a time.
#[inline(never)]
fn scalar_sum(bytes: &[u8]) -> u64 {
    bytes.iter().map(|&byte| u64::from(byte)).sum()
}

fn open(input: &Input) -> ffi::Opened {
    let (version, terms) = (input.version(), input.least_terms());
    let (version, terms, index) = black_box((version, terms, &input.index));
    ffi::open(version, terms, index).unwrap()
}

fn measure_pass<R: Rust>(report: &mut Report, input: &Input) {
    let call = in_version::<R>(&PASS, &PASS_V4);
    let row = Row::new(call.what, input.kind.name(), input.n).sized(input.index.len());
    if report.wants(&row) {
        let row = row.grouped(match (R::VERSION, input.kind.long()) {
            (4, true) => "opening, long keys, version 4",
            (4, false) => "opening, short keys, version 4",
            (_, true) => "opening, long keys",
            (_, false) => "opening, short keys",
        });
        // half the speed of the pass
        let row = if input.kind.long() {
            row.held(2.0)
        } else {
            row
        };
        beside_pass(report, input, row);
    }
}

fn measure(report: &mut Report, input: &Input) {
    measure_pass::<V3>(report, input);
    let row = Row::new(LOAD.what, input.kind.name(), input.n).unequal();
    if report.wants(&row) {
        beside_load(report, input, row);
    }
}

fn beside_pass(report: &mut Report, input: &Input, row: Row) {
    if report.first_pass() {
        assert_eq!(sum(&input.index), scalar_sum(&input.index));
    }
    let sides = vec![
        ("ours", side(|| open(input))),
        ("plain pass", side(|| sum(black_box(&input.index)))),
        ("scalar pass", side(|| scalar_sum(black_box(&input.index)))),
    ];
    report.measure(row, sides, 1);
}

fn beside_load(report: &mut Report, input: &Input, row: Row) {
    let shared = OwnedBytes::new(input.index.clone());
    let ours = side(|| open(input));
    let rust = side(|| access::Index::load(black_box(&shared).clone()));
    report.measure(row, vec![("ours", ours), ("Rust", rust)], 1);
}
