//! The check whether an index is the one that finish writes, beside opening and finish.

use std::hint::black_box;

use tantivy_sstable::{Rust, V3, V4};

use super::{Call, Family, IN_V4, Plots, Whose, in_version};
use crate::ffi;
use crate::inputs::{Input, areas};
use crate::measure::side;
use crate::plot::Scale;
use crate::report::{Report, Row};

pub const FAMILY: Family = Family {
    calls: &[CHECK, CHECK_V4],
    measure: measure::<V3>,
    measure_v4: Some(measure::<V4>),
};

const CHECK: Call = Call {
    what: "check canonical",
    ours: "`rosmarel_check_canonical` of a canonical index",
    with: "three times `rosmarel_open` of that index and `rosmarel_finish` of its blocks and keys",
    whose: Whose::Ours,
    says: "Both sides are ours, and tantivy has no such call. Opening and finish are what the check would take if it were made of them: \
           it may take three times as long, so its bar is 1. Speeds are bytes of the index by the time of all that a side does. Beside \
           it: opening alone.",
    scale: Scale::Speed,
    plots: Plots::One,
};

const CHECK_V4: Call = Call {
    what: "check canonical, version 4",
    says: IN_V4,
    plots: Plots::None,
    ..CHECK
};

/// How often the other side opens and finishes.
const TIMES: usize = 3;

fn measure<R: Rust>(report: &mut Report, input: &Input) {
    let call = in_version::<R>(&CHECK, &CHECK_V4);
    let row = Row::new(call.what, input.kind.name(), input.n).held(1.0);
    if !report.wants(&row) {
        return;
    }
    let index = &input.index[..];
    let (numbers, bytes) = areas(&input.keys, &input.blocks);
    let (n, terms) = (input.n as u64, input.least_terms());
    let mut out = vec![0; index.len()];
    if report.first_pass() {
        compare(R::VERSION, index);
        ffi::finish(R::VERSION, n, &numbers, &bytes, &mut out).unwrap();
        assert!(out == index);
    }
    let version = black_box(R::VERSION);
    let ours = side(|| ffi::check_canonical(version, black_box(index)).unwrap());
    let both = side(|| {
        for _ in 0..TIMES {
            let _ = black_box(ffi::open(version, terms, black_box(index)).unwrap());
            let (numbers, bytes) = black_box((&numbers[..], &bytes[..]));
            let out = black_box(&mut out);
            let _ = black_box(ffi::finish(version, n, numbers, bytes, out).unwrap());
        }
    });
    let opening = side(|| ffi::open(version, terms, black_box(index)).unwrap());
    let sides = vec![
        ("ours", ours),
        ("3 × (opening + finish)", both),
        ("opening", opening),
    ];
    report.measure(row.sized(index.len()), sides, 1);
}

/// The index is canonical, and isn't with a byte more behind its groups.
fn compare(version: u64, index: &[u8]) {
    assert_eq!(ffi::check_canonical(version, index), Ok(()));
    let mut more = index.to_vec();
    more.insert(index.len() - 8, 0);
    let refusal = ffi::check_canonical(version, &more).unwrap_err();
    assert_eq!(refusal.number(), 27);
}
