//! A block by an ordinal.

use std::hint::black_box;

use tantivy_sstable::{Rust, Store as _, V3, V4};

use super::by_id::{QUESTIONS, store};
use super::{Call, Family, IN_V4, Plots, Whose, in_version};
use crate::ffi;
use crate::inputs::{Input, Keys, Numbers, theirs};
use crate::measure::side;
use crate::plot::Scale;
use crate::report::{Report, Row};

pub const FAMILY: Family = Family {
    calls: &[BY_ORDINAL, BY_ORDINAL_V4],
    measure: measure::<V3>,
    measure_v4: Some(measure::<V4>),
};

const BY_ORDINAL: Call = Call {
    what: "get by ordinal",
    ours: "`rosmarel_locate_with_ord`",
    with: "`BlockAddrStore::binary_search_ord`",
    whose: Whose::Both,
    says: "All that is worked out is tantivy's code; the container that hands it the bytes is a stand-in of ours. The Rust has no \
           number of terms and gives the last block for any ordinal past it; all ordinals asked for lie below it, where both sides \
           find the same.",
    scale: Scale::Time,
    plots: Plots::One,
};

const BY_ORDINAL_V4: Call = Call {
    what: "get by ordinal, version 4",
    says: IN_V4,
    plots: Plots::None,
    ..BY_ORDINAL
};

/// Ordinals below the number of terms.
fn measure<R: Rust>(report: &mut Report, input: &Input) {
    let call = in_version::<R>(&BY_ORDINAL, &BY_ORDINAL_V4);
    let row = Row::new(call.what, input.kind.name(), input.n).held(1.0);
    // no key is looked at
    if input.kind != Keys::Short || !report.wants(&row) {
        return;
    }
    let mut numbers = Numbers(2);
    let terms = input.terms() as usize;
    let ords: Vec<u64> = (0..QUESTIONS)
        .map(|_| numbers.below(terms) as u64)
        .collect();
    let store = store::<R>(input);
    if report.first_pass() {
        for &ord in &ords {
            let (id, block) = ffi::locate_with_ord(&input.index, &input.opened, ord).unwrap();
            assert_eq!(store.binary_search_ord(ord), (id, theirs(block)));
        }
    }
    let ours = side(|| {
        let (index, opened) = black_box((&input.index[..], &input.opened));
        for &ord in &ords {
            let _ = black_box(ffi::locate_with_ord(index, opened, ord));
        }
    });
    let rust = side(|| {
        let store = black_box(&store);
        for &ord in &ords {
            black_box(store.binary_search_ord(ord));
        }
    });
    report.measure(row, vec![("ours", ours), ("Rust", rust)], QUESTIONS);
}
