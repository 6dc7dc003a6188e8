//! A block by its id.

use std::hint::black_box;

use tantivy_sstable::{Rust, Store as _, V3, V4};

use super::{Call, Family, IN_V4, Plots, Whose, in_version};
use crate::ffi;
use crate::inputs::{Input, Keys, Numbers, theirs};
use crate::measure::side;
use crate::plot::Scale;
use crate::report::{Report, Row};

pub const FAMILY: Family = Family {
    calls: &[BY_ID, BY_ID_V4],
    measure: measure::<V3>,
    measure_v4: Some(measure::<V4>),
};

const BY_ID: Call = Call {
    what: "get by id",
    ours: "`rosmarel_get_block`",
    with: "`BlockAddrStore::get`",
    whose: Whose::Both,
    says: "All that is worked out is tantivy's code; the container that hands it the bytes is a stand-in of ours.",
    scale: Scale::Time,
    plots: Plots::One,
};

const BY_ID_V4: Call = Call {
    what: "get by id, version 4",
    says: IN_V4,
    plots: Plots::None,
    ..BY_ID
};

/// Questions in one piece of work, made beforehand.
pub const QUESTIONS: usize = 4_096;

/// The store of the index, open on the Rust's side.
pub fn store<R: Rust>(input: &Input) -> R::Store {
    let end = input.index.len() - 8;
    R::Store::open(&input.index[input.opened[2] as usize..end])
}

fn measure<R: Rust>(report: &mut Report, input: &Input) {
    let call = in_version::<R>(&BY_ID, &BY_ID_V4);
    let row = Row::new(call.what, input.kind.name(), input.n).held(1.0);
    // no key is looked at
    if input.kind != Keys::Short || !report.wants(&row) {
        return;
    }
    let mut numbers = Numbers(1);
    let ids: Vec<u64> = (0..QUESTIONS)
        .map(|_| numbers.below(input.n) as u64)
        .collect();
    let store = store::<R>(input);
    if report.first_pass() {
        for &id in &ids {
            let ours = ffi::get_block(&input.index, &input.opened, id).unwrap();
            assert_eq!(store.get(id), Some(theirs(ours)));
        }
    }
    let ours = side(|| {
        let (index, opened) = black_box((&input.index[..], &input.opened));
        for &id in &ids {
            let _ = black_box(ffi::get_block(index, opened, id));
        }
    });
    let rust = side(|| {
        let store = black_box(&store);
        for &id in &ids {
            black_box(store.get(id));
        }
    });
    report.measure(row, vec![("ours", ours), ("Rust", rust)], QUESTIONS);
}
