//! A block by a key: its id alone, and with its address.

use std::hint::black_box;

use tantivy_sstable::{Index as _, Rust, V3, V4, access};

use super::by_id::QUESTIONS;
use super::{Call, Family, IN_V4, Plots, Whose, in_version};
use crate::ffi;
use crate::inputs::{Input, Numbers, theirs};
use crate::measure::side;
use crate::plot::Scale;
use crate::report::{Report, Row};

pub const FAMILY: Family = Family {
    calls: &[LOCATE, GET, GET_V4],
    measure,
    measure_v4: Some(measure_get::<V4>),
};

const LOCATE: Call = Call {
    what: "locate by key",
    ours: "`rosmarel_locate_with_key`",
    with: "`SSTableIndexV3::locate_with_key`",
    whose: Whose::Ours,
    says: "tantivy asks its FST; here that is a stand-in of ours, a sorted list that `partition_point` of Rust's library searches. \
           The ratio says nothing of tantivy. Beside it: the same search over a list of slices.",
    scale: Scale::Time,
    plots: Plots::One,
};

const GET: Call = Call {
    what: "get by key",
    ours: "`rosmarel_get_block_with_key`",
    with: "`SSTableIndexV3::get_block_with_key`",
    whose: Whose::Both,
    says: "The search is our stand-in's, as for locate by key; the address after it is worked out by tantivy's code.",
    scale: Scale::Time,
    plots: Plots::One,
};

const GET_V4: Call = Call {
    what: "get by key, version 4",
    says: IN_V4,
    plots: Plots::None,
    ..GET
};

fn measure(report: &mut Report, input: &Input) {
    let row = Row::new(LOCATE.what, input.kind.name(), input.n).held(1.0);
    if report.wants(&row) {
        locate(report, input, row);
    }
    measure_get::<V3>(report, input);
}

fn measure_get<R: Rust>(report: &mut Report, input: &Input) {
    let call = in_version::<R>(&GET, &GET_V4);
    let row = Row::new(call.what, input.kind.name(), input.n).held(1.0);
    if report.wants(&row) {
        get::<R>(report, input, row);
    }
}

/// Keys that some block may hold: separators, and every other one right after a separator.
pub fn wanted(input: &Input) -> Vec<Vec<u8>> {
    let mut numbers = Numbers(3);
    (0..QUESTIONS)
        .map(|i| match numbers.below(input.n) {
            id if i % 2 == 0 || id == 0 => input.keys[id].clone(),
            id => [&input.keys[id - 1][..], &[0]].concat(),
        })
        .collect()
}

fn locate(report: &mut Report, input: &Input, row: Row) {
    let keys = wanted(input);
    let rust_index = access::Index::open(&input.index);
    let list: Vec<&[u8]> = input.keys.iter().map(|key| &key[..]).collect();
    if report.first_pass() {
        for key in &keys {
            let id = ffi::locate_with_key(&input.index, &input.opened, key).unwrap();
            assert_eq!(rust_index.locate_with_key(key), Some(id));
            assert_eq!(list.partition_point(|one| *one < &key[..]) as u64, id);
        }
    }
    let ours = side(|| {
        let (index, opened) = black_box((&input.index[..], &input.opened));
        for key in &keys {
            let _ = black_box(ffi::locate_with_key(index, opened, key));
        }
    });
    let rust = side(|| {
        let index = black_box(&rust_index);
        for key in &keys {
            black_box(index.locate_with_key(key));
        }
    });
    let slices = side(|| {
        let list = black_box(&list[..]);
        for key in &keys {
            black_box(list.partition_point(|one| *one < &key[..]));
        }
    });
    let sides = vec![("ours", ours), ("Rust", rust), ("list of slices", slices)];
    report.measure(row, sides, QUESTIONS);
}

fn get<R: Rust>(report: &mut Report, input: &Input, row: Row) {
    let keys = wanted(input);
    let rust_index = R::Index::open(&input.index);
    if report.first_pass() {
        for key in &keys {
            let (_, block) = ffi::get_block_with_key(&input.index, &input.opened, key).unwrap();
            assert_eq!(rust_index.get_block_with_key(key), Some(theirs(block)));
        }
    }
    let ours = side(|| {
        let (index, opened) = black_box((&input.index[..], &input.opened));
        for key in &keys {
            let _ = black_box(ffi::get_block_with_key(index, opened, key));
        }
    });
    let rust = side(|| {
        let index = black_box(&rust_index);
        for key in &keys {
            black_box(index.get_block_with_key(key));
        }
    });
    report.measure(row, vec![("ours", ours), ("Rust", rust)], QUESTIONS);
}
