//! The store of a list of blocks.

use std::hint::black_box;

use rosmarel::BlockAddr;
use tantivy_sstable::{Block, Rust, V3, V4};

use super::{Call, Family, IN_V4, Plots, Whose, in_version};
use crate::ffi;
use crate::inputs::{Input, Keys, Steps, theirs};
use crate::measure::side;
use crate::plot::Scale;
use crate::report::{Report, Row};

pub const FAMILY: Family = Family {
    calls: &[STORE, STORE_V4],
    measure: measure::<V3>,
    measure_v4: Some(measure::<V4>),
};

const STORE: Call = Call {
    what: "store from a slice",
    ours: "`rosmarel_store` into a buffer that is used again and again",
    with: "`BlockAddrStoreWriter` over the same list of blocks, into a `Vec` that has the room and is used again",
    whose: Whose::Both,
    says: "Slopes and the loops are tantivy's code; the bit packer is a stand-in of ours.",
    scale: Scale::Time,
    plots: Plots::One,
};

const STORE_V4: Call = Call {
    what: "store from a slice, version 4",
    says: IN_V4,
    plots: Plots::None,
    ..STORE
};

fn measure<R: Rust>(report: &mut Report, input: &Input) {
    // a store has no keys
    if input.kind != Keys::Short {
        return;
    }
    let call = in_version::<R>(&STORE, &STORE_V4);
    for steps in Steps::ALL {
        let row = Row::new(call.what, steps.name(), input.n).held(1.0);
        if report.wants(&row) {
            of_list::<R>(report, &steps.blocks(input.n), row);
        }
    }
}

fn of_list<R: Rust>(report: &mut Report, blocks: &[BlockAddr], row: Row) {
    let rust_blocks: Vec<Block> = blocks.iter().map(|&block| theirs(block)).collect();
    let mut rust_out = Vec::new();
    R::append_store(&rust_blocks, &mut rust_out);
    let mut out = vec![0; rust_out.len()];
    if report.first_pass() {
        ffi::store(R::VERSION, blocks, &mut out).unwrap();
        assert!(out == rust_out);
    }
    let row = row.sized(out.len());
    let ours = side(|| {
        let (version, blocks) = black_box((R::VERSION, blocks));
        ffi::store(version, blocks, black_box(&mut out)).unwrap()
    });
    let rust = side(|| {
        rust_out.clear();
        R::append_store(black_box(&rust_blocks), &mut rust_out);
        black_box(&mut rust_out);
    });
    report.measure(row, vec![("ours", ours), ("Rust", rust)], 1);
}
