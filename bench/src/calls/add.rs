//! Adding blocks, one after the other.

use std::hint::black_box;

use rosmarel::{Builder, Version};
use tantivy_sstable::{Builder as _, access};

use super::{Call, Family, Plots, Whose};
use crate::ffi;
use crate::inputs::{Input, areas, our_builder, theirs};
use crate::measure::{making, side};
use crate::plot::Scale;
use crate::report::{Report, Row};

pub const FAMILY: Family = Family {
    calls: &[ADD, CRATE],
    measure,
    measure_v4: None,
};

const ADD: Call = Call {
    what: "add",
    ours: "`rosmarel_add` of n blocks into areas that are there",
    with: "`SSTableIndexBuilder::add_block` of the same blocks into a new builder",
    whose: Whose::Tantivy,
    says: "All of it is tantivy's code. It checks nothing, allocates each key, and lets its list grow.",
    scale: Scale::Time,
    plots: Plots::One,
};

const CRATE: Call = Call {
    what: "Builder::add_block",
    ours: "`Builder::add_block` of bindings/rust, n blocks into a new builder, whose areas grow",
    with: "`SSTableIndexBuilder::add_block` of the same blocks into a new builder",
    whose: Whose::Tantivy,
    says: "All of it is tantivy's code. It checks nothing.",
    scale: Scale::Time,
    plots: Plots::None,
};

/// Adds in one piece of work, at least.
const ADDS: usize = 512;

fn measure(report: &mut Report, input: &Input) {
    let lent = Row::new(ADD.what, input.kind.name(), input.n);
    let grown = Row::new(CRATE.what, input.kind.name(), input.n);
    if report.wants(&lent) {
        measure_lent(report, input, lent);
    }
    if report.wants(&grown) {
        measure_grown(report, input, grown);
    }
}

fn rust(input: &Input) -> access::Builder {
    let mut builder = access::Builder::default();
    for (key, &block) in black_box(&input.keys).iter().zip(&input.blocks) {
        builder.add_block(key, theirs(block));
    }
    builder
}

fn measure_lent(report: &mut Report, input: &Input, row: Row) {
    let (mut numbers, mut bytes) = areas(&input.keys, &input.blocks);
    if report.first_pass() {
        // the Rust's builder wrote the input's index
        let mut out = vec![0; input.index.len()];
        ffi::finish(3, input.n as u64, &numbers, &bytes, &mut out).unwrap();
        assert!(out == input.index);
    }
    let batch = ADDS.div_ceil(input.n);
    let ours = side(|| {
        for _ in 0..batch {
            let mut n = 0;
            for (key, &block) in black_box(&input.keys).iter().zip(&input.blocks) {
                ffi::add(&mut n, &mut numbers, &mut bytes, key, block).unwrap();
            }
            black_box(n);
        }
    });
    let rust = making(batch, || rust(input));
    report.measure(row, vec![("ours", ours), ("Rust", rust)], batch * input.n);
}

fn measure_grown(report: &mut Report, input: &Input, row: Row) {
    if report.first_pass() {
        let index = our_builder(&input.keys, &input.blocks)
            .finish(Version::V3)
            .unwrap();
        assert!(index == input.index);
    }
    let batch = ADDS.div_ceil(input.n);
    let ours = making(batch, || {
        let mut builder = Builder::new();
        for (key, &block) in black_box(&input.keys).iter().zip(&input.blocks) {
            builder.add_block(key, block).unwrap();
        }
        builder
    });
    let rust = making(batch, || rust(input));
    report.measure(row, vec![("ours", ours), ("Rust", rust)], batch * input.n);
}
