//! Writing the whole index.

use std::hint::black_box;

use rosmarel::{BlockAddr, Version};
use tantivy_sstable::{Builder as _, Rust, V3, V4};

use super::{Call, Family, IN_V4, Plots, Whose, in_version};
use crate::ffi;
use crate::inputs::{Input, Keys, Steps, areas, our_builder, rust_builder};
use crate::measure::side;
use crate::plot::Scale;
use crate::report::{Report, Row};

pub const FAMILY: Family = Family {
    calls: &[FINISH, FINISH_V4, CRATE],
    measure: measure::<V3>,
    measure_v4: Some(measure::<V4>),
};

const FINISH: Call = Call {
    what: "finish",
    ours: "`rosmarel_finish` into a buffer that is used again and again",
    with: "`SSTableIndexBuilder::serialize` over the same blocks and keys, into a `Vec` that has the room and is used again",
    whose: Whose::Both,
    says: "Slopes and the loops are tantivy's code. The list of keys, where tantivy builds an FST, and the bit packer are stand-ins \
           of ours, so with long keys the ratio says little of tantivy.",
    scale: Scale::Speed,
    plots: Plots::One,
};

const FINISH_V4: Call = Call {
    what: "finish, version 4",
    says: IN_V4,
    plots: Plots::None,
    ..FINISH
};

const CRATE: Call = Call {
    what: "Builder::finish",
    ours: "`Builder::finish` of bindings/rust: `rosmarel_finish_len`, a zeroed buffer, `rosmarel_finish`",
    with: "`SSTableIndexBuilder::serialize` over the same blocks and keys, into a new `Vec`",
    whose: Whose::Both,
    says: "As for finish. Both sides allocate, and drop what they made inside the time.",
    scale: Scale::Speed,
    plots: Plots::One,
};

/// All kinds of lists with short keys, random steps with the others.
fn measure<R: Rust>(report: &mut Report, input: &Input) {
    for steps in Steps::ALL {
        if steps == Steps::Random {
            of_list::<R>(report, input, input.kind.name(), &input.blocks);
        } else if input.kind == Keys::Short {
            let load = format!("{}, {}", input.kind.name(), steps.name());
            of_list::<R>(report, input, &load, &steps.blocks(input.n));
        }
    }
}

fn of_list<R: Rust>(report: &mut Report, input: &Input, load: &str, blocks: &[BlockAddr]) {
    let call = in_version::<R>(&FINISH, &FINISH_V4);
    let finish = Row::new(call.what, load, input.n).held(1.0);
    let of_crate = Row::new(CRATE.what, load, input.n).held(1.0);
    // the crate's call is timed in version 3 alone
    let wanted = [
        report.wants(&finish),
        R::VERSION == 3 && report.wants(&of_crate),
    ];
    if wanted == [false, false] {
        return;
    }
    let mut index = Vec::new();
    rust_builder::<R>(&input.keys, blocks).serialize(&mut index);
    if wanted[0] {
        measure_finish::<R>(report, &input.keys, blocks, &index, finish);
    }
    if wanted[1] {
        measure_crate(report, &input.keys, blocks, &index, of_crate);
    }
}

fn measure_finish<R: Rust>(
    report: &mut Report,
    keys: &[Vec<u8>],
    blocks: &[BlockAddr],
    index: &[u8],
    row: Row,
) {
    let (numbers, bytes) = areas(keys, blocks);
    let n = row.n as u64;
    let mut out = vec![0; index.len()];
    if report.first_pass() {
        ffi::finish(R::VERSION, n, &numbers, &bytes, &mut out).unwrap();
        assert!(out == index);
    }
    let builder = rust_builder::<R>(keys, blocks);
    let mut rust_out = Vec::with_capacity(index.len());
    let ours = side(|| {
        let (version, numbers, bytes) = black_box((R::VERSION, &numbers[..], &bytes[..]));
        ffi::finish(version, n, numbers, bytes, black_box(&mut out)).unwrap()
    });
    let rust = side(|| {
        rust_out.clear();
        black_box(&builder).serialize(&mut rust_out);
        black_box(&mut rust_out);
    });
    let row = row.sized(index.len());
    report.measure(row, vec![("ours", ours), ("Rust", rust)], 1);
}

fn measure_crate(
    report: &mut Report,
    keys: &[Vec<u8>],
    blocks: &[BlockAddr],
    index: &[u8],
    row: Row,
) {
    let our_builder = our_builder(keys, blocks);
    let rust_builder = rust_builder::<V3>(keys, blocks);
    if report.first_pass() {
        assert!(our_builder.finish(Version::V3).unwrap() == index);
    }
    let ours = side(|| black_box(&our_builder).finish(Version::V3).unwrap());
    let rust = side(|| {
        let mut bytes = Vec::new();
        black_box(&rust_builder).serialize(&mut bytes);
        bytes
    });
    let row = row.sized(index.len());
    report.measure(row, vec![("ours", ours), ("Rust", rust)], 1);
}
