//! The blocks of 64 keys: in one call, and one by one.

use std::hint::black_box;

use tantivy_sstable::{Index as _, access};

use super::by_id::QUESTIONS;
use super::by_key::wanted;
use super::{Call, Family, Plots, Whose};
use crate::ffi;
use crate::inputs::Input;
use crate::measure::side;
use crate::plot::Scale;
use crate::report::{Report, Row};

pub const FAMILY: Family = Family {
    calls: &[BATCHES],
    measure,
    measure_v4: None,
};

const BATCHES: Call = Call {
    what: "locate 64 keys",
    ours: "`rosmarel_locate_with_keys`, one call for 64 keys",
    with: "64 calls of `rosmarel_locate_with_key`",
    whose: Whose::Ours,
    says: "Both sides are ours: the ratio says what one call for all keys is worth. It may be 1 at most for every n; the goal is 0.5 \
           for 65,536 blocks, where searches that take turns don't wait for each other's memory. Beside it: 64 lookups of \
           `SSTableIndexV3::locate_with_key`, whose FST is a stand-in of ours as for locate by key. Times are those of all 64 keys.",
    scale: Scale::Time,
    plots: Plots::One,
};

/// Keys of a call.
pub const BATCH: usize = 64;

/// Keys one right after the other, and a pair of offset and length for each.
pub struct Batch {
    pub pairs: Vec<u64>,
    pub keys: Vec<u8>,
}

impl Batch {
    pub fn new(keys: &[Vec<u8>]) -> Batch {
        let mut offset = 0;
        let pair = |key: &Vec<u8>| {
            let pair = [offset, key.len() as u64];
            offset += pair[1];
            pair
        };
        Batch {
            pairs: keys.iter().flat_map(pair).collect(),
            keys: keys.concat(),
        }
    }

    /// The keys where they lie.
    fn parts(&self) -> impl Iterator<Item = &[u8]> {
        let part = |pair: &[u64]| &self.keys[pair[0] as usize..][..pair[1] as usize];
        self.pairs.chunks(2).map(part)
    }
}

fn measure(report: &mut Report, input: &Input) {
    let row = Row::new(BATCHES.what, input.kind.name(), input.n).held(1.0);
    if !report.wants(&row) {
        return;
    }
    let batches: Vec<Batch> = wanted(input).chunks(BATCH).map(Batch::new).collect();
    // all sides read the same bytes
    let keys: Vec<&[u8]> = batches.iter().flat_map(Batch::parts).collect();
    let rust_index = access::Index::open(&input.index);
    if report.first_pass() {
        compare(input, &batches, &rust_index);
    }
    let mut ids = [0; BATCH];
    let ours = side(|| {
        let (index, opened) = black_box((&input.index[..], &input.opened));
        for batch in &batches {
            let _ = black_box(ffi::locate_with_keys(
                index,
                opened,
                &batch.pairs,
                &batch.keys,
                &mut ids,
            ));
            black_box(&ids);
        }
    });
    let single = side(|| {
        let (index, opened) = black_box((&input.index[..], &input.opened));
        for key in &keys {
            let _ = black_box(ffi::locate_with_key(index, opened, key));
        }
    });
    let rust = side(|| {
        let index = black_box(&rust_index);
        for key in &keys {
            black_box(index.locate_with_key(key));
        }
    });
    let sides = vec![("ours", ours), ("one by one", single), ("Rust", rust)];
    report.measure(row, sides, QUESTIONS / BATCH);
}

/// All sides find the same blocks.
fn compare(input: &Input, batches: &[Batch], rust_index: &access::Index) {
    for batch in batches {
        let mut ids = [0; BATCH];
        ffi::locate_with_keys(
            &input.index,
            &input.opened,
            &batch.pairs,
            &batch.keys,
            &mut ids,
        )
        .unwrap();
        for (&id, key) in ids.iter().zip(batch.parts()) {
            assert_eq!(
                ffi::locate_with_key(&input.index, &input.opened, key),
                Ok(id)
            );
            assert_eq!(rust_index.locate_with_key(key), Some(id));
        }
    }
}
