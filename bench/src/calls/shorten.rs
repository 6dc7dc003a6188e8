//! Shortening the last key.

use std::hint::black_box;
use std::time::{Duration, Instant};

use rosmarel::BlockAddr;
use tantivy_sstable::{Builder as _, access};

use super::{Call, Family, Plots, Whose};
use crate::ffi;
use crate::inputs::{Input, theirs};
use crate::measure::Side;
use crate::plot::Scale;
use crate::report::{Report, Row};

pub const FAMILY: Family = Family {
    calls: &[SHORTEN],
    measure,
    measure_v4: None,
};

const SHORTEN: Call = Call {
    what: "shorten",
    ours: "`rosmarel_shorten`",
    with: "`SSTableIndexBuilder::shorten_last_block_key_given_next_key`",
    whose: Whose::Tantivy,
    says: "All of it is tantivy's code.",
    scale: Scale::Time,
    plots: Plots::One,
};

/// So many builders are shortened before they are set back. They are few enough for the processor's second cache.
const PAIRS: usize = 256;

/// A builder with one block: its areas, and the Rust's.
struct OneBlock {
    blocks: [u64; 5],
    keys: Vec<u8>,
    rust: access::Builder,
}

impl OneBlock {
    fn new(key: &[u8], block: BlockAddr) -> OneBlock {
        let mut made = OneBlock {
            blocks: [0; 5],
            keys: vec![0; key.len()],
            rust: access::Builder::default(),
        };
        ffi::add(&mut 0, &mut made.blocks, &mut made.keys, key, block).unwrap();
        made.rust.add_block(key, theirs(block));
        made
    }

    fn set_back(&mut self, key: &[u8]) {
        self.keys.copy_from_slice(key);
        self.blocks[4] = key.len() as u64;
        let rust = self.rust.last_key().unwrap();
        rust.clear();
        rust.extend_from_slice(key);
    }

    /// Both sides' key is the same.
    fn check(&mut self, next: &[u8]) {
        ffi::shorten(1, &mut self.blocks, &mut self.keys, next).unwrap();
        self.rust.shorten_last_block_key_given_next_key(next);
        let len = self.blocks[4] as usize;
        assert_eq!(self.rust.last_key().unwrap()[..], self.keys[..len]);
    }
}

/// Neighbours among the keys, the lower one the only key of its builder.
fn measure(report: &mut Report, input: &Input) {
    let row = Row::new(SHORTEN.what, input.kind.name(), input.n).held(1.0);
    if !report.wants(&row) {
        return;
    }
    let places: Vec<usize> = (0..PAIRS).map(|i| i * (input.n - 1) / PAIRS).collect();
    let pair = |&at: &usize| (&input.keys[at][..], &input.keys[at + 1][..]);
    let pairs: Vec<(&[u8], &[u8])> = places.iter().map(pair).collect();
    let builder = |&at: &usize| OneBlock::new(&input.keys[at], input.blocks[at]);
    let mut made: Vec<OneBlock> = places.iter().map(builder).collect();
    let mut others: Vec<OneBlock> = places.iter().map(builder).collect();
    if report.first_pass() {
        for (one, (_, next)) in made.iter_mut().zip(&pairs) {
            one.check(next);
        }
    }
    let ours = set_back_between(&mut made, &pairs, |one, next| {
        let _ = black_box(ffi::shorten(1, &mut one.blocks, &mut one.keys, next));
    });
    let rust = set_back_between(&mut others, &pairs, |one, next| {
        one.rust.shorten_last_block_key_given_next_key(next);
        black_box(&mut one.rust);
    });
    report.measure(row, vec![("ours", ours), ("Rust", rust)], PAIRS);
}

/// A side over all pairs; setting the builders back isn't in its time.
fn set_back_between<'a>(
    made: &'a mut [OneBlock],
    pairs: &'a [(&[u8], &[u8])],
    work: impl Fn(&mut OneBlock, &[u8]) + 'a,
) -> Side<'a> {
    Box::new(move |times| {
        let mut all = Duration::ZERO;
        for _ in 0..times {
            for (one, (key, _)) in made.iter_mut().zip(pairs) {
                one.set_back(key);
            }
            let begin = Instant::now();
            for (one, (_, next)) in made.iter_mut().zip(pairs) {
                work(one, black_box(next));
            }
            all += begin.elapsed();
        }
        all
    })
}
