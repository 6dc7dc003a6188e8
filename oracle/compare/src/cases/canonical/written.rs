//! Files of our finish and of the Rust's builder: all of them are canonical.

use model::areas::{Areas, Entry};
use model::canonical::written;
use model::files::File as Parts;
use model::numbers::Numbers;
use model::settings::{MOST_BLOCKS, STRIDE};
use model::version::Version;

use super::{SHAPES, blocks, keys, sizes};
use crate::calls::builder::Builder;
use crate::calls::opened;
use crate::tally::Tally;

pub fn run(tally: &mut Tally, version: Version) {
    tally.section_of(
        version,
        "canonical: files of finish and of the Rust's builder",
    );
    let mut rng = Numbers::from_seed(150);
    for n in sizes(version) {
        for shape in 0..SHAPES {
            for _ in 0..3 {
                one(tally, version, &mut rng, n, shape);
            }
        }
    }
    for n in 2..=40 {
        one(tally, version, &mut rng, n, n % SHAPES);
    }
    for n in [5000, 30_000, MOST_BLOCKS - 1, MOST_BLOCKS] {
        for shape in [0, 1, 5] {
            one(tally, version, &mut rng, n, shape);
        }
    }
}

fn one(tally: &mut Tally, version: Version, rng: &mut Numbers, n: usize, shape: usize) {
    let (blocks, keys) = (blocks(rng, n, shape), keys(rng, n));
    let file = Parts::written(version, &blocks, &keys).bytes();
    assert_eq!(
        file,
        written(version, &blocks, &keys),
        "the Rust and the model"
    );
    let entries: Vec<Entry> = blocks.into_iter().zip(keys).collect();
    let taken: usize = entries.iter().map(|entry| entry.1.len()).sum();
    let mut areas = Areas {
        n: 0,
        blocks: vec![7; STRIDE * n],
        keys: vec![7; taken],
    };
    entries
        .iter()
        .for_each(|(block, key)| areas.add(*block, key));
    let index = Builder::raw(areas).finish(tally, version, &[0]);
    assert_eq!(index, file);
    assert_eq!(opened::open(tally, version, &index).checked, 0);
}
