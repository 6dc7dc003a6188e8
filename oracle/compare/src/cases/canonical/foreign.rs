//! Files that hold the blocks and separators of a canonical one and differ from it in one way, or in some.

use std::collections::BTreeMap;

use model::canonical::{NOT_CANONICAL, end, groups};
use model::foreign::{self, Group, near};
use model::numbers::Numbers;
use model::settings::MOST_BLOCKS;
use model::version::Version;
use model::ways::{Way, stores};

use super::{SHAPES, blocks, holding, keys, sizes};
use crate::tally::Tally;

pub fn run(tally: &mut Tally, version: Version) {
    tally.section_of(version, "canonical: files that differ in one way");
    let mut rng = Numbers::from_seed(151);
    let mut seen: BTreeMap<Way, u64> = BTreeMap::new();
    for n in sizes(version) {
        for shape in 0..SHAPES {
            one_way(tally, version, &mut rng, &mut seen, n, shape);
        }
    }
    let all: Vec<Way> = seen.keys().copied().collect();
    assert_eq!(all, Way::ALL, "each way is met");
    large(tally, version, &mut rng);
    by_chance(tally, version, &mut rng, version.pick(1000, 500));
}

/// Each way that the blocks allow.
fn one_way(
    tally: &mut Tally,
    version: Version,
    rng: &mut Numbers,
    seen: &mut BTreeMap<Way, u64>,
    n: usize,
    shape: usize,
) {
    let (blocks, keys) = (blocks(rng, n, shape), keys(rng, n));
    for (way, store) in stores(version, &blocks) {
        let file = holding(tally, version, &blocks, &keys, &store);
        assert_eq!(file.checked, NOT_CANONICAL, "{way:?}");
        *seen.entry(way).or_default() += 1;
    }
}

/// The last way of each kind, which is at a late group.
fn large(tally: &mut Tally, version: Version, rng: &mut Numbers) {
    tally.section_of(
        version,
        "canonical: large files that differ in one way, late",
    );
    let one_more = MOST_BLOCKS - version.group_len() + 1;
    for (n, shape) in [(MOST_BLOCKS, 0), (MOST_BLOCKS, 2), (one_more, 1)] {
        let (blocks, keys) = (blocks(rng, n, shape), keys(rng, n));
        let late: BTreeMap<Way, Vec<u8>> = stores(version, &blocks).into_iter().collect();
        for (way, store) in late {
            let file = holding(tally, version, &blocks, &keys, &store);
            assert_eq!(file.checked, NOT_CANONICAL, "{way:?}");
        }
    }
}

/// Groups with any of the writer's plans or ones near them, in any order, with or without gaps; some come out canonical.
fn by_chance(tally: &mut Tally, version: Version, rng: &mut Numbers, count: u64) {
    tally.section_of(
        version,
        "canonical: files that differ in some ways, by chance",
    );
    let mut seen = [0, 0];
    for _ in 0..count {
        let n = rng.pick(&sizes(version));
        let shape = rng.below(SHAPES as u64) as usize;
        let (blocks, keys) = (blocks(rng, n, shape), keys(rng, n));
        let own = groups(version, &blocks);
        let mut offset = 0;
        let mut all: Vec<Group> = Vec::new();
        for (part, &own) in blocks.chunks(version.group_len()).zip(&own) {
            offset += rng.pick(&[0, 0, 0, 0, 0, 1]);
            let next = match rng.one_in(4) {
                true => near(rng, part, offset),
                false => Group { offset, ..own },
            };
            offset += next.length();
            all.push(next);
        }
        let spare = rng.pick(&[0, 0, 0, 0, 1]);
        let store = foreign::store(&all, vec![rng.pick(&[0, 0, 0xff]); end(&all) + spare]);
        let file = holding(tally, version, &blocks, &keys, &store);
        seen[usize::from(file.checked == NOT_CANONICAL)] += 1;
    }
    assert!(seen[0] > 20 && seen[1] > 20, "{seen:?}");
}
