//! Ends and ordinals up to the limit, which are taken, and at it and beyond, which aren't: in adds, slices, lent areas and files, and
//! read with a record that isn't the file's.

use model::areas::Areas;
use model::blocks::{FAR, TOO_FAR, block, far_first, touching, widest};
use model::files::{File as Parts, short_keys};
use model::foreign::{self, Group};
use model::numbers::Numbers;
use model::opening::{self, Opened};
use model::rust::Block;
use model::settings::{GROUP_RECORD, LIMIT, STRIDE, WIDEST};
use model::version::{VERSIONS, Version};

use super::lookups;
use crate::calls::builder::Builder;
use crate::calls::lookups::{GET_BLOCK, GET_BLOCK_WITH_KEY, LOCATE_WITH_ORD};
use crate::calls::opened::{self, File};
use crate::calls::stores::store;
use crate::tally::Tally;

pub fn run(tally: &mut Tally) {
    adds(tally);
    for version in VERSIONS {
        slices(tally, version);
        areas(tally, version);
        own(tally, version);
        files(tally, version);
        records(tally, version);
    }
}

/// All numbers, those that are taken and those that aren't.
fn all() -> impl Iterator<Item = u64> {
    FAR.into_iter().chain(TOO_FAR)
}

/// The index that finish writes of the builder's blocks, opened and looked up.
fn finish(tally: &mut Tally, version: Version, builder: &mut Builder) {
    let index = builder.finish(tally, version, &[0, -1]);
    if !index.is_empty() {
        let mut file = opened::open(tally, version, &index);
        assert_eq!((file.opening().no(), file.checked), (0, 0));
        lookups::around(tally, &mut Numbers::from_seed(180), &mut file, 4);
    }
}

/// Every end with every ordinal, in a first block and in a second, which are finished.
fn adds(tally: &mut Tally) {
    tally.section("limit: adds of every end with every ordinal, finished, opened and looked up");
    for end in all() {
        for ord in all() {
            let due = if end < LIMIT && ord < LIMIT { 0 } else { 3 };
            for start in [0, end] {
                let mut first = Builder::fresh(2 * STRIDE, 9);
                assert_eq!(first.add(tally, block(start, end, ord), b"a"), due);
                let mut second = Builder::fresh(3 * STRIDE, 9);
                second.add(tally, block(0, start, 0), b"a");
                second.add(tally, block(start, end, ord), b"b");
                second.add(tally, block(end, end, ord.wrapping_add(1)), b"c");
                for builder in [&mut first, &mut second] {
                    for version in VERSIONS {
                        finish(tally, version, builder);
                    }
                }
            }
        }
    }
}

/// Blocks of one byte, but the one at this place ends here; those behind it are empty.
fn end_at(n: usize, at: usize, end: u64) -> Vec<Block> {
    let ends = |i: usize| if i < at { i as u64 + 1 } else { end };
    let start = |i: usize| i.checked_sub(1).map_or(0, ends);
    let blocks = 0..n;
    blocks.map(|i| block(start(i), ends(i), i as u64)).collect()
}

/// The one at this place has this ordinal, and the next ones those behind it.
fn ord_at(n: usize, at: usize, ord: u64) -> Vec<Block> {
    let number = |i: usize| match i.checked_sub(at) {
        None => i as u64,
        Some(behind) => ord.saturating_add(behind as u64),
    };
    let blocks = 0..n;
    let one = |i: usize| block(i as u64, i as u64 + 1, number(i));
    blocks.map(one).collect()
}

/// Lists of three groups that a number makes far from a block on, or too far: at the ends of each group and inside.
fn lists(version: Version) -> Vec<Vec<Block>> {
    let full = version.group_len();
    let n = 2 * full + 3;
    let mut lists = Vec::new();
    for at in places(version) {
        for number in all() {
            lists.push(end_at(n, at, number));
            lists.push(ord_at(n, at, number));
        }
        // up to the last number that there is, and one further
        let behind = (n - 1 - at) as u64;
        lists.push(ord_at(n, at, LIMIT - 1 - behind));
        lists.push(ord_at(n, at, LIMIT - behind));
    }
    for number in all() {
        // empty blocks alone: nothing is further than their first start; and a group of one block: its ordinal stands in its record alone
        lists.push(touching(number, &vec![0; n], 0, &vec![1; n - 1]));
        lists.push(ord_at(2 * full + 1, 2 * full, number));
    }
    lists
}

/// The ends of the first, a middle and the last group, and one inside each.
fn places(version: Version) -> [usize; 9] {
    let full = version.group_len();
    let [middle, last] = [full, 2 * full];
    [
        0,
        full / 2,
        full - 1,
        middle,
        middle + 1,
        last - 1,
        last,
        last + 1,
        last + 2,
    ]
}

fn slices(tally: &mut Tally, version: Version) {
    tally.section_of(version, "limit: slices of three groups");
    for blocks in lists(version) {
        store(tally, version, &blocks, &[0, -1]);
    }
    tally.section_of(version, "limit: slices with fields of 56 bits");
    let full = version.group_len();
    for n in (2..=20).chain([full - 1, full, full + 1, 2 * full]) {
        for blocks in [far_first(n), widest(n)] {
            let written = store(tally, version, &blocks, &[0, -1]);
            // 14 bytes for the two fields of a block
            let most = 8 + GROUP_RECORD * n.div_ceil(full) + 14 * n;
            assert!((1..=most).contains(&written.len()));
        }
    }
}

/// Areas that somebody else wrote: a finish takes what an add would have taken.
fn areas(tally: &mut Tally, version: Version) {
    tally.section_of(
        version,
        "limit: lent areas of three groups, finished, opened and looked up",
    );
    for blocks in lists(version) {
        finish(tally, version, &mut Builder::raw(filled(&blocks)));
    }
}

/// Areas that hold these blocks, whatever they are.
fn filled(blocks: &[Block]) -> Areas {
    let keys = short_keys(blocks.len());
    let mut areas = Areas {
        n: 0,
        blocks: vec![7; STRIDE * blocks.len()],
        keys: vec![7; keys.iter().map(Vec::len).sum()],
    };
    for (&block, key) in blocks.iter().zip(&keys) {
        areas.add(block, key);
    }
    areas
}

/// Files of finish with fields of 56 bits: groups that are full and others, the far block first or last, and alone in its group.
fn own(tally: &mut Tally, version: Version) {
    tally.section_of(version, "limit: files of finish with fields of 56 bits");
    let full = version.group_len();
    for n in [2, 3, 8, 9, 10, 16, 17, full - 1, full, full + 1, 2 * full] {
        let mut lengths = vec![0; n];
        lengths[n - 1] = LIMIT - 1;
        let far_last = touching(0, &lengths, 0, &vec![1; n - 1]);
        let last = (n - 1) / full;
        for (blocks, group) in [(far_first(n), 0), (widest(n), 0), (far_last, last)] {
            let parts = Parts::written(version, &blocks, &short_keys(n));
            let [_, range] = parts.widths_of(group);
            assert_eq!(range, WIDEST);
            if n == full + 1 && group == 1 {
                assert_eq!(parts.slopes_of(group)[0], u32::MAX);
            }
            finish(tally, version, &mut Builder::raw(filled(&blocks)));
        }
    }
}

/// Groups of the widest fields, which hold numbers beyond the limit too.
fn wide_groups(version: Version, blocks: &[Block]) -> Vec<Group<'_>> {
    let (mut groups, mut offset) = (Vec::new(), 0);
    for blocks in blocks.chunks(version.group_len()) {
        let group = Group {
            blocks,
            offset,
            range_slope: 2,
            ord_slope: 2,
            range_width: WIDEST,
            ord_width: WIDEST,
        };
        offset += group.length();
        groups.push(group);
    }
    groups
}

fn parts(version: Version, blocks: &[Block]) -> Parts {
    let groups = wide_groups(version, blocks);
    let end = groups.last().map_or(0, |last| last.offset + last.length());
    let store = foreign::store(&groups, vec![0; end]);
    Parts::new(&short_keys(blocks.len()), &store)
}

/// Foreign files: first values and values read, in the first, a middle and the last group.
fn files(tally: &mut Tally, version: Version) {
    tally.section_of(version, "limit: foreign files of three groups");
    let mut rng = Numbers::from_seed(181);
    let outside = [
        "first start",
        "first ordinal",
        "range value",
        "ordinal value",
    ];
    for blocks in lists(version) {
        // a field holds no number far beyond the limit
        if blocks.iter().any(|b| b.end.max(b.ord) == u64::MAX) {
            continue;
        }
        let bytes = parts(version, &blocks).bytes();
        let mut file = opened::open(tally, version, &bytes);
        let far = blocks.iter().any(|b| b.end.max(b.ord) >= LIMIT);
        // nothing else is broken
        let hits = &file.opening().hits;
        assert!(hits.iter().all(|hit| outside.contains(&hit.1)));
        assert_eq!(file.opening().no(), if far { 16 } else { 0 });
        if !far {
            lookups::around(tally, &mut rng, &mut file, 4);
        }
    }
    let n = 2 * version.group_len() + 3;
    let whole = parts(version, &touching(5, &vec![1; n], 5, &vec![1; n - 1]));
    for group in 0..3 {
        for put in [Parts::first_start, Parts::first_ord] {
            for number in all() {
                let mut parts = whole.clone();
                put(&mut parts, group, number);
                opened::open(tally, version, &parts.bytes());
            }
        }
    }
}

/// One value just below the limit or at it, which nothing beside it fits: the file doesn't open. Read with the record that it would have
/// a number below the limit is given, and for the limit the answer is 20.
fn records(tally: &mut Tally, version: Version) {
    tally.section_of(
        version,
        "limit: values just below the limit and at it, read with a record that isn't the file's",
    );
    let full = version.group_len();
    let n = 2 * full + 3;
    // blocks of one byte, but the first two of each group are empty
    let lengths: Vec<u64> = (0..n).map(|i| u64::from(i % full > 1)).collect();
    let blocks = touching(9, &lengths, 9, &vec![3; n - 1]);
    let whole = parts(version, &blocks);
    let own = opening::open(version, &whole.bytes()).record;
    let reads = Reads {
        version,
        record: own.with_terms(u64::MAX),
    };
    for number in [LIMIT - 1, LIMIT] {
        for at in places(version) {
            let mut ends = blocks.clone();
            ends[at].end = number;
            if let Some(next) = ends.get_mut(at + 1).filter(|_| (at + 1) % full > 0) {
                next.start = number;
            }
            let due = [blocks[at].start, number, blocks[at].ord];
            reads.block(tally, &parts(version, &ends), at, due);
            let due = [blocks[at].start, blocks[at].end, number];
            if at % full > 0 {
                let mut ords = blocks.clone();
                ords[at].ord = number;
                reads.block(tally, &parts(version, &ords), at, due);
            } else {
                let mut file = whole.clone();
                file.first_ord(at / full, number);
                reads.block(tally, &file, at, due);
                let mut file = whole.clone();
                file.first_start(at / full, number);
                let due = [number, number, blocks[at].ord];
                reads.block(tally, &file, at, due);
            }
        }
        let mut ords = blocks.clone();
        ords[n - 1].ord = number;
        reads.last(tally, &parts(version, &ords), number);
    }
}

/// Lookups with this record.
struct Reads {
    version: Version,
    record: Opened,
}

impl Reads {
    fn file(&self, tally: &mut Tally, parts: &Parts) -> File {
        let mut file = opened::open(tally, self.version, &parts.bytes());
        file.set_record(self.record);
        file
    }

    /// This block by its id and its key: what is due if all of it is below the limit, else 20.
    fn block(&self, tally: &mut Tally, parts: &Parts, at: usize, due: [u64; 3]) {
        let file = self.file(tally, parts);
        let taken = due.iter().all(|&number| number < LIMIT);
        let id = at as u64;
        let got = file.id(tally, id);
        let right = if taken { (0, due) } else { (20, [0; 3]) };
        tally.held(&GET_BLOCK, got == right, || {
            format!("id {at} gives {got:?}, not {right:?}")
        });
        let key = &short_keys(self.record.n as usize)[at];
        let got = file.address(tally, key);
        let [start, end, ord] = due;
        let right = match taken {
            true => (0, [id, start, end, ord]),
            false => (20, [0; 4]),
        };
        tally.held(&GET_BLOCK_WITH_KEY, got == right, || {
            format!("the key of {at} gives {got:?}, not {right:?}")
        });
        lookups::some(tally, &file);
    }

    /// The last block by the ordinal that is read in it.
    fn last(&self, tally: &mut Tally, parts: &Parts, ord: u64) {
        let file = self.file(tally, parts);
        let (no, [id, _, _, first]) = file.ord(tally, ord);
        let due = match ord < LIMIT {
            true => (0, self.record.n - 1, ord),
            false => (20, 0, 0),
        };
        tally.held(&LOCATE_WITH_ORD, (no, id, first) == due, || {
            format!("ordinal {ord} gives {no} {id} {first}, not {due:?}")
        });
    }
}
