//! Builders over any areas: rows 1 and 8, and what a broken last record allows.

use model::areas::Areas;
use model::blocks::block;
use model::numbers::Numbers;
use model::rust::Block;
use model::settings::{LIMIT, LONGEST_KEY, MOST_BLOCKS, STRIDE};
use model::version::{V3, V4};

use crate::calls::builder::Builder;
use crate::tally::Tally;

pub fn run(tally: &mut Tally) {
    counts(tally);
    changed(tally);
    keys(tally);
    random(tally, 100_000);
}

/// Numbers at which a sum or a test can go wrong.
const EDGES: [u64; 12] = [
    0,
    1,
    2,
    5,
    LONGEST_KEY as u64,
    LONGEST_KEY as u64 + 1,
    LIMIT - 1,
    LIMIT,
    1 << 63,
    u64::MAX - 5,
    u64::MAX - 1,
    u64::MAX,
];

/// Counts that the areas can't hold, or that no builder has.
const COUNTS: [u64; 14] = [
    0,
    1,
    2,
    3,
    4,
    13_107,
    MOST_BLOCKS as u64 - 1,
    MOST_BLOCKS as u64,
    MOST_BLOCKS as u64 + 1,
    1 << 32,
    u64::MAX / STRIDE as u64,
    u64::MAX / STRIDE as u64 + 1,
    1 << 63,
    u64::MAX,
];

/// Each of the four calls on these areas.
fn calls(tally: &mut Tally, areas: &Areas, more: Block, key: &[u8], room: isize) {
    let builder = Builder::raw(areas.clone());
    builder.clone().add(tally, more, key);
    builder.clone().shorten(tally, key);
    builder.clone().finish(tally, V3, &[room]);
    builder.clone().finish(tally, V4, &[room]);
}

/// Three blocks that are right, with room for one more.
fn right() -> Areas {
    let mut blocks = vec![10, 20, 5, 0, 2, 20, 30, 6, 2, 1, 30, 30, 9, 3, 2];
    blocks.extend([7; 6]);
    Areas {
        n: 3,
        blocks,
        keys: b"abbbc\xffzzzz".to_vec(),
    }
}

/// Every count over these areas, also over their fronts.
fn counts(tally: &mut Tally) {
    tally.section("areas: counts and fronts of the areas");
    let whole = right();
    for n in COUNTS {
        for room in 0..=whole.blocks.len() {
            for key_room in 0..=whole.keys.len() {
                let areas = Areas {
                    n,
                    blocks: whole.blocks[..room].to_vec(),
                    keys: whole.keys[..key_room].to_vec(),
                };
                let next = areas.view(n).last.map_or(0, |last| last.0.end);
                calls(tally, &areas, block(next, next, 1000), b"c\xff\x01", 0);
            }
        }
    }
}

/// Each number changed to each edge and to what stands beside it; two numbers at once.
fn changed(tally: &mut Tally) {
    tally.section("areas: each number changed, and each two");
    let whole = right();
    let add = block(30, 31, 10);
    for at in 0..15 {
        let old = whole.blocks[at];
        let beside = [old.wrapping_sub(1), old + 1, old + 2];
        for value in EDGES.into_iter().chain(beside) {
            let mut areas = whole.clone();
            areas.blocks[at] = value;
            calls(tally, &areas, add, b"d", 0);
            for other in at + 1..15 {
                for change in [0, 1, areas.blocks[other] + 1, LIMIT, u64::MAX] {
                    let mut areas = areas.clone();
                    areas.blocks[other] = change;
                    calls(tally, &areas, add, b"d", 5);
                }
            }
        }
    }
}

/// Every key area of four bytes over two letters and FF, with lengths of every kind.
fn keys(tally: &mut Tally) {
    tally.section("areas: every key area of four bytes over three letters");
    for keys in super::keys::all(b"ab\xff", 4)
        .iter()
        .filter(|keys| keys.len() == 4)
    {
        for one in 0..4 {
            for two in 0..4 {
                let blocks = vec![0, 1, 0, 0, one, 1, 2, 1, one, two, 0, 0, 0, 0, 0];
                let areas = Areas {
                    n: 2,
                    blocks,
                    keys: keys.clone(),
                };
                for next in [&b""[..], b"a", b"ab", b"b\xff", b"\xff\xff\xff"] {
                    calls(tally, &areas, block(2, 3, 2), next, -1);
                }
            }
        }
    }
}

/// A list of legal blocks with touching keys in areas that are a little larger, then up to three changes.
fn random(tally: &mut Tally, count: u64) {
    tally.section("areas: by chance, up to three numbers changed");
    let mut rng = Numbers::from_seed(104);
    for _ in 0..count {
        let n = rng.within(0, 5);
        let mut areas = some(&mut rng, n);
        for _ in 0..rng.below(4) {
            if !areas.blocks.is_empty() {
                let at = rng.below(areas.blocks.len() as u64) as usize;
                let old = areas.blocks[at];
                let near = rng.pick(&[old.wrapping_sub(1), old.wrapping_add(1), old ^ 3]);
                areas.blocks[at] = if rng.one_in(2) {
                    near
                } else {
                    rng.pick(&EDGES)
                };
            }
        }
        if rng.one_in(8) {
            areas.n = rng.pick(&COUNTS);
        }
        let last = areas.view(areas.n).last;
        let (end, ord) = last.map_or((3, 3), |(last, _)| (last.end, last.ord));
        let ord = ord.saturating_add(rng.below(3));
        let start = end.wrapping_add(u64::from(rng.one_in(6)));
        let key = rng.pick(&[&b""[..], b"z", b"zz\x00", b"m", b"\xff\xff"]);
        let room = rng.pick(&[0, 0, -1, 9]);
        calls(
            tally,
            &areas,
            block(start, start.saturating_add(2), ord),
            key,
            room,
        );
    }
}

fn some(rng: &mut Numbers, n: u64) -> Areas {
    let (mut at, mut ord, mut offset) = (rng.bits(20), rng.bits(9), 0);
    let mut areas = Areas {
        n,
        blocks: Vec::new(),
        keys: Vec::new(),
    };
    for i in 0..n {
        let end = at + rng.bits(12);
        let mut key = vec![b'a' + 4 * i as u8];
        let more = rng.below(3);
        key.extend(rng.bytes(more));
        let length = key.len() as u64;
        areas.blocks.extend([at, end, ord, offset, length]);
        areas.keys.extend(key);
        offset += length;
        at = end;
        ord += 1 + rng.bits(5);
    }
    let spare = rng.below(8) as usize;
    areas.blocks.extend((0..spare).map(|i| i as u64));
    let spare = rng.below(6);
    areas.keys.extend(rng.bytes(spare));
    areas
}
