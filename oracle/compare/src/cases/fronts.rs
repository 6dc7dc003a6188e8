//! Keys of 9 to 1,022 bytes that share long fronts: lists of calls, finished and looked up, and listings over the separators.

use model::automaton::Table;
use model::blocks::{block, random};
use model::files::File as Parts;
use model::numbers::Numbers;
use model::patterns::{drawn, nearby, ring, small};
use model::settings::{LONGEST_KEY, MOST_STATES, STRIDE};
use model::version::{V3, VERSIONS, Version};
use tantivy_sstable::access;

use super::lookups;
use crate::calls::builder::Builder;
use crate::calls::intervals::Pattern;
use crate::calls::keys::common_prefix_len;
use crate::calls::opened::{self, File};
use crate::tally::Tally;

/// Keys are the same in all versions: version 4 gets some kinds of fronts.
pub fn run(tally: &mut Tally) {
    for version in VERSIONS {
        lists(tally, version);
        listings(tally, version);
    }
}

/// Lengths from 9 to 1,022, most of them around the steps of a search that goes by words or by runs.
const LENGTHS: [usize; 40] = [
    9, 10, 12, 15, 16, 17, 23, 24, 25, 31, 32, 33, 47, 48, 49, 63, 64, 65, 66, 72, 73, 96, 127,
    128, 129, 192, 193, 255, 256, 257, 320, 383, 511, 512, 513, 767, 1000, 1015, 1021, 1022,
];

/// Bytes that come again and again; a key's front is a run of them.
struct Front {
    period: Vec<u8>,
    len: usize,
}

/// The byte of a front that an automaton can't mistake for what follows: tails begin below it.
const FRONT_BYTES: [u8; 4] = [0x61, 0x80, 0xfe, 0xff];

impl Front {
    fn new(rng: &mut Numbers, len: usize, kind: usize) -> Front {
        let period = match kind % 4 {
            0 => 1,
            1 => rng.within(2, 9),
            2 => rng.within(10, 40),
            _ => len.max(1) as u64,
        };
        Front {
            period: (0..period).map(|_| rng.pick(&FRONT_BYTES)).collect(),
            len,
        }
    }

    fn bytes(&self) -> Vec<u8> {
        self.period.iter().copied().cycle().take(self.len).collect()
    }

    /// Accepts the front, or a whole number of periods more or less, and after it the word and anything: all below 0x61.
    fn then(&self, word: &[u8], anything: bool) -> Option<Table> {
        let (p, dead) = (self.period.len(), self.period.len() + word.len());
        if word.is_empty() || dead + 1 > MOST_STATES {
            return None;
        }
        let mut flags = vec![0; dead + 1];
        flags[dead - 1] = 1;
        let next = |state: usize, byte: usize| match state {
            _ if state == dead => dead,
            _ if state == dead - 1 => {
                if anything {
                    state
                } else {
                    dead
                }
            }
            _ if state >= p && byte == usize::from(word[state - p + 1]) => state + 1,
            _ if state >= p => dead,
            _ if state == self.len % p && byte == usize::from(word[0]) => p,
            _ if byte == usize::from(self.period[state]) => (state + 1) % p,
            _ => dead,
        };
        Some(Table::rule(flags, next))
    }
}

/// What stands after a front: two bytes below 0x61 that rise, then bytes up to a length.
fn tail(rng: &mut Numbers, i: usize, longest: usize) -> Vec<u8> {
    let length = rng.below(longest as u64 + 1) as usize;
    let mut bytes = vec![(i / 64 + 1) as u8, (i % 64 + 1) as u8];
    bytes.extend((0..length).map(|_| rng.pick(&[0x00, 0x41, 0x61, 0xfe, 0xff, 0xff])));
    bytes
}

/// Rising keys of up to `length` bytes over one front; some are others with bytes after them.
fn keys(rng: &mut Numbers, front: &Front, count: usize, length: usize) -> Vec<Vec<u8>> {
    let bytes = front.bytes();
    let longest = (length - front.len).saturating_sub(2);
    let mut keys: Vec<Vec<u8>> = (0..count)
        .map(|i| [&bytes[..], &tail(rng, i, longest)].concat())
        .collect();
    for i in 1..count {
        if rng.one_in(6) && keys[i - 1].len() < length {
            keys[i] = [&keys[i - 1][..], &[rng.pick(&[0x00, 0x41, 0xff])]].concat();
        }
    }
    keys.sort();
    keys.dedup();
    assert!(keys.iter().all(|key| (9..=1022).contains(&key.len())));
    keys
}

/// A front that leaves room for a tail of two bytes or more.
fn front(rng: &mut Numbers, length: usize, kind: usize) -> Front {
    let less = match length {
        ..18 => 2,
        _ => rng.pick(&[2, 2, 3, 5, 9]),
    };
    Front::new(rng, length - less, kind)
}

/// Every length with every kind of front, added and shortened by turns, with calls between that are refused.
fn lists(tally: &mut Tally, version: Version) {
    tally.section_of(
        version,
        "fronts: lists over keys of 9 to 1,022 bytes, finished and looked up",
    );
    let mut rng = Numbers::from_seed(130);
    for length in LENGTHS {
        for kind in 0..version.pick(12, 4) {
            let front = front(&mut rng, length, kind);
            let count = rng.pick(&[2, 3, 5, 9, 17, 30]);
            let keys = keys(&mut rng, &front, count, length);
            list(tally, version, &mut rng, &keys);
        }
    }
}

fn list(tally: &mut Tally, version: Version, rng: &mut Numbers, keys: &[Vec<u8>]) {
    let count = keys.len();
    let taken: usize = keys.iter().map(Vec::len).sum();
    let mut builder = Builder::fresh(STRIDE * count + 2, taken + 3);
    let blocks = random(rng, count as u64, 12, 6, 20, 20);
    for (i, (&block, key)) in blocks.iter().zip(keys).enumerate() {
        if i > 0 {
            common_prefix_len(tally, &keys[i - 1], key);
            refused(tally, rng, &mut builder);
            if !rng.one_in(4) {
                assert_eq!(builder.shorten(tally, key), 0);
            }
        }
        assert_eq!(builder.add(tally, block, key), 0);
    }
    let index = builder.finish(tally, version, &[0, -1, 3]);
    if count > 1 {
        let mut file = opened::open(tally, version, &index);
        lookups::around(tally, rng, &mut file, 10);
        changed(tally, rng, &file);
    }
}

/// Keys at and below the last separator, which differ late.
fn refused(tally: &mut Tally, rng: &mut Numbers, builder: &mut Builder) {
    let Some((last, key)) = builder.areas.view(builder.areas.n).last else {
        return;
    };
    let add = block(last.end, last.end + 1, last.ord + 1);
    let mut lower = key.clone();
    let at = lower.len() - 1 - rng.below(lower.len().min(3) as u64) as usize;
    lower[at] = lower[at].saturating_sub(1);
    for other in [&key, &lower, &key[..key.len() - 1].to_vec()] {
        assert_eq!(builder.add(tally, add, other), 6);
        assert_eq!(builder.shorten(tally, other), 6);
    }
}

/// Separators with one byte changed, at places around words of 8 bytes and runs of 64, or cut there.
fn changed(tally: &mut Tally, rng: &mut Numbers, file: &File) {
    for _ in 0..12 {
        let id = rng.below(file.opening().keys.len() as u64) as usize;
        let mut key = file.opening().keys[id].clone();
        if key.is_empty() {
            continue;
        }
        let len = key.len();
        let step = rng.pick(&[8, 64]);
        let at = match rng.below(3) {
            0 => rng.below(len as u64) as usize,
            1 => len - 1 - rng.below(len.min(4) as u64) as usize,
            _ => (rng.below(len as u64 / step + 1) * step).saturating_sub(rng.below(2)) as usize,
        }
        .min(len - 1);
        match rng.below(4) {
            0 => key[at] = key[at].wrapping_add(1),
            1 => key[at] = key[at].wrapping_sub(1),
            2 => key[at] ^= 0x80,
            _ => key.truncate(at),
        }
        file.key(tally, &key);
        file.address(tally, &key);
    }
}

/// Separators as a writer makes them: shortened towards the next block's first key.
fn separators(keys: &[Vec<u8>]) -> Vec<Vec<u8>> {
    let pairs = keys.chunks(2).zip(keys.chunks(2).skip(1));
    let mut made: Vec<Vec<u8>> = pairs
        .map(|(one, other)| access::find_shorter_str_in_between(&one[one.len() - 1], &other[0]))
        .collect();
    made.extend(keys.last().cloned());
    made
}

/// An automaton that gets through the front and tells the tails apart, or one of another kind.
fn pattern(rng: &mut Numbers, front: &Front, keys: &[Vec<u8>]) -> Pattern {
    let at = rng.below(keys.len() as u64) as usize;
    let key = &keys[at];
    let word = nearby(
        rng,
        &key[front.len.min(key.len())..][..key.len().saturating_sub(front.len).min(4)],
    );
    let (m, way) = (
        rng.within(2, MOST_STATES as u64) as usize,
        rng.below(3) as usize,
    );
    let byte = usize::from(key[rng.below(key.len() as u64) as usize]);
    let table = match rng.below(9) {
        0..=3 => front
            .then(&word, rng.one_in(2))
            .unwrap_or_else(|| small(rng, m)),
        4 => Table::rule(vec![0, 1], |_, b| usize::from(b == byte)),
        5 => Table::rule(vec![0, 1], |state, b| state ^ usize::from(b == byte)),
        6 => ring(rng, m, way),
        7 => drawn(rng, m).0,
        _ => {
            let cut = rng.below(key.len().min(62) as u64) as usize;
            Table::beginning(&nearby(rng, &key[..cut]))
        }
    };
    Pattern::of(&table)
}

/// Every length with every kind of front: files of keys and of separators, 24 automata each, and the same intervals by themselves.
fn listings(tally: &mut Tally, version: Version) {
    tally.section_of(
        version,
        "fronts: listings over separators of 9 to 1,022 bytes",
    );
    let mut rng = Numbers::from_seed(131);
    for length in LENGTHS {
        for kind in 0..version.pick(8, 2) {
            let front = front(&mut rng, length, kind);
            let count = rng.pick(version.pick(&[3, 7, 20, 60, 140], &[3, 20, 140, 257, 300]));
            let mut names = keys(&mut rng, &front, count, length.min(LONGEST_KEY));
            if kind % 2 == 1 {
                names = separators(&names);
            }
            if names.len() > 1 {
                listing(tally, version, &mut rng, &front, &names);
            }
        }
    }
}

fn listing(
    tally: &mut Tally,
    version: Version,
    rng: &mut Numbers,
    front: &Front,
    names: &[Vec<u8>],
) {
    let blocks = random(rng, names.len() as u64, 8, 4, 10, 10);
    let parts = Parts::written(version, &blocks, names);
    let file = opened::open(tally, version, &parts.bytes());
    assert_eq!(file.opening().no(), 0);
    for _ in 0..24 {
        let pattern = pattern(rng, front, names);
        let room = names
            .len()
            .saturating_add_signed(rng.pick(&[0, 0, 0, 0, 5, -1]));
        file.list(tally, &pattern, room);
        let at = rng.below(names.len() as u64) as usize;
        let start = at.checked_sub(1).map(|before| &names[before][..]);
        // an interval has no version
        if version == V3 {
            pattern.all(tally, start, &names[at]);
        }
    }
}
