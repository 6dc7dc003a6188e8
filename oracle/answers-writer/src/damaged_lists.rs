//! Lists that are cut, lengthened or changed. Most aren't lists any more; those that still are get replayed.

use model::numbers::Numbers;
use model::version::{NO_VERSIONS, V3, V4};

use crate::list_bytes::{Call, Question, Settings, encode};
use crate::replayed::{self, Rooms};
use crate::replays::{Lists, add, shorten, worked_calls};

/// Where the settings' length, the number of terms, the version and the counts stand.
const SETTINGS: usize = 0;
const TERMS: usize = 4;
const VERSION: usize = 12;
const COUNTS: usize = 20;

/// A short list, and where its items begin.
struct Base {
    bytes: Vec<u8>,
    calls: Vec<usize>,
    questions: Vec<usize>,
    /// where its byte strings' lengths stand
    strings: Vec<usize>,
    rooms: Rooms,
}

fn base() -> Base {
    let calls = [add(0, 9, 1, b"b"), shorten(b"c"), add(9, 12, 4, b"d")];
    let questions = [
        Question::Id(1),
        Question::Key(b"c".to_vec()),
        Question::Mark(1, vec![0]),
    ];
    let fit = replayed::rooms(V3, &calls, questions.len());
    Base {
        bytes: encode(Settings::of(V3, 5), &calls, &questions),
        calls: vec![28, 58, 64],
        questions: vec![94, 103, 109],
        strings: vec![53, 59, 89, 104, 118],
        rooms: Rooms {
            answers: fit.answers + 10,
            ..fit
        },
    }
}

impl Base {
    fn with(&self, at: usize, part: &[u8]) -> Vec<u8> {
        let mut bytes = self.bytes.clone();
        bytes[at..at + part.len()].copy_from_slice(part);
        bytes
    }
}

pub fn lists(lists: &mut Lists) {
    let base = base();
    lists.comment("damaged lists: cut at each place, and with bytes behind");
    for length in 0..=base.bytes.len() {
        lists.bytes(&base.bytes[..length], base.rooms);
    }
    for more in [&[0][..], &[2], &[255; 9], &base.bytes] {
        lists.bytes(&[&base.bytes[..], more].concat(), base.rooms);
    }
    for length in [3, 4, 7, 11, 12, 13, 20, 28] {
        lists.bytes(&vec![0; length], base.rooms);
    }
    for length in [4, 11, 12, 19, 20, 27, 28, 29] {
        let mut zeros = vec![0; length];
        zeros[SETTINGS] = 16;
        lists.bytes(&zeros, base.rooms);
    }
    lists.comment("damaged lists: no settings");
    let counts = [&[0; 4][..], &base.bytes[COUNTS..]].concat();
    lists.bytes(&counts, base.rooms);
    lists.comment("damaged lists: the number of terms alone");
    let terms = &base.bytes[TERMS..VERSION];
    let counts = [&[8, 0, 0, 0], terms, &base.bytes[COUNTS..]].concat();
    lists.bytes(&counts, base.rooms);
    lists.bytes(&[0xff; 40], base.rooms);
    tags(lists, &base);
    numbers(lists, &base);
    changed(lists);
}

fn tags(lists: &mut Lists, base: &Base) {
    lists.comment("damaged lists: other tags");
    for &at in base.calls.iter().chain(&base.questions) {
        for tag in (0..=8).chain([128, 255]) {
            if base.bytes[at] != tag {
                lists.bytes(&base.with(at, &[tag]), base.rooms);
            }
        }
    }
}

fn numbers(lists: &mut Lists, base: &Base) {
    lists.comment("damaged lists: other counts and lengths");
    let other = |right: u32| {
        let values = [0, 1, right - 1, right + 1, 2 * right + 8, 1 << 16, 1 << 31];
        values.into_iter().chain([u32::MAX, u32::MAX - 7])
    };
    for length in [0u32, 1, 4, 8, 12, 15, 17, 24, 1 << 16, u32::MAX] {
        lists.bytes(&base.with(SETTINGS, &length.to_le_bytes()), base.rooms);
    }
    // any eight bytes are a number of terms, and a version or none
    for terms in [0u64, 3, 4, 6, 1 << 32, u64::MAX] {
        lists.bytes(&base.with(TERMS, &terms.to_le_bytes()), base.rooms);
    }
    for version in [V4.number()].into_iter().chain(NO_VERSIONS) {
        lists.bytes(&base.with(VERSION, &version.to_le_bytes()), base.rooms);
    }
    for &at in [COUNTS, COUNTS + 4].iter().chain(&base.strings) {
        let right = u32::from_le_bytes(base.bytes[at..at + 4].try_into().unwrap());
        for value in other(right).filter(|&value| value != right) {
            lists.bytes(&base.with(at, &value.to_le_bytes()), base.rooms);
        }
    }
    let both = [2u32, 4].map(u32::to_le_bytes).concat();
    lists.bytes(&base.with(COUNTS, &both), base.rooms);
    let all = [u32::MAX; 2].map(u32::to_le_bytes).concat();
    lists.bytes(&base.with(COUNTS, &all), base.rooms);
}

fn changed(lists: &mut Lists) {
    lists.comment("the worked case with a byte changed, and two exchanged");
    let mut rng = Numbers::from_seed(74);
    let calls: Vec<Call> = worked_calls();
    let questions = [
        Question::Id(2),
        Question::Ordinal(4),
        Question::Address(b"c".to_vec()),
        Question::Separator(2),
    ];
    let fit = replayed::rooms(V4, &calls, questions.len());
    let rooms = Rooms {
        keys: fit.keys + 2,
        out: fit.out + 20,
        ..fit
    };
    let right = encode(Settings::of(V4, 12), &calls, &questions);
    for _ in 0..60 {
        let at = rng.below(right.len() as u64) as usize;
        let mut bytes = right.clone();
        bytes[at] = match rng.below(3) {
            0 => bytes[at].wrapping_add(1),
            1 => bytes[at] ^ 1 << rng.below(8),
            _ => rng.next() as u8,
        };
        lists.bytes(&bytes, rooms);
    }
    for _ in 0..10 {
        let mut bytes = right.clone();
        let places = [(); 2].map(|_| rng.below(bytes.len() as u64) as usize);
        bytes.swap(places[0], places[1]);
        lists.bytes(&bytes, rooms);
    }
}
