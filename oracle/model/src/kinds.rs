//! Kinds of examples: which part of its interval the string is of, which other parts have one as short, and what else cases are
//! made for. On the way the string is held against sets of states, by how many bytes lead from each to a flag of 1.

use std::ops::Range;
use std::ptr;

use crate::automaton::Table;
use crate::settings::MOST_STATES;

const EMPTY: &str = "the empty string";
const ALONG_START: &str = "leaves start";
const MIDDLE: &str = "between, at the first difference";
const ALONG_END: &str = "leaves end";
const WHOLE: &str = "a front of end alone";
const START_TIE: &str = "tie along start";
const START_MIDDLE_TIE: &str = "tie of start's side and the middle";
const MIDDLE_TIE: &str = "tie in the middle";
const MIDDLE_END_TIE: &str = "tie of the middle and end's side";
const END_TIE: &str = "tie along end";
const START_END_TIE: &str = "tie of start's side and end's side";
const ONE_PLACE_TIE: &str = "tie of both sides at one place, in one state";
const LAST_BYTE_TIE: &str = "tie, and leaves start with its last byte";
const TAIL_TIE: &str = "a tail of several nearest bytes";
const FULL: &str = "longer key + 64";
const LOWER: &str = "a longer one is lower";
const LOWEST: &str = "the lowest is longer";
const ZERO_MORE: &str = "end is start and 00";
const ONE_UP: &str = "end is start with its last byte one up";
const START_AGAIN: &str = "leaves start in a state met before";
const END_AGAIN: &str = "leaves end in a state met before";
const START_CROSSED: &str = "leaves start in a state that end met before";
const END_CROSSED: &str = "leaves end in a state that start met before";

/// All of them.
pub const KINDS: [&str; 23] = [
    EMPTY,
    ALONG_START,
    MIDDLE,
    ALONG_END,
    WHOLE,
    START_TIE,
    START_MIDDLE_TIE,
    MIDDLE_TIE,
    MIDDLE_END_TIE,
    END_TIE,
    START_END_TIE,
    ONE_PLACE_TIE,
    LAST_BYTE_TIE,
    TAIL_TIE,
    FULL,
    LOWER,
    LOWEST,
    ZERO_MORE,
    ONE_UP,
    START_AGAIN,
    END_AGAIN,
    START_CROSSED,
    END_CROSSED,
];

#[derive(Clone, Copy, PartialEq, Eq)]
enum Side {
    Start,
    Middle,
    End,
    /// a front of the end key, with nothing behind it
    Whole,
}

/// Strings that have so many first bytes of a key, then a byte of a range.
struct Part {
    side: Side,
    place: usize,
    /// where the key's first bytes lead
    state: u8,
    bytes: Range<usize>,
    /// where these lead, a bit for each state
    reach: u64,
    /// whether the state was met before at a place of this side, and of the other one
    met: [bool; 2],
}

impl Part {
    fn to(&self, table: &Table, byte: usize) -> u8 {
        table.next[256 * usize::from(self.state) + byte]
    }

    fn kinds(&self) -> Vec<&'static str> {
        let (kind, met) = match self.side {
            Side::Start => (ALONG_START, [START_AGAIN, START_CROSSED]),
            Side::Middle => return vec![MIDDLE],
            Side::End => (ALONG_END, [END_AGAIN, END_CROSSED]),
            Side::Whole => return vec![WHOLE],
        };
        those([(true, kind), (self.met[0], met[0]), (self.met[1], met[1])])
    }

    /// Whether an accepted string of this length is one of the part.
    fn has(&self, exact: &[u64], length: usize) -> bool {
        length.checked_sub(self.place + 1).is_some_and(|left| {
            (self.side != Side::Whole || left == 0) && exact[left] & self.reach != 0
        })
    }

    /// The bytes after which these go on.
    fn bytes_of(&self, table: &Table, exact: &[u64], length: usize) -> Vec<usize> {
        let set = exact[length - self.place - 1];
        let leads = |&byte: &usize| set >> self.to(table, byte) & 1 == 1;
        self.bytes.clone().filter(leads).collect()
    }
}

/// The kinds that hold.
fn those<const N: usize>(kinds: [(bool, &'static str); N]) -> Vec<&'static str> {
    let holds = kinds.into_iter().filter(|(holds, _)| *holds);
    holds.map(|(_, kind)| kind).collect()
}

/// The states along a key, from its first byte on.
fn along(table: &Table, key: &[u8]) -> Vec<u8> {
    let step = |state: &mut u8, &byte: &u8| {
        *state = table.next[256 * usize::from(*state) + usize::from(byte)];
        Some(*state)
    };
    [0].into_iter().chain(key.iter().scan(0, step)).collect()
}

/// The parts of an interval that isn't empty, in byte order; without the empty string.
fn parts(table: &Table, start: Option<&[u8]>, end: &[u8]) -> Vec<Part> {
    let same = |start: &[u8]| start.iter().zip(end).take_while(|(a, b)| a == b).count();
    let shared = start.map_or(0, same);
    // what begins with a front of end lies above such a start
    let start = start.filter(|start| shared < start.len());
    let from = shared + usize::from(start.is_some());
    let starts = start.map_or(Vec::new(), |start| along(table, start));
    let ends = along(table, end);
    let mut parts = Vec::new();
    let mut add = |side, place: usize, bytes: Range<usize>| {
        let (own, other) = match side {
            Side::Start | Side::Middle => (&starts, &ends),
            Side::End | Side::Whole => (&ends, &starts),
        };
        let state = own[place];
        let met = |states: &[u8]| {
            states
                .iter()
                .take(place)
                .skip(from)
                .any(|&met| met == state)
        };
        let row = &table.next[256 * usize::from(state)..][..256];
        let row = row.get(bytes.clone()).unwrap_or_default();
        parts.push(Part {
            side,
            place,
            state,
            bytes,
            reach: row.iter().fold(0, |set, &to| set | 1 << to),
            met: [met(own), met(other)],
        });
    };
    if let Some(start) = start {
        for place in (from..=start.len()).rev() {
            let low = start.get(place).map_or(0, |&byte| usize::from(byte) + 1);
            add(Side::Start, place, low..256);
        }
        let middle = usize::from(start[shared]) + 1..usize::from(end[shared]);
        add(Side::Middle, shared, middle);
    }
    for (place, &byte) in end.iter().enumerate().skip(shared) {
        let byte = usize::from(byte);
        if place >= from {
            add(Side::End, place, 0..byte);
        }
        add(Side::Whole, place, byte..byte + 1);
    }
    parts
}

/// For each length up to this one the states from which so many bytes lead to a flag of 1, a bit each.
fn exact(table: &Table, length: usize) -> Vec<u64> {
    let m = table.flags.len();
    let flags = (0..m).map(|state| u64::from(table.flags[state]) << state);
    let reach: Vec<u64> = table
        .next
        .chunks(256)
        .map(|row| row.iter().fold(0, |set, &to| set | 1 << to))
        .collect();
    let mut exact = vec![flags.sum()];
    for i in 0..length {
        let into = |state: &usize| reach[*state] & exact[i] != 0;
        exact.push((0..m).filter(into).map(|state| 1 << state).sum());
    }
    exact
}

/// The lowest byte after which so many bytes more lead to a flag of 1, and whether there is another.
fn tail_byte(table: &Table, exact: &[u64], state: u8, left: usize) -> (Option<u8>, bool) {
    let row = &table.next[256 * usize::from(state)..][..256];
    let mut bytes = (0..=u8::MAX).filter(|&byte| exact[left] >> row[usize::from(byte)] & 1 == 1);
    (bytes.next(), bytes.next().is_some())
}

/// The kinds of an interval's example. It stops the program where the example isn't the shortest or the lowest of its length.
pub fn kinds(table: &Table, start: Option<&[u8]>, end: &[u8], found: &[u8]) -> Vec<&'static str> {
    let longer = start.unwrap_or_default().len().max(end.len());
    assert!(found.len() <= longer + MOST_STATES);
    let exact = exact(table, found.len().max(MOST_STATES));
    let parts = parts(table, start, end);
    let mut kinds = Vec::new();
    if found.is_empty() {
        assert!(start.is_none() && table.flags[0] == 1);
        kinds.push(EMPTY);
    } else {
        assert!(start.is_some() || table.flags[0] == 0);
        let reached = reached(table, &exact, &parts, found.len());
        let own = reached[0].0;
        let key = start.filter(|_| own.side == Side::Start).unwrap_or(end);
        assert!(found.starts_with(&key[..own.place]));
        kinds.extend(own.kinds());
        kinds.extend(several_tails(table, &exact, &reached[0], found).then_some(TAIL_TIE));
        kinds.extend(ties(&reached, found.len()));
        kinds.extend(lower(table, &exact, &parts, own, found));
    }
    if found.len() == longer + MOST_STATES {
        kinds.push(FULL);
    }
    kinds.extend(start.and_then(|start| just_below(start, end)));
    kinds
}

/// Parts with an accepted string of this length, and the bytes after which it goes on. No part has a shorter one.
fn reached<'a>(
    table: &Table,
    exact: &[u64],
    parts: &'a [Part],
    length: usize,
) -> Vec<(&'a Part, Vec<usize>)> {
    // to look at all of long ones would take long
    for shorter in (1..length).take(100) {
        let has = parts.iter().any(|part| part.has(exact, shorter));
        assert!(!has, "{shorter} bytes are enough");
    }
    let shortest = parts.iter().filter(|part| part.has(exact, length));
    shortest
        .map(|part| (part, part.bytes_of(table, exact, length)))
        .collect()
}

/// Whether the tail could go on by another byte somewhere. The example is what the lowest part leads to, always by the lowest byte.
fn several_tails(
    table: &Table,
    exact: &[u64],
    (part, bytes): &(&Part, Vec<usize>),
    found: &[u8],
) -> bool {
    assert_eq!(bytes[0], usize::from(found[part.place]), "a lower byte");
    let mut state = part.to(table, bytes[0]);
    let mut several = false;
    for (i, &byte) in found.iter().enumerate().skip(part.place + 1) {
        let (lowest, another) = tail_byte(table, exact, state, found.len() - 1 - i);
        assert_eq!(lowest, Some(byte), "a lower byte in the tail");
        state = table.next[256 * usize::from(state) + usize::from(byte)];
        several |= another;
    }
    several
}

fn ties(reached: &[(&Part, Vec<usize>)], length: usize) -> Vec<&'static str> {
    let of = |side: Side| reached.iter().filter(move |(part, _)| part.side == side);
    let starts = of(Side::Start).count();
    let middle = of(Side::Middle)
        .map(|(_, bytes)| bytes.len())
        .sum::<usize>();
    let ends = of(Side::End).count() + of(Side::Whole).count();
    let one_place = of(Side::Start).any(|(one, _)| {
        of(Side::End).any(|(other, _)| (one.place, one.state) == (other.place, other.state))
    });
    let lowest = reached[0].0;
    let last_byte = lowest.side == Side::Start && lowest.place + 1 == length && reached.len() > 1;
    those([
        (starts > 1, START_TIE),
        (starts > 0 && middle > 0, START_MIDDLE_TIE),
        (middle > 1, MIDDLE_TIE),
        (middle > 0 && ends > 0, MIDDLE_END_TIE),
        (ends > 1, END_TIE),
        (starts > 0 && ends > 0, START_END_TIE),
        (one_place, ONE_PLACE_TIE),
        (last_byte, LAST_BYTE_TIE),
    ])
}

/// Whether a longer string is lower, and whether one of these is the lowest: always the lowest byte, as long as one is accepted
/// that begins so.
fn lower(
    table: &Table,
    exact: &[u64],
    parts: &[Part],
    own: &Part,
    found: &[u8],
) -> Vec<&'static str> {
    let live = exact[..MOST_STATES].iter().fold(0, |all, set| all | set);
    let accepts = |state: u8| table.flags[usize::from(state)] == 1;
    let goes_on = |part: &Part, byte: usize| match part.to(table, byte) {
        to if part.side == Side::Whole => accepts(to),
        to => live >> to & 1 == 1,
    };
    let (part, byte) = parts
        .iter()
        .find_map(|part| Some((part, part.bytes.clone().find(|&byte| goes_on(part, byte))?)))
        .expect("the example's own part");
    let mut state = part.to(table, byte);
    let mut tail = vec![byte as u8];
    // a way without an accepting state goes round
    while !accepts(state) && tail.len() <= MOST_STATES {
        let row = &table.next[256 * usize::from(state)..][..256];
        let byte = (0..256).find(|&byte| live >> row[byte] & 1 == 1);
        let byte = byte.expect("a live state");
        tail.push(byte as u8);
        state = row[byte];
    }
    let lower = !ptr::eq(part, own) || found[part.place..] != tail;
    those([(lower, LOWER), (lower && accepts(state), LOWEST)])
}

/// A start just below the end.
fn just_below(start: &[u8], end: &[u8]) -> Option<&'static str> {
    if end.strip_prefix(start) == Some(&[0]) {
        return Some(ZERO_MORE);
    }
    let ((&one, front), (&other, rest)) = (start.split_last()?, end.split_last()?);
    (front == rest && one < 255 && one + 1 == other).then_some(ONE_UP)
}
