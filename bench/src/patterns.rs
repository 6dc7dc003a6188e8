//! Patterns as table bytes, and the Rust's automaton over such bytes.

use std::cell::Cell;

use tantivy_fst::Automaton;

use crate::inputs::{Input, Keys};

/// The bytes of a table: a flag for each state, and a rule for the next state.
pub fn table(flags: &[u8], next: impl Fn(usize, u8) -> usize) -> Vec<u8> {
    let m = flags.len();
    let mut bytes = vec![m as u8];
    bytes.extend_from_slice(flags);
    for state in 0..m {
        bytes.extend((0..=255).map(|byte| next(state, byte) as u8));
    }
    bytes
}

fn flags(m: usize, accepting: usize) -> Vec<u8> {
    (0..m).map(|state| u8::from(state == accepting)).collect()
}

/// All keys: one state.
pub fn all() -> Vec<u8> {
    table(&[1], |_, _| 0)
}

/// Keys that have the byte somewhere: two states.
pub fn contains(wanted: u8) -> Vec<u8> {
    table(&[0, 1], |state, byte| {
        usize::from(state == 1 || byte == wanted)
    })
}

/// Keys that begin with these bytes.
pub fn begins(with: &[u8]) -> Vec<u8> {
    let (all, lost) = (with.len(), with.len() + 1);
    table(&flags(lost + 1, all), |state, byte| match state {
        _ if state == all => all,
        _ if with.get(state) == Some(&byte) => state + 1,
        _ => lost,
    })
}

/// One key alone.
pub fn exactly(key: &[u8]) -> Vec<u8> {
    let (all, lost) = (key.len(), key.len() + 1);
    table(&flags(lost + 1, all), |state, byte| {
        if key.get(state) == Some(&byte) {
            state + 1
        } else {
            lost
        }
    })
}

/// Keys whose length is 63 more than a multiple of 64: 64 states, from each of which all bytes lead on.
pub fn length_64() -> Vec<u8> {
    table(&flags(64, 63), |state, _| (state + 1) % 64)
}

/// From each of 64 states the bytes lead to all states as if at random; one of them accepts.
pub fn dense_64() -> Vec<u8> {
    let mixed = |place: usize| (place as u32).wrapping_mul(0x9E37_79B1) >> 26;
    table(&flags(64, 63), |state, byte| {
        mixed(state * 256 + usize::from(byte) + 1) as usize
    })
}

/// Letters, and then digits that begin so.
pub fn letters_then(digits: &[u8]) -> Vec<u8> {
    let (all, lost) = (digits.len(), digits.len() + 1);
    table(&flags(lost + 1, all), |state, byte| match state {
        0 if byte.is_ascii_lowercase() => 0,
        _ if state == all => all,
        _ if digits.get(state) == Some(&byte) => state + 1,
        _ => lost,
    })
}

/// Letters, digits and m, then `!`: three states. In the tail of a key no byte above its own leads on, so that a block's
/// lower key is read to its end.
pub fn follow_few() -> Vec<u8> {
    table(&[0, 1, 0], |state, byte| match (state, byte) {
        (0, b'a'..=b'm' | b'0'..=b'9') => 0,
        (0, b'!') => 1,
        _ => 2,
    })
}

/// Letters a to l, 8 digits of which the last is even, m so many times or a multiple of that, then `!`. With 54 it has 64
/// states. Blocks from an even key to an odd one are read to the end of the even one, and have no match.
pub fn follow(rounds: usize) -> Vec<u8> {
    let (tail, yes, lost) = (8, 8 + rounds, 9 + rounds);
    table(&flags(lost + 1, yes), |state, byte| match (state, byte) {
        (0, b'a'..=b'l') => 0,
        (0..7, b'0'..=b'9') => state + 1,
        (7, b'0' | b'2' | b'4' | b'6' | b'8') => tail,
        _ if state >= tail && state < yes && byte == b'm' => tail + (state - tail + 1) % rounds,
        _ if state == tail && byte == b'!' => yes,
        _ => lost,
    })
}

/// `a`, m so many times or a multiple of that, then `!`; or `b`, as many m's, then `~`. Besides these two bytes no byte but m leads
/// on from an m, `!` below it and `~` above it.
pub fn two_rings(rounds: usize) -> Vec<u8> {
    let (yes, lost) = (2 * rounds + 1, 2 * rounds + 2);
    table(&flags(lost + 1, yes), |state, byte| {
        let of_b = state > rounds;
        let first = if of_b { rounds + 1 } else { 1 };
        match (state, byte) {
            (0, b'a') => 1,
            (0, b'b') => rounds + 1,
            _ if state == 0 || state >= yes => lost,
            (_, b'm') => first + (state - first + 1) % rounds,
            (_, b'!') if state == first && !of_b => yes,
            (_, b'~') if state == first && of_b => yes,
            _ => lost,
        }
    })
}

/// One of seven keys of 8 bytes, filled up to 64 states with states that aren't reached.
pub fn words_64(words: &[&[u8]]) -> Vec<u8> {
    let mut fronts: Vec<&[u8]> = vec![b""];
    for word in words {
        fronts.extend((1..=word.len()).map(|len| &word[..len]));
    }
    fronts.sort_unstable();
    fronts.dedup();
    assert!(fronts.len() < 64);
    let place = |front: &[u8]| fronts.binary_search(&front).unwrap_or(63);
    let accepting: Vec<u8> = (0..64)
        .map(|state| u8::from(fronts.get(state).is_some_and(|front| words.contains(front))))
        .collect();
    table(&accepting, |state, byte| {
        fronts
            .get(state)
            .map_or(63, |front| place(&[front, &[byte][..]].concat()))
    })
}

/// The patterns for keys of a kind: name with the number of states, and table.
pub fn patterns_for(input: &Input) -> Vec<(&'static str, Vec<u8>)> {
    let mut patterns = vec![
        ("all (1)", all()),
        ("any length (64)", length_64()),
        ("dense (64)", dense_64()),
    ];
    patterns.extend(if input.kind == Keys::Short {
        for_short(input)
    } else {
        for_long(input)
    });
    patterns
}

fn for_short(input: &Input) -> Vec<(&'static str, Vec<u8>)> {
    let some = &input.keys[input.n / 3];
    let words: Vec<&[u8]> = (0..7)
        .map(|i| &input.keys[i * (input.n - 1) / 7][..])
        .collect();
    vec![
        ("contains (2)", contains(0x37)),
        ("begins (4)", begins(&some[..2])),
        ("one key (10)", exactly(some)),
        ("seven keys (64)", words_64(&words)),
    ]
}

fn for_long(input: &Input) -> Vec<(&'static str, Vec<u8>)> {
    let digits = format!("{:08}", input.n / 3);
    let early: Vec<u8> = [&input.keys[0][..61], b"!"].concat();
    vec![
        ("contains (2)", contains(b'7')),
        ("number (9)", letters_then(&digits.as_bytes()[..7])),
        ("ends early (64)", begins(&early)),
        ("follows (3)", follow_few()),
        ("follows half (11)", follow(1)),
        ("follows half (64)", follow(54)),
    ]
}

/// The Rust's automaton over the bytes of a table.
pub struct Table<'a> {
    flags: &'a [u8],
    next: &'a [[u8; 256]],
    /// A bit for each state from which an accepting one can be reached.
    live: u64,
}

impl<'a> Table<'a> {
    /// Checks the bytes and works out which states can match.
    pub fn read(bytes: &'a [u8]) -> Option<Table<'a>> {
        let (&m, rest) = bytes.split_first()?;
        let m = usize::from(m);
        if !(1..=64).contains(&m) || rest.len() != 257 * m {
            return None;
        }
        let (flags, next) = rest.split_at(m);
        if flags.iter().fold(0, |most, &flag| flag.max(most)) > 1
            || usize::from(next.iter().fold(0, |most, &state| state.max(most))) >= m
        {
            return None;
        }
        let (next, _) = next.as_chunks();
        let live = live(flags, next);
        Some(Table { flags, next, live })
    }

    /// The states from which an accepting one can be reached, a bit for each.
    pub fn live(&self) -> u64 {
        self.live
    }

    /// The next states of a state, one for each byte.
    pub fn row(&self, state: u8) -> &'a [u8; 256] {
        &self.next[usize::from(state)]
    }

    pub fn accepts(&self, key: &[u8]) -> bool {
        let last = key.iter().fold(0, |state, &byte| self.accept(&state, byte));
        self.is_match(&last)
    }
}

/// The states from which an accepting one can be reached: states are added until no row leads to one that was added.
fn live(flags: &[u8], next: &[[u8; 256]]) -> u64 {
    let mut live = 0;
    for (state, flag) in flags.iter().enumerate() {
        live |= u64::from(*flag) << state;
    }
    let mut before = 0;
    while before != live {
        before = live;
        // most patterns lead upwards to what they accept, so that one round finds nearly all
        for (state, row) in next.iter().enumerate().rev() {
            if live >> state & 1 == 0 && leads_to(row, live) {
                live |= 1 << state;
            }
        }
    }
    live
}

/// Whether a byte leads to one of the states. Eight next states that repeat the eight before them are passed at once.
fn leads_to(row: &[u8; 256], states: u64) -> bool {
    let (eights, _) = row.as_chunks::<8>();
    let mut passed = None;
    for eight in eights {
        let word = u64::from_le_bytes(*eight);
        if passed == Some(word) {
            continue;
        }
        if eight.iter().any(|&state| states >> state & 1 == 1) {
            return true;
        }
        passed = Some(word);
    }
    false
}

impl Automaton for Table<'_> {
    type State = u8;

    fn start(&self) -> u8 {
        0
    }

    fn is_match(&self, state: &u8) -> bool {
        self.flags[usize::from(*state)] == 1
    }

    fn can_match(&self, state: &u8) -> bool {
        self.live >> state & 1 == 1
    }

    fn accept(&self, state: &u8, byte: u8) -> u8 {
        self.next[usize::from(*state)][usize::from(byte)]
    }
}

/// A table that notes how many bytes of a key a search reads from states that can match.
pub struct Depth<'a> {
    inner: Table<'a>,
    most: Cell<usize>,
}

impl<'a> Depth<'a> {
    pub fn new(inner: Table<'a>) -> Depth<'a> {
        let most = Cell::new(0);
        Depth { inner, most }
    }

    pub fn forget(&self) {
        self.most.set(0);
    }

    pub fn most(&self) -> usize {
        self.most.get()
    }
}

/// A state goes on only by bytes of the keys; what is tried beside them isn't gone on from.
impl Automaton for Depth<'_> {
    type State = (u8, usize);

    fn start(&self) -> (u8, usize) {
        (0, 0)
    }

    fn is_match(&self, (state, _): &(u8, usize)) -> bool {
        self.inner.is_match(state)
    }

    fn can_match(&self, (state, _): &(u8, usize)) -> bool {
        self.inner.can_match(state)
    }

    fn accept(&self, (state, read): &(u8, usize), byte: u8) -> (u8, usize) {
        if self.inner.can_match(state) {
            self.most.set(self.most.get().max(*read));
        }
        (self.inner.accept(state, byte), read + 1)
    }
}
