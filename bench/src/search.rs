//! A plain search for the string that `rosmarel_example` writes.

use std::ops::Range;

use tantivy_fst::Automaton;

use crate::patterns::Table;

/// What stands before a string's last byte.
#[derive(Clone, Copy)]
enum Before {
    /// The front of the start key
    Start,
    /// The front of the end key
    End,
    /// The string that reached this state
    State(u8),
}

/// Breadth first, over states and bounds: all strings of a length before longer ones, and lower ones before higher ones. Those
/// that lie between the fronts of both keys are alike where they lead to one state, so that each state is reached once; beside
/// them there is one string of each length along each key.
struct Search<'a> {
    table: &'a Table<'a>,
    start: &'a [u8],
    end: &'a [u8],
    len: usize,
    /// Where the first `len` bytes of the start lead, if something above the start can begin so
    low: Option<u8>,
    /// Where those of the end lead, if something in the interval can begin so
    high: Option<u8>,
    /// A bit for each state that can match and wasn't reached
    wanted: u64,
    /// The states that were, in the order in which they were
    states: [u8; 64],
    count: usize,
    /// The last byte of the string that reached a state, and what is before it
    last: [(u8, Before); 64],
    /// The bytes that weren't tried from a state: all below and all above them were, and lead to what is reached
    untried: [(u16, u16); 64],
}

impl<'a> Search<'a> {
    fn new(table: &'a Table<'a>, start: &'a [u8], end: &'a [u8]) -> Search<'a> {
        Search {
            table,
            start,
            end,
            len: 0,
            low: None,
            high: Some(table.start()),
            wanted: table.live(),
            states: [0; 64],
            count: 0,
            last: [(0, Before::End); 64],
            untried: [(0, 256); 64],
        }
    }

    /// Goes to the first byte in which the start, which there is, and the end differ. What they share is no string of the
    /// interval, and each one begins with it.
    fn skip_shared(&mut self) -> Option<()> {
        let shared = self.start.iter().zip(self.end);
        for (&byte, _) in shared.take_while(|(one, other)| one == other) {
            self.high = Some(self.along(self.high?, byte)?);
            self.len += 1;
        }
        let (state, &upper) = (self.high?, self.end.get(self.len)?);
        let lower = match self.start.get(self.len) {
            Some(&lower) if lower > upper => return None,
            Some(&lower) => {
                self.low = self.along(state, lower);
                u16::from(lower) + 1
            }
            None => 0,
        };
        self.go_on(state, lower..u16::from(upper), Before::End);
        self.high = self.along(state, upper);
        self.len += 1;
        Some(())
    }

    /// Where a key leads from a state by one byte more, if that can match.
    fn along(&self, state: u8, byte: u8) -> Option<u8> {
        let next = self.table.accept(&state, byte);
        Some(next).filter(|next| self.table.can_match(next))
    }

    /// Goes on from a state by these bytes, where they lead to a state that is wanted.
    fn go_on(&mut self, state: u8, bytes: Range<u16>, before: Before) {
        let (first, end) = &mut self.untried[usize::from(state)];
        let untried = bytes.start.max(*first)..bytes.end.min(*end);
        if bytes.start <= *first {
            *first = bytes.end.max(*first);
        }
        if bytes.end >= *end {
            *end = bytes.start.min(*end);
        }
        let row = self.table.row(state);
        let mut wanted = self.wanted;
        for byte in untried {
            let next = row[usize::from(byte)];
            if wanted >> next & 1 == 1 {
                wanted ^= 1 << next;
                self.last[usize::from(next)] = (byte as u8, before);
                self.states[self.count] = next;
                self.count += 1;
            }
            if wanted == 0 {
                break;
            }
        }
        self.wanted = wanted;
    }

    /// Makes all strings a byte longer. From the lowest they are: the start's front, those that reached the states of this
    /// level, the end's front.
    fn lengthen(&mut self, level: Range<usize>) {
        if let Some(state) = self.low {
            let byte = self.start.get(self.len).copied();
            let above = byte.map_or(0, |byte| u16::from(byte) + 1);
            self.low = byte.and_then(|byte| self.along(state, byte));
            self.go_on(state, above..256, Before::Start);
        }
        for i in level {
            let state = self.states[i];
            self.go_on(state, 0..256, Before::State(state));
        }
        if let Some(state) = self.high {
            let byte = self.end.get(self.len).copied();
            self.high = byte.and_then(|byte| self.along(state, byte));
            self.go_on(state, 0..byte.map_or(0, u16::from), Before::End);
        }
        self.len += 1;
    }

    /// Writes the lowest string of this length that is accepted, if there is one. The start's front isn't above the start.
    fn write_accepted(&self, level: Range<usize>, out: &mut [u8]) -> Option<usize> {
        let accepts = |state: &u8| self.table.is_match(state);
        if let Some(&state) = self.states[level].iter().find(|&state| accepts(state)) {
            self.write(state, out);
        } else if self.high.as_ref().is_some_and(accepts) {
            out[..self.len].copy_from_slice(&self.end[..self.len]);
        } else {
            return None;
        }
        Some(self.len)
    }

    /// Writes the string that reached a state.
    fn write(&self, mut state: u8, out: &mut [u8]) {
        for place in (0..self.len).rev() {
            let (byte, before) = self.last[usize::from(state)];
            out[place] = byte;
            match before {
                Before::State(one) => state = one,
                Before::Start => return out[..place].copy_from_slice(&self.start[..place]),
                Before::End => return out[..place].copy_from_slice(&self.end[..place]),
            }
        }
    }
}

/// Writes the first accepted string above `start` and not above `end`, the shortest and of those the lowest, to the front of
/// `out`, which has 64 bytes more than the longer key. Its length.
pub fn first(start: Option<&[u8]>, end: &[u8], table: &Table, out: &mut [u8]) -> Option<usize> {
    let mut search = Search::new(table, start.unwrap_or_default(), end);
    if start.is_some() {
        search.skip_shared()?;
    }
    let mut done = 0;
    while search.low.is_some() || search.high.is_some() || search.count > done {
        let level = done..search.count;
        if let Some(len) = search.write_accepted(level.clone(), out) {
            return Some(len);
        }
        done = level.end;
        search.lengthen(level);
    }
    None
}
