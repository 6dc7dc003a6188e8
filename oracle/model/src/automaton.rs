//! Automata given as tables, and what a plain model says of them.

use tantivy_fst::Automaton;
use tantivy_sstable::access;

use crate::opening::Hit;
use crate::settings::MOST_STATES;

/// The table of document 01: a flag for each state, and 256 next states for each. State 0 starts.
#[derive(Clone)]
pub struct Table {
    pub flags: Vec<u8>,
    pub next: Vec<u8>,
    /// Whether an accepting state can be reached in zero or more steps.
    live: Vec<bool>,
}

impl Table {
    pub fn new(flags: Vec<u8>, next: Vec<u8>) -> Table {
        let m = flags.len();
        assert!((1..=MOST_STATES).contains(&m) && next.len() == 256 * m);
        assert!(flags.iter().all(|&flag| flag <= 1));
        assert!(next.iter().all(|&state| usize::from(state) < m));
        let mut live: Vec<bool> = flags.iter().map(|&flag| flag == 1).collect();
        // one round a step; after m rounds nothing changes
        for _ in 0..m {
            for state in 0..m {
                let row = &next[256 * state..256 * (state + 1)];
                live[state] |= row.iter().any(|&to| live[usize::from(to)]);
            }
        }
        Table { flags, next, live }
    }

    /// A table by a rule for the next state.
    pub fn rule(flags: Vec<u8>, mut rule: impl FnMut(usize, usize) -> usize) -> Table {
        let next = (0..256 * flags.len())
            .map(|i| rule(i / 256, i % 256) as u8)
            .collect();
        Table::new(flags, next)
    }

    /// Accepts these words and nothing else. The last state is the one for all else.
    pub fn words(words: &[&[u8]]) -> Table {
        let mut prefixes: Vec<&[u8]> = vec![b""];
        for word in words {
            for length in 1..=word.len() {
                if !prefixes.contains(&&word[..length]) {
                    prefixes.push(&word[..length]);
                }
            }
        }
        let place = |string: &[u8]| prefixes.iter().position(|&prefix| prefix == string);
        let dead = prefixes.len();
        let mut flags = vec![0; dead + 1];
        let mut next = vec![dead as u8; 256 * (dead + 1)];
        for (state, prefix) in prefixes.iter().enumerate() {
            flags[state] = u8::from(words.contains(prefix));
            if let Some((&byte, before)) = prefix.split_last() {
                next[256 * place(before).unwrap() + usize::from(byte)] = state as u8;
            }
        }
        Table::new(flags, next)
    }

    /// Accepts all that begins with the word.
    pub fn beginning(word: &[u8]) -> Table {
        let mut table = Table::words(&[word]);
        let last = word.len();
        table.next[256 * last..256 * (last + 1)].fill(last as u8);
        Table::new(table.flags, table.next)
    }

    /// The table of bytes that break no row.
    pub fn read(bytes: &[u8]) -> Table {
        let (flags, next) = bytes[1..].split_at(usize::from(bytes[0]));
        Table::new(flags.to_vec(), next.to_vec())
    }

    /// As in the automaton's record.
    pub fn bytes(&self) -> Vec<u8> {
        [&[self.flags.len() as u8], &self.flags[..], &self.next].concat()
    }

    /// The next states row by row, as runs: how many less one, and the state.
    pub fn runs(&self) -> Vec<u8> {
        let rows = self.next.chunks(256);
        rows.flat_map(|row| row.chunk_by(|one, other| one == other))
            .flat_map(|run| [(run.len() - 1) as u8, run[0]])
            .collect()
    }

    /// Whether the string leads from state 0 to a flag of 1.
    pub fn accepts(&self, string: &[u8]) -> bool {
        let last = string
            .iter()
            .fold(0, |state, &byte| self.accept(&state, byte));
        self.is_match(&last)
    }

    /// Whether some accepted string lies above `start` and not above `end`, by a plain search.
    pub fn accepts_in(&self, start: Option<&[u8]>, end: &[u8]) -> bool {
        self.search(0, 0, start, Some(end))
    }

    // A string of length i leads to `state`; it is the front of each bound that is still there,
    // and keeps the other's rule however it goes on.
    fn search(&self, state: u8, i: usize, above: Option<&[u8]>, upto: Option<&[u8]>) -> bool {
        if above.is_none() && upto.is_none() {
            return self.live[usize::from(state)];
        }
        if above.is_none() && self.flags[usize::from(state)] == 1 {
            return true;
        }
        (0..=255u8).any(|byte| {
            let above = match above.map(|start| start.get(i)) {
                Some(Some(&kb)) if byte < kb => return false,
                Some(Some(&kb)) if byte == kb => above,
                _ => None,
            };
            let upto = match upto.map(|end| end.get(i)) {
                Some(Some(&kb)) if byte > kb => return false,
                Some(Some(&kb)) if byte == kb => upto,
                Some(None) => return false,
                _ => None,
            };
            let next = self.next[256 * usize::from(state) + usize::from(byte)];
            self.search(next, i + 1, above, upto)
        })
    }
}

impl Automaton for Table {
    type State = u8;

    fn start(&self) -> u8 {
        0
    }

    fn is_match(&self, state: &u8) -> bool {
        self.flags[usize::from(*state)] == 1
    }

    fn can_match(&self, state: &u8) -> bool {
        self.live[usize::from(*state)]
    }

    fn accept(&self, state: &u8, byte: u8) -> u8 {
        self.next[256 * usize::from(*state) + usize::from(byte)]
    }
}

/// An interval: above the first key, where there is one, and not above the second.
pub type Interval = (Option<Vec<u8>>, Vec<u8>);

/// The rows that an automaton's bytes break, in their order.
pub fn table_hits(bytes: &[u8]) -> Vec<Hit> {
    let Some((&m, rest)) = bytes.split_first() else {
        return vec![(21, "empty")];
    };
    let m = usize::from(m);
    let mut hits = Vec::new();
    if m == 0 {
        hits.push((21, "no states"));
    }
    if m > MOST_STATES {
        hits.push((21, "over 64 states"));
    }
    if bytes.len() != 1 + 257 * m {
        hits.push((21, "length"));
    }
    let (flags, next) = rest.split_at(m.min(rest.len()));
    if flags.iter().any(|&flag| flag > 1) {
        hits.push((22, "flag"));
    }
    if next.iter().any(|&state| usize::from(state) >= m) {
        hits.push((23, "next state"));
    }
    hits
}

/// The first row that is hit, or 0.
pub fn number(hits: &[Hit]) -> u64 {
    hits.first().map_or(0, |hit| hit.0)
}

/// The room that every example of the interval fits in.
pub fn room((start, end): &Interval) -> usize {
    start.as_ref().map_or(0, Vec::len).max(end.len()) + MOST_STATES
}

/// The Rust's answer, held against a plain search.
pub fn mark(table: &Table, (start, end): &Interval) -> bool {
    let answer = access::can_block_match_automaton(start.as_deref(), end, table);
    assert_eq!(answer, table.accepts_in(start.as_deref(), end));
    answer
}
