use std::collections::HashMap;
use std::collections::hash_map::Entry;
use std::fmt;
use std::hash::Hash;

use crate::{Refusal, ffi};

/// The most states of an automaton.
pub const MAX_STATES: usize = 64;

const BYTES: usize = 256;

/// A pattern of keys: a table of up to 64 states.
///
/// State 0 starts, each byte of a key leads from a state to the next, and a key is accepted if the last state's flag is
/// set.
///
/// ```
/// use rosmarel::{Automaton, Refusal};
///
/// /// One key alone: states count the bytes that fit, and the last one is for all that can't fit any more.
/// fn exact(key: &[u8]) -> Result<Automaton, Refusal> {
///     let (all, lost) = (key.len(), key.len() + 1);
///     Automaton::from_fn(lost + 1, |state| state == all, |state, byte| {
///         if key.get(state) == Some(&byte) { state + 1 } else { lost }
///     })
/// }
///
/// /// All keys that begin with `start`.
/// fn prefix(start: &[u8]) -> Result<Automaton, Refusal> {
///     let (all, lost) = (start.len(), start.len() + 1);
///     Automaton::from_fn(lost + 1, |state| state == all, |state, byte| {
///         if state == all || start.get(state) == Some(&byte) { all.min(state + 1) } else { lost }
///     })
/// }
///
/// let c = exact(b"c")?;
/// assert!(c.can_block_match(Some(b"b"), b"d"));
/// assert!(!c.can_block_match(Some(b"c"), b"d"));
///
/// let co = prefix(b"co")?;
/// assert!(co.accepts(b"co") && co.accepts(b"cobalt") && !co.accepts(b"c"));
/// assert!(co.can_block_match(Some(b"cobalt"), b"cod"));
/// # Ok::<(), Refusal>(())
/// ```
#[derive(Clone, PartialEq, Eq, Hash)]
pub struct Automaton {
    // Only tables that the archive has found good: none of its calls refuses one later.
    table: Vec<u8>,
}

impl Automaton {
    /// An automaton from its table, one byte each: the number m of states, m accept flags of 0 or 1, then for each state
    /// the next states after the bytes 0 to 255.
    ///
    /// # Errors
    ///
    /// In this order: [`AutomatonSize`](Refusal::AutomatonSize), [`AcceptFlag`](Refusal::AcceptFlag),
    /// [`NextState`](Refusal::NextState).
    ///
    /// ```
    /// use rosmarel::{Automaton, Refusal};
    ///
    /// // one state that accepts and stays: all keys
    /// let mut table = vec![0; 1 + 1 + 256];
    /// table[0] = 1;
    /// table[1] = 1;
    /// assert!(Automaton::from_table(&table)?.accepts(b"any"));
    ///
    /// table[2 + 255] = 1;
    /// assert_eq!(Automaton::from_table(&table).unwrap_err(), Refusal::NextState);
    /// # Ok::<(), Refusal>(())
    /// ```
    pub fn from_table(table: &[u8]) -> Result<Automaton, Refusal> {
        Automaton::checked(table.to_vec())
    }

    /// An automaton with so many states: which of them accept, and which state a byte leads to. State 0 starts.
    ///
    /// # Errors
    ///
    /// [`AutomatonSize`](Refusal::AutomatonSize) where `states` is 0 or above 64, [`NextState`](Refusal::NextState)
    /// where `next` gives a state that isn't below it.
    ///
    /// ```
    /// use rosmarel::{Automaton, Refusal};
    ///
    /// let even = Automaton::from_fn(2, |state| state == 0, |state, _| 1 - state)?;
    /// assert!(even.accepts(b"") && even.accepts(b"ab") && !even.accepts(b"abc"));
    ///
    /// let beyond = Automaton::from_fn(2, |_| true, |state, _| state + 1);
    /// assert_eq!(beyond.unwrap_err(), Refusal::NextState);
    /// # Ok::<(), Refusal>(())
    /// ```
    pub fn from_fn(
        states: usize,
        mut accept: impl FnMut(usize) -> bool,
        mut next: impl FnMut(usize, u8) -> usize,
    ) -> Result<Automaton, Refusal> {
        if !(1..=MAX_STATES).contains(&states) {
            return Err(Refusal::AutomatonSize);
        }
        let mut table = Vec::with_capacity(table_len(states));
        table.push(states as u8);
        table.extend((0..states).map(|state| u8::from(accept(state))));
        for state in 0..states {
            // no table has a state 255, so the check refuses what a byte can't hold
            table.extend(
                (0..=u8::MAX).map(|byte| u8::try_from(next(state, byte)).unwrap_or(u8::MAX)),
            );
        }
        Automaton::checked(table)
    }

    /// An automaton over states of any type: where it starts, which states accept, and which state a byte leads to. The
    /// states are numbered as they are reached.
    ///
    /// # Errors
    ///
    /// [`AutomatonSize`](Refusal::AutomatonSize) where more than 64 states are reached.
    ///
    /// ```
    /// use rosmarel::{Automaton, Refusal};
    ///
    /// // "cat" with at most one byte changed; a state is how much was read, and whether a byte differed
    /// let near = Automaton::explore(
    ///     Some((0, false)),
    ///     |state| matches!(state, Some((3, _))),
    ///     |state, byte| {
    ///         let (read, differed) = (*state)?;
    ///         let wrong = b"cat".get(read)? != &byte;
    ///         if wrong && differed { None } else { Some((read + 1, wrong || differed)) }
    ///     },
    /// )?;
    /// assert!(near.accepts(b"cat") && near.accepts(b"cot") && !near.accepts(b"cog"));
    /// # Ok::<(), Refusal>(())
    /// ```
    pub fn explore<S: Clone + Eq + Hash>(
        start: S,
        mut is_match: impl FnMut(&S) -> bool,
        mut accept: impl FnMut(&S, u8) -> S,
    ) -> Result<Automaton, Refusal> {
        let mut numbers = HashMap::from([(start.clone(), 0)]);
        let mut states = vec![start];
        let mut nexts = Vec::new();
        let mut at = 0;
        while at < states.len() {
            for byte in 0..=u8::MAX {
                let next = accept(&states[at], byte);
                let number = match numbers.entry(next) {
                    Entry::Occupied(known) => *known.get(),
                    Entry::Vacant(_) if states.len() == MAX_STATES => {
                        return Err(Refusal::AutomatonSize);
                    }
                    Entry::Vacant(new) => {
                        states.push(new.key().clone());
                        *new.insert(states.len() - 1)
                    }
                };
                nexts.push(number);
            }
            at += 1;
        }
        Automaton::from_fn(
            states.len(),
            |state| is_match(&states[state]),
            |state, byte| nexts[BYTES * state + usize::from(byte)],
        )
    }

    /// Any call refuses a bad table before it looks at keys; the one for an interval is the smallest.
    fn checked(table: Vec<u8>) -> Result<Automaton, Refusal> {
        ffi::can_block_match(None, &[], &table)?;
        Ok(Automaton { table })
    }

    /// The table's bytes.
    pub fn as_table(&self) -> &[u8] {
        &self.table
    }

    /// How many states there are.
    pub fn states(&self) -> usize {
        usize::from(self.table[0])
    }

    /// Whether a key is accepted.
    pub fn accepts(&self, key: &[u8]) -> bool {
        let (flags, nexts) = self.table[1..].split_at(self.states());
        let last = key.iter().fold(0, |state, &byte| {
            usize::from(nexts[BYTES * state + usize::from(byte)])
        });
        flags[last] == 1
    }

    /// Whether some string above `start` and not above `end` is accepted. Without a start the empty string counts too.
    ///
    /// ```
    /// use rosmarel::Automaton;
    ///
    /// // the empty string alone
    /// let empty = Automaton::from_fn(2, |state| state == 0, |_, _| 1)?;
    /// assert!(empty.can_block_match(None, b""));
    /// assert!(!empty.can_block_match(Some(b""), b""));
    /// # Ok::<(), rosmarel::Refusal>(())
    /// ```
    pub fn can_block_match(&self, start: Option<&[u8]>, end: &[u8]) -> bool {
        sure(ffi::can_block_match(start, end, &self.table))
    }

    /// The first accepted string above `start` and not above `end`, if there is one: the shortest, and of the shortest the
    /// lowest in byte order. Without a start the empty string counts too. It is at most 64 bytes longer than the longer key.
    ///
    /// Pattern and interval alone decide which string that is: two benches that show the example of one pattern in one block
    /// show the same key.
    ///
    /// ```
    /// use rosmarel::Automaton;
    ///
    /// // keys in which an a stands right after a b
    /// let ba = Automaton::from_fn(3, |state| state == 2, |state, byte| match (state, byte) {
    ///     (2, _) | (1, b'a') => 2,
    ///     (_, b'b') => 1,
    ///     _ => 0,
    /// })?;
    /// // "aba" lies in the interval too and is lower, but it is longer
    /// assert!(ba.accepts(b"aba"));
    /// assert_eq!(ba.example(Some(b"a"), b"c").as_deref(), Some(&b"ba"[..]));
    /// // above "ba" three bytes are needed, and of all such keys this is the lowest
    /// assert_eq!(ba.example(Some(b"ba"), b"c").as_deref(), Some(&b"ba\0"[..]));
    /// assert_eq!(ba.example(Some(b"a"), b"a"), None);
    /// # Ok::<(), rosmarel::Refusal>(())
    /// ```
    pub fn example(&self, start: Option<&[u8]>, end: &[u8]) -> Option<Vec<u8>> {
        let longer = end.len().max(start.map_or(0, <[u8]>::len));
        let mut key = vec![0; longer + MAX_STATES];
        let len = match ffi::example(start, end, &self.table, &mut key) {
            Err(Refusal::NoExample) => return None,
            answer => sure(answer),
        };
        key.truncate(len);
        Some(key)
    }
}

/// The length of the table of so many states.
const fn table_len(states: usize) -> usize {
    1 + states + BYTES * states
}

/// An answer for a table that was checked.
fn sure<T>(answer: Result<T, Refusal>) -> T {
    answer.unwrap_or_else(|refusal| panic!("a table that was found good is refused: {refusal}"))
}

impl TryFrom<&[u8]> for Automaton {
    type Error = Refusal;

    fn try_from(table: &[u8]) -> Result<Automaton, Refusal> {
        Automaton::from_table(table)
    }
}

impl fmt::Debug for Automaton {
    fn fmt(&self, f: &mut fmt::Formatter<'_>) -> fmt::Result {
        let flags = &self.table[1..=self.states()];
        let accepting: Vec<usize> = (0..flags.len()).filter(|&i| flags[i] == 1).collect();
        f.debug_struct("Automaton")
            .field("states", &self.states())
            .field("accepting", &accepting)
            .finish_non_exhaustive()
    }
}
