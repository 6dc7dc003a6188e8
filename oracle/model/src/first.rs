//! The example of an interval: its first accepted string, by a breadth-first search over all strings.

use std::mem::replace;

use crate::automaton::Table;
use crate::settings::MOST_STATES;

/// What a string of the interval may begin with, and the state that it leads to.
struct Front {
    bytes: Vec<u8>,
    state: u8,
    /// the start key begins with it: it isn't above that key
    of_start: bool,
    /// the end key begins with it: what has it as a front may be above that key
    of_end: bool,
}

impl Front {
    /// Whether it is still a front of each key with this byte more; nothing where all that begins so lies outside.
    fn keeps(&self, byte: u8, start: Option<&[u8]>, end: &[u8]) -> Option<(bool, bool)> {
        let i = self.bytes.len();
        let mut keeps = (false, false);
        if self.of_start
            && let Some(&due) = start?.get(i)
        {
            if byte < due {
                return None;
            }
            keeps.0 = byte == due;
        }
        if self.of_end {
            let due = *end.get(i)?;
            if byte > due {
                return None;
            }
            keeps.1 = byte == due;
        }
        Some(keeps)
    }
}

/// The shortest accepted string above `start` and not above `end`, and of those the lowest in byte order. Strings are gone through
/// level by level, by their lengths, and each level in byte order.
pub fn first(table: &Table, start: Option<&[u8]>, end: &[u8]) -> Option<Vec<u8>> {
    let mut level = vec![Front {
        bytes: Vec::new(),
        state: 0,
        of_start: start.is_some(),
        of_end: true,
    }];
    let mut met = [false; MOST_STATES];
    while !level.is_empty() {
        let accepted = |front: &&Front| table.flags[usize::from(front.state)] == 1;
        if let Some(found) = level.iter().filter(|front| !front.of_start).find(accepted) {
            return Some(found.bytes.clone());
        }
        level = longer(table, &level, start, end, &mut met);
    }
    None
}

/// The next level. All that begins with a front of neither key lies inside, so that two such fronts go on alike where they lead to
/// one state: the first that leads there is kept. A front of a key is the only one of its length.
fn longer(
    table: &Table,
    level: &[Front],
    start: Option<&[u8]>,
    end: &[u8],
    met: &mut [bool; MOST_STATES],
) -> Vec<Front> {
    let mut next = Vec::new();
    for front in level {
        for byte in 0..=u8::MAX {
            let Some((of_start, of_end)) = front.keeps(byte, start, end) else {
                continue;
            };
            let state = table.next[256 * usize::from(front.state) + usize::from(byte)];
            if of_start || of_end || !replace(&mut met[usize::from(state)], true) {
                next.push(Front {
                    bytes: [&front.bytes[..], &[byte]].concat(),
                    state,
                    of_start,
                    of_end,
                });
            }
        }
    }
    next
}
