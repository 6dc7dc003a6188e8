//! Lookups of several keys at once, in files that were opened.

use std::cell::{OnceCell, RefCell};
use std::collections::HashMap;

use model::batch::{KeyList, NO_ID, Separators};
use model::opening::Opened;

use super::Call;
use super::opened::{File, Judged};
use crate::asked::rust;
use crate::memory::lent::Lent;
use crate::memory::touched::calling;
use crate::tally::{By, Case, Tally};

#[rustfmt::skip]
unsafe extern "C" {
    fn rosmarel_locate_with_keys(index: *const u8, index_len: usize, opened: *const [u64; 9], pairs: *const u64, pairs_len: usize,
        keys: *const u8, keys_len: usize, ids: *mut u64, ids_len: usize) -> u32;
}

pub static LOCATE_WITH_KEYS: Call = Call {
    name: "locate_with_keys",
    numbers: &[0, 20, 26],
};
pub const CALLS: &[&Call] = &[&LOCATE_WITH_KEYS];

fn call(file: &File, pairs: &Lent<u64>, keys: &Lent<u8>, ids: &mut Lent<u64>) -> u64 {
    let (index, len, record) = (file.lent.ptr(), file.lent.len(), file.record.ptr().cast());
    let (words, count) = (pairs.ptr(), pairs.len());
    let (bytes, size) = (keys.ptr(), keys.len());
    let (front, room) = (ids.ptr_mut(), ids.len());
    // SAFETY: parts that are lent and don't overlap.
    calling(&LOCATE_WITH_KEYS, || unsafe {
        rosmarel_locate_with_keys(index, len, record, words, count, bytes, size, front, room)
    })
    .into()
}

/// What is known of a file's keys with its own record, found out once.
#[derive(Default)]
pub struct Known {
    separators: OnceCell<Separators>,
    /// what the call for one key gave, as an entry; None where it was refused
    singles: RefCell<HashMap<Vec<u8>, Option<u64>>>,
}

/// What a call must do.
enum Due {
    /// The number, and what stands at the front of the ids
    Exactly(u64, Vec<u64>),
    /// The sides that judge a list that is taken don't agree, or the Rust panics
    Unclear(String),
    /// A record that isn't the file's: 20, or any entries
    Free,
}

impl File {
    /// Looks the list up, with room for so many ids. Returns the number and the id area.
    pub fn batch(&self, tally: &mut Tally, list: &KeyList, room: usize) -> (u64, Vec<u64>) {
        let (pairs, keys) = (Lent::new(&list.pairs), Lent::new(&list.bytes));
        let mut ids = Lent::buffer(room);
        let no = call(self, &pairs, &keys, &mut ids);
        let kept = self.untouched() && pairs.holds(&list.pairs) && keys.holds(&list.bytes);
        let due = self.batch_due(tally, list, room);
        let right = match &due {
            Due::Exactly(number, front) => no == *number && ids.holds_front(front),
            Due::Unclear(_) => false,
            Due::Free => self.entries_in_range(no, list.count(), &ids),
        };
        let by = match &due {
            Due::Exactly(0, front) if !front.is_empty() => By::Rust,
            Due::Exactly(..) => By::Model,
            Due::Unclear(_) => By::Rust,
            Due::Free => By::Range,
        };
        let print = self.print(&LOCATE_WITH_KEYS);
        let print = print
            .part(&list.pairs)
            .part(&list.bytes)
            .number(room as u64);
        let case = Case::new(&LOCATE_WITH_KEYS, by, print, no, right && kept);
        tally.case(case, || {
            let got = &ids.part()[..room.min(70)];
            let said = match &due {
                Due::Exactly(number, front) => format!("not {number} {front:?}"),
                Due::Unclear(why) => why.clone(),
                Due::Free => "which isn't in range".to_string(),
            };
            let (words, bytes) = (&list.pairs, &list.bytes);
            let (shown, front) = (&words[..words.len().min(140)], &bytes[..bytes.len().min(150)]);
            format!(
                "gives {no} {got:?}, {said}; room {room}, {} words {shown:?}, {} bytes {front:x?}; {}",
                words.len(),
                bytes.len(),
                self.about()
            )
        });
        (no, ids.part().to_vec())
    }

    fn batch_due(&self, tally: &mut Tally, list: &KeyList, room: usize) -> Due {
        if let Some(judged) = self.judged() {
            return self.entries_due(tally, judged, list, room);
        }
        // the archive's own order: the record by itself, then the list, then what a search meets
        if Opened::of(self.numbers()).unfit(self.bytes.len()) {
            Due::Exactly(20, Vec::new())
        } else if !list.causes(room).is_empty() {
            Due::Exactly(26, Vec::new())
        } else {
            Due::Free
        }
    }

    /// The model's answer; its entries must be those of the Rust, and those of the call for one key.
    fn entries_due(&self, tally: &mut Tally, judged: Judged, list: &KeyList, room: usize) -> Due {
        let Judged {
            opening,
            index,
            known,
        } = judged;
        let separators = known
            .separators
            .get_or_init(|| Separators::new(&opening.keys));
        let (no, entries) = separators.locate(list, room);
        if no != 0 {
            return Due::Exactly(no, entries);
        }
        let keys = list.keys();
        let found = |key: &&[u8]| index.locate_with_key(key).unwrap_or(NO_ID);
        let rust: Option<Vec<u64>> = rust(&LOCATE_WITH_KEYS, || keys.iter().map(found).collect());
        let single = |key: &&[u8]| self.single(tally, known, key);
        let singles: Option<Vec<u64>> = keys.iter().map(single).collect();
        if rust.as_ref() == Some(&entries) && singles.as_ref() == Some(&entries) {
            Due::Exactly(0, entries)
        } else {
            Due::Unclear(format!(
                "the model {entries:?}, the Rust {rust:?}, one by one {singles:?}"
            ))
        }
    }

    /// The entry that the call for one key gives.
    fn single(&self, tally: &mut Tally, known: &Known, key: &[u8]) -> Option<u64> {
        if let Some(&entry) = known.singles.borrow().get(key) {
            return entry;
        }
        let entry = match self.key(tally, key) {
            (0, [id]) => Some(id),
            (19, _) => Some(NO_ID),
            _ => None,
        };
        known.singles.borrow_mut().insert(key.to_vec(), entry);
        entry
    }

    /// Whether an answer to a list that can be taken is among those that are left free.
    fn entries_in_range(&self, no: u64, count: usize, ids: &Lent<u64>) -> bool {
        if no != 0 {
            return no == 20 && ids.holds_front(&[]);
        }
        let front = &ids.part()[..count];
        let entry = |&id: &u64| id < self.n() || id == NO_ID;
        front.iter().all(entry) && ids.holds_front(front)
    }
}
