//! Listings of the blocks that a pattern may be in.

use model::rust::Index;

use super::Call;
use super::intervals::Pattern;
use super::opened::File;
use crate::asked::rust;
use crate::memory::lent::Lent;
use crate::memory::out::Out;
use crate::memory::touched::calling;
use crate::tally::{By, Case, Tally};

#[rustfmt::skip]
unsafe extern "C" {
    fn rosmarel_list(index: *const u8, index_len: usize, opened: *const [u64; 9], automaton: *const u8,
        automaton_len: usize, marks: *mut u8, marks_len: usize, count: *mut u64) -> u32;
}

pub static LIST: Call = Call {
    name: "list",
    numbers: &[0, 20, 21, 22, 23, 24],
};
pub const CALLS: &[&Call] = &[&LIST];

fn call(file: &File, automaton: &Lent<u8>, marks: &mut Lent<u8>, count: &mut Out) -> u64 {
    let (index, len, record) = (file.lent.ptr(), file.lent.len(), file.record.ptr().cast());
    let (table, size, room) = (automaton.ptr(), automaton.len(), marks.len());
    // SAFETY: parts that are lent and don't overlap, an out-parameter of its own.
    calling(&LIST, || unsafe {
        rosmarel_list(
            index,
            len,
            record,
            table,
            size,
            marks.ptr_mut(),
            room,
            count.ptr(),
        )
    })
    .into()
}

fn ones(marks: &[u8]) -> u64 {
    marks.iter().filter(|&&mark| mark == 1).count() as u64
}

impl File {
    /// A listing into a buffer of `room` bytes. Returns the number, the count and the buffer.
    pub fn list(&self, tally: &mut Tally, pattern: &Pattern, room: usize) -> (u64, u64, Vec<u8>) {
        let (mut marks, mut count) = (Lent::buffer(room), Out::new());
        let no = call(self, &pattern.lent, &mut marks, &mut count);
        let kept = self.untouched() && count.guarded() && pattern.untouched();
        let due = self.marks_due(pattern, room);
        let right = match &due {
            Some(Some((due, front))) => {
                no == *due && count.is(ones(front)) && marks.holds_front(front)
            }
            Some(None) => false,
            None => self.marks_in_range(no, count.value(), &marks),
        };
        let by = match (&due, no) {
            (None, _) => By::Range,
            (_, 0) if self.judged().is_some() => By::Rust,
            _ => By::Model,
        };
        let print = self.print(&LIST).and(pattern.print).number(room as u64);
        tally.case(Case::new(&LIST, by, print, no, right && kept), || {
            let (count, shown) = (count.value(), &marks.part()[..room.min(300)]);
            let asked = if matches!(due, Some(None)) {
                "; the Rust panics"
            } else {
                ""
            };
            format!(
                "gives {no}, count {count}, {shown:?}{asked}; {}; {}",
                pattern.about(),
                self.about()
            )
        });
        (no, count.value(), marks.part().to_vec())
    }

    /// What is due, if anything is; Some(None) where the Rust panics.
    fn marks_due(&self, pattern: &Pattern, room: usize) -> Option<Option<(u64, Vec<u8>)>> {
        if self.version_unknown() {
            return Some(Some((20, Vec::new())));
        }
        let judged = self.judged()?;
        Some(self.marks(judged.index, pattern, room))
    }

    /// The number, and the marks of the Rust; None where it panics.
    fn marks(&self, index: &Index, pattern: &Pattern, room: usize) -> Option<(u64, Vec<u8>)> {
        let n = self.n() as usize;
        match pattern.taken() {
            Err(row) => Some((row, Vec::new())),
            Ok(_) if room < n => Some((24, Vec::new())),
            Ok(table) => {
                let mut marks = vec![0; n];
                for id in rust(&LIST, || index.get_block_for_automaton(table))? {
                    *marks.get_mut(id as usize)? = 1;
                }
                Some((0, marks))
            }
        }
    }

    /// Whether a listing is among those that document 01 leaves free.
    fn marks_in_range(&self, no: u64, count: u64, marks: &Lent<u8>) -> bool {
        if no != 0 {
            return (20..=24).contains(&no) && count == 0 && marks.holds_front(&[]);
        }
        let written = usize::try_from(self.n())
            .ok()
            .and_then(|n| marks.part().get(..n));
        written.is_some_and(|written| {
            let whole = written.iter().all(|&mark| mark <= 1);
            whole && ones(written) == count && marks.holds_front(written)
        })
    }
}
