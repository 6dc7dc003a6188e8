//! The calls that take an automaton and an interval of keys.

use model::automaton::{Table, number, table_hits};
use model::first::first;
use model::kinds::kinds;
use model::settings::MOST_STATES;
use tantivy_sstable::access;

use super::Call;
use crate::asked::rust;
use crate::memory::lent::Lent;
use crate::memory::out::Out;
use crate::memory::touched::calling;
use crate::print::Print;
use crate::tally::{By, Case, Tally};

#[rustfmt::skip]
unsafe extern "C" {
    fn rosmarel_can_block_match(has_start: bool, start: *const u8, start_len: usize, end: *const u8, end_len: usize,
        automaton: *const u8, automaton_len: usize, matches: *mut u64) -> u32;
    fn rosmarel_example(has_start: bool, start: *const u8, start_len: usize, end: *const u8, end_len: usize,
        automaton: *const u8, automaton_len: usize, out: *mut u8, out_len: usize, len: *mut u64) -> u32;
}

pub static CAN_BLOCK_MATCH: Call = Call {
    name: "can_block_match",
    numbers: &[0, 21, 22, 23],
};
pub static EXAMPLE: Call = Call {
    name: "example",
    numbers: &[0, 21, 22, 23, 24, 25],
};
pub const CALLS: &[&Call] = &[&CAN_BLOCK_MATCH, &EXAMPLE];

/// Two keys as they are lent. An absent start is lent too.
pub struct Keys<'a> {
    has: bool,
    given: [&'a [u8]; 2],
    lent: [Lent<u8>; 2],
}

impl<'a> Keys<'a> {
    pub fn new(start: Option<&'a [u8]>, absent: &'a [u8], end: &'a [u8]) -> Keys<'a> {
        let given = [start.unwrap_or(absent), end];
        Keys {
            has: start.is_some(),
            given,
            lent: given.map(Lent::new),
        }
    }

    fn untouched(&self) -> bool {
        self.lent
            .iter()
            .zip(self.given)
            .all(|(lent, given)| lent.holds(given))
    }

    fn print(&self, print: Print) -> Print {
        let [start, end] = self.given;
        print.number(self.has.into()).part(start).part(end)
    }
}

// SAFETY of both calls: pointers and lengths of parts that are lent and don't overlap, out-parameters of their own.

#[rustfmt::skip]
pub fn can_block_match(keys: &Keys, automaton: &Lent<u8>, matches: &mut Out) -> u64 {
    let [start, end] = &keys.lent;
    let (table, size) = (automaton.ptr(), automaton.len());
    calling(&CAN_BLOCK_MATCH, || unsafe {
        rosmarel_can_block_match(keys.has, start.ptr(), start.len(), end.ptr(), end.len(), table, size, matches.ptr())
    })
    .into()
}

#[rustfmt::skip]
fn example(keys: &Keys, automaton: &Lent<u8>, out: &mut Lent<u8>, len: &mut Out) -> u64 {
    let [start, end] = &keys.lent;
    let (table, size, room) = (automaton.ptr(), automaton.len(), out.len());
    let (written, len) = (out.ptr_mut(), len.ptr());
    calling(&EXAMPLE, || unsafe {
        rosmarel_example(keys.has, start.ptr(), start.len(), end.ptr(), end.len(), table, size, written, room, len)
    })
    .into()
}

/// An automaton's bytes, lent; its table, or the row that the bytes break.
pub struct Pattern {
    pub bytes: Vec<u8>,
    pub lent: Lent<u8>,
    table: Result<Table, u64>,
    pub print: Print,
}

/// What stands in the place of a start that is absent.
const ABSENT: &[u8] = b"\xff\x00q";

impl Pattern {
    pub fn new(bytes: &[u8]) -> Pattern {
        let table = match number(&table_hits(bytes)) {
            0 => Ok(Table::read(bytes)),
            row => Err(row),
        };
        let print = Print::new().part(bytes);
        Pattern {
            bytes: bytes.to_vec(),
            lent: Lent::new(bytes),
            table,
            print,
        }
    }

    pub fn of(table: &Table) -> Pattern {
        Pattern::new(&table.bytes())
    }

    /// The table, or the row.
    pub fn taken(&self) -> Result<&Table, u64> {
        self.table.as_ref().map_err(|&row| row)
    }

    pub fn untouched(&self) -> bool {
        self.lent.holds(&self.bytes)
    }

    pub fn about(&self) -> String {
        format!("automaton {:x?}", &self.bytes[..self.bytes.len().min(1600)])
    }

    /// The row, and the Rust's mark of an interval; no mark where it panics.
    fn mark(&self, call: &'static Call, start: Option<&[u8]>, end: &[u8]) -> (u64, Option<bool>) {
        match &self.table {
            Ok(table) => (
                0,
                rust(call, || {
                    access::can_block_match_automaton(start, end, table)
                }),
            ),
            Err(row) => (*row, Some(false)),
        }
    }

    fn by(&self) -> By {
        if self.table.is_ok() {
            By::Rust
        } else {
            By::Model
        }
    }

    /// The mark of an interval. `absent` stands where there is no start. Returns the number and the mark.
    pub fn block(
        &self,
        tally: &mut Tally,
        start: Option<&[u8]>,
        absent: &[u8],
        end: &[u8],
    ) -> (u64, u64) {
        let (due, mark) = self.mark(&CAN_BLOCK_MATCH, start, end);
        let (keys, mut matches) = (Keys::new(start, absent, end), Out::new());
        let no = can_block_match(&keys, &self.lent, &mut matches);
        let right = no == due && mark.is_some_and(|mark| matches.is(mark.into()));
        let right = right && keys.untouched() && self.untouched();
        let print = keys.print(Print::of(&CAN_BLOCK_MATCH).and(self.print));
        tally.case(
            Case::new(&CAN_BLOCK_MATCH, self.by(), print, no, right),
            || {
                let got = matches.value();
                format!(
                    "{start:x?} {end:x?} gives {no} {got}, not {due} {mark:?}; {}",
                    self.about()
                )
            },
        );
        (no, matches.value())
    }

    /// What is due of an example: rows 21 to 23, then 24, then 25, and with number 0 the string; none where the Rust panics, or where
    /// it has another mark than the model has a string.
    fn example_due(&self, start: Option<&[u8]>, end: &[u8], room: usize) -> Option<(u64, Vec<u8>)> {
        let (row, mark) = self.mark(&EXAMPLE, start, end);
        let table = match &self.table {
            Err(_) => return Some((row, Vec::new())),
            Ok(_) if room < longer(start, end) + MOST_STATES => return Some((24, Vec::new())),
            Ok(table) => table,
        };
        let found = first(table, start, end);
        let agreed = mark? == found.is_some();
        agreed.then(|| found.map_or((25, Vec::new()), |found| (0, found)))
    }

    /// An example in a buffer of `room` bytes. Returns the number and the string.
    pub fn example(
        &self,
        tally: &mut Tally,
        start: Option<&[u8]>,
        absent: &[u8],
        end: &[u8],
        room: usize,
    ) -> (u64, Vec<u8>) {
        let due = self.example_due(start, end, room);
        let keys = Keys::new(start, absent, end);
        let (mut out, mut len) = (Lent::buffer(room), Out::new());
        let no = example(&keys, &self.lent, &mut out, &mut len);
        let exact = due.as_ref().is_some_and(|(due, string)| {
            no == *due && len.is(string.len() as u64) && out.holds_front(string)
        });
        let right = exact && keys.untouched() && self.untouched();
        let by = match &due {
            Some((25, _)) => By::Rust,
            _ => By::Model,
        };
        let print = keys
            .print(Print::of(&EXAMPLE).and(self.print))
            .number(room as u64);
        let found = usize::try_from(len.value()).unwrap_or(usize::MAX);
        let found = out.part().get(..found);
        let new = tally.case(Case::new(&EXAMPLE, by, print, no, right), || {
            format!(
                "{start:x?} {end:x?} into {room} gives {no} {found:x?}, not {due:x?}; {}",
                self.about()
            )
        });
        if let (true, Ok(table), Some((0, string))) = (new, &self.table, &due) {
            tally.kinds(&kinds(table, start, end, string));
        }
        (no, found.unwrap_or_default().to_vec())
    }

    /// The mark, and an example with room enough and no more.
    pub fn all(&self, tally: &mut Tally, start: Option<&[u8]>, end: &[u8]) {
        self.block(tally, start, ABSENT, end);
        self.example(tally, start, ABSENT, end, longer(start, end) + MOST_STATES);
    }
}

/// The longer key's length.
fn longer(start: Option<&[u8]>, end: &[u8]) -> usize {
    start.unwrap_or_default().len().max(end.len())
}
