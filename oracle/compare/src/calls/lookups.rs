//! Lookups by id, ordinal and key, and separators, in files that were opened.

use model::opening::{ORDINAL_ABOVE, Opened, Opening};
use model::rust::Block;
use model::settings::LIMIT;

use super::Call;
use super::opened::{File, Judged};
use crate::asked::{Outside, rust};
use crate::memory::lent::Lent;
use crate::memory::out::{Out, values};
use crate::memory::touched::calling;
use crate::print::Print;
use crate::tally::{By, Case, Tally};

#[rustfmt::skip]
unsafe extern "C" {
    fn rosmarel_get_block(index: *const u8, index_len: usize, opened: *const [u64; 9], id: u64,
        start: *mut u64, end: *mut u64, first_ordinal: *mut u64) -> u32;
    fn rosmarel_locate_with_ord(index: *const u8, index_len: usize, opened: *const [u64; 9], ord: u64,
        id: *mut u64, start: *mut u64, end: *mut u64, first_ordinal: *mut u64) -> u32;
    fn rosmarel_locate_with_key(index: *const u8, index_len: usize, opened: *const [u64; 9],
        key: *const u8, key_len: usize, id: *mut u64) -> u32;
    fn rosmarel_get_block_with_key(index: *const u8, index_len: usize, opened: *const [u64; 9],
        key: *const u8, key_len: usize, id: *mut u64, start: *mut u64, end: *mut u64, first_ordinal: *mut u64) -> u32;
    fn rosmarel_separator(index: *const u8, index_len: usize, opened: *const [u64; 9], id: u64,
        offset: *mut u64, len: *mut u64);
}

pub static GET_BLOCK: Call = Call {
    name: "get_block",
    numbers: &[0, 17, 20],
};
pub static LOCATE_WITH_ORD: Call = Call {
    name: "locate_with_ord",
    numbers: &[0, 18, 20, ORDINAL_ABOVE],
};
pub static LOCATE_WITH_KEY: Call = Call {
    name: "locate_with_key",
    numbers: &[0, 19, 20],
};
pub static GET_BLOCK_WITH_KEY: Call = Call {
    name: "get_block_with_key",
    numbers: &[0, 19, 20],
};
pub static SEPARATOR: Call = Call {
    name: "separator",
    numbers: &[0],
};
pub const CALLS: &[&Call] = &[
    &GET_BLOCK,
    &LOCATE_WITH_ORD,
    &LOCATE_WITH_KEY,
    &GET_BLOCK_WITH_KEY,
    &SEPARATOR,
];

// SAFETY of all calls: pointers and lengths of parts that are lent, out-parameters of their own.

/// The out-parameters are start, end and first ordinal.
fn get_block(file: &File, id: u64, block: &mut [Out; 3]) -> u64 {
    let [start, end, ord] = block.each_mut().map(Out::ptr);
    let (index, len, record) = (file.lent.ptr(), file.lent.len(), file.record.ptr().cast());
    calling(&GET_BLOCK, || unsafe {
        rosmarel_get_block(index, len, record, id, start, end, ord)
    })
    .into()
}

/// The out-parameters are id, start, end and first ordinal.
pub fn locate_with_ord(
    index: &Lent<u8>,
    record: &Lent<u64>,
    ord: u64,
    found: &mut [Out; 4],
) -> u64 {
    let [id, start, end, first] = found.each_mut().map(Out::ptr);
    let (index, len, record) = (index.ptr(), index.len(), record.ptr().cast());
    calling(&LOCATE_WITH_ORD, || unsafe {
        rosmarel_locate_with_ord(index, len, record, ord, id, start, end, first)
    })
    .into()
}

fn locate_with_key(file: &File, key: &Lent<u8>, id: &mut [Out; 1]) -> u64 {
    let [id] = id.each_mut().map(Out::ptr);
    let (index, len, record) = (file.lent.ptr(), file.lent.len(), file.record.ptr().cast());
    calling(&LOCATE_WITH_KEY, || unsafe {
        rosmarel_locate_with_key(index, len, record, key.ptr(), key.len(), id)
    })
    .into()
}

/// The out-parameters are id, start, end and first ordinal.
#[rustfmt::skip]
fn get_block_with_key(file: &File, key: &Lent<u8>, found: &mut [Out; 4]) -> u64 {
    let [id, start, end, ord] = found.each_mut().map(Out::ptr);
    let (index, len, record) = (file.lent.ptr(), file.lent.len(), file.record.ptr().cast());
    calling(&GET_BLOCK_WITH_KEY, || unsafe {
        rosmarel_get_block_with_key(index, len, record, key.ptr(), key.len(), id, start, end, ord)
    })
    .into()
}

/// The out-parameters are offset and length.
fn separator(file: &File, id: u64, place: &mut [Out; 2]) {
    let [offset, length] = place.each_mut().map(Out::ptr);
    let (index, len, record) = (file.lent.ptr(), file.lent.len(), file.record.ptr().cast());
    calling(&SEPARATOR, || unsafe {
        rosmarel_separator(index, len, record, id, offset, length)
    });
}

/// Start, end and first ordinal.
fn numbers(block: Block) -> [u64; 3] {
    [block.start, block.end, block.ord]
}

/// Id, start, end and first ordinal.
fn located((id, block): (u64, Block)) -> [u64; 4] {
    [id, block.start, block.end, block.ord]
}

/// What both sides say of a lookup in a file with its own record.
struct Due<const N: usize> {
    /// the number where the model finds nothing
    row: u64,
    model: Option<[u64; N]>,
    /// None where it panics
    rust: Option<Option<[u64; N]>>,
    /// what the Rust has to give all the same where the model finds nothing
    differs: Option<[u64; N]>,
}

impl<const N: usize> Due<N> {
    /// Whether this is the model's answer, and the Rust's where the model has one.
    fn is(&self, no: u64, got: [u64; N]) -> bool {
        match self.model {
            Some(numbers) => self.rust == Some(Some(numbers)) && (no, got) == (0, numbers),
            None => {
                let listed = |given| self.rust == Some(Some(given));
                (no, got) == (self.row, [0; N]) && self.differs.is_none_or(listed)
            }
        }
    }

    fn outside(&self) -> Option<(u64, Outside)> {
        self.model
            .is_none()
            .then(|| (self.row, Outside::of(&self.rust)))
    }

    fn by(&self) -> By {
        match self.outside() {
            None | Some((_, Outside::Refuses)) => By::Rust,
            _ => By::Model,
        }
    }
}

/// A lookup that was made.
struct Made<const N: usize> {
    call: &'static Call,
    print: Print,
    no: u64,
    got: [u64; N],
    /// nothing was touched but the out-parameters
    kept: bool,
}

impl<const N: usize> Made<N> {
    /// Without anything due, the answer is held to a range, or is 20 for a version that there isn't.
    fn judge(
        self,
        tally: &mut Tally,
        file: &File,
        due: Option<Due<N>>,
        in_range: bool,
        what: impl FnOnce() -> String,
    ) -> (u64, [u64; N]) {
        let Made {
            call,
            print,
            no,
            got,
            kept,
        } = self;
        let case = match &due {
            Some(due) => {
                Case::new(call, due.by(), print, no, kept && due.is(no, got)).outside(due.outside())
            }
            None if file.version_unknown() => {
                let refused = (no, got) == (20, [0; N]);
                Case::new(call, By::Model, print, no, kept && refused)
            }
            None => Case::new(call, By::Range, print, no, kept && in_range),
        };
        tally.case(case, || {
            let said = due.map_or(String::new(), |due| {
                format!(", the model {:?}, the Rust {:?}", due.model, due.rust)
            });
            format!("{} gives {no} {got:?}{said}; {}", what(), file.about())
        });
        (no, got)
    }
}

/// Whether an answer is among those that document 01 leaves free: a refusal, or an id and an address.
fn in_range(n: u64, no: u64, row: u64, got: &[u64], id: u64, range: (u64, u64)) -> bool {
    if no != 0 {
        return (no == row || no == 20) && got.iter().all(|&number| number == 0);
    }
    id < n && range.0 <= range.1 && range.1 < LIMIT
}

impl File {
    /// By id. Returns the number, start, end and first ordinal.
    pub fn id(&self, tally: &mut Tally, id: u64) -> (u64, [u64; 3]) {
        let mut block = Out::some();
        let no = get_block(self, id, &mut block);
        let (got, guarded) = values(&block);
        let due = self.judged().map(|Judged { opening, index, .. }| Due {
            row: 17,
            model: opening.by_id(id).map(numbers),
            rust: rust(&GET_BLOCK, || index.get_block(id).map(numbers)),
            differs: None,
        });
        let print = self.print(&GET_BLOCK).number(id);
        let kept = self.untouched() && guarded;
        let range = in_range(self.n(), no, 17, &got, id, (got[0], got[1]));
        let made = Made {
            call: &GET_BLOCK,
            print,
            no,
            got,
            kept,
        };
        made.judge(tally, self, due, range, || format!("id {id}"))
    }

    /// By ordinal. Returns the number, the id and the address.
    pub fn ord(&self, tally: &mut Tally, ord: u64) -> (u64, [u64; 4]) {
        let mut found = Out::some();
        let no = locate_with_ord(&self.lent, &self.record, ord, &mut found);
        let (got, guarded) = values(&found);
        let due = self.judged().map(|Judged { opening, index, .. }| {
            let model = opening.by_ord(self.terms(), ord);
            Due {
                row: model.err().unwrap_or(0),
                model: model.ok().map(located),
                rust: rust(&LOCATE_WITH_ORD, || {
                    Some(located(index.get_and_locate_with_ord(ord)))
                }),
                differs: self
                    .last_block(opening)
                    .filter(|_| model == Err(ORDINAL_ABOVE)),
            }
        });
        let print = self.print(&LOCATE_WITH_ORD).number(ord);
        let kept = self.untouched() && guarded;
        let record = Opened::of(self.numbers());
        // which number it may be, the record says
        let range = in_range(self.n(), no, no, &got, got[0], (got[1], got[2]))
            && record.ord_no_allowed(&self.bytes, ord, no);
        let made = Made {
            call: &LOCATE_WITH_ORD,
            print,
            no,
            got,
            kept,
        };
        made.judge(tally, self, due, range, || format!("ordinal {ord}"))
    }

    /// What the Rust gives for every ordinal from the number of terms on, in a file that opens with so many.
    fn last_block(&self, opening: &Opening) -> Option<[u64; 4]> {
        let record = Opened::of(self.numbers());
        let last = *opening.blocks.last()?;
        let opens = opening.opens(record);
        opens.then(|| located((record.n - 1, last)))
    }

    /// By key, the id alone.
    pub fn key(&self, tally: &mut Tally, key: &[u8]) -> (u64, [u64; 1]) {
        let (lent, mut id) = (Lent::new(key), Out::some());
        let no = locate_with_key(self, &lent, &mut id);
        let (got, guarded) = values(&id);
        let due = self.judged().map(|Judged { opening, index, .. }| Due {
            row: 19,
            model: opening.by_key(key).map(|id| [id]),
            rust: rust(&LOCATE_WITH_KEY, || {
                index.locate_with_key(key).map(|id| [id])
            }),
            differs: None,
        });
        let print = self.print(&LOCATE_WITH_KEY).part(key);
        let kept = self.untouched() && guarded && lent.holds(key);
        let range = in_range(self.n(), no, 19, &got, got[0], (0, 0));
        let made = Made {
            call: &LOCATE_WITH_KEY,
            print,
            no,
            got,
            kept,
        };
        made.judge(tally, self, due, range, || format!("key {key:x?}"))
    }

    /// By key, with the address.
    pub fn address(&self, tally: &mut Tally, key: &[u8]) -> (u64, [u64; 4]) {
        let (lent, mut found) = (Lent::new(key), Out::some());
        let no = get_block_with_key(self, &lent, &mut found);
        let (got, guarded) = values(&found);
        let due = self.judged().map(|Judged { opening, index, .. }| Due {
            row: 19,
            model: opening
                .by_key(key)
                .and_then(|id| Some(located((id, opening.by_id(id)?)))),
            rust: rust(&GET_BLOCK_WITH_KEY, || {
                Some(located((
                    index.locate_with_key(key)?,
                    index.get_block_with_key(key)?,
                )))
            }),
            differs: None,
        });
        let print = self.print(&GET_BLOCK_WITH_KEY).part(key);
        let kept = self.untouched() && guarded && lent.holds(key);
        let range = in_range(self.n(), no, 19, &got, got[0], (got[1], got[2]));
        let made = Made {
            call: &GET_BLOCK_WITH_KEY,
            print,
            no,
            got,
            kept,
        };
        made.judge(tally, self, due, range, || {
            format!("address of key {key:x?}")
        })
    }

    /// A separator's place. The Rust can't be asked for one, but finds its id by it.
    pub fn separator(&self, tally: &mut Tally, id: u64) -> [u64; 2] {
        let mut place = Out::some();
        separator(self, id, &mut place);
        let (got, guarded) = values(&place);
        let (part, kept) = (self.part(got), self.untouched() && guarded);
        let due = self
            .judged()
            .map(|judged| judged.opening.place(id).map(<[u64; 2]>::from));
        let (by, right) = match due {
            None if self.version_unknown() => (By::Model, got == [0, 0]),
            None => (By::Range, part.is_some()),
            Some(None) => (By::Model, got == [0, 0]),
            Some(Some(due)) => (By::Rust, got == due && self.rust_finds(part) == Some(id)),
        };
        let print = self.print(&SEPARATOR).number(id);
        tally.case(Case::new(&SEPARATOR, by, print, 0, right && kept), || {
            format!(
                "separator {id} gives {got:?}, the model {due:?}; {}",
                self.about()
            )
        });
        got
    }

    /// The block that the Rust finds by the key; a panic finds none.
    fn rust_finds(&self, key: Option<&[u8]>) -> Option<u64> {
        let (index, key) = (self.judged()?.index, key?);
        rust(&SEPARATOR, || index.locate_with_key(key)).flatten()
    }

    fn part(&self, [offset, len]: [u64; 2]) -> Option<&[u8]> {
        let from = usize::try_from(offset).ok()?;
        self.bytes
            .get(from..from.checked_add(usize::try_from(len).ok()?)?)
    }
}
