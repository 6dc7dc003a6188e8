//! Files that the library opens and checks, beside the model and the Rust.

use std::cell::OnceCell;

use model::around;
use model::opening::{self, Opened, Opening, TERMS_BAD};
use model::rust::Index;
use model::settings::OPENED_LEN;
use model::version::{NO_VERSIONS, VERSION_BAD, Version};

use super::batches::Known;
use super::{Call, canonical};
use crate::asked::{Outside, rust};
use crate::memory::lent::Lent;
use crate::memory::touched::calling;
use crate::print::Print;
use crate::tally::{By, Case, Tally};

#[rustfmt::skip]
unsafe extern "C" {
    fn rosmarel_open(version: u64, terms: u64, index: *const u8, index_len: usize, opened: *mut [u64; 9]) -> u32;
}

pub static OPEN: Call = Call {
    name: "open",
    numbers: &[0, 10, 11, 12, 13, 14, 15, 16, TERMS_BAD, VERSION_BAD],
};
pub const CALLS: &[&Call] = &[&OPEN];

/// The record has as many numbers as the call writes.
pub fn call(version: u64, terms: u64, index: &Lent<u8>, opened: &mut Lent<u64>) -> u64 {
    assert_eq!(opened.len(), OPENED_LEN);
    let (bytes, len) = (index.ptr(), index.len());
    // SAFETY: parts that are lent and don't overlap.
    calling(&OPEN, || unsafe {
        rosmarel_open(version, terms, bytes, len, opened.ptr_mut().cast())
    })
    .into()
}

/// What both sides say of a file in one version.
struct Sides {
    opening: Opening,
    /// the Rust's, if the model opens the file
    index: Option<Index>,
    /// what the Rust does when it is to open the file
    asked: Outside,
    known: Known,
}

impl Sides {
    fn new(version: Version, bytes: &[u8]) -> Sides {
        let opening = opening::open(version, bytes);
        let index = rust(&OPEN, || Index::try_open(version, bytes).ok());
        Sides {
            asked: Outside::of(&index),
            index: index.flatten().filter(|_| opening.no() == 0),
            opening,
            known: Known::default(),
        }
    }
}

/// What judges the lookups with a record that is the file's.
#[derive(Clone, Copy)]
pub struct Judged<'a> {
    pub opening: &'a Opening,
    pub index: &'a Index,
    pub known: &'a Known,
}

/// A file of a version, and the record that the next lookup uses.
pub struct File {
    pub bytes: Vec<u8>,
    pub lent: Lent<u8>,
    pub version: Version,
    own: Sides,
    /// the same bytes in the other version
    other: OnceCell<Box<Sides>>,
    pub record: Lent<u64>,
    numbers: [u64; OPENED_LEN],
    /// the version with which these bytes open and give this record, whatever its number of terms: only the lookup by ordinal looks at that
    exact: Option<Version>,
    print: Print,
    /// the check's number
    pub checked: u64,
}

/// Opens the bytes, with each number of terms where they are new, and checks whether they are the ones that finish writes.
pub fn open(tally: &mut Tally, version: Version, bytes: &[u8]) -> File {
    let numbers = [0; OPENED_LEN];
    let mut file = File {
        bytes: bytes.to_vec(),
        lent: Lent::new(bytes),
        version,
        own: Sides::new(version, bytes),
        other: OnceCell::new(),
        record: Lent::new(&numbers),
        numbers,
        exact: None,
        print: Print::new().part(bytes),
        checked: 0,
    };
    file.open_with_each(tally);
    file.checked = file.check(tally, &file.own);
    file
}

/// What an opening must do.
struct Due {
    no: u64,
    record: Opened,
    /// the Rust opens the file where the model does
    agreed: bool,
    /// what the Rust did where the table refuses
    outside: Option<(u64, Outside)>,
}

impl Due {
    /// With a version that there isn't: 30 comes first, whatever the bytes are.
    const UNKNOWN: Due = Due {
        no: VERSION_BAD,
        record: Opened::NONE,
        agreed: true,
        outside: None,
    };
}

impl File {
    /// What the model reads in the file.
    pub fn opening(&self) -> &Opening {
        &self.own.opening
    }

    fn sides(&self, version: Version) -> &Sides {
        if version == self.version {
            return &self.own;
        }
        let other = || Box::new(Sides::new(version, &self.bytes));
        self.other.get_or_init(other)
    }

    /// What judges lookups, if the record is the file's and the Rust opens it.
    pub fn judged(&self) -> Option<Judged<'_>> {
        let sides = self.sides(self.exact?);
        Some(Judged {
            opening: &sides.opening,
            index: sides.index.as_ref()?,
            known: &sides.known,
        })
    }

    /// Opens the bytes with each number of terms where they are new, else with one; a file that is refused whatever that number is with
    /// 0 and another one. Lookups then use a record of one of these openings: which one goes by the bytes, so that the same bytes always
    /// have the same one.
    fn open_with_each(&mut self, tally: &mut Tally) {
        let all = around::terms(self.opening().last_ord().unwrap_or(5));
        if self.opening().no() != 0 {
            if self.judge(tally, &self.own, 0) {
                self.open_with_others(tally, self.by_turns(&all));
            }
            self.judge(tally, &self.own, self.by_turns(&all[1..]));
            return;
        }
        let terms = self.by_turns(&all[2..]);
        if self.judge(tally, &self.own, terms) {
            for other in all.into_iter().filter(|&other| other != terms) {
                self.judge(tally, &self.own, other);
            }
            self.open_with_others(tally, terms);
        }
        self.set_record(self.opening().answer(terms));
    }

    /// Opens and checks the bytes, now and then, with the other version or with one that there isn't.
    fn open_with_others(&self, tally: &mut Tally, terms: u64) {
        let turn = self.by_turns(&[0, 1, 2, 3, 4, 5, 6, 7]);
        match turn {
            0 => drop(self.open_other(tally, terms)),
            1 => {
                let number = self.print.number(turn).turn(&NO_VERSIONS);
                self.open_unknown(tally, number, terms)
            }
            _ => {}
        }
    }

    /// Opens the bytes again, with so many terms. Lookups use the record that this gives.
    pub fn reopen(&mut self, tally: &mut Tally, terms: u64) {
        self.reopen_as(tally, self.version.number(), terms);
    }

    /// The same with any version. Returns the number that is due.
    pub fn reopen_as(&mut self, tally: &mut Tally, version: u64, terms: u64) -> u64 {
        let Some(known) = Version::of(version) else {
            self.open_unknown(tally, version, terms);
            self.set_record(Opened::NONE);
            return VERSION_BAD;
        };
        let sides = self.sides(known);
        self.judge(tally, sides, terms);
        let (no, record) = (sides.opening.number(terms), sides.opening.answer(terms));
        self.set_record(record);
        no
    }

    /// Opens and checks the bytes with the other version. Returns the record that this gives.
    pub fn open_other(&self, tally: &mut Tally, terms: u64) -> Opened {
        let sides = self.sides(self.version.other());
        self.judge(tally, sides, terms);
        self.check(tally, sides);
        sides.opening.answer(terms)
    }

    /// Opens and checks the bytes with a version that there isn't: 30, whatever they are.
    pub fn open_unknown(&self, tally: &mut Tally, version: u64, terms: u64) {
        self.open_due(tally, version, terms, Due::UNKNOWN);
        canonical::unknown(tally, version, &self.lent, &self.bytes, self.print);
    }

    /// The check in one version. Returns the number that is due.
    fn check(&self, tally: &mut Tally, sides: &Sides) -> u64 {
        canonical::check(tally, &self.lent, &self.bytes, &sides.opening, self.print)
    }

    /// Opens the bytes in one version, with so many terms. Returns whether that is new.
    fn judge(&self, tally: &mut Tally, sides: &Sides, terms: u64) -> bool {
        let Sides { opening, asked, .. } = sides;
        let no = opening.number(terms);
        let due = Due {
            no,
            record: opening.answer(terms),
            agreed: no != 0 || *asked == Outside::Answers,
            // the Rust can't be handed a number of terms
            outside: (no != 0 && no != TERMS_BAD).then_some((no, *asked)),
        };
        self.open_due(tally, opening.version.number(), terms, due)
    }

    /// One opening. Returns whether it is new.
    fn open_due(&self, tally: &mut Tally, version: u64, terms: u64, due: Due) -> bool {
        let numbers = due.record.numbers();
        let mut opened = Lent::buffer(OPENED_LEN);
        let no = call(version, terms, &self.lent, &mut opened);
        let kept = self.lent.holds(&self.bytes);
        let right = no == due.no && opened.holds(&numbers) && kept && due.agreed;
        let by = if due.no == 0 { By::Rust } else { By::Model };
        let print = Print::of(&OPEN).and(self.print);
        let print = print.number(version).number(terms);
        let case = Case::new(&OPEN, by, print, no, right).outside(due.outside);
        tally.case(case, || {
            let (len, got, no_due) = (self.bytes.len(), opened.part(), due.no);
            let asked = if due.agreed {
                ""
            } else {
                "; the Rust doesn't open it"
            };
            let shown = &self.bytes[..len.min(300)];
            format!(
                "version {version}, {len} bytes with {terms} terms give {no} {got:?}, not {no_due} {numbers:?}{asked}; {shown:x?}"
            )
        })
    }

    /// Sets a record that may not be the file's.
    pub fn set_record(&mut self, record: Opened) {
        self.numbers = record.numbers();
        self.record = Lent::new(&self.numbers);
        let gives = |version: &Version| self.sides(*version).opening.is_but_for_terms(record);
        self.exact = Version::of(record.version).filter(gives);
    }

    /// Sets another number of terms in the record.
    pub fn set_terms(&mut self, terms: u64) {
        self.set_record(Opened::of(self.numbers).with_terms(terms));
    }

    /// Whether the record's version is none: every lookup must say 20.
    pub fn version_unknown(&self) -> bool {
        Version::of(Opened::of(self.numbers).version).is_none()
    }

    /// One of these, always the same for the same bytes.
    pub fn by_turns(&self, choices: &[u64]) -> u64 {
        self.print.turn(choices)
    }

    /// The record that the next lookup uses.
    pub fn numbers(&self) -> [u64; OPENED_LEN] {
        self.numbers
    }

    pub fn n(&self) -> u64 {
        self.numbers[0]
    }

    pub fn terms(&self) -> u64 {
        Opened::of(self.numbers).terms
    }

    pub fn about(&self) -> String {
        let shown = &self.bytes[..self.bytes.len().min(300)];
        let len = self.bytes.len();
        format!("record {:?}, {len} bytes {shown:x?}", self.numbers)
    }

    /// Whether the index and the record are as they were.
    pub fn untouched(&self) -> bool {
        self.record.holds(&self.numbers) && self.lent.holds(&self.bytes)
    }

    /// A call with this file and this record.
    pub fn print(&self, call: &'static Call) -> Print {
        Print::of(call).and(self.print).numbers(&self.numbers)
    }
}
