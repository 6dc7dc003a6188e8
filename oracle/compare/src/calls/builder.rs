//! A builder of the library beside the models: add, shorten, finish and finish_len.

use model::areas::{Areas, Entry, Machine, View, first, index};
use model::rust::Block;
use model::version::{NO_VERSIONS, VERSION_BAD, Version};
use tantivy_sstable::access;

use super::Call;
use super::building::{self, ADD, FINISH, FINISH_LEN, SHORTEN};
use crate::asked::{Outside, rust};
use crate::memory::lent::{Lent, junk};
use crate::memory::out::{Out, values};
use crate::print::Print;
use crate::tally::{By, Case, Tally};

/// The library's areas, and what the models say of them.
#[derive(Clone)]
pub struct Builder {
    blocks: Lent<u64>,
    keys: Lent<u8>,
    pub areas: Areas,
    /// of a fresh builder: it sees the calls' arguments and the areas' lengths alone
    pub machine: Option<Machine>,
}

/// An index that a finish must write, and its directory's length.
type Written = (Vec<u8>, u64);

impl Builder {
    /// No blocks yet, areas of these lengths with something in them.
    pub fn fresh(room: usize, key_room: usize) -> Builder {
        let areas = Areas {
            n: 0,
            blocks: junk(room),
            keys: junk(key_room),
        };
        let mut builder = Builder::raw(areas);
        builder.machine = Some(Machine {
            entries: Vec::new(),
            room,
            key_room,
        });
        builder
    }

    /// A count over any areas.
    pub fn raw(areas: Areas) -> Builder {
        let (blocks, keys) = (Lent::new(&areas.blocks), Lent::new(&areas.keys));
        Builder {
            blocks,
            keys,
            areas,
            machine: None,
        }
    }

    fn lent(&self) -> String {
        let Areas { n, blocks, keys } = &self.areas;
        let shown = &blocks[..blocks.len().min(50)];
        let bytes = &keys[..keys.len().min(100)];
        let (room, key_room) = (blocks.len(), keys.len());
        format!("n {n}, {room} numbers {shown:?}, {key_room} key bytes {bytes:x?}")
    }

    /// The call, the count and the areas, before the call is made.
    fn print(&self, call: &'static Call) -> Print {
        let print = Print::of(call).number(self.areas.n);
        self.keys.print(self.blocks.print(print))
    }

    /// Whether the areas are as the model says. They are put right for the next call.
    fn settle(&mut self) -> bool {
        let right = self.blocks.holds(&self.areas.blocks) && self.keys.holds(&self.areas.keys);
        if !right {
            self.blocks = Lent::new(&self.areas.blocks);
            self.keys = Lent::new(&self.areas.keys);
        }
        right
    }

    /// The number that the plain machine gives, if there is one, or the view of the areas.
    fn number(&self, rows: impl Fn(&View) -> Vec<u64>) -> u64 {
        let by_areas = first(&rows(&self.areas.view(self.areas.n)));
        if let Some(machine) = &self.machine {
            assert_eq!(first(&rows(&machine.view())), by_areas, "the models differ");
        }
        by_areas
    }

    /// Returns the number.
    pub fn add(&mut self, tally: &mut Tally, block: Block, key: &[u8]) -> u64 {
        let print = self
            .print(&ADD)
            .part(key)
            .numbers(&[block.start, block.end, block.ord]);
        let before = self.areas.n;
        let due = self.number(|view| view.add_rows(block, key));
        if due == 0 {
            self.areas.add(block, key);
            if let Some(machine) = &mut self.machine {
                machine.entries.push((block, key.to_vec()));
            }
        }
        let (mut n, lent) = (Out::of(before), Lent::new(key));
        let no = building::add(&mut n, &mut self.blocks, &mut self.keys, &lent, block);
        let right = no == due && n.is(self.areas.n) && lent.holds(key);
        let right = self.settle() && right;
        tally.case(Case::new(&ADD, By::Model, print, no, right), || {
            format!(
                "{block:?} {key:x?} gives {no}, not {due}; now {}",
                self.lent()
            )
        });
        due
    }

    /// An add that must be taken. It is a case only if it isn't: what it writes is compared with the next call.
    pub fn add_unseen(&mut self, tally: &mut Tally, block: Block, key: &[u8]) {
        let mut n = Out::of(self.areas.n);
        self.areas.add(block, key);
        let lent = Lent::new(key);
        let no = building::add(&mut n, &mut self.blocks, &mut self.keys, &lent, block);
        if no != 0 || !n.is(self.areas.n) {
            let print = self.print(&ADD).part(key);
            tally.case(Case::new(&ADD, By::Model, print, no, false), || {
                format!("{block:?} {key:x?} gives {no}; now {}", self.lent())
            });
        }
    }

    /// Returns the number.
    pub fn shorten(&mut self, tally: &mut Tally, next: &[u8]) -> u64 {
        let print = self.print(&SHORTEN).part(next);
        let n = self.areas.n;
        let due = self.number(|view| view.shorten_rows(next));
        let short = self.shortened(due, next);
        let answers = match (due, &short) {
            (0, Some(Some(key))) => {
                self.areas.replace_last_key(key);
                self.machine_key(key);
                true
            }
            (0, Some(None)) => false,
            _ => true,
        };
        let lent = Lent::new(next);
        let no = building::shorten(n, &mut self.blocks, &mut self.keys, &lent);
        let right = self.settle() && answers && no == due && lent.holds(next);
        let by = if due == 0 && short.is_some() {
            By::Rust
        } else {
            By::Model
        };
        let outside = short
            .filter(|_| due != 0)
            .map(|short| (due, Outside::of(&short.map(Some))));
        tally.case(
            Case::new(&SHORTEN, by, print, no, right).outside(outside),
            || {
                let asked = if answers { "" } else { "; the Rust panics" };
                format!(
                    "{next:x?} gives {no}, not {due}{asked}; now {}",
                    self.lent()
                )
            },
        );
        due
    }

    /// The Rust's shortened key, where there is a last one that row 1 takes; Some(None) where it panics.
    fn shortened(&self, due: u64, next: &[u8]) -> Option<Option<Vec<u8>>> {
        let (_, key) = self.areas.view(self.areas.n).last?;
        (due != 1).then(|| rust(&SHORTEN, || access::find_shorter_str_in_between(&key, next)))
    }

    fn machine_key(&mut self, short: &[u8]) {
        if let Some(machine) = &mut self.machine {
            machine.entries.last_mut().expect("an entry").1 = short.to_vec();
        }
    }

    /// The row that a finish with a right version hits before it looks at its output, or 0.
    fn finish_row(&self) -> u64 {
        if self.areas.view(self.areas.n).row_1() {
            1
        } else if !self.areas.broken().is_empty() {
            8
        } else {
            0
        }
    }

    /// The row, and what the Rust writes; None where it panics.
    fn index(&self, version: Version) -> (u64, Option<Written>) {
        let row = self.finish_row();
        if row != 0 {
            return (row, Some((Vec::new(), 0)));
        }
        let entries: Vec<Entry> = match &self.machine {
            Some(machine) => machine.entries.clone(),
            None => self.areas.entries(),
        };
        (0, rust(&FINISH, || index(version, &entries)))
    }

    /// A finish into a buffer of each of these lengths beside the index's, and its length alone. Returns the index.
    pub fn finish(&mut self, tally: &mut Tally, version: Version, rooms: &[isize]) -> Vec<u8> {
        let (row, written) = self.index(version);
        let len = written.as_ref().map_or(0, |written| written.0.len());
        let version = version.number();
        for room in rooms {
            let room = len.saturating_add_signed(*room);
            self.finish_into(tally, version, room, row, written.as_ref());
        }
        self.finish_len(tally, version, row, written.as_ref());
        self.finish_one_unknown(tally, len);
        written.unwrap_or_default().0
    }

    /// A finish into a buffer of `room` bytes, and its length alone, with any version. Returns the number, the index and its directory's
    /// length.
    pub fn finish_room(
        &mut self,
        tally: &mut Tally,
        version: u64,
        room: usize,
    ) -> (u64, Vec<u8>, u64) {
        // 30 comes first, whatever the areas hold
        let unknown = (VERSION_BAD, Some((Vec::new(), 0)));
        let (row, written) = Version::of(version).map_or(unknown, |known| self.index(known));
        let no = self.finish_into(tally, version, room, row, written.as_ref());
        self.finish_len(tally, version, row, written.as_ref());
        let (bytes, directory) = written.filter(|_| no == 0).unwrap_or_default();
        (no, bytes, directory)
    }

    /// A finish with a version that there isn't, now and then: always the same one for the same areas.
    fn finish_one_unknown(&mut self, tally: &mut Tally, room: usize) {
        let print = self.print(&FINISH);
        if print.turn(&[0, 1, 2, 3]) == 0 {
            self.finish_room(tally, print.number(1).turn(&NO_VERSIONS), room);
        }
    }

    fn finish_into(
        &mut self,
        tally: &mut Tally,
        version: u64,
        room: usize,
        row: u64,
        written: Option<&Written>,
    ) -> u64 {
        let print = self.print(&FINISH).number(version).number(room as u64);
        let (bytes, directory) =
            written.map_or((&[][..], 0), |written| (&written.0[..], written.1));
        let due = match row {
            0 if room < bytes.len() => 9,
            row => row,
        };
        let (front, lengths) = match due {
            0 => (bytes, [bytes.len() as u64, directory]),
            _ => (&[][..], [0, 0]),
        };
        let (mut out, mut answers) = (Lent::buffer(room), Out::some());
        let no = building::finish(
            version,
            self.areas.n,
            &self.blocks,
            &self.keys,
            &mut out,
            &mut answers,
        );
        let right = written.is_some() && no == due && values(&answers) == (lengths, true);
        let right = out.holds_front(front) && self.settle() && right;
        // the Rust's output grows
        let outside = (due == 9).then_some((9, Outside::Answers));
        let case = Case::new(&FINISH, by(due, self.areas.n), print, no, right);
        tally.case(case.outside(outside), || {
            let (got, asked) = (values(&answers).0, panics(written));
            format!(
                "version {version} into {room} bytes gives {no} {got:?}, not {due} {lengths:?}{asked}; {}",
                self.lent()
            )
        });
        due
    }

    fn finish_len(&mut self, tally: &mut Tally, version: u64, row: u64, written: Option<&Written>) {
        let print = self.print(&FINISH_LEN).number(version);
        let due = written.map_or(0, |written| written.0.len() as u64);
        let mut total = Out::new();
        let (n, blocks, keys) = (self.areas.n, &self.blocks, &self.keys);
        let no = building::finish_len(version, n, blocks, keys, &mut total);
        let right = self.settle() && written.is_some() && no == row && total.is(due);
        tally.case(
            Case::new(&FINISH_LEN, by(row, self.areas.n), print, no, right),
            || {
                let (got, asked) = (total.value(), panics(written));
                format!(
                    "version {version} gives {no} {got}, not {row} {due}{asked}; {}",
                    self.lent()
                )
            },
        );
    }
}

fn panics(written: Option<&Written>) -> &'static str {
    if written.is_some() {
        ""
    } else {
        "; the Rust panics"
    }
}

fn by(no: u64, n: u64) -> By {
    if no == 0 && n > 1 {
        By::Rust
    } else {
        By::Model
    }
}
