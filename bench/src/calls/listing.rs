//! The blocks that may hold a key of a pattern: marks alone, and with addresses.

use std::hint::black_box;

use rosmarel::{Automaton, BlockAddr, Version};
use tantivy_sstable::{Index as _, Rust, V3, V4, access};

use super::{Call, Family, IN_V4, Plots, Whose, in_version};
use crate::ffi;
use crate::inputs::{Input, Keys, theirs};
use crate::measure::{Side, side};
use crate::patterns::{Depth, Table, patterns_for};
use crate::plot::Scale;
use crate::report::{Report, Row};

pub const FAMILY: Family = Family {
    calls: &[MARKS, MARKS_V4, ADDRESSES, ADDRESSES_V4, READY],
    measure: measure::<V3>,
    measure_v4: Some(measure_short_keys),
};

const MARKS: Call = Call {
    what: "listing, marks",
    ours: "`rosmarel_list`",
    with: "a walk over the keys that asks `can_block_match_automaton` for each block and sets marks; no address is read",
    whose: Whose::Both,
    says: "What decides a mark is tantivy's code. The walk is ours, since tantivy's own listing always reads addresses; keys and \
           automaton come from stand-ins of ours, and both sides check the table and work out which states can match inside the time.",
    scale: Scale::Time,
    plots: Plots::ByKeys,
};

const MARKS_V4: Call = Call {
    what: "listing, marks, version 4",
    says: IN_V4,
    plots: Plots::None,
    ..MARKS
};

const ADDRESSES: Call = Call {
    what: "listing, addresses",
    ours: "`Index::get_block_for_automaton` of bindings/rust: marks in a new buffer, then a lookup by id for each",
    with: "`SSTableIndexV3::get_block_for_automaton`",
    whose: Whose::Both,
    says: "The listing is tantivy's code; keys and automaton come from stand-ins of ours, and both sides check the table and work \
           out which states can match inside the time.",
    scale: Scale::Time,
    plots: Plots::ByKeys,
};

const ADDRESSES_V4: Call = Call {
    what: "listing, addresses, version 4",
    says: IN_V4,
    plots: Plots::None,
    ..ADDRESSES
};

const READY: Call = Call {
    what: "listing, table ready",
    ours: "the same as in listing, addresses",
    with: "`SSTableIndexV3::get_block_for_automaton`, with an automaton whose table was checked before",
    whose: Whose::Both,
    says: "tantivy's automata are made once and used often; ours is handed over as a table and checked in each call.",
    scale: Scale::Time,
    plots: Plots::None,
};

/// A block more than a group and 16,384 blocks show nothing here that their neighbours don't.
const SIZES: [usize; 7] = [2, 16, 128, 256, 1_000, 4_096, 65_536];

/// From so many bytes of a key on a pattern doesn't end early.
const FAR: usize = 100;

/// How many blocks patterns are looked at in: fewer where the Rust takes long for one listing. Quick runs leave out what
/// takes seconds in all.
fn most(kind: Keys, quick: bool) -> usize {
    match kind {
        Keys::SharedLongest | Keys::EarlyLongest => 1_000,
        Keys::Early => 4_096,
        Keys::Short | Keys::Shared if quick => 4_096,
        Keys::Short | Keys::Shared => 65_536,
    }
}

/// Whether patterns are looked at in an index of this size.
pub fn of_size(report: &Report, input: &Input) -> bool {
    let quick = report.options.quick && !report.names_a_size();
    SIZES.contains(&input.n) && input.n <= most(input.kind, quick)
}

/// Short keys alone: what a listing reads of a group is the address of each marked block, whatever its keys.
fn measure_short_keys(report: &mut Report, input: &Input) {
    if input.kind == Keys::Short {
        measure::<V4>(report, input);
    }
}

fn measure<R: Rust>(report: &mut Report, input: &Input) {
    if !of_size(report, input) {
        return;
    }
    let marks = in_version::<R>(&MARKS, &MARKS_V4);
    let addresses = in_version::<R>(&ADDRESSES, &ADDRESSES_V4);
    for (name, table) in patterns_for(input) {
        let load = format!("{}, {name}", input.kind.name());
        let rows = [marks, addresses, &READY].map(|call| Row::new(call.what, &load, input.n));
        let mut wanted = rows.each_ref().map(|row| report.wants(row));
        // the last one is timed in version 3 alone
        wanted[2] &= R::VERSION == 3;
        if !wanted.contains(&true) {
            continue;
        }
        let [marks, addresses, ready] = with_bars(report, input, &table, rows);
        let listing = Listing::<R>::new(report, input, &table);
        if wanted[0] {
            report.measure(marks, listing.marks(), 1);
        }
        if wanted[1] {
            report.measure(addresses, listing.addresses(), 1);
        }
        if wanted[2] {
            report.measure(ready, listing.ready(), 1);
        }
    }
}

/// The bar is lower where keys are followed far.
fn with_bars(report: &Report, input: &Input, table: &[u8], rows: [Row; 3]) -> [Row; 3] {
    let [mut marks, mut addresses, mut ready] = rows;
    if report.first_pass() {
        let far = far_blocks(input, table);
        (marks, addresses) = if 3 * far >= input.n {
            (
                marks.grouped("listing, marks, far").held(0.1),
                addresses.grouped("listing, addresses, far").held(0.1),
            )
        } else {
            (marks.held(0.5), addresses.held(0.5))
        };
        ready.note = format!("{far} far");
    }
    [marks, addresses, ready]
}

/// In how many blocks the search goes far into a key.
fn far_blocks(input: &Input, table: &[u8]) -> usize {
    let depth = Depth::new(Table::read(table).unwrap());
    let far = |id: &usize| {
        let start = id.checked_sub(1).map(|before| &input.keys[before][..]);
        depth.forget();
        access::can_block_match_automaton(start, &input.keys[*id], &depth);
        depth.most() >= FAR
    };
    (0..input.n).filter(far).count()
}

/// A pattern and an index, open on both sides.
struct Listing<'a, R: Rust> {
    input: &'a Input,
    table: &'a [u8],
    ours: rosmarel::Index<'a>,
    automaton: Automaton,
    rust: R::Index,
    rust_automaton: Table<'a>,
}

impl<'a, R: Rust> Listing<'a, R> {
    /// In the first pass all forms must give the same.
    fn new(report: &Report, input: &'a Input, table: &'a [u8]) -> Listing<'a, R> {
        let version = Version::from_number(input.version()).unwrap();
        let listing = Listing {
            input,
            table,
            ours: rosmarel::Index::open(&input.index, version, input.terms()).unwrap(),
            automaton: Automaton::from_table(table).unwrap(),
            rust: R::Index::open(&input.index),
            rust_automaton: Table::read(table).unwrap(),
        };
        if report.first_pass() {
            listing.check();
        }
        listing
    }

    fn check(&self) {
        let (mut marks, mut rust_marks) = (vec![2; self.input.n], vec![3; self.input.n]);
        let count = self.list(&mut marks);
        let rust = &self.rust_automaton;
        assert_eq!(self.rust.mark_for_automaton(rust, &mut rust_marks), count);
        assert!(marks == rust_marks);
        let found: Vec<(u64, BlockAddr)> =
            self.ours.get_block_for_automaton(&self.automaton).collect();
        let ids: Vec<u64> = found.iter().map(|(id, _)| *id).collect();
        assert!(
            (0..)
                .zip(&marks)
                .filter(|(_, mark)| **mark == 1)
                .map(|(id, _)| id)
                .eq(ids)
        );
        let same = |(id, block): &(u64, BlockAddr)| (*id, theirs(*block));
        assert!(
            found
                .iter()
                .map(same)
                .eq(self.rust.get_block_for_automaton(rust))
        );
    }

    fn list(&self, marks: &mut [u8]) -> usize {
        let (index, opened) = black_box((&self.input.index[..], &self.input.opened));
        ffi::list(index, opened, black_box(self.table), marks).unwrap()
    }

    fn marks(&self) -> Vec<(&'static str, Side<'_>)> {
        let mut marks = vec![0; self.input.n];
        let mut rust_marks = vec![0; self.input.n];
        let ours = side(move || self.list(black_box(&mut marks)));
        let rust = side(move || {
            let automaton = Table::read(black_box(self.table)).unwrap();
            let index = black_box(&self.rust);
            index.mark_for_automaton(&automaton, black_box(&mut rust_marks))
        });
        vec![("ours", ours), ("Rust", rust)]
    }

    /// Ours with addresses. Both sides put what they find into a list that has the room.
    fn our_addresses(&self) -> Side<'_> {
        let mut found = Vec::with_capacity(self.input.n);
        side(move || {
            found.clear();
            found.extend(black_box(&self.ours).get_block_for_automaton(black_box(&self.automaton)));
            black_box(&found).len()
        })
    }

    fn addresses(&self) -> Vec<(&'static str, Side<'_>)> {
        let mut found = Vec::with_capacity(self.input.n);
        let rust = side(move || {
            let automaton = Table::read(black_box(self.table)).unwrap();
            found.clear();
            found.extend(black_box(&self.rust).get_block_for_automaton(&automaton));
            black_box(&found).len()
        });
        vec![("ours", self.our_addresses()), ("Rust", rust)]
    }

    fn ready(&self) -> Vec<(&'static str, Side<'_>)> {
        let mut found = Vec::with_capacity(self.input.n);
        let rust = side(move || {
            let automaton = black_box(&self.rust_automaton);
            found.clear();
            found.extend(black_box(&self.rust).get_block_for_automaton(automaton));
            black_box(&found).len()
        });
        vec![("ours", self.our_addresses()), ("Rust", rust)]
    }
}
