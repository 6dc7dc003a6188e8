//! The store from a slice of blocks.

use model::areas::{first, slice_rows};
use model::rust::{self, Block};
use model::version::{NO_VERSIONS, VERSION_BAD, Version};

use super::Call;
use crate::asked::{self, Outside};
use crate::memory::lent::Lent;
use crate::memory::out::Out;
use crate::memory::touched::calling;
use crate::print::Print;
use crate::tally::{By, Case, Tally};

#[repr(C)]
struct BlockAddr {
    start: u64,
    end: u64,
    first_ordinal: u64,
}

#[rustfmt::skip]
unsafe extern "C" {
    fn rosmarel_store(version: u64, blocks: *const BlockAddr, blocks_len: usize, out: *mut u8, out_len: usize, len: *mut u64) -> u32;
}

pub static STORE: Call = Call {
    name: "store",
    numbers: &[0, 3, 4, 5, 7, 9, VERSION_BAD],
};
pub const CALLS: &[&Call] = &[&STORE];

/// The blocks are three numbers each.
pub fn call(version: u64, blocks: &Lent<u64>, out: &mut Lent<u8>, len: &mut Out) -> u64 {
    assert_eq!(blocks.len() % 3, 0);
    let (count, room) = (blocks.len() / 3, out.len());
    // SAFETY: parts that are lent and don't overlap, an out-parameter of its own.
    calling(&STORE, || unsafe {
        rosmarel_store(
            version,
            blocks.ptr().cast(),
            count,
            out.ptr_mut(),
            room,
            len.ptr(),
        )
    })
    .into()
}

/// Start, end and ordinal of each.
pub fn flat(blocks: &[Block]) -> Vec<u64> {
    blocks
        .iter()
        .flat_map(|b| [b.start, b.end, b.ord])
        .collect()
}

/// Writes the store into buffers of these lengths beside its own. Returns the store.
pub fn store(tally: &mut Tally, version: Version, blocks: &[Block], rooms: &[isize]) -> Vec<u8> {
    let (row, written) = written(version, blocks);
    let due = Due::of(row, &written);
    let lent = Lent::new(&flat(blocks));
    let len = due.bytes.unwrap_or_default().len();
    for &room in rooms {
        let room = len.saturating_add_signed(room);
        into(tally, version.number(), &lent, room, &due);
    }
    one_unknown(tally, &lent, len);
    written.filter(|_| row == 0).unwrap_or_default()
}

/// Into a buffer of `room` bytes, with any version. Returns the number.
pub fn store_room(tally: &mut Tally, version: u64, blocks: &[Block], room: usize) -> u64 {
    let lent = Lent::new(&flat(blocks));
    let Some(known) = Version::of(version) else {
        return into(tally, version, &lent, room, &Due::UNKNOWN);
    };
    let (row, written) = written(known, blocks);
    into(tally, version, &lent, room, &Due::of(row, &written))
}

/// The row that a slice hits before its output is looked at, and what the Rust writes of it all the same; None where it panics.
fn written(version: Version, blocks: &[Block]) -> (u64, Option<Vec<u8>>) {
    let written = asked::rust(&STORE, || rust::write_store(version, blocks));
    (first(&slice_rows(blocks)), written)
}

/// A version that there isn't, now and then: always the same one for the same slice.
fn one_unknown(tally: &mut Tally, lent: &Lent<u64>, room: usize) {
    let print = lent.print(Print::of(&STORE));
    if print.turn(&[0, 1, 2, 3]) == 0 {
        let version = print.number(1).turn(&NO_VERSIONS);
        into(tally, version, lent, room, &Due::UNKNOWN);
    }
}

/// What a call with enough room must do.
struct Due<'a> {
    row: u64,
    /// None: the Rust panicked, though the table takes the blocks
    bytes: Option<&'a [u8]>,
    /// what the Rust did where the table refuses
    outside: Option<(u64, Outside)>,
}

impl<'a> Due<'a> {
    /// With a version that there isn't: 30 comes first, whatever the slice is.
    const UNKNOWN: Due<'a> = Due {
        row: VERSION_BAD,
        bytes: Some(&[]),
        outside: None,
    };

    fn of(row: u64, written: &'a Option<Vec<u8>>) -> Due<'a> {
        let refused = Outside::of(&written.as_ref().map(Some));
        Due {
            row,
            bytes: match row {
                0 => written.as_deref(),
                _ => Some(&[]),
            },
            outside: (row != 0).then_some((row, refused)),
        }
    }
}

/// One call. Returns the number that is due.
fn into(tally: &mut Tally, version: u64, lent: &Lent<u64>, room: usize, due: &Due) -> u64 {
    let Due {
        row,
        bytes,
        outside,
    } = *due;
    let before = lent.part().to_vec();
    let due = match row {
        0 if room < bytes.unwrap_or_default().len() => 9,
        row => row,
    };
    let front = bytes.filter(|_| due == 0).unwrap_or_default();
    let (mut out, mut len) = (Lent::buffer(room), Out::new());
    let no = call(version, lent, &mut out, &mut len);
    let right = bytes.is_some() && no == due && len.is(front.len() as u64);
    let right = right && out.holds_front(front) && lent.holds(&before);
    let by = if due == 0 { By::Rust } else { By::Model };
    let print = Print::of(&STORE).part(&before);
    let print = print.number(version).number(room as u64);
    // the Rust's output grows
    let outside = match due {
        9 => Some((9, Outside::Answers)),
        _ => outside,
    };
    let case = Case::new(&STORE, by, print, no, right).outside(outside);
    tally.case(case, || {
        let (count, shown) = (before.len() / 3, &before[..before.len().min(60)]);
        let asked = if bytes.is_some() {
            ""
        } else {
            "; the Rust panics"
        };
        format!(
            "version {version}, {count} blocks {shown:?} into {room} gives {no} {}, not {due}{asked}",
            len.value()
        )
    });
    due
}
