//! Rows 14 to 16, broken late: the records' length, the last groups, the last fields.

use model::files::File as Parts;
use model::settings::{GROUP_RECORD, LIMIT, WIDEST};

use super::{Fault, Whole};
use crate::tally::Tally;

pub fn records(tally: &mut Tally, whole: &Whole) {
    let len = whole.parts.records_len;
    let (record, store) = (GROUP_RECORD as u64, whole.store.len() as u64);
    let beside = [len - 1, len + 1, len - record, len + record, 0];
    let beyond = [store - 7, store, 1 << 32, 1 << 63, u64::MAX - 7, u64::MAX];
    for other in beside.into_iter().chain(beyond) {
        let mut parts = whole.parts.clone();
        parts.records_len = other;
        whole.open(tally, 14, &parts);
    }
    let faults: [fn(&mut Parts); 4] = [
        |parts| {
            parts.records.truncate(parts.records.len() - GROUP_RECORD);
            parts.records_len -= GROUP_RECORD as u64
        },
        |parts| {
            parts.records.extend([0; GROUP_RECORD]);
            parts.records_len += GROUP_RECORD as u64
        },
        |parts| {
            parts.records.pop();
            parts.addresses.clear()
        },
        |parts| {
            parts.records.truncate(parts.records.len() - GROUP_RECORD);
            parts.addresses.clear()
        },
    ];
    for fault in faults {
        let mut parts = whole.parts.clone();
        fault(&mut parts);
        whole.open(tally, 14, &parts);
    }
}

/// Row 15, at the group's record.
pub const GROUP_FAULTS: [Fault; 11] = [
    |parts, g| {
        let [_, range] = parts.widths_of(g);
        parts.widths(g, 0, range)
    },
    |parts, g| {
        let [ord, _] = parts.widths_of(g);
        parts.widths(g, ord, 0)
    },
    |parts, g| {
        let [_, range] = parts.widths_of(g);
        parts.widths(g, WIDEST + 1, range)
    },
    |parts, g| {
        let [ord, _] = parts.widths_of(g);
        parts.widths(g, ord, WIDEST + 1)
    },
    |parts, g| parts.widths(g, 255, 255),
    |parts, g| parts.record(g, 34, &[parts.records[GROUP_RECORD * g + 34] ^ 1]),
    |parts, g| parts.record(g, 35, &[1]),
    |parts, g| parts.offset(g, parts.addresses.len() as u64),
    |parts, g| parts.offset(g, 1 << 61),
    |parts, g| parts.offset(g, u64::MAX),
    |parts, g| parts.offset(g, parts.addresses.len() as u64 - 1),
];

pub fn groups(tally: &mut Tally, whole: &Whole) {
    let places = whole.places(whole.groups());
    for at in places {
        for fault in GROUP_FAULTS {
            let mut parts = whole.parts.clone();
            fault(&mut parts, at);
            whole.open(tally, 15, &parts);
        }
    }
    // the last group's fields end with the address bytes
    let mut parts = whole.parts.clone();
    parts.addresses.pop();
    whole.open(tally, 15, &parts);
    let last = places[0];
    let offset = u64::from_le_bytes(
        whole.parts.records[GROUP_RECORD * last..][..8]
            .try_into()
            .expect("eight bytes"),
    );
    let mut parts = whole.parts.clone();
    parts.offset(last, offset + 1);
    whole.open(tally, 15, &parts);
}

pub fn values(tally: &mut Tally, whole: &Whole) {
    for at in whole.places(whole.groups()) {
        let id = at * whole.version.group_len();
        let (first, before) = (whole.blocks[id], whole.blocks[id - 1]);
        for start in [
            first.start + 1,
            first.start.wrapping_sub(1),
            LIMIT - 1,
            LIMIT,
            1 << 63,
            u64::MAX,
        ] {
            let mut parts = whole.parts.clone();
            parts.first_start(at, start);
            whole.open(tally, 16, &parts);
        }
        for ord in [
            before.ord,
            before.ord.saturating_sub(1),
            0,
            LIMIT - 1,
            LIMIT,
            u64::MAX,
        ] {
            let mut parts = whole.parts.clone();
            parts.first_ord(at, ord);
            whole.any(tally, &parts, ord != LIMIT - 1);
        }
        for (range, ord) in [(u32::MAX, 1), (1, u32::MAX), (0, 0)] {
            let mut parts = whole.parts.clone();
            parts.slopes(at, range, ord);
            whole.any(tally, &parts, true);
        }
    }
    fields(tally, whole);
}

/// The last address bytes with other bits: the last values, of the last block, are out of their order or range, or right still.
fn fields(tally: &mut Tally, whole: &Whole) {
    let last = whole.parts.addresses.len() - 1;
    for back in 0..8 {
        for byte in [0x00, 0xff, whole.parts.addresses[last - back] ^ 0x40] {
            let mut parts = whole.parts.clone();
            parts.addresses[last - back] = byte;
            whole.any(tally, &parts, false);
        }
    }
}
