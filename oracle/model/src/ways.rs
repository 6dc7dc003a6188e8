//! Files that differ from the one that finish writes in one way, and hold the same blocks and separators.

use std::collections::BTreeSet;

use crate::canonical::{end, groups, touching};
use crate::foreign::{self, Group, fits, ord_points, range_points};
use crate::rust::Block;
use crate::settings::WIDEST;
use crate::version::Version;

/// What differs.
#[derive(Clone, Copy, Debug, PartialEq, Eq, PartialOrd, Ord)]
pub enum Way {
    GapBefore,
    GapBetween,
    Behind,
    WiderRange,
    WiderOrdinal,
    Padding,
    RangeSlope,
    OrdinalSlope,
    /// of a group of one block, which has no ordinal field
    UnusedSlope,
    UnusedWidth,
    Exchanged,
    Shared,
}

impl Way {
    pub const ALL: [Way; 12] = [
        Way::GapBefore,
        Way::GapBetween,
        Way::Behind,
        Way::WiderRange,
        Way::WiderOrdinal,
        Way::Padding,
        Way::RangeSlope,
        Way::OrdinalSlope,
        Way::UnusedSlope,
        Way::UnusedWidth,
        Way::Exchanged,
        Way::Shared,
    ];
}

/// A store of these blocks in each way that they allow, at the first two groups, one in the middle and the last two.
pub fn stores(version: Version, blocks: &[Block]) -> Vec<(Way, Vec<u8>)> {
    let own = groups(version, blocks);
    let count = own.len();
    let places = [0, 1, count / 2, count.wrapping_sub(2), count - 1];
    let places: BTreeSet<usize> = places.into_iter().filter(|&place| place < count).collect();
    let mut all = gaps(&own, &places);
    for &place in &places {
        all.extend(wider(&own, place));
        all.extend(padding(&own, place));
        all.extend(slopes(&own, place));
        all.extend(unused(&own, place));
        if place + 1 < count {
            all.push((Way::Exchanged, exchanged(&own, place)));
            all.extend(shared(&own, place).map(|store| (Way::Shared, store)));
        }
    }
    all
}

fn zeros(groups: &[Group]) -> Vec<u8> {
    vec![0; end(groups)]
}

/// Bytes put in before a group, or behind the last.
pub fn gap(own: &[Group], at: usize, bytes: &[u8]) -> Vec<u8> {
    let mut groups = own.to_vec();
    let place = own.get(at).map_or(end(own), |group| group.offset);
    groups[at..]
        .iter_mut()
        .for_each(|group| group.offset += bytes.len());
    let mut addresses = zeros(own);
    addresses.splice(place..place, bytes.iter().copied());
    foreign::store(&groups, addresses)
}

fn gaps(own: &[Group], places: &BTreeSet<usize>) -> Vec<(Way, Vec<u8>)> {
    let mut all = Vec::new();
    for at in places.iter().copied().chain([own.len()]) {
        let way = match at {
            0 => Way::GapBefore,
            _ if at == own.len() => Way::Behind,
            _ => Way::GapBetween,
        };
        for bytes in [&[0][..], &[0xff], &[0; 8], &[1, 2, 3, 4, 5, 6, 7, 8, 9]] {
            all.push((way, gap(own, at, bytes)));
        }
    }
    all
}

/// The store with one group's plan changed, no byte to spare.
pub fn with<'a>(own: &[Group<'a>], place: usize, change: impl Fn(&mut Group<'a>)) -> Vec<u8> {
    let mut groups = own.to_vec();
    change(&mut groups[place]);
    let groups = touching(&groups);
    foreign::store(&groups, zeros(&groups))
}

/// Fields of one bit more, of some more, and of the most.
fn wider(own: &[Group], place: usize) -> Vec<(Way, Vec<u8>)> {
    let mut all = Vec::new();
    let Group {
        range_width,
        ord_width,
        ..
    } = own[place];
    for more in [1, 2, 8] {
        if range_width + more <= WIDEST {
            let store = with(own, place, |group| group.range_width += more);
            all.push((Way::WiderRange, store));
        }
        if ord_width + more <= WIDEST && own[place].blocks.len() > 1 {
            let store = with(own, place, |group| group.ord_width += more);
            all.push((Way::WiderOrdinal, store));
        }
    }
    all
}

/// Each padding bit alone, and all of them.
pub fn padding(own: &[Group], place: usize) -> Vec<(Way, Vec<u8>)> {
    let group = &own[place];
    let last = group.offset + group.length() - 1;
    let bits: Vec<usize> = (group.bits()..8 * group.length()).collect();
    let mut masks: Vec<u8> = bits.iter().map(|bit| 1 << (bit % 8)).collect();
    masks.extend((bits.len() > 1).then(|| masks.iter().sum::<u8>()));
    let store = |mask: u8| {
        let mut addresses = zeros(own);
        addresses[last] = mask;
        foreign::store(own, addresses)
    };
    masks
        .into_iter()
        .map(|mask| (Way::Padding, store(mask)))
        .collect()
}

/// Slopes near the writer's in which the fields have no more bits than in the writer's.
pub fn slopes(own: &[Group], place: usize) -> Vec<(Way, Vec<u8>)> {
    let group = own[place];
    let mut all = Vec::new();
    for by in [1, 2, 3, 10, -1, -2, -3, -10] {
        let slope = group.range_slope.wrapping_add_signed(by);
        if fits(&range_points(group.blocks), slope, group.range_width) {
            let store = with(own, place, |group| group.range_slope = slope);
            all.push((Way::RangeSlope, store));
        }
        let slope = group.ord_slope.wrapping_add_signed(by);
        let points = ord_points(group.blocks);
        if !points.is_empty() && fits(&points, slope, group.ord_width) {
            let store = with(own, place, |group| group.ord_slope = slope);
            all.push((Way::OrdinalSlope, store));
        }
    }
    all
}

/// Ordinal slopes and widths that no field needs.
fn unused(own: &[Group], place: usize) -> Vec<(Way, Vec<u8>)> {
    if own[place].blocks.len() > 1 {
        return Vec::new();
    }
    let slopes = [1, 5, 256, 1 << 16, 1 << 31, u32::MAX].map(|slope| {
        let store = with(own, place, |group| group.ord_slope = slope);
        (Way::UnusedSlope, store)
    });
    let widths = (2..=WIDEST).map(|width| {
        let store = with(own, place, |group| group.ord_width = width);
        (Way::UnusedWidth, store)
    });
    slopes.into_iter().chain(widths).collect()
}

/// The fields of a group and of the next one in each other's place.
pub fn exchanged(own: &[Group], place: usize) -> Vec<u8> {
    let mut groups = own.to_vec();
    groups[place + 1].offset = own[place].offset;
    groups[place].offset = own[place].offset + own[place + 1].length();
    foreign::store(&groups, zeros(own))
}

/// One set of fields for a group and for the next one, whose fields are the front of the first one's; None where they aren't.
pub fn shared(own: &[Group], place: usize) -> Option<Vec<u8>> {
    let (one, other) = (own[place], own[place + 1]);
    let plan = |group: &Group| {
        let widths = (group.range_width, group.ord_width);
        (widths, group.range_slope, group.ord_slope)
    };
    let front = |group: &Group| {
        let points = (range_points(group.blocks), ord_points(group.blocks));
        let count = other.blocks.len();
        let cut = |points: &[(u64, u64)], count: usize| points[..count].to_vec();
        (cut(&points.0, count), cut(&points.1, count - 1))
    };
    if plan(&one) != plan(&other) || front(&one) != front(&other) {
        return None;
    }
    let mut groups = own.to_vec();
    let less = other.length();
    groups[place + 1].offset = one.offset;
    groups[place + 2..]
        .iter_mut()
        .for_each(|group| group.offset -= less);
    Some(foreign::store(&groups, zeros(&groups)))
}
