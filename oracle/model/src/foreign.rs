//! A writer of stores that takes offsets, slopes and widths as they are given.

use crate::blocks::block;
use crate::numbers::Numbers;
use crate::rust::Block;
use crate::settings::{LIMIT, LIMIT_BITS, WIDEST};
use crate::version::V3;

/// A group of blocks.
#[derive(Clone, Copy)]
pub struct Group<'a> {
    pub blocks: &'a [Block],
    pub offset: usize,
    pub range_slope: u32,
    pub ord_slope: u32,
    pub range_width: u8,
    pub ord_width: u8,
}

impl<'a> Group<'a> {
    /// The group with these slopes, each with its width.
    fn by(blocks: &'a [Block], offset: usize, range: (u32, u8), ord: (u32, u8)) -> Group<'a> {
        Group {
            blocks,
            offset,
            range_slope: range.0,
            ord_slope: ord.0,
            range_width: range.1,
            ord_width: ord.1,
        }
    }
}

impl Group<'_> {
    fn record(&self) -> Vec<u8> {
        let mut bytes = Vec::new();
        bytes.extend((self.offset as u64).to_le_bytes());
        bytes.extend(self.blocks[0].start.to_le_bytes());
        bytes.extend(self.blocks[0].ord.to_le_bytes());
        bytes.extend(self.range_slope.to_le_bytes());
        bytes.extend(self.ord_slope.to_le_bytes());
        bytes.extend([self.ord_width, self.range_width]);
        bytes.extend((self.blocks.len() as u16 - 1).to_le_bytes());
        bytes
    }

    /// Places of bits and the fields there, with their widths.
    fn fields(&self) -> Vec<(usize, u64, u8)> {
        let both = usize::from(self.range_width) + usize::from(self.ord_width);
        let mut fields = Vec::new();
        for (i, value) in range_points(self.blocks) {
            let place = 8 * self.offset + both * (i as usize - 1);
            let stored = field(i, value, self.range_slope, self.range_width);
            fields.push((place, stored, self.range_width));
        }
        for (i, value) in ord_points(self.blocks) {
            let place = 8 * self.offset + both * (i as usize - 1) + usize::from(self.range_width);
            let stored = field(i, value, self.ord_slope, self.ord_width);
            fields.push((place, stored, self.ord_width));
        }
        fields
    }

    /// How many bits the fields take.
    pub fn bits(&self) -> usize {
        let (r, o) = (usize::from(self.range_width), usize::from(self.ord_width));
        (r + o) * (self.blocks.len() - 1) + r
    }

    /// How many bytes the fields take.
    pub fn length(&self) -> usize {
        self.bits().div_ceil(8)
    }
}

/// Starts of all blocks but the first, and the last end, relative to the first start.
pub fn range_points(blocks: &[Block]) -> Vec<(u64, u64)> {
    let starts = blocks.iter().skip(1).map(|b| b.start);
    let values = starts
        .chain(blocks.last().map(|b| b.end))
        .map(|v| v - blocks[0].start);
    (1..).zip(values).collect()
}

pub fn ord_points(blocks: &[Block]) -> Vec<(u64, u64)> {
    (1..)
        .zip(blocks.iter().skip(1).map(|b| b.ord - blocks[0].ord))
        .collect()
}

fn derivation(i: u64, value: u64, slope: u32) -> i64 {
    value as i64 - i64::from(slope) * i as i64
}

fn field(i: u64, value: u64, slope: u32, width: u8) -> u64 {
    let stored = derivation(i, value, slope) + (1i64 << (width - 1));
    assert!(
        (0..1i64 << width).contains(&stored),
        "the width is too small"
    );
    stored as u64
}

/// Whether fields of this width hold all points with this slope; a field may be 0.
pub fn fits(points: &[(u64, u64)], slope: u32, width: u8) -> bool {
    let half = 1i64 << (width - 1);
    points
        .iter()
        .all(|&(i, value)| (-half..half).contains(&derivation(i, value, slope)))
}

/// The lowest width that holds all points with this slope.
pub fn least_width(points: &[(u64, u64)], slope: u32) -> u8 {
    (1..=WIDEST)
        .find(|&width| fits(points, slope, width))
        .expect("the widest field is enough")
}

/// Which fields of a group are the widest; the others have one bit. So the wide ones begin at each bit of a byte in turn.
#[derive(Clone, Copy, Debug, PartialEq, Eq)]
pub enum Wide {
    Range,
    Ordinal,
}

pub const WIDES: [Wide; 2] = [Wide::Range, Wide::Ordinal];

/// The slope of the fields of one bit, which miss it by 0 or -1.
const NARROW: u32 = 5;

impl Wide {
    /// So many blocks, two at least. The wide fields have any bits, the first one a top bit of 0; the last value is the greatest there is.
    pub fn blocks(self, rng: &mut Numbers, count: usize) -> Vec<Block> {
        let (mut starts, mut ords) = (narrow(rng, count + 1), narrow(rng, count));
        let values = match self {
            Wide::Range => &mut starts,
            Wide::Ordinal => &mut ords,
        };
        let (first, far) = values.split_first_mut().expect("a first value");
        far.fill_with(|| rng.bits(LIMIT_BITS));
        far[0] = *first + 1 + rng.bits(30);
        far[far.len() - 1] = LIMIT - 1;
        far.sort();
        let blocks = starts.windows(2).zip(ords);
        blocks.map(|(w, ord)| block(w[0], w[1], ord)).collect()
    }

    /// The slope of the wide fields.
    pub fn slope<'a>(self, group: &'a mut Group) -> &'a mut u32 {
        match self {
            Wide::Range => &mut group.range_slope,
            Wide::Ordinal => &mut group.ord_slope,
        }
    }

    pub fn group(self, blocks: &[Block], offset: usize) -> Group<'_> {
        let (wide, narrow) = ((u32::MAX, WIDEST), (NARROW, 1));
        let (range, ord) = match self {
            Wide::Range => (wide, narrow),
            Wide::Ordinal => (narrow, wide),
        };
        Group::by(blocks, offset, range, ord)
    }
}

/// So many values that fields of one bit hold. Those that begin a group, in either version, don't miss the slope.
fn narrow(rng: &mut Numbers, count: usize) -> Vec<u64> {
    let first = rng.bits(10);
    let mut value = |i: usize| {
        let begins = i.is_multiple_of(V3.group_len());
        let missed = if begins { 0 } else { rng.below(2) };
        first + u64::from(NARROW) * i as u64 - missed
    };
    (0..count).map(&mut value).collect()
}

/// The store of the groups. The fields are set in the address bytes as given, whose other bits stay.
pub fn store(groups: &[Group], mut addresses: Vec<u8>) -> Vec<u8> {
    let records: Vec<u8> = groups.iter().flat_map(|group| group.record()).collect();
    for group in groups {
        for (place, field, width) in group.fields() {
            for k in 0..usize::from(width) {
                let (byte, bit) = ((place + k) / 8, (place + k) % 8);
                let set = (field >> k & 1) as u8;
                addresses[byte] = addresses[byte] & !(1 << bit) | set << bit;
            }
        }
    }
    [
        &(records.len() as u64).to_le_bytes()[..],
        &records,
        &addresses,
    ]
    .concat()
}

/// A group with any slopes and widths that hold its points.
pub fn group<'a>(rng: &mut Numbers, blocks: &'a [Block], offset: usize, widest: bool) -> Group<'a> {
    let mut slope_and_width = |points: &[(u64, u64)]| {
        let mean = points.last().map_or(0, |&(i, value)| value / i);
        let slope = match rng.below(5) {
            0 => 0,
            1 => u32::MAX,
            2 => rng.next() as u32,
            _ => (mean + rng.below(4)) as u32,
        };
        let least = least_width(points, slope);
        let width = if widest {
            u64::from(WIDEST) - rng.below(3)
        } else {
            u64::from(least) + rng.pick(&[0, 0, 1, 2, 7])
        };
        (slope, (width.min(WIDEST.into()) as u8).max(least))
    };
    let range = slope_and_width(&range_points(blocks));
    let ord = slope_and_width(&ord_points(blocks));
    Group::by(blocks, offset, range, ord)
}

/// A group with slopes near the mean, in few bits.
pub fn near<'a>(rng: &mut Numbers, blocks: &'a [Block], offset: usize) -> Group<'a> {
    let mut slope_and_width = |points: &[(u64, u64)]| {
        let mean = points.last().map_or(0, |&(i, value)| value / i);
        let slope = (mean + rng.below(2)) as u32;
        let width = least_width(points, slope) + rng.below(2) as u8;
        (slope, width.min(WIDEST))
    };
    let range = slope_and_width(&range_points(blocks));
    let ord = slope_and_width(&ord_points(blocks));
    Group::by(blocks, offset, range, ord)
}
