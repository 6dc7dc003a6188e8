//! A plain model of the check whether a file is the one that finish writes, after document 02; and of the writer, after document 01. It
//! counts in whole numbers and shares nothing with the Rust.

use crate::files::File;
use crate::foreign::{self, Group, ord_points, range_points};
use crate::opening::Opening;
use crate::rust::Block;
use crate::version::Version;

/// The row of a file that opens but isn't the one that finish writes.
pub const NOT_CANONICAL: u64 = 27;

/// The low 32 bits.
fn cut(value: i128) -> i128 {
    value % (1 << 32)
}

/// The writer's slope and width for these points.
pub fn slope_and_width(points: &[(u64, u64)]) -> (u32, u8) {
    let points = points
        .iter()
        .map(|&(i, v)| (i128::from(i), i128::from(v)))
        .collect::<Vec<_>>();
    let slope_of = |point: &(i128, i128)| cut(point.1 / point.0);
    let (mut low, mut high) = (points.first(), points.first());
    for point in &points {
        // ties go to the later point
        if low.is_some_and(|low| slope_of(point) <= slope_of(low)) {
            low = Some(point);
        }
        if high.is_some_and(|high| slope_of(point) >= slope_of(high)) {
            high = Some(point);
        }
    }
    let slope = match (low, high) {
        (Some(low), Some(high)) => {
            let d = low.0 + high.0;
            cut((low.1 + high.1 + d / 2) / d)
        }
        _ => 0,
    };
    let away = points.iter().map(|(i, v)| (v - slope * i).abs());
    let most = away.max().unwrap_or(0);
    let bits = (0..).find(|&bits| most < 1 << bits).expect("a width");
    let width = if bits <= 56 { bits } else { 64 } + 1;
    (slope as u32, width)
}

/// The groups as the writer makes them: the first at offset 0, each behind the one before it.
pub fn groups(version: Version, blocks: &[Block]) -> Vec<Group<'_>> {
    let plan = |blocks| {
        let (range_slope, range_width) = slope_and_width(&range_points(blocks));
        let (ord_slope, ord_width) = slope_and_width(&ord_points(blocks));
        Group {
            blocks,
            offset: 0,
            range_slope,
            ord_slope,
            range_width,
            ord_width,
        }
    };
    touching(
        &blocks
            .chunks(version.group_len())
            .map(plan)
            .collect::<Vec<_>>(),
    )
}

/// The same groups, the first at offset 0, each behind the one before it.
pub fn touching<'a>(groups: &[Group<'a>]) -> Vec<Group<'a>> {
    let mut offset = 0;
    let mut all = Vec::new();
    for &group in groups {
        all.push(Group { offset, ..group });
        offset += group.length();
    }
    all
}

/// Where the last of the groups' fields end.
pub fn end(groups: &[Group]) -> usize {
    let ends = groups.iter().map(|group| group.offset + group.length());
    ends.max().unwrap_or(0)
}

/// The index of these blocks and keys.
pub fn written(version: Version, blocks: &[Block], keys: &[Vec<u8>]) -> Vec<u8> {
    let groups = groups(version, blocks);
    let store = foreign::store(&groups, vec![0; end(&groups)]);
    File::new(keys, &store).bytes()
}

/// The check's number with the opening's version: opening's, or whether the file is the index of what is read in it.
pub fn number(opening: &Opening, file: &[u8]) -> u64 {
    match opening.no() {
        0 if written(opening.version, &opening.blocks, &opening.keys) == file => 0,
        0 => NOT_CANONICAL,
        no => no,
    }
}
