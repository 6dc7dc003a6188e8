//! Files that keep the rules and that the writer wouldn't write.

use model::blocks::{most_bits, random, touching};
use model::files::{File as Parts, rising, short_keys};
use model::foreign::{self, Group, WIDES, group, near};
use model::numbers::Numbers;
use model::rust::Block;
use model::settings::{LIMIT, WIDEST};
use model::version::{VERSIONS, Version};

use super::lookups;
use crate::calls::opened::{self, File};
use crate::tally::Tally;

/// Files of up to 128 blocks are the same in all versions: version 4 gets fewer of them.
pub fn run(tally: &mut Tally) {
    for version in VERSIONS {
        widths(tally, version);
        wide(tally, version);
        ends(tally, version);
        each_bit(tally, version);
        slopes(tally, version, version.pick(3_000, 1_000));
        gaps(tally, version, version.pick(300, 200));
        overlaps(tally, version);
    }
}

/// Opens the file of these groups, which must hold their blocks, and looks everything up.
fn open(
    tally: &mut Tally,
    version: Version,
    rng: &mut Numbers,
    groups: &[Group],
    addresses: Vec<u8>,
) {
    let blocks: Vec<Block> = groups
        .iter()
        .flat_map(|group| group.blocks.to_vec())
        .collect();
    let keys = rising(rng, blocks.len() as u64, 4);
    let bytes = Parts::new(&keys, &foreign::store(groups, addresses)).bytes();
    let mut file = opened::open(tally, version, &bytes);
    assert_eq!(file.opening().no(), 0);
    assert_eq!(file.opening().blocks, blocks);
    lookups::around(tally, rng, &mut file, 8);
}

/// Blocks whose distances from these slopes fit these widths: up to 2^(width - 4) more in each step.
fn near_slopes(rng: &mut Numbers, count: usize, slopes: [u32; 2], widths: [u8; 2]) -> Vec<Block> {
    let [range, ord] = widths.map(|width| {
        u64::from(width)
            .saturating_sub(11)
            .min(most_bits(count as u64))
    });
    let lengths: Vec<u64> = (0..count)
        .map(|_| u64::from(slopes[0]) + rng.bits(range))
        .collect();
    let steps: Vec<u64> = (1..count)
        .map(|_| u64::from(slopes[1]).max(1) + rng.bits(ord))
        .collect();
    touching(rng.bits(20), &lengths, rng.bits(20), &steps)
}

/// Every two widths from 1 to 56; a gap before the fields, none or some bytes after them.
fn widths(tally: &mut Tally, version: Version) {
    tally.section_of(version, "foreign: every two widths from 1 to 56");
    let mut rng = Numbers::from_seed(112);
    let every = version.pick(1, 3);
    for range_width in 1..=WIDEST {
        for ord_width in (1 + range_width % every..=WIDEST).step_by(every.into()) {
            let slopes = [rng.bits(30) as u32, 1 + rng.bits(20) as u32];
            let count = rng.within(2, 5) as usize;
            let blocks = near_slopes(&mut rng, count, slopes, [range_width, ord_width]);
            let one = Group {
                blocks: &blocks,
                offset: rng.pick(&[0, 0, 1, 7]),
                range_slope: slopes[0],
                ord_slope: slopes[1],
                range_width,
                ord_width,
            };
            let behind = rng.pick(&[0, 0, 1, 8, 9]);
            let junk = rng.bytes((one.offset + one.length()) as u64 + behind);
            open(tally, version, &mut rng, &[one], junk);
        }
    }
}

/// Widths of 50 to 56 in full groups, the last one with no byte to spare.
fn wide(tally: &mut Tally, version: Version) {
    tally.section_of(version, "foreign: widths of 50 to 56 in full groups");
    let full = version.group_len() as u64;
    let mut rng = Numbers::from_seed(113);
    for range_width in 50..=WIDEST {
        for ord_width in 50..=WIDEST {
            let count = rng.within(full - 2, 2 * full + 4) as usize;
            let slopes = [
                rng.pick(&[0, 9, 1 << 31, u32::MAX]),
                rng.pick(&[0, 1, 1 << 30]),
            ];
            let blocks = near_slopes(&mut rng, count, slopes, [range_width, ord_width]);
            let offset = rng.below(3) as usize;
            let parts = blocks.chunks(version.group_len());
            let (groups, end) = touching_groups(parts, offset, slopes, [range_width, ord_width]);
            let junk = rng.bytes(end as u64);
            open(tally, version, &mut rng, &groups, junk);
        }
    }
}

/// Groups of these blocks from an offset on, no byte between them, and where the last one's fields end.
fn touching_groups<'a>(
    parts: impl Iterator<Item = &'a [Block]>,
    mut offset: usize,
    slopes: [u32; 2],
    widths: [u8; 2],
) -> (Vec<Group<'a>>, usize) {
    let mut groups = Vec::new();
    for blocks in parts {
        let next = Group {
            blocks,
            offset,
            range_slope: slopes[0],
            ord_slope: slopes[1],
            range_width: widths[0],
            ord_width: widths[1],
        };
        offset += next.length();
        groups.push(next);
    }
    (groups, offset)
}

/// Widths at their ends in full groups, where the last field ends at bit 14,280 at most, in version 4 at bit 28,616: every id, and the
/// ordinals around every block's. No byte is to spare.
fn ends(tally: &mut Tally, version: Version) {
    tally.section_of(
        version,
        "foreign: full groups of the widest fields, every id and every ordinal",
    );
    let full = version.group_len();
    let mut rng = Numbers::from_seed(117);
    let widths = [1, 2, 49, 55, WIDEST];
    for widths in widths.map(|range| widths.map(|ord| [range, ord])).concat() {
        for n in [full - 1, full, full + 1, 2 * full] {
            let slopes = [rng.pick(&[3, 1 << 31]), rng.pick(&[1, 1 << 30])];
            let blocks = near_slopes(&mut rng, n, slopes, widths);
            let (groups, end) = touching_groups(blocks.chunks(full), 0, slopes, widths);
            let keys = rising(&mut rng, n as u64, 4);
            let store = foreign::store(&groups, rng.bytes(end as u64));
            let file = opened::open(tally, version, &Parts::new(&keys, &store).bytes());
            every(tally, &file, &blocks);
        }
    }
}

/// Fields of the widest width from each bit of a byte on, of ranges or of ordinals, the last ones at the end of the address bytes: every
/// id, and the ordinals around every block's.
fn each_bit(tally: &mut Tally, version: Version) {
    tally.section_of(
        version,
        "foreign: fields of 56 bits from each bit of a byte on, every id and every ordinal",
    );
    let full = version.group_len();
    let mut rng = Numbers::from_seed(119);
    let short = (2..=25).step_by(version.pick(1, 2));
    for n in short.chain([full - 1, full, full + 1, 2 * full]) {
        for wide in WIDES {
            for slope in [u32::MAX, 0, rng.next() as u32] {
                let blocks = wide.blocks(&mut rng, n);
                let mut groups = Vec::new();
                let mut offset = 0;
                for part in blocks.chunks(full) {
                    let mut next = wide.group(part, offset);
                    *wide.slope(&mut next) = slope;
                    offset += next.length();
                    groups.push(next);
                }
                let keys = short_keys(n);
                let store = foreign::store(&groups, rng.bytes(offset as u64));
                let file = opened::open(tally, version, &Parts::new(&keys, &store).bytes());
                every(tally, &file, &blocks);
            }
        }
    }
}

/// Every id, and the ordinals around every block's, in a file that must hold these blocks.
fn every(tally: &mut Tally, file: &File, blocks: &[Block]) {
    assert_eq!(file.opening().blocks, blocks);
    for (id, block) in (0..).zip(blocks) {
        file.id(tally, id);
        for ord in [block.ord.saturating_sub(1), block.ord, block.ord + 1] {
            file.ord(tally, ord);
        }
    }
}

/// Any slopes, few blocks, numbers up to the limit.
fn slopes(tally: &mut Tally, version: Version, count: u64) {
    tally.section_of(version, "foreign: any slopes, few blocks");
    let mut rng = Numbers::from_seed(114);
    for round in 0..count {
        let n = rng.within(2, 7);
        let most = most_bits(n);
        let (length_bits, step_bits) = (rng.within(0, most), rng.within(0, most));
        let mut blocks = random(&mut rng, n, length_bits, step_bits, 20, 40);
        if rng.one_in(4) {
            let last = blocks[blocks.len() - 1];
            let more = (LIMIT - 1 - last.end, LIMIT - 1 - last.ord);
            for block in &mut blocks {
                block.start += more.0;
                block.end += more.0;
                block.ord += more.1;
            }
        }
        let offset = rng.pick(&[0, 0, 1, 3, 20]);
        let one = group(&mut rng, &blocks, offset, round % 3 == 0);
        let behind = rng.pick(&[0, 0, 1, 9]);
        let junk = rng.bytes((offset + one.length()) as u64 + behind);
        open(tally, version, &mut rng, &[one], junk);
    }
}

/// More groups: gaps between them, in any order.
fn gaps(tally: &mut Tally, version: Version, count: u64) {
    tally.section_of(version, "foreign: more groups, gaps, any order");
    let mut rng = Numbers::from_seed(115);
    for _ in 0..count {
        let n = rng.pick(version.pick(
            &[129, 130, 140, 256, 257, 300, 385],
            &[257, 258, 270, 385, 512, 513, 769],
        ));
        let most = most_bits(n);
        let (length_bits, step_bits) = (rng.pick(&[0, 2, 5, 20, most]), rng.pick(&[0, 1, 5, most]));
        let blocks = random(&mut rng, n, length_bits, step_bits, 20, 20);
        let parts = blocks.chunks(version.group_len());
        let mut parts: Vec<(usize, &[Block])> = parts.enumerate().collect();
        if rng.one_in(2) {
            parts.reverse();
        }
        let mut offset = 0;
        let mut groups = Vec::new();
        for (place, part) in parts {
            offset += rng.below(9) as usize;
            let next = if rng.one_in(2) {
                near(&mut rng, part, offset)
            } else {
                group(&mut rng, part, offset, false)
            };
            offset += next.length();
            groups.push((place, next));
        }
        groups.sort_by_key(|&(place, _)| place);
        let groups: Vec<Group> = groups.into_iter().map(|(_, group)| group).collect();
        let junk_len = offset as u64 + rng.below(4);
        let junk = rng.bytes(junk_len);
        open(tally, version, &mut rng, &groups, junk);
    }
}

/// Groups that share their fields or lie inside each other's; every offset of the second, most of them refused. In version 4 every
/// fifth: the widths are no multiples of five.
fn overlaps(tally: &mut Tally, version: Version) {
    tally.section_of(
        version,
        "foreign: groups that overlap, the second at every offset",
    );
    let full = version.group_len();
    let mut rng = Numbers::from_seed(116);
    for (width, more) in [
        (4, 12),
        (4, full),
        (8, 3),
        (1, 100),
        (52, 5),
        (WIDEST, full),
    ] {
        let n = full + more;
        let blocks = touching(9, &vec![6; n], 3, &vec![2; n - 1]);
        let first = Group {
            blocks: &blocks[..full],
            offset: 0,
            range_slope: 6,
            ord_slope: 2,
            range_width: width,
            ord_width: width,
        };
        for offset in (0..=first.length()).step_by(version.pick(1, 5)) {
            let second = Group {
                blocks: &blocks[full..],
                offset,
                ..first
            };
            overlapping(tally, version, &mut rng, first, second);
        }
    }
}

/// All fields of both groups are equal, so the second one fits wherever a field begins.
fn overlapping(
    tally: &mut Tally,
    version: Version,
    rng: &mut Numbers,
    first: Group,
    second: Group,
) {
    let (room, offset) = (first.length(), second.offset);
    let inside = offset + second.length() <= room;
    if inside && offset * 8 % usize::from(first.range_width) == 0 {
        open(tally, version, rng, &[first, second], vec![0; room]);
    } else {
        let second = Group {
            offset: 0,
            ..second
        };
        at_any_offset(tally, version, rng, [first, second], offset);
    }
}

/// The second group's offset is replaced in its record: its fields are what lies there, or nothing.
fn at_any_offset(
    tally: &mut Tally,
    version: Version,
    rng: &mut Numbers,
    groups: [Group; 2],
    offset: usize,
) {
    let keys = rising(
        rng,
        groups.iter().map(|group| group.blocks.len() as u64).sum(),
        4,
    );
    let store = foreign::store(&groups, vec![0; groups[0].length()]);
    let mut parts = Parts::new(&keys, &store);
    parts.offset(1, offset as u64);
    let mut file = opened::open(tally, version, &parts.bytes());
    if file.opening().no() == 0 {
        lookups::around(tally, rng, &mut file, 8);
    } else {
        lookups::some(tally, &file);
    }
}
