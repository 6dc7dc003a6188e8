//! A plain model of the specification, written from its text alone, and numbers that look random.

#![allow(dead_code)]

use std::collections::{HashSet, VecDeque};
use std::slice::Chunks;

use rosmarel::{BlockAddr, Version};

/// Ends and ordinals lie below it.
pub const LIMIT: u64 = 1 << 55;

/// The versions that there are.
pub const VERSIONS: [Version; 2] = [Version::V3, Version::V4];

pub fn other(version: Version) -> Version {
    match version {
        Version::V3 => Version::V4,
        Version::V4 => Version::V3,
    }
}

/// How many blocks a group has.
pub fn group_len(version: Version) -> usize {
    match version {
        Version::V3 => 128,
        Version::V4 => 256,
    }
}

pub fn groups(version: Version, blocks: &[BlockAddr]) -> Chunks<'_, BlockAddr> {
    blocks.chunks(group_len(version))
}

/// Entries of the plain machine: block i and separator i.
#[derive(Clone, Debug, Default, PartialEq)]
pub struct Entries {
    pub blocks: Vec<BlockAddr>,
    pub keys: Vec<Vec<u8>>,
}

impl Entries {
    /// The specification's three blocks (15.1): first ordinals 0, 4 and 9.
    pub fn worked() -> Entries {
        let mut entries = Entries::default();
        for (key, block) in [
            (b"b", BlockAddr::new(0..10, 0)),
            (b"d", BlockAddr::new(10..25, 4)),
            (b"f", BlockAddr::new(25..30, 9)),
        ] {
            assert_eq!(entries.add(key, block), 0);
        }
        entries
    }

    fn key_order(&self, key: &[u8]) -> bool {
        self.keys.last().is_none_or(|last| &last[..] < key)
    }

    /// The row that an add hits, or 0.
    pub fn add(&mut self, key: &[u8], block: BlockAddr) -> u32 {
        let before = self.blocks.last();
        let rows = [
            (key.len() > 1_024, 2),
            (numbers_bad(block), 3),
            (before.is_some_and(|b| b.end != block.start), 4),
            (
                before.is_some_and(|b| b.first_ordinal >= block.first_ordinal),
                5,
            ),
            (!self.key_order(key), 6),
            (self.blocks.len() == 65_536, 7),
        ];
        let number = first_hit(&rows);
        if number == 0 {
            self.blocks.push(block);
            self.keys.push(key.to_vec());
        }
        number
    }

    /// The row that a shorten hits, or 0.
    pub fn shorten(&mut self, next: &[u8]) -> u32 {
        let number = first_hit(&[(next.len() > 1_024, 2), (!self.key_order(next), 6)]);
        if let (0, Some(last)) = (number, self.keys.last_mut()) {
            *last = shortened(last, next);
        }
        number
    }

    /// The index, empty for 0 and 1 blocks.
    pub fn index(&self, version: Version) -> Vec<u8> {
        if self.blocks.len() < 2 {
            return Vec::new();
        }
        let directory = self.directory();
        let len = (directory.len() as u64).to_le_bytes();
        [&directory[..], &store(version, &self.blocks), &len].concat()
    }

    pub fn directory(&self) -> Vec<u8> {
        let mut bytes = (self.keys.len() as u32).to_le_bytes().to_vec();
        let mut offset = 0;
        for key in &self.keys {
            bytes.extend(u32::to_le_bytes(offset));
            bytes.extend((key.len() as u32).to_le_bytes());
            offset += key.len() as u32;
        }
        bytes.extend(self.keys.concat());
        bytes
    }

    /// The least number of terms that a file of these entries opens with.
    pub fn least_terms(&self) -> u64 {
        self.blocks[self.blocks.len() - 1].first_ordinal + 1
    }

    /// The block of an ordinal in a file of so many terms.
    pub fn by_ord(&self, ord: u64, terms: u64) -> Option<(u64, BlockAddr)> {
        if ord >= terms {
            return None;
        }
        let id = self
            .blocks
            .iter()
            .rposition(|block| block.first_ordinal <= ord)?;
        Some((id as u64, self.blocks[id]))
    }

    pub fn by_key(&self, key: &[u8]) -> Option<u64> {
        let id = self.keys.iter().position(|separator| &separator[..] >= key);
        id.map(|id| id as u64)
    }

    /// The ids of the blocks in whose interval the table accepts a string.
    pub fn listed(&self, table: &[u8]) -> Vec<u64> {
        let marked = |id: &usize| {
            let start = id.checked_sub(1).map(|before| &self.keys[before][..]);
            accepts_between(table, start, &self.keys[*id])
        };
        let ids = (0..self.keys.len()).filter(marked);
        ids.map(|id| id as u64).collect()
    }
}

fn first_hit(rows: &[(bool, u32)]) -> u32 {
    rows.iter().find(|row| row.0).map_or(0, |row| row.1)
}

fn numbers_bad(block: BlockAddr) -> bool {
    block.end < block.start || block.end >= LIMIT || block.first_ordinal >= LIMIT
}

pub fn shortened(left: &[u8], right: &[u8]) -> Vec<u8> {
    let same = left.iter().zip(right).take_while(|(l, r)| l == r).count();
    let raised = (same + 1..left.len()).find(|&at| left[at] != 0xff);
    match raised {
        Some(at) => [&left[..at], &[left[at] + 1]].concat(),
        None => left.to_vec(),
    }
}

/// The row that a list of blocks hits, or 0.
pub fn store_no(blocks: &[BlockAddr]) -> u32 {
    let pairs = || blocks.windows(2);
    first_hit(&[
        (blocks.iter().any(|&block| numbers_bad(block)), 3),
        (pairs().any(|p| p[0].end != p[1].start), 4),
        (pairs().any(|p| p[0].first_ordinal >= p[1].first_ordinal), 5),
        (blocks.len() > 65_536, 7),
    ])
}

/// Slope and width of the points (1, values[0]), (2, values[1]), ..
pub fn best_slope(values: &[u64]) -> (u32, u32) {
    let points: Vec<(u64, u64)> = (1..).zip(values.iter().copied()).collect();
    let slope_of = |&(i, v): &(u64, u64)| (v / i) as u32;
    // min_by_key gives the first of equals, max_by_key the last
    let low = points.iter().rev().min_by_key(|point| slope_of(point));
    let high = points.iter().max_by_key(|point| slope_of(point));
    let slope = match (low, high) {
        (Some(low), Some(high)) => {
            let d = low.0 + high.0;
            ((low.1 + high.1 + d / 2) / d) as u32
        }
        _ => 0,
    };
    let off = |&(i, v): &(u64, u64)| v.abs_diff(u64::from(slope) * i);
    let most = points.iter().map(off).max().unwrap_or(0);
    let bits = 64 - most.leading_zeros();
    (slope, if bits <= 56 { bits } else { 64 } + 1)
}

/// Slopes and widths of a group's fields.
#[derive(Clone, Copy, Debug, PartialEq)]
pub struct Plan {
    pub range: (u32, u32),
    pub ordinal: (u32, u32),
}

/// A group's range values and ordinal values, relative to its first block.
fn values(group: &[BlockAddr]) -> (Vec<u64>, Vec<u64>) {
    let (first, last) = (group[0], group[group.len() - 1]);
    let mut ranges: Vec<u64> = group[1..].iter().map(|b| b.start - first.start).collect();
    ranges.push(last.end - first.start);
    let ordinals = group[1..].iter();
    (
        ranges,
        ordinals
            .map(|b| b.first_ordinal - first.first_ordinal)
            .collect(),
    )
}

/// The writer's plan.
pub fn plan(group: &[BlockAddr]) -> Plan {
    let (ranges, ordinals) = values(group);
    Plan {
        range: best_slope(&ranges),
        ordinal: best_slope(&ordinals),
    }
}

/// Whether all fields fit.
pub fn fits(group: &[BlockAddr], plan: Plan) -> bool {
    let (ranges, ordinals) = values(group);
    let all = |values: &[u64], (slope, width): (u32, u32)| {
        let inside = |(i, &value)| (0..1 << width).contains(&field(value, i, slope, width));
        values.iter().enumerate().all(inside)
    };
    all(&ranges, plan.range) && all(&ordinals, plan.ordinal)
}

/// A group's record, its fields beginning at this offset.
pub fn record(group: &[BlockAddr], plan: Plan, offset: usize) -> Vec<u8> {
    let mut record = Vec::new();
    record.extend((offset as u64).to_le_bytes());
    record.extend(group[0].start.to_le_bytes());
    record.extend(group[0].first_ordinal.to_le_bytes());
    record.extend(plan.range.0.to_le_bytes());
    record.extend(plan.ordinal.0.to_le_bytes());
    record.extend([plan.ordinal.1 as u8, plan.range.1 as u8]);
    record.extend((group.len() as u16 - 1).to_le_bytes());
    record
}

/// A group's fields, the last byte filled with zeros.
pub fn fields(group: &[BlockAddr], plan: Plan) -> Vec<u8> {
    let (ranges, ordinals) = values(group);
    let mut bits = Vec::new();
    for (i, &range) in ranges.iter().enumerate() {
        push_field(&mut bits, range, i, plan.range);
        if let Some(&ordinal) = ordinals.get(i) {
            push_field(&mut bits, ordinal, i, plan.ordinal);
        }
    }
    let byte = |bits: &[u8]| bits.iter().rev().fold(0, |value, &bit| 2 * value + bit);
    bits.chunks(8).map(byte).collect()
}

pub fn store(version: Version, blocks: &[BlockAddr]) -> Vec<u8> {
    let mut records = Vec::new();
    let mut addresses: Vec<u8> = Vec::new();
    for group in groups(version, blocks) {
        let plan = plan(group);
        records.extend(record(group, plan, addresses.len()));
        addresses.extend(fields(group, plan));
    }
    let len = records.len() as u64;
    [len.to_le_bytes().to_vec(), records, addresses].concat()
}

/// The field of a value; its place counts from 0.
fn field(value: u64, place: usize, slope: u32, width: u32) -> i128 {
    i128::from(value) - i128::from(slope) * (place as i128 + 1) + (1 << (width - 1))
}

fn push_field(bits: &mut Vec<u8>, value: u64, place: usize, (slope, width): (u32, u32)) {
    let field = field(value, place, slope, width);
    assert!((0..1 << width).contains(&field));
    bits.extend((0..width).map(|bit| (field >> bit & 1) as u8));
}

fn number(bytes: &[u8], at: usize, count: usize) -> u64 {
    let digits = bytes[at..at + count].iter().rev();
    digits.fold(0, |value, &byte| 256 * value + u64::from(byte))
}

/// The number of the check: what opening refuses in the file, or 27 where it isn't the index of what is read in it.
pub fn canonical_no(file: &[u8], version: Version) -> u32 {
    match read(file, version) {
        Err(number) => number,
        Ok(entries) if entries.index(version) == file => 0,
        Ok(_) => 27,
    }
}

/// Opens a file of so many terms: its entries, or the first row that is hit.
pub fn open(file: &[u8], version: Version, terms: u64) -> Result<Entries, u32> {
    let entries = read(file, version)?;
    if terms < entries.least_terms() {
        return Err(28);
    }
    Ok(entries)
}

/// Reads a file: its entries, or the first of rows 10 to 16 that it hits.
pub fn read(file: &[u8], version: Version) -> Result<Entries, u32> {
    let Some(body) = file.len().checked_sub(8) else {
        return Err(10);
    };
    let directory_len = number(file, body, 8);
    if directory_len == 0 {
        return Err(11);
    }
    if u128::from(directory_len) + 16 > file.len() as u128 {
        return Err(10);
    }
    let (directory, store) = file[..body].split_at(directory_len as usize);
    let keys = open_directory(directory).ok_or(12u32)?;
    if keys.windows(2).any(|pair| pair[0] >= pair[1]) {
        return Err(13);
    }
    let blocks = open_store(store, group_len(version), keys.len())?;
    Ok(Entries { blocks, keys })
}

fn open_directory(directory: &[u8]) -> Option<Vec<Vec<u8>>> {
    if directory.len() < 4 {
        return None;
    }
    let n = number(directory, 0, 4) as usize;
    if !(2..=65_536).contains(&n) || directory.len() < 4 + 8 * n {
        return None;
    }
    let (pairs, mut rest) = directory[4..].split_at(8 * n);
    let mut keys = Vec::new();
    let mut next = 0;
    for pair in pairs.chunks(8) {
        let (offset, len) = (number(pair, 0, 4), number(pair, 4, 4));
        if offset != next || len > 1_024 {
            return None;
        }
        next = offset + len;
        let (key, behind) = rest.split_at_checked(len as usize)?;
        keys.push(key.to_vec());
        rest = behind;
    }
    rest.is_empty().then_some(keys)
}

fn open_store(store: &[u8], group_len: usize, n: usize) -> Result<Vec<BlockAddr>, u32> {
    let records_len = 36 * n.div_ceil(group_len);
    if number(store, 0, 8) != records_len as u64 || 8 + records_len > store.len() {
        return Err(14);
    }
    let (records, addresses) = store[8..].split_at(records_len);
    let groups: Vec<Group> = records.chunks(36).map(Group::read).collect();
    for (i, group) in groups.iter().enumerate() {
        let widths = [group.range_width, group.ordinal_width];
        let wrong_count = group.count != (n - group_len * i).min(group_len) as u64;
        if widths.iter().any(|width| !(1..=56).contains(width)) || wrong_count {
            return Err(15);
        }
        let end = u128::from(group.offset) * 8 + u128::from(group.bits());
        if end > addresses.len() as u128 * 8 {
            return Err(15);
        }
    }
    let blocks: Option<Vec<Vec<BlockAddr>>> = groups.iter().map(|g| g.blocks(addresses)).collect();
    let blocks = blocks.ok_or(16u32)?.concat();
    if store_no(&blocks) == 0 {
        Ok(blocks)
    } else {
        Err(16)
    }
}

struct Group {
    offset: u64,
    first: BlockAddr,
    range_slope: u64,
    ordinal_slope: u64,
    ordinal_width: u64,
    range_width: u64,
    count: u64,
}

impl Group {
    fn read(record: &[u8]) -> Group {
        Group {
            offset: number(record, 0, 8),
            first: BlockAddr::new(number(record, 8, 8)..0, number(record, 16, 8)),
            range_slope: number(record, 24, 4),
            ordinal_slope: number(record, 28, 4),
            ordinal_width: number(record, 32, 1),
            range_width: number(record, 33, 1),
            count: number(record, 34, 2) + 1,
        }
    }

    fn bits(&self) -> u64 {
        (self.count - 1) * (self.range_width + self.ordinal_width) + self.range_width
    }

    /// The blocks, if all values lie below the limit.
    fn blocks(&self, addresses: &[u8]) -> Option<Vec<BlockAddr>> {
        let both = self.range_width + self.ordinal_width;
        let read = |first: u64, i: u64, bit: u64, slope: u64, width: u64| {
            let bit_at = |k: u64| {
                let place = self.offset * 8 + bit + k;
                i128::from(addresses[(place / 8) as usize] >> (place % 8) & 1)
            };
            let field: i128 = (0..width).map(|k| bit_at(k) << k).sum();
            let value =
                i128::from(first) + field + i128::from(slope) * i128::from(i) - (1 << (width - 1));
            u64::try_from(value).ok().filter(|&value| value < LIMIT)
        };
        let range = |i: u64| match i {
            0 => Some(self.first.start).filter(|&start| start < LIMIT),
            _ => read(
                self.first.start,
                i,
                (i - 1) * both,
                self.range_slope,
                self.range_width,
            ),
        };
        let ordinal = |i: u64| match i {
            0 => Some(self.first.first_ordinal).filter(|&ordinal| ordinal < LIMIT),
            _ => read(
                self.first.first_ordinal,
                i,
                (i - 1) * both + self.range_width,
                self.ordinal_slope,
                self.ordinal_width,
            ),
        };
        (0..self.count)
            .map(|i| Some(BlockAddr::new(range(i)?..range(i + 1)?, ordinal(i)?)))
            .collect()
    }
}

pub fn accepts(table: &[u8], key: &[u8]) -> bool {
    let m = usize::from(table[0]);
    let step = |state: usize, &byte: &u8| usize::from(table[1 + m + 256 * state + byte as usize]);
    table[1 + key.iter().fold(0, step)] == 1
}

/// Whether the table accepts a string above `start` and not above `end`.
pub fn accepts_between(table: &[u8], start: Option<&[u8]>, end: &[u8]) -> bool {
    first_between(table, start, end).is_some()
}

/// The first string above `start` and not above `end` that the table accepts: the shortest, and of the shortest the lowest.
///
/// A search over all strings, shorter ones first and lower ones before others of their length. Where two lead to one state and
/// stand alike to both keys, what follows the later one follows the earlier one too, so that the later one needn't be gone on from.
pub fn first_between(table: &[u8], start: Option<&[u8]>, end: &[u8]) -> Option<Vec<u8>> {
    let m = usize::from(table[0]);
    // the state, and how much of a key the string is, or none once it is past it: above `start`, below `end`
    let empty = (0, start.map(|_| 0), Some(0));
    let mut seen = HashSet::from([empty]);
    let mut waiting = VecDeque::from([(empty, Vec::new())]);
    while let Some(((state, above, below), string)) = waiting.pop_front() {
        if above.is_none() && table[1 + state] == 1 {
            return Some(string);
        }
        for byte in 0..=u8::MAX {
            let above = match (above, start) {
                (Some(k), Some(start)) => match start.get(k) {
                    Some(&other) if byte < other => continue,
                    Some(&other) if byte == other => Some(k + 1),
                    _ => None,
                },
                _ => None,
            };
            let below = match below {
                Some(k) => match end.get(k) {
                    Some(&other) if byte < other => None,
                    Some(&other) if byte == other => Some(k + 1),
                    _ => continue,
                },
                None => None,
            };
            let next = usize::from(table[1 + m + 256 * state + usize::from(byte)]);
            if seen.insert((next, above, below)) {
                let longer = [&string[..], &[byte]].concat();
                waiting.push_back(((next, above, below), longer));
            }
        }
    }
    None
}

/// SplitMix64.
pub struct Draw(u64);

impl Draw {
    pub fn new(seed: u64) -> Draw {
        Draw(seed)
    }

    pub fn any(&mut self) -> u64 {
        self.0 = self.0.wrapping_add(0x9e37_79b9_7f4a_7c15);
        let z = (self.0 ^ self.0 >> 30).wrapping_mul(0xbf58_476d_1ce4_e5b9);
        let z = (z ^ z >> 27).wrapping_mul(0x94d0_49bb_1331_11eb);
        z ^ z >> 31
    }

    /// A number below `end`.
    pub fn below(&mut self, end: u64) -> u64 {
        self.any() % end
    }

    pub fn of<T: Copy>(&mut self, list: &[T]) -> T {
        list[self.below(list.len() as u64) as usize]
    }

    /// One in so many.
    pub fn one_in(&mut self, times: u64) -> bool {
        self.below(times) == 0
    }

    /// A key of up to `most` bytes, of few different ones, so that keys share fronts.
    pub fn key(&mut self, most: u64) -> Vec<u8> {
        let len = self.below(most + 1);
        (0..len)
            .map(|_| self.of(&[0, 1, b'a', b'b', b'c', 0xfe, 0xff]))
            .collect()
    }

    /// A table of some automaton: few bytes tell states apart.
    pub fn table(&mut self) -> Vec<u8> {
        let m = match self.below(4) {
            0 => 1 + self.below(3),
            1 => 64,
            _ => 1 + self.below(64),
        };
        let one_in = self.of(&[1, 2, 8, 64]);
        let mut table = vec![m as u8];
        table.extend((0..m).map(|_| u8::from(self.one_in(one_in))));
        let stays = self.one_in(2);
        for state in 0..m {
            let other = if stays { state } else { self.below(m) };
            let mut nexts = vec![other as u8; 256];
            for byte in [0, 1, b'a', b'b', b'c', 0xfe, 0xff] {
                nexts[usize::from(byte)] = self.below(m) as u8;
            }
            table.extend(nexts);
        }
        table
    }

    /// Entries of legal calls.
    pub fn entries(&mut self, n: usize) -> Entries {
        let mut entries = Entries::default();
        let mut keys: Vec<Vec<u8>> = Vec::new();
        while keys.len() < n {
            let missing = n - keys.len();
            keys.extend((0..missing).map(|_| self.key(9)));
            keys.sort();
            keys.dedup();
        }
        let step = self.of(&[1, 20, 4_000, 1 << 30]);
        let mut end = self.below(step);
        let mut ordinal = self.below(step);
        for key in keys {
            let block = BlockAddr::new(end..end + self.below(step), ordinal);
            assert_eq!(entries.add(&key, block), 0);
            end = block.end;
            ordinal += 1 + self.below(step);
        }
        entries
    }

    /// Entries of legal calls with fields of up to 56 bits: one step of the ends and one of the ordinals lead from low numbers to
    /// the highest ones.
    pub fn far_entries(&mut self, n: usize) -> Entries {
        let mut entries = self.entries(n);
        let last = entries.blocks[n - 1];
        let (far_end, far_ordinal) = (self.below(n as u64), 1 + self.below(n as u64 - 1));
        for (i, block) in (0..).zip(&mut entries.blocks) {
            if i > far_end {
                block.start += LIMIT - 1 - last.end;
            }
            if i >= far_end {
                block.end += LIMIT - 1 - last.end;
            }
            if i >= far_ordinal {
                block.first_ordinal += LIMIT - 1 - last.first_ordinal;
            }
        }
        assert_eq!(store_no(&entries.blocks), 0);
        entries
    }
}
