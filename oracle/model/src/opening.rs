//! A plain model of opening and the lookups, after document 01's table and document 02's number of terms and versions. It counts in
//! whole numbers, and reads fields bit by bit.

use std::collections::BTreeSet;

use crate::rust::Block;
use crate::settings::{self, OPENED_LEN};
use crate::version::Version;

/// The settings as whole numbers.
const LIMIT: i128 = settings::LIMIT as i128;
const RECORD: i128 = settings::GROUP_RECORD as i128;
const MOST: i128 = settings::MOST_BLOCKS as i128;
const LONGEST: i128 = settings::LONGEST_KEY as i128;
const WIDEST: i128 = settings::WIDEST as i128;

/// The row of a number of terms that isn't above the last first ordinal.
pub const TERMS_BAD: u64 = 28;

/// The row of an ordinal that isn't below the number of terms.
pub const ORDINAL_ABOVE: u64 = 29;

/// Blocks in a group, and how many groups so many blocks have.
fn group_len(version: Version) -> i128 {
    version.group_len() as i128
}

fn groups_of(version: Version, n: i128) -> i128 {
    (n + group_len(version) - 1) / group_len(version)
}

/// The opened record: n, offset and length of the directory, the group records and the address bytes, the number of terms, the version.
#[derive(Clone, Copy, Debug, Default, PartialEq, Eq)]
pub struct Opened {
    pub n: u64,
    pub directory: (u64, u64),
    pub records: (u64, u64),
    pub addresses: (u64, u64),
    pub terms: u64,
    pub version: u64,
}

impl Opened {
    /// What a refusal leaves: zeros.
    pub const NONE: Opened = Opened {
        n: 0,
        directory: (0, 0),
        records: (0, 0),
        addresses: (0, 0),
        terms: 0,
        version: 0,
    };

    pub fn of(numbers: [u64; OPENED_LEN]) -> Opened {
        let [n, d, dl, r, rl, a, al, terms, version] = numbers;
        Opened {
            n,
            directory: (d, dl),
            records: (r, rl),
            addresses: (a, al),
            terms,
            version,
        }
    }

    pub fn numbers(&self) -> [u64; OPENED_LEN] {
        let (d, r, a) = (self.directory, self.records, self.addresses);
        let (terms, version) = (self.terms, self.version);
        [self.n, d.0, d.1, r.0, r.1, a.0, a.1, terms, version]
    }

    pub fn with_terms(self, terms: u64) -> Opened {
        Opened { terms, ..self }
    }

    pub fn with_version(self, version: u64) -> Opened {
        Opened { version, ..self }
    }

    /// The first ordinal of the first group record that it names, if that is inside.
    pub fn first_ord(&self, file: &[u8]) -> Option<u64> {
        let first = number(file, i128::from(self.records.0) + 16, 8)?;
        Some(first as u64)
    }

    /// Whether a lookup by ordinal may answer this number where the record isn't the file's. Found and 29 keep to the number of terms,
    /// 18 and 29 to the first ordinal; a record that fails by itself gets 20 alone.
    pub fn ord_no_allowed(&self, file: &[u8], ord: u64, no: u64) -> bool {
        if self.unfit(file.len()) {
            return no == 20;
        }
        let first = self.first_ord(file).expect("a record that fits");
        match no {
            0 => ord < self.terms,
            18 => ord < first,
            ORDINAL_ABOVE => first <= ord && self.terms <= ord,
            _ => no == 20,
        }
    }

    /// Whether it can't be the record of so many bytes, whatever they are: a lookup must say 20. The number of terms has no part in it.
    pub fn unfit(&self, len: usize) -> bool {
        let Some(version) = Version::of(self.version) else {
            return true;
        };
        let n = i128::from(self.n);
        let outside = |(from, length)| i128::from(from) + i128::from(length) > len as i128;
        let places = [self.directory, self.records, self.addresses];
        let groups = groups_of(version, n);
        !(1..=MOST).contains(&n)
            || places.into_iter().any(outside)
            || i128::from(self.records.1) < RECORD * groups
    }
}

/// A row and which of its parts is hit.
pub type Hit = (u64, &'static str);

/// What a file of this version holds, as far as it can be read.
pub struct Opening {
    pub version: Version,
    /// those of rows 10 to 16 that are hit, in the order in which they are tried
    pub hits: Vec<Hit>,
    /// the record, with the least number of terms that opens; for a refused file the one that it would have, if its parts are inside
    pub record: Opened,
    pub keys: Vec<Vec<u8>>,
    pub blocks: Vec<Block>,
}

impl Opening {
    /// Nothing that was read.
    pub fn new(version: Version) -> Opening {
        Opening {
            version,
            hits: Vec::new(),
            record: Opened::default().with_version(version.number()),
            keys: Vec::new(),
            blocks: Vec::new(),
        }
    }

    /// The first of rows 10 to 16 that is hit, or 0: what the file alone decides, and the number of an opening with enough terms.
    pub fn no(&self) -> u64 {
        self.hits.first().map_or(0, |hit| hit.0)
    }

    /// The first ordinal of the last block, if it can be read.
    pub fn last_ord(&self) -> Option<u64> {
        let whole = self.blocks.len() as u64 == self.record.n;
        self.blocks.last().filter(|_| whole).map(|block| block.ord)
    }

    /// Whether so many terms aren't above the last first ordinal; 0 is above none, whatever can be read.
    fn terms_bad(&self, terms: u64) -> bool {
        terms == 0 || self.last_ord().is_some_and(|last| terms <= last)
    }

    /// All rows that are hit by an opening with so many terms, in the order in which they are tried.
    pub fn hits_with(&self, terms: u64) -> Vec<Hit> {
        let mut hits = self.hits.clone();
        if self.terms_bad(terms) {
            hits.push((TERMS_BAD, "terms"));
        }
        hits
    }

    /// The number of an opening with so many terms.
    pub fn number(&self, terms: u64) -> u64 {
        match self.no() {
            0 if self.terms_bad(terms) => TERMS_BAD,
            no => no,
        }
    }

    /// The record of an opening with so many terms, or zeros after a refusal.
    pub fn answer(&self, terms: u64) -> Opened {
        if self.number(terms) == 0 {
            self.record.with_terms(terms)
        } else {
            Opened::NONE
        }
    }

    /// Whether opening gives this record, with its own number of terms.
    pub fn opens(&self, record: Opened) -> bool {
        self.number(record.terms) == 0 && self.is_but_for_terms(record)
    }

    /// Whether this is the record of a file that opens with this version, whatever its number of terms.
    pub fn is_but_for_terms(&self, record: Opened) -> bool {
        self.no() == 0 && record == self.record.with_terms(record.terms)
    }

    pub fn by_id(&self, id: u64) -> Option<Block> {
        self.blocks.get(usize::try_from(id).ok()?).copied()
    }

    /// The last block whose first ordinal isn't above, for an ordinal below the number of terms; 18 below the first, else 29.
    pub fn by_ord(&self, terms: u64, ord: u64) -> Result<(u64, Block), u64> {
        let id = self.blocks.iter().rposition(|block| block.ord <= ord);
        let id = id.ok_or(18u64)?;
        if ord >= terms {
            return Err(ORDINAL_ABOVE);
        }
        Ok((id as u64, self.blocks[id]))
    }

    /// The first block whose separator isn't below.
    pub fn by_key(&self, key: &[u8]) -> Option<u64> {
        let id = self
            .keys
            .iter()
            .position(|separator| &separator[..] >= key)?;
        Some(id as u64)
    }

    /// Where a separator stands in the file: offset and length.
    pub fn place(&self, id: u64) -> Option<(u64, u64)> {
        let id = usize::try_from(id)
            .ok()
            .filter(|&id| id < self.keys.len())?;
        let before: usize = self.keys[..id].iter().map(Vec::len).sum();
        let first = 4 + 8 * self.keys.len();
        Some(((first + before) as u64, self.keys[id].len() as u64))
    }
}

fn part(bytes: &[u8], at: i128, count: i128) -> Option<&[u8]> {
    let from = usize::try_from(at).ok()?;
    bytes.get(from..usize::try_from(at + count).ok()?)
}

fn number(bytes: &[u8], at: i128, count: i128) -> Option<i128> {
    let digits = part(bytes, at, count)?.iter().rev();
    Some(digits.fold(0, |value, &byte| 256 * value + i128::from(byte)))
}

/// Reads a file of this version, as every opening of it does: rows 10 to 16. What opening answers depends on the number of terms besides.
pub fn open(version: Version, file: &[u8]) -> Opening {
    let mut opening = rows(version, file);
    let least = opening.last_ord().map(|last| last.saturating_add(1));
    opening.record.terms = least.unwrap_or(0);
    opening
}

fn rows(version: Version, file: &[u8]) -> Opening {
    let mut opening = Opening::new(version);
    let len = file.len() as i128;
    let Some(directory_len) = number(file, len - 8, 8) else {
        opening.hits.push((10, "under 8 bytes"));
        return opening;
    };
    let beyond = directory_len + 16 > len;
    if directory_len == 0 {
        opening.hits.push((11, "directory length"));
    }
    if beyond {
        opening.hits.push((10, "directory length"));
    }
    if directory_len == 0 {
        return opening;
    }
    let Some(directory) = part(&file[..file.len() - 8], 0, directory_len) else {
        return opening;
    };
    open_directory(&mut opening, directory);
    if !beyond {
        let n = number(directory, 0, 4);
        open_store(&mut opening, &file[directory.len()..file.len() - 8], n);
        opening.record.directory.1 = directory.len() as u64;
        opening.record.records.0 = directory.len() as u64 + 8;
        opening.record.addresses.0 += directory.len() as u64;
    }
    opening
}

/// Rows 12 and 13.
fn open_directory(opening: &mut Opening, directory: &[u8]) {
    let Some(n) = number(directory, 0, 4) else {
        opening.hits.push((12, "no count"));
        return;
    };
    opening.record.n = n as u64;
    let mut hits = Vec::new();
    if !(2..=MOST).contains(&n) {
        hits.push((12, "count"));
    }
    let mut next = 0;
    let mut keys: Vec<Option<&[u8]>> = Vec::new();
    for i in 0..n {
        let at = 4 + 8 * i;
        let (Some(offset), Some(length)) = (number(directory, at, 4), number(directory, at + 4, 4))
        else {
            hits.push((12, "no pair"));
            break;
        };
        if offset != next {
            hits.push((12, "offset"));
        }
        if length > LONGEST {
            hits.push((12, "long key"));
        }
        next = offset + length;
        keys.push(part(directory, 4 + 8 * n + offset, length));
    }
    if directory.len() as i128 != 4 + 8 * n + next {
        hits.push((12, "length"));
    }
    let rises = |pair: &[Option<&[u8]>]| match pair {
        [Some(one), Some(other)] => one < other,
        _ => true,
    };
    if !keys.windows(2).all(rises) {
        hits.push((13, "keys"));
    }
    opening.hits.extend(BTreeSet::from_iter(hits));
    opening.keys = keys
        .into_iter()
        .map(|key| key.unwrap_or(&[]).to_vec())
        .collect();
}

/// Rows 14 to 16. The store has 8 bytes or more; the directory may have no count.
fn open_store(opening: &mut Opening, store: &[u8], n: Option<i128>) {
    let records_len = number(store, 0, 8).unwrap();
    let (version, most) = (opening.version, group_len(opening.version));
    let groups = n.map(|n| groups_of(version, n));
    if groups.is_some_and(|groups| records_len != RECORD * groups) {
        opening.hits.push((14, "records' length"));
    }
    let behind = 8 + records_len;
    if behind > store.len() as i128 {
        opening.hits.push((14, "beyond the store"));
    }
    let addresses = part(store, behind, store.len() as i128 - behind).unwrap_or(&[]);
    opening.record.records.1 = records_len.min(store.len() as i128) as u64;
    opening.record.addresses = (
        (store.len() - addresses.len()) as u64,
        addresses.len() as u64,
    );
    let (Some(n), Some(groups)) = (n, groups) else {
        return;
    };
    let groups: Vec<Group> = (0..groups)
        .map_while(|g| Group::read(store, 8 + RECORD * g, (n - most * g).min(most), addresses))
        .collect();
    let mut hits: Vec<Hit> = groups.iter().flat_map(Group::row_15).collect();
    let all: Vec<Option<Vec<Values>>> = groups.iter().map(Group::values).collect();
    hits.extend(groups.iter().flat_map(Group::firsts));
    hits.extend(row_16(&all));
    opening.hits.extend(BTreeSet::from_iter(hits));
    let number = |value: i128| u64::try_from(value).unwrap_or(u64::MAX);
    opening.blocks = all
        .into_iter()
        .flat_map(Option::unwrap_or_default)
        .map(|[start, end, ord]| Block {
            start: number(start),
            end: number(end),
            ord: number(ord),
        })
        .collect();
}

/// Start, end and first ordinal as they are read, below 0 too.
type Values = [i128; 3];

/// A group's record, how many blocks it must have, and the address bytes.
struct Group<'a> {
    offset: i128,
    firsts: [i128; 2],
    slopes: [i128; 2],
    /// of range and ordinal
    widths: [i128; 2],
    count: i128,
    due: i128,
    addresses: &'a [u8],
}

impl Group<'_> {
    fn read<'a>(store: &[u8], at: i128, due: i128, addresses: &'a [u8]) -> Option<Group<'a>> {
        let record = part(store, at, RECORD)?;
        let number = |from, count| number(record, from, count).unwrap();
        Some(Group {
            offset: number(0, 8),
            firsts: [number(8, 8), number(16, 8)],
            slopes: [number(24, 4), number(28, 4)],
            widths: [number(33, 1), number(32, 1)],
            count: number(34, 2) + 1,
            due,
            addresses,
        })
    }

    fn widths_fit(&self) -> bool {
        self.widths.iter().all(|width| (1..=WIDEST).contains(width))
    }

    /// Whether the fields of the blocks that it must have are inside.
    fn fields_fit(&self) -> bool {
        let [range, ord] = self.widths;
        let bits = (range + ord) * (self.due - 1) + range;
        8 * self.offset + bits <= 8 * self.addresses.len() as i128
    }

    fn row_15(&self) -> Vec<Hit> {
        let mut hits = Vec::new();
        for (k, part) in ["range width", "ordinal width"].into_iter().enumerate() {
            if !(1..=WIDEST).contains(&self.widths[k]) {
                hits.push((15, part));
            }
        }
        if self.count != self.due {
            hits.push((15, "block count"));
        }
        if !self.fields_fit() {
            hits.push((15, "fields"));
        }
        hits
    }

    /// Row 16 for the first values.
    fn firsts(&self) -> Vec<Hit> {
        let parts = ["first start", "first ordinal"].into_iter();
        let bad = parts.zip(self.firsts).filter(|(_, first)| *first >= LIMIT);
        bad.map(|(part, _)| (16, part)).collect()
    }

    /// The value of a point; kind 0 is range, 1 is ordinal.
    fn value(&self, kind: usize, i: i128) -> i128 {
        let [range, ord] = self.widths;
        let place = 8 * self.offset + (range + ord) * (i - 1) + range * kind as i128;
        let bit = |at: i128| i128::from(self.addresses[at as usize / 8] >> (at % 8) & 1);
        let width = self.widths[kind];
        let field: i128 = (0..width).map(|k| bit(place + k) << k).sum();
        self.firsts[kind] + field + self.slopes[kind] * i - (1 << (width - 1))
    }

    /// The blocks, if the fields can be read.
    fn values(&self) -> Option<Vec<Values>> {
        if !self.widths_fit() || !self.fields_fit() {
            return None;
        }
        let at = |kind, i| {
            if i == 0 {
                self.firsts[kind]
            } else {
                self.value(kind, i)
            }
        };
        let blocks = 0..self.due;
        Some(blocks.map(|i| [at(0, i), at(0, i + 1), at(1, i)]).collect())
    }
}

/// Row 16 for the blocks of all groups, as far as they can be read.
fn row_16(groups: &[Option<Vec<Values>>]) -> Vec<Hit> {
    let mut hits = Vec::new();
    let inside = |value: i128| (0..LIMIT).contains(&value);
    let mut last: Option<Values> = None;
    for group in groups {
        for (i, &[start, end, ord]) in group.iter().flatten().enumerate() {
            if !inside(end) {
                hits.push((16, "range value"));
            }
            if i > 0 && !inside(ord) {
                hits.push((16, "ordinal value"));
            }
            if end < start {
                hits.push((16, "end below start"));
            }
            if let Some(last) = last {
                if start != last[1] {
                    hits.push((16, "join"));
                }
                if ord <= last[2] {
                    hits.push((16, "ordinals"));
                }
            }
            last = Some([start, end, ord]);
        }
        if group.is_none() {
            last = None;
        }
    }
    hits
}
