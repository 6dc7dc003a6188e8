//! Files of indexes, put together from their parts, and faults in them.

use std::collections::BTreeSet;

use crate::blocks::{self, touching};
use crate::foreign::{self, Group};
use crate::numbers::Numbers;
use crate::rust::{self, Block};
use crate::settings::GROUP_RECORD;
use crate::version::{VERSIONS, Version};

/// The parts of a file.
#[derive(Clone)]
pub struct File {
    pub directory: Vec<u8>,
    pub records_len: u64,
    pub records: Vec<u8>,
    pub addresses: Vec<u8>,
    pub directory_len: u64,
}

impl File {
    pub fn new(keys: &[Vec<u8>], store: &[u8]) -> File {
        let mut directory = (keys.len() as u32).to_le_bytes().to_vec();
        let mut offset = 0;
        for key in keys {
            directory.extend((offset as u32).to_le_bytes());
            directory.extend((key.len() as u32).to_le_bytes());
            offset += key.len();
        }
        directory.extend(keys.concat());
        let records_len = u64::from_le_bytes(store[..8].try_into().unwrap());
        let behind = 8 + records_len as usize;
        File {
            directory_len: directory.len() as u64,
            directory,
            records_len,
            records: store[8..behind].to_vec(),
            addresses: store[behind..].to_vec(),
        }
    }

    /// As the Rust's builder writes it.
    pub fn written(version: Version, blocks: &[Block], keys: &[Vec<u8>]) -> File {
        let given: Vec<(Block, &[u8])> = blocks
            .iter()
            .copied()
            .zip(keys.iter().map(Vec::as_slice))
            .collect();
        let file = File::new(keys, &blocks::store(version, blocks));
        assert_eq!(file.bytes(), rust::write_index(version, &given));
        file
    }

    pub fn bytes(&self) -> Vec<u8> {
        let records_len = self.records_len.to_le_bytes();
        let directory_len = self.directory_len.to_le_bytes();
        [
            &self.directory[..],
            &records_len,
            &self.records,
            &self.addresses,
            &directory_len,
        ]
        .concat()
    }

    pub fn put_directory(&mut self, directory: &[u8]) {
        self.directory = directory.to_vec();
        self.directory_len = directory.len() as u64;
    }

    /// Replaces a pair's offset and length.
    pub fn pair(&mut self, i: usize, offset: u32, length: u32) {
        let at = 4 + 8 * i;
        self.directory[at..at + 4].copy_from_slice(&offset.to_le_bytes());
        self.directory[at + 4..at + 8].copy_from_slice(&length.to_le_bytes());
    }

    /// Replaces bytes of a group's record.
    pub fn record(&mut self, group: usize, at: usize, bytes: &[u8]) {
        let at = GROUP_RECORD * group + at;
        self.records[at..at + bytes.len()].copy_from_slice(bytes);
    }

    pub fn widths(&mut self, group: usize, ord: u8, range: u8) {
        self.record(group, 32, &[ord, range]);
    }

    /// The widths of ordinal and range.
    pub fn widths_of(&self, group: usize) -> [u8; 2] {
        let at = GROUP_RECORD * group + 32;
        [self.records[at], self.records[at + 1]]
    }

    /// The slopes of range and ordinal.
    pub fn slopes_of(&self, group: usize) -> [u32; 2] {
        let at = GROUP_RECORD * group + 24;
        let slope = |at: usize| u32::from_le_bytes(self.records[at..at + 4].try_into().unwrap());
        [slope(at), slope(at + 4)]
    }

    pub fn offset(&mut self, group: usize, offset: u64) {
        self.record(group, 0, &offset.to_le_bytes());
    }

    pub fn first_start(&mut self, group: usize, start: u64) {
        self.record(group, 8, &start.to_le_bytes());
    }

    pub fn first_ord(&mut self, group: usize, ord: u64) {
        self.record(group, 16, &ord.to_le_bytes());
    }

    pub fn slopes(&mut self, group: usize, range: u32, ord: u32) {
        self.record(group, 24, &range.to_le_bytes());
        self.record(group, 28, &ord.to_le_bytes());
    }

    pub fn with(&self, fault: Fault) -> File {
        let mut file = self.clone();
        fault(&mut file);
        file
    }
}

pub type Fault = fn(&mut File);

/// The same in all versions, as up to 128 blocks are.
fn written_alike(blocks: &[Block], keys: &[Vec<u8>]) -> File {
    let [file, other] = VERSIONS.map(|version| File::written(version, blocks, keys));
    assert_eq!(file.bytes(), other.bytes());
    file
}

pub fn worked_file() -> File {
    let keys = [b"b".to_vec(), b"d".to_vec(), b"f".to_vec()];
    written_alike(&blocks::WORKED, &keys)
}

/// A file that opens with no byte to spare.
pub fn smallest() -> File {
    let file = written_alike(
        &touching(0, &[1, 1], 0, &[1]),
        &[b"a".to_vec(), b"b".to_vec()],
    );
    assert_eq!(file.bytes().len(), 75);
    file
}

pub fn keys_of_one_byte(count: usize) -> Vec<Vec<u8>> {
    assert!(count <= 256);
    (0..count).map(|i| vec![i as u8]).collect()
}

/// Keys of one byte, or of two where there are more of them.
pub fn short_keys(count: usize) -> Vec<Vec<u8>> {
    match count {
        0..=256 => keys_of_one_byte(count),
        _ => (0..count).map(|i| i.to_be_bytes()[6..].to_vec()).collect(),
    }
}

/// A file of two groups, the second with `more` blocks, short keys.
pub fn two_group_file(version: Version, more: usize) -> File {
    let count = version.group_len() + more;
    let blocks = touching(3, &vec![2; count], 1, &vec![1; count - 1]);
    File::written(version, &blocks, &short_keys(count))
}

/// Rising keys over few bytes, FF among them; the first one may be empty.
pub fn rising(rng: &mut Numbers, count: u64, longest: u64) -> Vec<Vec<u8>> {
    let mut keys = BTreeSet::new();
    while (keys.len() as u64) < count {
        let length = rng.within(0, longest);
        let key: Vec<u8> = (0..length)
            .map(|_| rng.pick(&[0x00, 0x01, 0x61, 0x62, 0xfe, 0xff, 0xff]))
            .collect();
        keys.insert(key);
    }
    keys.into_iter().collect()
}

/// The file of the rule that the stored list of indexes has in its comment.
pub fn by_rule(version: Version, count: u64) -> File {
    let lengths = vec![1; count as usize];
    let blocks = touching(0, &lengths, 0, &lengths[1..]);
    let keys: Vec<Vec<u8>> = (0..count).map(|i| i.to_be_bytes()[5..].to_vec()).collect();
    let groups: Vec<Group> = blocks
        .chunks(version.group_len())
        .map(|blocks| Group {
            blocks,
            offset: 0,
            range_slope: 1,
            ord_slope: 1,
            range_width: 1,
            ord_width: 1,
        })
        .collect();
    File::new(
        &keys,
        &foreign::store(&groups, vec![0xff; version.group_len() / 4]),
    )
}
