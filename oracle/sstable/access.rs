//! Private functions of the block index, called from outside. No answer is made here.

use std::io;

use common::OwnedBytes;
use tantivy_fst::Automaton;

use super::super::{SSTableIndex, SSTableIndexBuilder};
use super::{BlockAddr, BlockAddrStore, BlockAddrStoreWriter};

#[derive(Clone, Copy, Debug, PartialEq, Eq)]
pub struct Block {
    pub start: u64,
    pub end: u64,
    pub ord: u64,
}

impl From<BlockAddr> for Block {
    fn from(addr: BlockAddr) -> Block {
        Block {
            start: addr.byte_range.start as u64,
            end: addr.byte_range.end as u64,
            ord: addr.first_ordinal,
        }
    }
}

impl From<Block> for BlockAddr {
    fn from(block: Block) -> BlockAddr {
        BlockAddr {
            first_ordinal: block.ord,
            byte_range: block.start as usize..block.end as usize,
        }
    }
}

/// The slope and width of the points (1, first value), (2, second value) and so on.
pub fn find_best_slope(values: &[u64]) -> (u32, u8) {
    super::find_best_slope((1..).zip(values.iter().copied()))
}

pub fn extract_bits(bytes: &[u8], place: usize, width: u8) -> u64 {
    super::extract_bits(bytes, place, width)
}

pub fn common_prefix_len(one: &[u8], other: &[u8]) -> usize {
    crate::common_prefix_len(one, other)
}

pub fn find_shorter_str_in_between(left: &[u8], right: &[u8]) -> Vec<u8> {
    let mut short = left.to_vec();
    super::super::find_shorter_str_in_between(&mut short, right);
    short
}

pub fn can_block_match_automaton(
    start: Option<&[u8]>,
    end: &[u8],
    automaton: &impl Automaton,
) -> bool {
    crate::block_match_automaton::can_block_match_automaton(start, end, automaton)
}

/// The store of the blocks.
pub fn write_store(blocks: &[Block]) -> Vec<u8> {
    let mut writer = BlockAddrStoreWriter::new();
    for &block in blocks {
        writer.write_block_meta(block.into()).unwrap();
    }
    let mut bytes = Vec::new();
    writer.serialize(&mut bytes).unwrap();
    bytes
}

pub struct Store(BlockAddrStore);

impl Store {
    pub fn open(bytes: &[u8]) -> Store {
        Store(BlockAddrStore::open(OwnedBytes::new(bytes.to_vec())).unwrap())
    }

    pub fn get(&self, id: u64) -> Option<Block> {
        self.0.get(id).map(Block::from)
    }

    pub fn binary_search_ord(&self, ord: u64) -> (u64, Block) {
        let (id, addr) = self.0.binary_search_ord(ord);
        (id, addr.into())
    }
}

/// The index of the blocks and their keys, with its footer of 8 bytes.
pub fn write_index(blocks: &[(Block, &[u8])]) -> Vec<u8> {
    let mut builder = SSTableIndexBuilder::default();
    for &(block, key) in blocks {
        let addr = BlockAddr::from(block);
        builder.add_block(key, addr.byte_range, addr.first_ordinal);
    }
    let mut bytes = Vec::new();
    let footer = builder.serialize(&mut bytes).unwrap();
    bytes.extend(footer.to_le_bytes());
    bytes
}

pub struct Index(SSTableIndex);

impl Index {
    pub fn open(bytes: &[u8]) -> Index {
        Index::try_open(bytes).unwrap()
    }

    pub fn try_open(bytes: &[u8]) -> io::Result<Index> {
        SSTableIndex::open(3, 0, OwnedBytes::new(bytes.to_vec())).map(Index)
    }

    pub fn get_block(&self, id: u64) -> Option<Block> {
        self.0.get_block(id).map(Block::from)
    }

    pub fn locate_with_ord(&self, ord: u64) -> u64 {
        self.0.locate_with_ord(ord)
    }

    /// The block's id, and the block.
    pub fn get_and_locate_with_ord(&self, ord: u64) -> (u64, Block) {
        let (addr, id) = self.0.get_and_locate_with_ord(ord);
        (id, addr.into())
    }

    pub fn locate_with_key(&self, key: &[u8]) -> Option<u64> {
        self.0.locate_with_key(key)
    }

    pub fn get_block_with_key(&self, key: &[u8]) -> Option<Block> {
        self.0.get_block_with_key(key).map(Block::from)
    }

    /// The ids of the blocks that may hold an accepted key.
    pub fn get_block_for_automaton(&self, automaton: &impl Automaton) -> Vec<u64> {
        self.0
            .get_block_for_automaton(automaton)
            .map(|(id, _)| id)
            .collect()
    }
}

/// A builder that is kept between calls.
#[derive(Default)]
pub struct Builder(SSTableIndexBuilder);

impl Builder {
    pub fn add_block(&mut self, key: &[u8], block: Block) {
        let addr = BlockAddr::from(block);
        self.0.add_block(key, addr.byte_range, addr.first_ordinal);
    }

    pub fn shorten_last_block_key_given_next_key(&mut self, next_key: &[u8]) {
        self.0.shorten_last_block_key_given_next_key(next_key);
    }

    pub fn last_key(&mut self) -> Option<&mut Vec<u8>> {
        let last = self.0.blocks.last_mut();
        last.map(|block| &mut block.last_key_or_greater)
    }

    /// Appends the index without its footer, and gives the footer's number.
    pub fn serialize(&self, bytes: &mut Vec<u8>) -> u64 {
        self.0.serialize(bytes).unwrap()
    }
}

/// Appends the store of the blocks.
pub fn append_store(blocks: &[Block], bytes: &mut Vec<u8>) {
    let mut writer = BlockAddrStoreWriter::new();
    for &block in blocks {
        writer.write_block_meta(block.into()).unwrap();
    }
    writer.serialize(bytes).unwrap();
}

impl Index {
    /// Opens shared bytes, which aren't copied.
    pub fn load(bytes: OwnedBytes) -> Index {
        Index(SSTableIndex::open(3, 0, bytes).unwrap())
    }

    /// The blocks that may hold an accepted key.
    pub fn blocks_for_automaton<'a>(
        &'a self,
        automaton: &'a impl Automaton,
    ) -> impl Iterator<Item = (u64, Block)> + 'a {
        self.0
            .get_block_for_automaton(automaton)
            .map(|(id, addr)| (id, addr.into()))
    }
}
