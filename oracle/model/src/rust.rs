//! The Rust of each version: the crate itself for 3, and for 4 the same text with groups of 256 blocks.

use std::io;

use tantivy_fst::Automaton;
use tantivy_sstable::access as of_3;
pub use tantivy_sstable::access::Block;
use tantivy_sstable_256::access as of_4;

use crate::version::{V3, V4, Version};

fn to_4(block: &Block) -> of_4::Block {
    let Block { start, end, ord } = *block;
    of_4::Block { start, end, ord }
}

fn from_4(block: of_4::Block) -> Block {
    let of_4::Block { start, end, ord } = block;
    Block { start, end, ord }
}

pub fn write_store(version: Version, blocks: &[Block]) -> Vec<u8> {
    match version {
        V3 => of_3::write_store(blocks),
        V4 => of_4::write_store(&blocks.iter().map(to_4).collect::<Vec<_>>()),
    }
}

/// The index of the blocks and their keys, with its footer of 8 bytes.
pub fn write_index(version: Version, blocks: &[(Block, &[u8])]) -> Vec<u8> {
    match version {
        V3 => of_3::write_index(blocks),
        V4 => {
            let given = blocks.iter().map(|(block, key)| (to_4(block), *key));
            of_4::write_index(&given.collect::<Vec<_>>())
        }
    }
}

pub enum Store {
    V3(of_3::Store),
    V4(of_4::Store),
}

impl Store {
    pub fn open(version: Version, bytes: &[u8]) -> Store {
        match version {
            V3 => Store::V3(of_3::Store::open(bytes)),
            V4 => Store::V4(of_4::Store::open(bytes)),
        }
    }

    pub fn get(&self, id: u64) -> Option<Block> {
        match self {
            Store::V3(store) => store.get(id),
            Store::V4(store) => store.get(id).map(from_4),
        }
    }

    pub fn binary_search_ord(&self, ord: u64) -> (u64, Block) {
        match self {
            Store::V3(store) => store.binary_search_ord(ord),
            Store::V4(store) => {
                let (id, block) = store.binary_search_ord(ord);
                (id, from_4(block))
            }
        }
    }
}

pub enum Index {
    V3(of_3::Index),
    V4(of_4::Index),
}

impl Index {
    pub fn open(version: Version, bytes: &[u8]) -> Index {
        Index::try_open(version, bytes).unwrap()
    }

    pub fn try_open(version: Version, bytes: &[u8]) -> io::Result<Index> {
        match version {
            V3 => of_3::Index::try_open(bytes).map(Index::V3),
            V4 => of_4::Index::try_open(bytes).map(Index::V4),
        }
    }

    pub fn get_block(&self, id: u64) -> Option<Block> {
        match self {
            Index::V3(index) => index.get_block(id),
            Index::V4(index) => index.get_block(id).map(from_4),
        }
    }

    /// The block's id, and the block.
    pub fn get_and_locate_with_ord(&self, ord: u64) -> (u64, Block) {
        match self {
            Index::V3(index) => index.get_and_locate_with_ord(ord),
            Index::V4(index) => {
                let (id, block) = index.get_and_locate_with_ord(ord);
                (id, from_4(block))
            }
        }
    }

    pub fn locate_with_key(&self, key: &[u8]) -> Option<u64> {
        match self {
            Index::V3(index) => index.locate_with_key(key),
            Index::V4(index) => index.locate_with_key(key),
        }
    }

    pub fn get_block_with_key(&self, key: &[u8]) -> Option<Block> {
        match self {
            Index::V3(index) => index.get_block_with_key(key),
            Index::V4(index) => index.get_block_with_key(key).map(from_4),
        }
    }

    /// The ids of the blocks that may hold an accepted key.
    pub fn get_block_for_automaton(&self, automaton: &impl Automaton) -> Vec<u64> {
        match self {
            Index::V3(index) => index.get_block_for_automaton(automaton),
            Index::V4(index) => index.get_block_for_automaton(automaton),
        }
    }
}
