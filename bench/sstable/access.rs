//! What the bench calls of the block index, much of it private there. No answer is made here. The file is compiled beside
//! each of the two `index/v3.rs`.

use common::OwnedBytes;
use tantivy_fst::{Automaton, Streamer};

use super::super::{SSTableIndex, SSTableIndexBuilder};
use super::{BlockAddr, BlockAddrStore, BlockAddrStoreWriter, STORE_BLOCK_LEN, SSTableIndexV3};
use crate::Block;

impl From<BlockAddr> for Block {
    #[inline]
    fn from(addr: BlockAddr) -> Block {
        Block {
            start: addr.byte_range.start as u64,
            end: addr.byte_range.end as u64,
            ord: addr.first_ordinal,
        }
    }
}

impl From<Block> for BlockAddr {
    #[inline]
    fn from(block: Block) -> BlockAddr {
        BlockAddr {
            first_ordinal: block.ord,
            byte_range: block.start as usize..block.end as usize,
        }
    }
}

pub fn common_prefix_len(one: &[u8], other: &[u8]) -> usize {
    crate::common_prefix_len(one, other)
}

pub fn can_block_match_automaton(
    start: Option<&[u8]>,
    end: &[u8],
    automaton: &impl Automaton,
) -> bool {
    crate::block_match_automaton::can_block_match_automaton(start, end, automaton)
}

/// The block index with the groups of this `index/v3.rs`.
pub struct Groups;

impl crate::Rust for Groups {
    const VERSION: u64 = match STORE_BLOCK_LEN {
        128 => 3,
        256 => 4,
        _ => panic!("no version has such groups"),
    };
    type Builder = Builder;
    type Store = Store;
    type Index = Index;

    fn append_store(blocks: &[Block], bytes: &mut Vec<u8>) {
        let mut writer = BlockAddrStoreWriter::new();
        for &block in blocks {
            writer.write_block_meta(block.into()).unwrap();
        }
        writer.serialize(bytes).unwrap();
    }
}

#[derive(Default)]
pub struct Builder(SSTableIndexBuilder);

impl crate::Builder for Builder {
    #[inline]
    fn add_block(&mut self, key: &[u8], block: Block) {
        let addr = BlockAddr::from(block);
        self.0.add_block(key, addr.byte_range, addr.first_ordinal);
    }

    #[inline]
    fn shorten_last_block_key_given_next_key(&mut self, next_key: &[u8]) {
        self.0.shorten_last_block_key_given_next_key(next_key);
    }

    fn last_key(&mut self) -> Option<&mut Vec<u8>> {
        let last = self.0.blocks.last_mut();
        last.map(|block| &mut block.last_key_or_greater)
    }

    fn serialize(&self, bytes: &mut Vec<u8>) {
        let footer = self.0.serialize(&mut *bytes).unwrap();
        bytes.extend_from_slice(&footer.to_le_bytes());
    }
}

pub struct Store(BlockAddrStore);

impl crate::Store for Store {
    fn open(bytes: &[u8]) -> Store {
        Store(BlockAddrStore::open(OwnedBytes::new(bytes.to_vec())).unwrap())
    }

    #[inline]
    fn get(&self, id: u64) -> Option<Block> {
        self.0.get(id).map(Block::from)
    }

    #[inline]
    fn binary_search_ord(&self, ord: u64) -> (u64, Block) {
        let (id, addr) = self.0.binary_search_ord(ord);
        (id, addr.into())
    }
}

pub struct Index(SSTableIndex);

impl crate::Index for Index {
    fn load(bytes: OwnedBytes) -> Index {
        Index(SSTableIndex::open(3, 0, bytes).unwrap())
    }

    #[inline]
    fn get_block(&self, id: u64) -> Option<Block> {
        self.0.get_block(id).map(Block::from)
    }

    #[inline]
    fn get_and_locate_with_ord(&self, ord: u64) -> (u64, Block) {
        let (addr, id) = self.0.get_and_locate_with_ord(ord);
        (id, addr.into())
    }

    #[inline]
    fn locate_with_key(&self, key: &[u8]) -> Option<u64> {
        self.0.locate_with_key(key)
    }

    #[inline]
    fn get_block_with_key(&self, key: &[u8]) -> Option<Block> {
        self.0.get_block_with_key(key).map(Block::from)
    }

    #[inline]
    fn get_block_for_automaton<'a>(
        &'a self,
        automaton: &'a impl Automaton,
    ) -> impl Iterator<Item = (u64, Block)> + 'a {
        let found = self.0.get_block_for_automaton(automaton);
        found.map(|(id, addr)| (id, addr.into()))
    }

    fn mark_for_automaton(&self, automaton: &impl Automaton, marks: &mut [u8]) -> usize {
        let SSTableIndex::V3(SSTableIndexV3 { fst_index, .. }) = &self.0 else {
            unreachable!()
        };
        let mut keys = fst_index.stream();
        let (mut before, mut count) = (None, 0);
        while let Some((key, id)) = keys.next() {
            let mark = can_block_match_automaton(before, key, automaton);
            marks[id as usize] = u8::from(mark);
            count += usize::from(mark);
            before = Some(key);
        }
        count
    }
}
