// Stand-in for the index of version 2, which is never made: the type has no values.

use common::OwnedBytes;
use tantivy_fst::Automaton;

use super::BlockAddr;
use crate::{SSTableDataCorruption, TermOrdinal};

#[derive(Debug, Clone)]
pub enum SSTableIndex {}

impl SSTableIndex {
    pub fn load(_bytes: OwnedBytes) -> Result<SSTableIndex, SSTableDataCorruption> {
        Err(SSTableDataCorruption)
    }

    pub fn get_block(&self, _id: usize) -> Option<BlockAddr> {
        match *self {}
    }

    pub fn locate_with_key(&self, _key: &[u8]) -> Option<usize> {
        match *self {}
    }

    pub fn get_block_with_key(&self, _key: &[u8]) -> Option<BlockAddr> {
        match *self {}
    }

    pub fn locate_with_ord(&self, _ord: TermOrdinal) -> usize {
        match *self {}
    }

    pub fn get_block_with_ord(&self, _ord: TermOrdinal) -> BlockAddr {
        match *self {}
    }

    pub fn get_and_locate_with_ord(&self, _ord: TermOrdinal) -> (BlockAddr, u64) {
        match *self {}
    }

    pub fn get_block_for_automaton(
        &self,
        _automaton: &impl Automaton,
    ) -> std::iter::Empty<(u64, BlockAddr)> {
        match *self {}
    }
}
