//! What the bench calls of the block index, whatever its groups are. access.rs has it for both.

use common::OwnedBytes;
use tantivy_fst::Automaton;

#[derive(Clone, Copy, Debug, PartialEq, Eq)]
pub struct Block {
    pub start: u64,
    pub end: u64,
    pub ord: u64,
}

/// The block index with groups of one length.
pub trait Rust {
    /// The version of our index that has these groups
    const VERSION: u64;
    type Builder: Builder;
    type Store: Store;
    type Index: Index;

    /// Appends the store of the blocks.
    fn append_store(blocks: &[Block], bytes: &mut Vec<u8>);
}

pub trait Builder: Default {
    fn add_block(&mut self, key: &[u8], block: Block);
    fn shorten_last_block_key_given_next_key(&mut self, next_key: &[u8]);
    fn last_key(&mut self) -> Option<&mut Vec<u8>>;

    /// Appends the index with its footer.
    fn serialize(&self, bytes: &mut Vec<u8>);
}

pub trait Store {
    fn open(bytes: &[u8]) -> Self;
    fn get(&self, id: u64) -> Option<Block>;

    /// The block's id, and the block.
    fn binary_search_ord(&self, ord: u64) -> (u64, Block);
}

pub trait Index: Sized {
    /// Opens shared bytes, which aren't copied.
    fn load(bytes: OwnedBytes) -> Self;

    fn open(bytes: &[u8]) -> Self {
        Self::load(OwnedBytes::new(bytes.to_vec()))
    }

    fn get_block(&self, id: u64) -> Option<Block>;

    /// The block's id, and the block.
    fn get_and_locate_with_ord(&self, ord: u64) -> (u64, Block);

    fn locate_with_key(&self, key: &[u8]) -> Option<u64>;
    fn get_block_with_key(&self, key: &[u8]) -> Option<Block>;

    /// The blocks that may hold an accepted key, with their addresses.
    fn get_block_for_automaton<'a>(
        &'a self,
        automaton: &'a impl Automaton,
    ) -> impl Iterator<Item = (u64, Block)> + 'a;

    /// Marks the blocks that may hold an accepted key, and counts them. No address is read: a walk over the keys that
    /// asks `can_block_match_automaton` for each block.
    fn mark_for_automaton(&self, automaton: &impl Automaton, marks: &mut [u8]) -> usize;
}
