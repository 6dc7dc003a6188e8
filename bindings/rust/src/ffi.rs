//! The functions of `librosmarel.a`, each behind a safe one: the only unsafe code of this crate.
//!
//! The archive asks nothing of the numbers and bytes that it gets, proved for each function. What it asks of pointers
//! is what references are: not null, aligned, good for their length, and not shared where they are written through.

use crate::{BlockAddr, Refusal};

/// The opened record: n, then offset and length of the directory, the group records and the address bytes, then the number
/// of terms and the version.
pub type Opened = [u64; 9];

/// What finish returns beside its number.
#[derive(Clone, Copy, Debug, PartialEq, Eq)]
pub struct Finished {
    pub total: usize,
    pub directory_len: usize,
}

// Lengths come back as u64; on x86-64 they are usize.
const _: () = assert!(size_of::<usize>() == size_of::<u64>());

// A slice is a pointer and a length in elements. The linker compares names alone; tests/declarations.rs compares the rest.
unsafe extern "C" {
    fn rosmarel_interface() -> u64;
    fn rosmarel_add(
        n: *mut u64,
        blocks: *mut u64,
        blocks_len: usize,
        keys: *mut u8,
        keys_len: usize,
        key: *const u8,
        key_len: usize,
        start: u64,
        end: u64,
        first_ordinal: u64,
    ) -> u32;
    fn rosmarel_shorten(
        n: u64,
        blocks: *mut u64,
        blocks_len: usize,
        keys: *mut u8,
        keys_len: usize,
        next_key: *const u8,
        next_key_len: usize,
    ) -> u32;
    fn rosmarel_finish(
        version: u64,
        n: u64,
        blocks: *const u64,
        blocks_len: usize,
        keys: *const u8,
        keys_len: usize,
        out: *mut u8,
        out_len: usize,
        total: *mut u64,
        directory_len: *mut u64,
    ) -> u32;
    fn rosmarel_finish_len(
        version: u64,
        n: u64,
        blocks: *const u64,
        blocks_len: usize,
        keys: *const u8,
        keys_len: usize,
        total: *mut u64,
    ) -> u32;
    fn rosmarel_store(
        version: u64,
        blocks: *const BlockAddr,
        blocks_len: usize,
        out: *mut u8,
        out_len: usize,
        len: *mut u64,
    ) -> u32;
    fn rosmarel_open(
        version: u64,
        terms: u64,
        index: *const u8,
        index_len: usize,
        opened: *mut Opened,
    ) -> u32;
    fn rosmarel_check_canonical(version: u64, index: *const u8, index_len: usize) -> u32;
    fn rosmarel_get_block(
        index: *const u8,
        index_len: usize,
        opened: *const Opened,
        id: u64,
        start: *mut u64,
        end: *mut u64,
        first_ordinal: *mut u64,
    ) -> u32;
    fn rosmarel_locate_with_ord(
        index: *const u8,
        index_len: usize,
        opened: *const Opened,
        ord: u64,
        id: *mut u64,
        start: *mut u64,
        end: *mut u64,
        first_ordinal: *mut u64,
    ) -> u32;
    fn rosmarel_locate_with_key(
        index: *const u8,
        index_len: usize,
        opened: *const Opened,
        key: *const u8,
        key_len: usize,
        id: *mut u64,
    ) -> u32;
    fn rosmarel_get_block_with_key(
        index: *const u8,
        index_len: usize,
        opened: *const Opened,
        key: *const u8,
        key_len: usize,
        id: *mut u64,
        start: *mut u64,
        end: *mut u64,
        first_ordinal: *mut u64,
    ) -> u32;
    fn rosmarel_locate_with_keys(
        index: *const u8,
        index_len: usize,
        opened: *const Opened,
        pairs: *const u64,
        pairs_len: usize,
        keys: *const u8,
        keys_len: usize,
        ids: *mut u64,
        ids_len: usize,
    ) -> u32;
    fn rosmarel_separator(
        index: *const u8,
        index_len: usize,
        opened: *const Opened,
        id: u64,
        offset: *mut u64,
        len: *mut u64,
    );
    fn rosmarel_list(
        index: *const u8,
        index_len: usize,
        opened: *const Opened,
        automaton: *const u8,
        automaton_len: usize,
        marks: *mut u8,
        marks_len: usize,
        count: *mut u64,
    ) -> u32;
    fn rosmarel_can_block_match(
        has_start: bool,
        start: *const u8,
        start_len: usize,
        end: *const u8,
        end_len: usize,
        automaton: *const u8,
        automaton_len: usize,
        matches: *mut u64,
    ) -> u32;
    fn rosmarel_example(
        has_start: bool,
        start: *const u8,
        start_len: usize,
        end: *const u8,
        end_len: usize,
        automaton: *const u8,
        automaton_len: usize,
        out: *mut u8,
        out_len: usize,
        len: *mut u64,
    ) -> u32;
    fn rosmarel_common_prefix_len(
        left: *const u8,
        left_len: usize,
        right: *const u8,
        right_len: usize,
    ) -> u64;
}

/// An answer of the archive: its value where the number is 0.
fn answer<T>(number: u32, value: T) -> Result<T, Refusal> {
    if number == 0 {
        return Ok(value);
    }
    match Refusal::from_number(number) {
        Some(refusal) => Err(refusal),
        None => panic!("librosmarel.a answered {number}: it isn't the archive of this crate"),
    }
}

/// The number of the archive's interface.
pub fn interface() -> u64 {
    // SAFETY: it takes nothing.
    unsafe { rosmarel_interface() }
}

/// Adds a block behind the first n; n counts it afterwards.
pub fn add(
    n: &mut u64,
    blocks: &mut [u64],
    keys: &mut [u8],
    key: &[u8],
    block: BlockAddr,
) -> Result<(), Refusal> {
    // SAFETY: pointers and lengths of references, those written through exclusive.
    let number = unsafe {
        rosmarel_add(
            n,
            blocks.as_mut_ptr(),
            blocks.len(),
            keys.as_mut_ptr(),
            keys.len(),
            key.as_ptr(),
            key.len(),
            block.start,
            block.end,
            block.first_ordinal,
        )
    };
    answer(number, ())
}

/// Shortens the last of n keys.
pub fn shorten(
    n: u64,
    blocks: &mut [u64],
    keys: &mut [u8],
    next_key: &[u8],
) -> Result<(), Refusal> {
    // SAFETY: as in `add`.
    let number = unsafe {
        rosmarel_shorten(
            n,
            blocks.as_mut_ptr(),
            blocks.len(),
            keys.as_mut_ptr(),
            keys.len(),
            next_key.as_ptr(),
            next_key.len(),
        )
    };
    answer(number, ())
}

/// Writes the index of n blocks to the front of `out`.
pub fn finish(
    version: u64,
    n: u64,
    blocks: &[u64],
    keys: &[u8],
    out: &mut [u8],
) -> Result<Finished, Refusal> {
    let (mut total, mut directory_len) = (0, 0);
    // SAFETY: as in `add`.
    let number = unsafe {
        rosmarel_finish(
            version,
            n,
            blocks.as_ptr(),
            blocks.len(),
            keys.as_ptr(),
            keys.len(),
            out.as_mut_ptr(),
            out.len(),
            &mut total,
            &mut directory_len,
        )
    };
    answer(
        number,
        Finished {
            total: total as usize,
            directory_len: directory_len as usize,
        },
    )
}

/// The bytes that finish needs.
pub fn finish_len(version: u64, n: u64, blocks: &[u64], keys: &[u8]) -> Result<usize, Refusal> {
    let mut total = 0;
    // SAFETY: as in `add`.
    let number = unsafe {
        rosmarel_finish_len(
            version,
            n,
            blocks.as_ptr(),
            blocks.len(),
            keys.as_ptr(),
            keys.len(),
            &mut total,
        )
    };
    answer(number, total as usize)
}

/// Writes the store of these blocks to the front of `out`, and gives its length.
pub fn store(version: u64, blocks: &[BlockAddr], out: &mut [u8]) -> Result<usize, Refusal> {
    let mut len = 0;
    // SAFETY: as in `add`; `BlockAddr` has the C layout.
    let number = unsafe {
        rosmarel_store(
            version,
            blocks.as_ptr(),
            blocks.len(),
            out.as_mut_ptr(),
            out.len(),
            &mut len,
        )
    };
    answer(number, len as usize)
}

/// Opens an index of this version, of a file with so many terms.
pub fn open(version: u64, terms: u64, index: &[u8]) -> Result<Opened, Refusal> {
    let mut opened = [0; 9];
    // SAFETY: as in `add`.
    let number = unsafe { rosmarel_open(version, terms, index.as_ptr(), index.len(), &mut opened) };
    answer(number, opened)
}

/// Whether an index is the one that finish makes, in this version, of what it holds.
pub fn check_canonical(version: u64, index: &[u8]) -> Result<(), Refusal> {
    // SAFETY: as in `add`.
    let number = unsafe { rosmarel_check_canonical(version, index.as_ptr(), index.len()) };
    answer(number, ())
}

/// The block with this id.
pub fn get_block(index: &[u8], opened: &Opened, id: u64) -> Result<BlockAddr, Refusal> {
    let mut block = BlockAddr::default();
    // SAFETY: as in `add`; the three fields are places of their own.
    let number = unsafe {
        rosmarel_get_block(
            index.as_ptr(),
            index.len(),
            opened,
            id,
            &mut block.start,
            &mut block.end,
            &mut block.first_ordinal,
        )
    };
    answer(number, block)
}

/// The last block whose first ordinal is at or below `ord`, which is below the number of terms.
pub fn locate_with_ord(
    index: &[u8],
    opened: &Opened,
    ord: u64,
) -> Result<(u64, BlockAddr), Refusal> {
    let mut id = 0;
    let mut block = BlockAddr::default();
    // SAFETY: as in `get_block`.
    let number = unsafe {
        rosmarel_locate_with_ord(
            index.as_ptr(),
            index.len(),
            opened,
            ord,
            &mut id,
            &mut block.start,
            &mut block.end,
            &mut block.first_ordinal,
        )
    };
    answer(number, (id, block))
}

/// The first block whose separator isn't below the key.
pub fn locate_with_key(index: &[u8], opened: &Opened, key: &[u8]) -> Result<u64, Refusal> {
    let mut id = 0;
    // SAFETY: as in `add`.
    let number = unsafe {
        rosmarel_locate_with_key(
            index.as_ptr(),
            index.len(),
            opened,
            key.as_ptr(),
            key.len(),
            &mut id,
        )
    };
    answer(number, id)
}

/// The first block whose separator isn't below the key, and its address.
pub fn get_block_with_key(
    index: &[u8],
    opened: &Opened,
    key: &[u8],
) -> Result<(u64, BlockAddr), Refusal> {
    let mut id = 0;
    let mut block = BlockAddr::default();
    // SAFETY: as in `get_block`.
    let number = unsafe {
        rosmarel_get_block_with_key(
            index.as_ptr(),
            index.len(),
            opened,
            key.as_ptr(),
            key.len(),
            &mut id,
            &mut block.start,
            &mut block.end,
            &mut block.first_ordinal,
        )
    };
    answer(number, (id, block))
}

/// Writes the id of each key's block to the front of `ids`. Keys are pairs of offset and length in `keys`.
pub fn locate_with_keys(
    index: &[u8],
    opened: &Opened,
    pairs: &[u64],
    keys: &[u8],
    ids: &mut [u64],
) -> Result<(), Refusal> {
    // SAFETY: as in `add`.
    let number = unsafe {
        rosmarel_locate_with_keys(
            index.as_ptr(),
            index.len(),
            opened,
            pairs.as_ptr(),
            pairs.len(),
            keys.as_ptr(),
            keys.len(),
            ids.as_mut_ptr(),
            ids.len(),
        )
    };
    answer(number, ())
}

/// Offset and length of a separator in the index; a miss is 0 and 0, and nothing else is.
pub fn separator(index: &[u8], opened: &Opened, id: u64) -> (usize, usize) {
    let (mut offset, mut len) = (0, 0);
    // SAFETY: as in `add`.
    unsafe {
        rosmarel_separator(
            index.as_ptr(),
            index.len(),
            opened,
            id,
            &mut offset,
            &mut len,
        );
    }
    (offset as usize, len as usize)
}

/// Marks each block with 0 or 1, and counts the ones.
pub fn list(
    index: &[u8],
    opened: &Opened,
    automaton: &[u8],
    marks: &mut [u8],
) -> Result<usize, Refusal> {
    let mut count = 0;
    // SAFETY: as in `add`.
    let number = unsafe {
        rosmarel_list(
            index.as_ptr(),
            index.len(),
            opened,
            automaton.as_ptr(),
            automaton.len(),
            marks.as_mut_ptr(),
            marks.len(),
            &mut count,
        )
    };
    answer(number, count as usize)
}

/// Whether the automaton accepts a string above `start` and not above `end`.
pub fn can_block_match(
    start: Option<&[u8]>,
    end: &[u8],
    automaton: &[u8],
) -> Result<bool, Refusal> {
    let mut matches = 0;
    let from = start.unwrap_or_default();
    // SAFETY: as in `add`.
    let number = unsafe {
        rosmarel_can_block_match(
            start.is_some(),
            from.as_ptr(),
            from.len(),
            end.as_ptr(),
            end.len(),
            automaton.as_ptr(),
            automaton.len(),
            &mut matches,
        )
    };
    answer(number, matches != 0)
}

/// Writes the interval's shortest accepted string, of those the lowest, to the front of `out`, and gives its length.
pub fn example(
    start: Option<&[u8]>,
    end: &[u8],
    automaton: &[u8],
    out: &mut [u8],
) -> Result<usize, Refusal> {
    let mut len = 0;
    let from = start.unwrap_or_default();
    // SAFETY: as in `add`.
    let number = unsafe {
        rosmarel_example(
            start.is_some(),
            from.as_ptr(),
            from.len(),
            end.as_ptr(),
            end.len(),
            automaton.as_ptr(),
            automaton.len(),
            out.as_mut_ptr(),
            out.len(),
            &mut len,
        )
    };
    answer(number, len as usize)
}

/// The length of the longest common prefix.
pub fn common_prefix_len(left: &[u8], right: &[u8]) -> usize {
    // SAFETY: as in `add`.
    let len = unsafe {
        rosmarel_common_prefix_len(left.as_ptr(), left.len(), right.as_ptr(), right.len())
    };
    len as usize
}

#[cfg(test)]
mod tests;
