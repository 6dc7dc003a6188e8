use crate::{BlockAddr, MAX_BLOCKS, Refusal, Version, ffi};

/// The bytes of a group's record.
const GROUP_RECORD: usize = 36;

/// A block has two fields of at most 56 bits.
const BLOCK_FIELDS: usize = 14;

/// The address store alone of a list of blocks, which may be empty: an index without keys. Its groups are those of the
/// version.
///
/// # Errors
///
/// In this order, each over all blocks: [`BlockNumbers`](Refusal::BlockNumbers), [`BlockJoin`](Refusal::BlockJoin),
/// [`OrdinalOrder`](Refusal::OrdinalOrder), [`TooManyBlocks`](Refusal::TooManyBlocks).
///
/// ```
/// use rosmarel::{BlockAddr, Refusal, Version};
///
/// let blocks = [
///     BlockAddr::new(0..10, 0),
///     BlockAddr::new(10..25, 4),
///     BlockAddr::new(25..30, 9),
/// ];
/// let store = rosmarel::store(&blocks, Version::V3)?;
/// assert_eq!(store.len(), 46);
/// assert_eq!(store[44..], [0xeb, 0x05]);
/// # Ok::<(), Refusal>(())
/// ```
pub fn store(blocks: &[BlockAddr], version: Version) -> Result<Vec<u8>, Refusal> {
    // a longer list is refused whatever the room
    let n = blocks.len().min(MAX_BLOCKS as usize);
    let most = 8 + GROUP_RECORD * n.div_ceil(version.group_len()) + BLOCK_FIELDS * n;
    let mut bytes = vec![0; most];
    let len = store_into(blocks, version, &mut bytes)?;
    bytes.truncate(len);
    bytes.shrink_to_fit();
    Ok(bytes)
}

/// As [`store`], to the front of a buffer: gives the store's length. The bytes behind it stay.
///
/// # Errors
///
/// Those of [`store`], then [`OutputTooShort`](Refusal::OutputTooShort). The buffer is unchanged then.
pub fn store_into(
    blocks: &[BlockAddr],
    version: Version,
    out: &mut [u8],
) -> Result<usize, Refusal> {
    ffi::store(version.number(), blocks, out)
}
