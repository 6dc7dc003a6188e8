use std::fmt;

use crate::{BlockAddr, Refusal, Version, ffi};

/// The most blocks of an index or a store.
pub const MAX_BLOCKS: u64 = 65_536;

/// The most bytes of a key that is added.
pub const MAX_KEY_LEN: usize = 1_024;

/// The numbers of a block in the builder's area: start, end, first ordinal, key offset, key length.
const STRIDE: usize = 5;

/// Takes the blocks of a sorted key file, one after the other, and writes their index.
///
/// Each block comes with its last key. Before the next block is added its first key may shorten that key to a separator:
/// any byte string that isn't below the one and is below the other tells the two blocks apart as well.
///
/// A call that is refused has changed nothing, and the builder goes on.
///
/// ```
/// use rosmarel::{BlockAddr, Builder, Index, Version};
///
/// let mut builder = Builder::new();
/// builder.add_block(b"abcdef", BlockAddr::new(0..10, 0))?;
/// builder.shorten_last_block_key_given_next_key(b"abf")?;
/// builder.add_block(b"abzz", BlockAddr::new(10..25, 4))?;
/// let bytes = builder.finish(Version::V3)?;
///
/// // 9 keys in all
/// let index = Index::open(&bytes, Version::V3, 9)?;
/// assert_eq!(index.separator(0), Some(&b"abce"[..]));
/// assert_eq!(index.locate_with_key(b"abf"), Some(1));
/// # Ok::<(), rosmarel::Refusal>(())
/// ```
#[derive(Clone, Default)]
pub struct Builder {
    n: u64,
    // Only the archive writes blocks and keys here, so they keep its rules: 1 and 8 aren't hit.
    blocks: Vec<u64>,
    keys: Vec<u8>,
}

impl Builder {
    /// A builder without blocks.
    pub const fn new() -> Builder {
        Builder {
            n: 0,
            blocks: Vec::new(),
            keys: Vec::new(),
        }
    }

    /// A builder with memory for so many blocks and bytes of keys. It takes more all the same.
    pub fn with_capacity(blocks: usize, key_bytes: usize) -> Builder {
        Builder {
            n: 0,
            blocks: Vec::with_capacity(blocks.saturating_mul(STRIDE)),
            keys: Vec::with_capacity(key_bytes),
        }
    }

    /// How many blocks were taken.
    pub fn len(&self) -> u64 {
        self.n
    }

    /// Whether no block was taken.
    pub fn is_empty(&self) -> bool {
        self.n == 0
    }

    /// Drops all blocks and keeps their memory.
    pub fn clear(&mut self) {
        self.n = 0;
    }

    /// Offset and length of the last separator.
    fn last_key(&self) -> Option<(usize, usize)> {
        let last = self.n.checked_sub(1)? as usize * STRIDE;
        Some((
            self.blocks[last + 3] as usize,
            self.blocks[last + 4] as usize,
        ))
    }

    /// The last block's separator: its key, as far as it was shortened.
    ///
    /// ```
    /// use rosmarel::{BlockAddr, Builder};
    ///
    /// let mut builder = Builder::new();
    /// assert_eq!(builder.last_separator(), None);
    /// builder.add_block(b"abcdef", BlockAddr::new(0..10, 0))?;
    /// builder.shorten_last_block_key_given_next_key(b"abf")?;
    /// assert_eq!(builder.last_separator(), Some(&b"abce"[..]));
    /// # Ok::<(), rosmarel::Refusal>(())
    /// ```
    pub fn last_separator(&self) -> Option<&[u8]> {
        let (offset, len) = self.last_key()?;
        Some(&self.keys[offset..offset + len])
    }

    /// Adds a block with its last key.
    ///
    /// # Errors
    ///
    /// In this order: [`KeyTooLong`](Refusal::KeyTooLong), [`BlockNumbers`](Refusal::BlockNumbers),
    /// [`BlockJoin`](Refusal::BlockJoin), [`OrdinalOrder`](Refusal::OrdinalOrder), [`KeyOrder`](Refusal::KeyOrder),
    /// [`TooManyBlocks`](Refusal::TooManyBlocks).
    ///
    /// ```
    /// use rosmarel::{BlockAddr, Builder, Refusal};
    ///
    /// let mut builder = Builder::new();
    /// builder.add_block(b"b", BlockAddr::new(0..10, 0))?;
    /// let gap = builder.add_block(b"d", BlockAddr::new(11..25, 4));
    /// assert_eq!(gap, Err(Refusal::BlockJoin));
    /// builder.add_block(b"d", BlockAddr::new(10..25, 4))?;
    /// # Ok::<(), Refusal>(())
    /// ```
    pub fn add_block(&mut self, last_key: &[u8], block: BlockAddr) -> Result<(), Refusal> {
        // A longer key and a block too many are refused whatever the room.
        if last_key.len() <= MAX_KEY_LEN && self.n < MAX_BLOCKS {
            self.make_room(last_key.len());
        }
        ffi::add(
            &mut self.n,
            &mut self.blocks,
            &mut self.keys,
            last_key,
            block,
        )
    }

    /// Grows both areas so that one block more with a key of `key_len` bytes fits.
    fn make_room(&mut self, key_len: usize) {
        let blocks = (self.n as usize + 1) * STRIDE;
        if self.blocks.len() < blocks {
            self.blocks.resize(blocks, 0);
        }
        let keys = self.last_key().map_or(0, |(offset, len)| offset + len) + key_len;
        if self.keys.len() < keys {
            self.keys.resize(keys, 0);
        }
    }

    /// Shortens the last block's key, given the key that comes next: the first key of the next block.
    ///
    /// Behind the first byte in which the two differ, the first byte of the last key that isn't FF grows by one and the
    /// rest is dropped. Where there is no such byte the key stays as it is. Without a block nothing happens.
    ///
    /// # Errors
    ///
    /// In this order: [`KeyTooLong`](Refusal::KeyTooLong), [`KeyOrder`](Refusal::KeyOrder).
    ///
    /// ```
    /// use rosmarel::{BlockAddr, Builder, Refusal};
    ///
    /// let mut builder = Builder::new();
    /// builder.add_block(b"maple", BlockAddr::new(0..10, 0))?;
    /// let below = builder.shorten_last_block_key_given_next_key(b"elm");
    /// assert_eq!(below, Err(Refusal::KeyOrder));
    /// builder.shorten_last_block_key_given_next_key(b"oak")?;
    /// assert_eq!(builder.last_separator(), Some(&b"mb"[..]));
    /// # Ok::<(), Refusal>(())
    /// ```
    pub fn shorten_last_block_key_given_next_key(
        &mut self,
        next_key: &[u8],
    ) -> Result<(), Refusal> {
        ffi::shorten(self.n, &mut self.blocks, &mut self.keys, next_key)
    }

    /// The bytes of the index in this version. They don't say which it is, and [`Index::open`](crate::Index::open) has to be
    /// told.
    ///
    /// In one version equal blocks and separators give equal bytes, different ones different bytes. With 0 or 1 blocks
    /// there are none: a file of one block needs no index, and opening refuses 0 bytes with [`Footer`](Refusal::Footer). The
    /// builder stays as it is: blocks may be added and `finish` called again, in the other version too.
    ///
    /// # Errors
    ///
    /// None today: it is proved that the blocks that were taken can be written.
    ///
    /// ```
    /// use rosmarel::{BlockAddr, Builder, Version};
    ///
    /// let mut builder = Builder::new();
    /// builder.add_block(b"b", BlockAddr::new(0..10, 0))?;
    /// assert_eq!(builder.finish(Version::V3)?, b"");
    /// builder.add_block(b"d", BlockAddr::new(10..25, 4))?;
    /// builder.add_block(b"f", BlockAddr::new(25..30, 9))?;
    /// assert_eq!(builder.finish(Version::V3)?.len(), 85);
    /// // so few blocks make one group in both versions
    /// assert_eq!(builder.finish(Version::V4)?, builder.finish(Version::V3)?);
    /// # Ok::<(), rosmarel::Refusal>(())
    /// ```
    pub fn finish(&self, version: Version) -> Result<Vec<u8>, Refusal> {
        let mut index = vec![0; self.finish_len(version)?];
        let total = self.finish_into(version, &mut index)?;
        index.truncate(total);
        Ok(index)
    }

    /// How many bytes the index has in this version.
    ///
    /// # Errors
    ///
    /// None today, as in [`finish`](Builder::finish).
    pub fn finish_len(&self, version: Version) -> Result<usize, Refusal> {
        ffi::finish_len(version.number(), self.n, &self.blocks, &self.keys)
    }

    /// Writes the index of this version to the front of a buffer and gives its length. The bytes behind it stay.
    ///
    /// # Errors
    ///
    /// [`OutputTooShort`](Refusal::OutputTooShort), and then the buffer is unchanged.
    ///
    /// ```
    /// use rosmarel::{BlockAddr, Builder, Refusal, Version};
    ///
    /// let mut builder = Builder::new();
    /// builder.add_block(b"b", BlockAddr::new(0..10, 0))?;
    /// builder.add_block(b"d", BlockAddr::new(10..25, 4))?;
    /// builder.add_block(b"f", BlockAddr::new(25..30, 9))?;
    ///
    /// let mut buffer = [0xaa; 100];
    /// let refused = builder.finish_into(Version::V3, &mut buffer[..84]);
    /// assert_eq!(refused, Err(Refusal::OutputTooShort));
    /// assert_eq!(buffer, [0xaa; 100]);
    /// assert_eq!(builder.finish_into(Version::V3, &mut buffer)?, 85);
    /// assert_eq!(buffer[85..], [0xaa; 15]);
    /// # Ok::<(), Refusal>(())
    /// ```
    pub fn finish_into(&self, version: Version, out: &mut [u8]) -> Result<usize, Refusal> {
        let finished = ffi::finish(version.number(), self.n, &self.blocks, &self.keys, out)?;
        Ok(finished.total)
    }
}

impl fmt::Debug for Builder {
    fn fmt(&self, f: &mut fmt::Formatter<'_>) -> fmt::Result {
        f.debug_struct("Builder")
            .field("len", &self.len())
            .field("last_separator", &self.last_separator())
            .finish_non_exhaustive()
    }
}
