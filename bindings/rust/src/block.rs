use std::ops::Range;

/// The highest end and first ordinal of a block: numbers of 55 bits. With a key's place in the lower 48 bits of an ordinal, a
/// code of 7 bits fits above it.
///
/// ```
/// use rosmarel::{BlockAddr, Builder, Index, MAX_NUMBER, Refusal, Version};
///
/// // keys are sorted by district, and so ordinals rise with them
/// let ordinal = |district: u64, place: u64| district << 48 | place;
/// assert_eq!(ordinal(127, (1 << 48) - 1), MAX_NUMBER);
///
/// let mut builder = Builder::new();
/// builder.add_block(b"001/fir", BlockAddr::new(0..4_000, ordinal(1, 0)))?;
/// builder.add_block(b"001/yew", BlockAddr::new(4_000..9_000, ordinal(1, 120)))?;
/// builder.add_block(b"127/yew", BlockAddr::new(9_000..12_000, ordinal(127, 0)))?;
/// let bytes = builder.finish(Version::V4)?;
///
/// // district 127 has 90 keys
/// let index = Index::open(&bytes, Version::V4, ordinal(127, 90))?;
/// assert_eq!(index.locate_with_ord(ordinal(1, 119)), Some((0, BlockAddr::new(0..4_000, ordinal(1, 0)))));
/// assert_eq!(index.locate_with_ord(ordinal(1, 130)), Some((1, BlockAddr::new(4_000..9_000, ordinal(1, 120)))));
/// assert_eq!(index.locate_with_ord(ordinal(127, 89)), Some((2, BlockAddr::new(9_000..12_000, ordinal(127, 0)))));
/// assert_eq!(index.locate_with_ord(ordinal(127, 90)), None);
///
/// // there is no room for district 128
/// let added = builder.add_block(b"128/yew", BlockAddr::new(12_000..13_000, ordinal(128, 0)));
/// assert_eq!(added, Err(Refusal::BlockNumbers));
/// # Ok::<(), Refusal>(())
/// ```
pub const MAX_NUMBER: u64 = (1 << 55) - 1;

/// Where a block lies in its file, and the ordinal of its first key.
///
/// ```
/// use rosmarel::BlockAddr;
///
/// let block = BlockAddr::new(10..25, 4);
/// assert_eq!(block, BlockAddr { start: 10, end: 25, first_ordinal: 4 });
/// assert_eq!(block.range(), 10..25);
/// ```
// The archive reads slices of these: the C layout, in this order.
#[derive(Clone, Copy, Debug, Default, PartialEq, Eq, Hash)]
#[repr(C)]
pub struct BlockAddr {
    /// The block's first byte.
    pub start: u64,
    /// The byte behind its last, at most [`MAX_NUMBER`].
    pub end: u64,
    /// The ordinal of its first key, at most [`MAX_NUMBER`].
    pub first_ordinal: u64,
}

impl BlockAddr {
    /// A block over a range of bytes.
    pub const fn new(range: Range<u64>, first_ordinal: u64) -> BlockAddr {
        BlockAddr {
            start: range.start,
            end: range.end,
            first_ordinal,
        }
    }

    /// The block's bytes.
    pub const fn range(&self) -> Range<u64> {
        self.start..self.end
    }
}
