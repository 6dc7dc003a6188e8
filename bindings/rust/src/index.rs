use std::fmt;
use std::iter::FusedIterator;
use std::ops::Range;

use crate::{Automaton, BlockAddr, MAX_KEY_LEN, Refusal, Version, ffi};

/// The most keys of one batch: what [`Index::locate_with_keys_into`] takes at once.
pub const MAX_BATCH_KEYS: usize = 64;

/// What stands in a batch's ids for a key that has no block.
pub const NO_ID: u64 = u64::MAX;

/// Where the number of terms and the version stand in the opened record.
const TERMS: usize = 7;
const VERSION: usize = 8;

/// An index that was opened: which block of a sorted key file to read.
///
/// Opening looks at every block and every separator, so a file that breaks a rule anywhere is refused at once, and every
/// lookup in an index that opened has an answer. The index borrows its bytes; it is small and can be copied.
///
/// Two things aren't in an index, so opening is told them: its [`Version`], and the number of terms, which are the sorted
/// file's keys. An ordinal from that number on has no block.
///
/// Ids count the blocks from 0. Block i holds keys above separator i - 1 (block 0: from the empty key on) and not above
/// separator i.
///
/// ```
/// use rosmarel::{BlockAddr, Builder, Index, Version};
///
/// let mut builder = Builder::new();
/// builder.add_block(b"b", BlockAddr::new(0..10, 0))?;
/// builder.add_block(b"d", BlockAddr::new(10..25, 4))?;
/// builder.add_block(b"f", BlockAddr::new(25..30, 9))?;
/// let bytes = builder.finish(Version::V3)?;
///
/// // 12 keys in all: 4, 5 and 3
/// let index = Index::open(&bytes, Version::V3, 12)?;
/// assert_eq!(index.len(), 3);
/// assert_eq!(index.get_block(2), Some(BlockAddr::new(25..30, 9)));
/// assert_eq!(index.get_block(3), None);
/// assert_eq!(index.locate_with_key(b"c"), Some(1));
/// assert_eq!(index.locate_with_ord(11), Some((2, BlockAddr::new(25..30, 9))));
/// assert_eq!(index.locate_with_ord(12), None);
/// # Ok::<(), rosmarel::Refusal>(())
/// ```
// The record is of these bytes and of no others: only the two openings make one, and both stay together.
#[derive(Clone, Copy)]
pub struct Index<'a> {
    bytes: &'a [u8],
    opened: ffi::Opened,
}

// An index has two blocks or more, so `is_empty` would say nothing.
#[allow(clippy::len_without_is_empty)]
impl<'a> Index<'a> {
    /// Opens an index, whoever wrote its bytes, with the version that it was finished in and the number of terms that the
    /// file has: any number above the last block's first ordinal. [`open_unknown_terms`](Index::open_unknown_terms) is for
    /// files of which nobody knows it.
    ///
    /// # Errors
    ///
    /// The first rule of an index file that these bytes break, from [`Footer`](Refusal::Footer) (10) to
    /// [`Block`](Refusal::Block) (16) in the order of their numbers; but a footer of 8 bytes whose directory length is
    /// 0 is [`DirectoryMissing`](Refusal::DirectoryMissing), however short the file. Then, for a good file,
    /// [`TooFewTerms`](Refusal::TooFewTerms) (28). A good file of over 128 blocks gets
    /// [`GroupRecords`](Refusal::GroupRecords) (14) with the other version.
    ///
    /// ```
    /// use rosmarel::{BlockAddr, Builder, Index, Refusal, Version};
    ///
    /// let refused = |bytes: &[u8]| Index::open(bytes, Version::V3, 12).unwrap_err();
    /// assert_eq!(refused(&[]), Refusal::Footer);
    /// assert_eq!(refused(&[0; 8]), Refusal::DirectoryMissing);
    ///
    /// let mut builder = Builder::new();
    /// builder.add_block(b"b", BlockAddr::new(0..10, 0))?;
    /// builder.add_block(b"d", BlockAddr::new(10..25, 4))?;
    /// let bytes = builder.finish(Version::V3)?;
    /// // ordinal 4 is there, so there are 5 terms or more
    /// let open = |terms| Index::open(&bytes, Version::V3, terms);
    /// assert_eq!(open(4).unwrap_err(), Refusal::TooFewTerms);
    /// assert_eq!(open(5)?.terms(), 5);
    /// assert_eq!(open(u64::MAX)?.terms(), u64::MAX);
    /// # Ok::<(), Refusal>(())
    /// ```
    pub fn open(bytes: &'a [u8], version: Version, terms: u64) -> Result<Index<'a>, Refusal> {
        let opened = ffi::open(version.number(), terms, bytes)?;
        Ok(Index { bytes, opened })
    }

    /// As [`open`](Index::open), of a file whose number of terms nobody knows, with the least that it can have: the last
    /// block's first ordinal plus one. The other ordinals of the last block aren't found then; all else is.
    ///
    /// # Errors
    ///
    /// Those of [`open`](Index::open) but the last: never [`TooFewTerms`](Refusal::TooFewTerms).
    ///
    /// ```
    /// use rosmarel::{BlockAddr, Builder, Index, Refusal, Version};
    ///
    /// let mut builder = Builder::new();
    /// builder.add_block(b"b", BlockAddr::new(0..10, 0))?;
    /// builder.add_block(b"d", BlockAddr::new(10..25, 4))?;
    /// let bytes = builder.finish(Version::V3)?;
    ///
    /// let index = Index::open_unknown_terms(&bytes, Version::V3)?;
    /// assert_eq!(index.terms(), 5);
    /// assert_eq!(index.locate_with_ord(4), Some((1, BlockAddr::new(10..25, 4))));
    /// assert_eq!(index.locate_with_ord(5), None);
    /// assert_eq!(Index::open_unknown_terms(&[], Version::V3).unwrap_err(), Refusal::Footer);
    /// # Ok::<(), Refusal>(())
    /// ```
    pub fn open_unknown_terms(bytes: &'a [u8], version: Version) -> Result<Index<'a>, Refusal> {
        // first ordinals are at most MAX_NUMBER: this many terms are enough for any file
        let mut index = Index::open(bytes, version, u64::MAX)?;
        // the record of an opening with the least number, since records for other numbers differ in this word alone
        index.opened[TERMS] = index.block(index.len() - 1).first_ordinal + 1;
        Ok(index)
    }

    /// The bytes that were opened.
    pub fn as_bytes(&self) -> &'a [u8] {
        self.bytes
    }

    /// How many blocks there are: ids lie below it. It is 2 or more.
    pub fn len(&self) -> u64 {
        self.opened[0]
    }

    /// The number of terms that the index was opened with: [`locate_with_ord`](Index::locate_with_ord) finds a block for
    /// no other ordinals than those below it. It is above the last block's first ordinal.
    ///
    /// ```
    /// # use rosmarel::{BlockAddr, Builder, Index, Version};
    /// # let mut builder = Builder::new();
    /// # builder.add_block(b"b", BlockAddr::new(0..10, 0))?;
    /// # builder.add_block(b"d", BlockAddr::new(10..25, 4))?;
    /// # let bytes = builder.finish(Version::V3)?;
    /// // first ordinals 0 and 4
    /// assert_eq!(Index::open(&bytes, Version::V3, 9)?.terms(), 9);
    /// assert_eq!(Index::open_unknown_terms(&bytes, Version::V3)?.terms(), 5);
    /// # Ok::<(), rosmarel::Refusal>(())
    /// ```
    pub fn terms(&self) -> u64 {
        self.opened[TERMS]
    }

    /// The version that the index was opened with.
    ///
    /// ```
    /// # use rosmarel::{BlockAddr, Builder, Index, Version};
    /// # let mut builder = Builder::new();
    /// # builder.add_block(b"b", BlockAddr::new(0..10, 0))?;
    /// # builder.add_block(b"d", BlockAddr::new(10..25, 4))?;
    /// # let bytes = builder.finish(Version::V3)?;
    /// // so few blocks open with both
    /// assert_eq!(Index::open(&bytes, Version::V3, 9)?.version(), Version::V3);
    /// assert_eq!(Index::open(&bytes, Version::V4, 9)?.version(), Version::V4);
    /// # Ok::<(), rosmarel::Refusal>(())
    /// ```
    pub fn version(&self) -> Version {
        sure(Version::from_number(self.opened[VERSION]))
    }

    /// The block with this id; none from [`len`](Index::len) on.
    pub fn get_block(&self, id: u64) -> Option<BlockAddr> {
        found(
            ffi::get_block(self.bytes, &self.opened, id),
            &[Refusal::UnknownId],
        )
    }

    /// The block that holds an ordinal, and its id: the last one whose first ordinal isn't above. An ordinal below the
    /// first block's has none, nor has one at or above the number of [`terms`](Index::terms).
    ///
    /// ```
    /// # use rosmarel::{BlockAddr, Builder, Index, Version};
    /// # let mut builder = Builder::new();
    /// # builder.add_block(b"b", BlockAddr::new(0..10, 2))?;
    /// # builder.add_block(b"d", BlockAddr::new(10..25, 4))?;
    /// # let bytes = builder.finish(Version::V3)?;
    /// // first ordinals 2 and 4, and 9 is the last
    /// let index = Index::open(&bytes, Version::V3, 10)?;
    /// assert_eq!(index.locate_with_ord(1), None);
    /// assert_eq!(index.locate_with_ord(3), Some((0, BlockAddr::new(0..10, 2))));
    /// assert_eq!(index.locate_with_ord(9), Some((1, BlockAddr::new(10..25, 4))));
    /// assert_eq!(index.locate_with_ord(10), None);
    /// assert_eq!(index.locate_with_ord(1_000_000), None);
    /// # Ok::<(), rosmarel::Refusal>(())
    /// ```
    pub fn locate_with_ord(&self, ord: u64) -> Option<(u64, BlockAddr)> {
        found(
            ffi::locate_with_ord(self.bytes, &self.opened, ord),
            &[Refusal::OrdinalBelowFirst, Refusal::OrdinalBeyondTerms],
        )
    }

    /// The id of the block that may hold a key: the first one whose separator isn't below. A key above the last
    /// separator has none. The key may have any length.
    ///
    /// ```
    /// # use rosmarel::{BlockAddr, Builder, Index, Version};
    /// # let mut builder = Builder::new();
    /// # builder.add_block(b"b", BlockAddr::new(0..10, 0))?;
    /// # builder.add_block(b"d", BlockAddr::new(10..25, 4))?;
    /// # let bytes = builder.finish(Version::V3)?;
    /// // separators b and d
    /// let index = Index::open(&bytes, Version::V3, 9)?;
    /// assert_eq!(index.locate_with_key(b""), Some(0));
    /// assert_eq!(index.locate_with_key(b"b"), Some(0));
    /// assert_eq!(index.locate_with_key(b"bb"), Some(1));
    /// assert_eq!(index.locate_with_key(b"dd"), None);
    /// # Ok::<(), rosmarel::Refusal>(())
    /// ```
    pub fn locate_with_key(&self, key: &[u8]) -> Option<u64> {
        found(
            ffi::locate_with_key(self.bytes, &self.opened, key),
            &[Refusal::KeyAboveLast],
        )
    }

    /// As [`locate_with_key`](Index::locate_with_key), with the block's address.
    pub fn get_block_with_key(&self, key: &[u8]) -> Option<(u64, BlockAddr)> {
        found(
            ffi::get_block_with_key(self.bytes, &self.opened, key),
            &[Refusal::KeyAboveLast],
        )
    }

    /// As [`locate_with_key`](Index::locate_with_key) for a list of keys: an entry for each, in the list's order. Keys may
    /// repeat and needn't be sorted.
    ///
    /// The list may have any length; it goes to the archive in batches of [`MAX_BATCH_KEYS`]. For that the keys are copied,
    /// at most 1,025 bytes of each. [`locate_with_keys_into`](Index::locate_with_keys_into) copies nothing.
    ///
    /// ```
    /// # use rosmarel::{BlockAddr, Builder, Index, Version};
    /// # let mut builder = Builder::new();
    /// # builder.add_block(b"b", BlockAddr::new(0..10, 0))?;
    /// # builder.add_block(b"d", BlockAddr::new(10..25, 4))?;
    /// # let bytes = builder.finish(Version::V3)?;
    /// // separators b and d
    /// let index = Index::open(&bytes, Version::V3, 9)?;
    /// let ids = index.locate_with_keys(&["dd", "c", "", "c"]);
    /// assert_eq!(ids, [None, Some(1), Some(0), Some(1)]);
    /// # Ok::<(), rosmarel::Refusal>(())
    /// ```
    pub fn locate_with_keys<K: AsRef<[u8]>>(&self, keys: &[K]) -> Vec<Option<u64>> {
        let mut found = Vec::with_capacity(keys.len());
        let mut pairs = [0; 2 * MAX_BATCH_KEYS];
        let mut ids = [NO_ID; MAX_BATCH_KEYS];
        let mut bytes = Vec::new();
        for batch in keys.chunks(MAX_BATCH_KEYS) {
            bytes.clear();
            for (key, pair) in batch.iter().zip(pairs.chunks_exact_mut(2)) {
                let key = front(key.as_ref());
                pair.copy_from_slice(&[bytes.len() as u64, key.len() as u64]);
                bytes.extend_from_slice(key);
            }
            let pairs = &pairs[..2 * batch.len()];
            sure(self.locate_with_keys_into(pairs, &bytes, &mut ids));
            let id = |&id: &u64| (id != NO_ID).then_some(id);
            found.extend(ids[..batch.len()].iter().map(id));
        }
        found
    }

    /// As [`locate_with_keys`](Index::locate_with_keys) for one batch, over memory that the caller has: nothing is copied
    /// or allocated.
    ///
    /// `pairs` has two numbers for each of up to [`MAX_BATCH_KEYS`] keys: its offset and its length in `keys`. Offsets
    /// don't fall from key to key. Keys may overlap, and an empty one may stand at the end of `keys`. The id of each key's
    /// block, or [`NO_ID`] for a key above the last separator, is written to the front of `ids`; those after them stay.
    ///
    /// # Errors
    ///
    /// [`KeyList`](Refusal::KeyList) (26) where `pairs` has an odd length or too many keys, where a key ends beyond `keys`
    /// or begins before the one before it, or where `ids` has fewer places than there are keys. `ids` is unchanged then.
    ///
    /// ```
    /// use rosmarel::{BlockAddr, Builder, Index, NO_ID, Refusal, Version};
    ///
    /// let mut builder = Builder::new();
    /// builder.add_block(b"b", BlockAddr::new(0..10, 0))?;
    /// builder.add_block(b"d", BlockAddr::new(10..25, 4))?;
    /// let bytes = builder.finish(Version::V3)?;
    /// let index = Index::open(&bytes, Version::V3, 9)?;
    ///
    /// // az, z and c, parts of four bytes
    /// let (keys, mut ids) = (b"az,c", [7; 4]);
    /// index.locate_with_keys_into(&[0, 2, 1, 1, 3, 1], keys, &mut ids)?;
    /// assert_eq!(ids, [0, NO_ID, 1, 7]);
    ///
    /// // the second one ends beyond them
    /// let refused = index.locate_with_keys_into(&[0, 2, 3, 2], keys, &mut ids);
    /// assert_eq!(refused, Err(Refusal::KeyList));
    /// assert_eq!(ids, [0, NO_ID, 1, 7]);
    /// # Ok::<(), Refusal>(())
    /// ```
    pub fn locate_with_keys_into(
        &self,
        pairs: &[u64],
        keys: &[u8],
        ids: &mut [u64],
    ) -> Result<(), Refusal> {
        ffi::locate_with_keys(self.bytes, &self.opened, pairs, keys, ids)
    }

    /// A block's separator, as the part of the index's bytes that it is.
    ///
    /// ```
    /// # use rosmarel::{BlockAddr, Builder, Index, Version};
    /// # let mut builder = Builder::new();
    /// # builder.add_block(b"", BlockAddr::new(0..10, 0))?;
    /// # builder.add_block(b"d", BlockAddr::new(10..25, 4))?;
    /// # let bytes = builder.finish(Version::V3)?;
    /// // an empty separator, and d
    /// let index = Index::open(&bytes, Version::V3, 9)?;
    /// assert_eq!(index.separator(0), Some(&b""[..]));
    /// assert_eq!(index.separator(1), Some(&b"d"[..]));
    /// assert_eq!(index.separator(2), None);
    /// # Ok::<(), rosmarel::Refusal>(())
    /// ```
    pub fn separator(&self, id: u64) -> Option<&'a [u8]> {
        match ffi::separator(self.bytes, &self.opened, id) {
            (0, 0) => None,
            (offset, len) => Some(&self.bytes[offset..offset + len]),
        }
    }

    /// The keys that a block may hold: those above the first of the two, which block 0 doesn't have, and not above the
    /// second. [`Automaton::can_block_match`] and [`Automaton::example`] take them.
    ///
    /// ```
    /// # use rosmarel::{BlockAddr, Builder, Index, Version};
    /// # let mut builder = Builder::new();
    /// # builder.add_block(b"b", BlockAddr::new(0..10, 0))?;
    /// # builder.add_block(b"d", BlockAddr::new(10..25, 4))?;
    /// # let bytes = builder.finish(Version::V3)?;
    /// // separators b and d
    /// let index = Index::open(&bytes, Version::V3, 9)?;
    /// assert_eq!(index.interval(0), Some((None, &b"b"[..])));
    /// assert_eq!(index.interval(1), Some((Some(&b"b"[..]), &b"d"[..])));
    /// assert_eq!(index.interval(2), None);
    /// # Ok::<(), rosmarel::Refusal>(())
    /// ```
    pub fn interval(&self, id: u64) -> Option<(Option<&'a [u8]>, &'a [u8])> {
        let end = self.separator(id)?;
        let start = id.checked_sub(1).and_then(|before| self.separator(before));
        Some((start, end))
    }

    /// All blocks with their ids, in order.
    ///
    /// ```
    /// # use rosmarel::{BlockAddr, Builder, Index, Version};
    /// # let mut builder = Builder::new();
    /// # builder.add_block(b"b", BlockAddr::new(0..10, 0))?;
    /// # builder.add_block(b"d", BlockAddr::new(10..25, 4))?;
    /// # let bytes = builder.finish(Version::V3)?;
    /// let index = Index::open(&bytes, Version::V3, 9)?;
    /// for (id, block) in index.blocks() {
    ///     println!("{id} {} {} {}", block.start, block.end, block.first_ordinal);
    /// }
    /// # Ok::<(), rosmarel::Refusal>(())
    /// ```
    pub fn blocks(&self) -> Blocks<'a> {
        Blocks {
            index: *self,
            ids: 0..self.len(),
        }
    }

    /// All separators, in order: they rise.
    pub fn separators(&self) -> Separators<'a> {
        Separators {
            index: *self,
            ids: 0..self.len(),
        }
    }

    /// The blocks that may hold a key of a pattern, with their ids, in order: exactly those of whose
    /// [`interval`](Index::interval) the automaton accepts some string. All blocks are looked at before the first one
    /// is given.
    ///
    /// ```
    /// use rosmarel::{Automaton, BlockAddr, Builder, Index, Version};
    ///
    /// let mut builder = Builder::new();
    /// builder.add_block(b"b", BlockAddr::new(0..10, 0))?;
    /// builder.add_block(b"d", BlockAddr::new(10..25, 4))?;
    /// builder.add_block(b"f", BlockAddr::new(25..30, 9))?;
    /// let bytes = builder.finish(Version::V3)?;
    /// let index = Index::open(&bytes, Version::V3, 12)?;
    ///
    /// // keys that begin with d: the key d itself, and those behind it
    /// let pattern = Automaton::from_fn(3, |state| state == 1, |state, byte| match state {
    ///     0 if byte == b'd' => 1,
    ///     1 => 1,
    ///     _ => 2,
    /// })?;
    /// let ids: Vec<u64> = index.get_block_for_automaton(&pattern).map(|(id, _)| id).collect();
    /// assert_eq!(ids, [1, 2]);
    /// # Ok::<(), rosmarel::Refusal>(())
    /// ```
    pub fn get_block_for_automaton(&self, automaton: &Automaton) -> Listing<'a> {
        let mut marks = vec![0; self.len() as usize];
        let left = sure(ffi::list(
            self.bytes,
            &self.opened,
            automaton.as_table(),
            &mut marks,
        ));
        Listing {
            index: *self,
            ids: 0..marks.len(),
            marks,
            left,
        }
    }

    /// The block with an id below n.
    fn block(&self, id: u64) -> BlockAddr {
        sure(ffi::get_block(self.bytes, &self.opened, id))
    }
}

/// The front of a key that says where it stands among separators: one byte more than the longest of them has.
fn front(key: &[u8]) -> &[u8] {
    &key[..key.len().min(MAX_KEY_LEN + 1)]
}

/// What a lookup found; each of `none` says that there is nothing.
fn found<T>(answer: Result<T, Refusal>, none: &[Refusal]) -> Option<T> {
    match answer {
        Err(refusal) if none.contains(&refusal) => None,
        answer => Some(sure(answer)),
    }
}

/// An answer that is proved for bytes and record of one opening.
fn sure<T>(answer: Result<T, Refusal>) -> T {
    answer.unwrap_or_else(|refusal| panic!("the bytes of an index have changed: {refusal}"))
}

impl fmt::Debug for Index<'_> {
    fn fmt(&self, f: &mut fmt::Formatter<'_>) -> fmt::Result {
        f.debug_struct("Index")
            .field("len", &self.len())
            .field("bytes", &self.bytes.len())
            .field("terms", &self.terms())
            .field("version", &self.version())
            .finish()
    }
}

impl<'a> IntoIterator for &Index<'a> {
    type Item = (u64, BlockAddr);
    type IntoIter = Blocks<'a>;

    fn into_iter(self) -> Blocks<'a> {
        self.blocks()
    }
}

/// All blocks of an index: [`Index::blocks`].
#[derive(Clone, Debug)]
pub struct Blocks<'a> {
    index: Index<'a>,
    ids: Range<u64>,
}

impl Iterator for Blocks<'_> {
    type Item = (u64, BlockAddr);

    fn next(&mut self) -> Option<(u64, BlockAddr)> {
        self.ids.next().map(|id| (id, self.index.block(id)))
    }

    fn nth(&mut self, n: usize) -> Option<(u64, BlockAddr)> {
        self.ids.nth(n).map(|id| (id, self.index.block(id)))
    }

    fn size_hint(&self) -> (usize, Option<usize>) {
        self.ids.size_hint()
    }
}

impl DoubleEndedIterator for Blocks<'_> {
    fn next_back(&mut self) -> Option<(u64, BlockAddr)> {
        self.ids.next_back().map(|id| (id, self.index.block(id)))
    }
}

impl ExactSizeIterator for Blocks<'_> {}
impl FusedIterator for Blocks<'_> {}

/// All separators of an index: [`Index::separators`].
#[derive(Clone, Debug)]
pub struct Separators<'a> {
    index: Index<'a>,
    ids: Range<u64>,
}

impl<'a> Iterator for Separators<'a> {
    type Item = &'a [u8];

    fn next(&mut self) -> Option<&'a [u8]> {
        self.ids.next().and_then(|id| self.index.separator(id))
    }

    fn nth(&mut self, n: usize) -> Option<&'a [u8]> {
        self.ids.nth(n).and_then(|id| self.index.separator(id))
    }

    fn size_hint(&self) -> (usize, Option<usize>) {
        self.ids.size_hint()
    }
}

impl<'a> DoubleEndedIterator for Separators<'a> {
    fn next_back(&mut self) -> Option<&'a [u8]> {
        self.ids.next_back().and_then(|id| self.index.separator(id))
    }
}

impl ExactSizeIterator for Separators<'_> {}
impl FusedIterator for Separators<'_> {}

/// The blocks that may hold a key of a pattern: [`Index::get_block_for_automaton`].
#[derive(Clone)]
pub struct Listing<'a> {
    index: Index<'a>,
    marks: Vec<u8>,
    // the marks that weren't looked at yet, and how many of them are 1
    ids: Range<usize>,
    left: usize,
}

impl Listing<'_> {
    fn give(&mut self, id: Option<usize>) -> Option<(u64, BlockAddr)> {
        let id = id? as u64;
        self.left -= 1;
        Some((id, self.index.block(id)))
    }
}

impl Iterator for Listing<'_> {
    type Item = (u64, BlockAddr);

    fn next(&mut self) -> Option<(u64, BlockAddr)> {
        let id = self.ids.find(|&id| self.marks[id] == 1);
        self.give(id)
    }

    fn size_hint(&self) -> (usize, Option<usize>) {
        (self.left, Some(self.left))
    }

    fn count(self) -> usize {
        self.left
    }
}

impl DoubleEndedIterator for Listing<'_> {
    fn next_back(&mut self) -> Option<(u64, BlockAddr)> {
        let id = self.ids.rfind(|&id| self.marks[id] == 1);
        self.give(id)
    }
}

impl ExactSizeIterator for Listing<'_> {}
impl FusedIterator for Listing<'_> {}

impl fmt::Debug for Listing<'_> {
    fn fmt(&self, f: &mut fmt::Formatter<'_>) -> fmt::Result {
        f.debug_struct("Listing")
            .field("index", &self.index)
            .field("ids", &self.ids)
            .field("left", &self.left)
            .finish_non_exhaustive()
    }
}
