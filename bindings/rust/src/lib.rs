//! A block index for sorted key files that the bytes it reads can't mislead.
//!
//! A sorted key file is cut into blocks. The index says which block to read: by id, by ordinal, by key, or for a
//! pattern of keys. It is for programs that must look up the right block even where block lists, index files and
//! patterns come from strangers.
//!
//! This crate is the Rust side of Rosmarel, in which every function is proved to meet its contract, for all bytes,
//! keys and numbers. The proofs end at the archive that is linked; the code of this crate, which lends it memory and
//! hands on its answers, is tested.
//!
//! - [`Builder`] takes blocks and keys and writes an index.
//! - [`Index`] opens one, which anyone may have written, given its version and the number of terms, and looks blocks up.
//! - [`Version`] is one of two: groups of 128 blocks, or of 256. An index doesn't say which one it has.
//! - [`check_canonical`] says whether an index is, byte for byte, the one that [`Builder::finish`] would write.
//! - [`Automaton`] is a pattern, for [`Index::get_block_for_automaton`].
//! - [`Refusal`] says why a call was refused.
//!
//! ```
//! use rosmarel::{Automaton, BlockAddr, Builder, Index, Refusal, Version};
//!
//! let mut builder = Builder::new();
//! builder.add_block(b"beech", BlockAddr::new(0..4_096, 0))?;
//! builder.shorten_last_block_key_given_next_key(b"birch")?;
//! builder.add_block(b"elm", BlockAddr::new(4_096..8_000, 120))?;
//! builder.shorten_last_block_key_given_next_key(b"fir")?;
//! builder.add_block(b"yew", BlockAddr::new(8_000..11_500, 260))?;
//! let bytes = builder.finish(Version::V4)?;
//!
//! // the file has 400 keys
//! let index = Index::open(&bytes, Version::V4, 400)?;
//! assert_eq!(index.get_block_with_key(b"fir"), Some((2, BlockAddr::new(8_000..11_500, 260))));
//! assert_eq!(index.locate_with_ord(130), Some((1, BlockAddr::new(4_096..8_000, 120))));
//! assert_eq!(index.locate_with_ord(400), None);
//! assert_eq!(index.locate_with_keys(&["oak", "ash", "zelkova"]), [Some(2), Some(0), None]);
//!
//! // keys that begin with b
//! let b = Automaton::from_fn(3, |state| state == 1, |state, byte| match (state, byte) {
//!     (0, b'b') | (1, _) => 1,
//!     _ => 2,
//! })?;
//! let blocks: Vec<u64> = index.get_block_for_automaton(&b).map(|(id, _)| id).collect();
//! assert_eq!(blocks, [0, 1]);
//! # Ok::<(), Refusal>(())
//! ```
//!
//! An index has 2 to 65,536 blocks. Each starts where the one before it ends, and has a higher first ordinal; ends and
//! first ordinals are at most [`MAX_NUMBER`], 2^55 - 1. The number of terms, which opening is told, is above all first
//! ordinals and has no limit. Separators rise and have at most 1,024 bytes. Byte strings compare as unsigned bytes, a prefix
//! being smaller.

#![deny(unsafe_code)]
#![warn(missing_docs, unsafe_op_in_unsafe_fn)]

mod automaton;
mod block;
mod builder;
#[allow(unsafe_code)]
mod ffi;
mod index;
mod interface;
mod refusal;
mod store;
mod version;

pub use automaton::{Automaton, MAX_STATES};
pub use block::{BlockAddr, MAX_NUMBER};
pub use builder::{Builder, MAX_BLOCKS, MAX_KEY_LEN};
pub use index::{Blocks, Index, Listing, MAX_BATCH_KEYS, NO_ID, Separators};
pub use interface::INTERFACE;
pub use refusal::Refusal;
pub use store::{store, store_into};
pub use version::Version;

/// The number of the linked archive's interface, which is [`INTERFACE`].
///
/// ```
/// assert_eq!(rosmarel::interface(), rosmarel::INTERFACE);
/// ```
pub fn interface() -> u64 {
    ffi::interface()
}

/// Whether an index is canonical: byte for byte the one that [`Builder::finish`] makes, in this version, of the blocks and
/// separators that are read in it. In one version two canonical files of one list are equal, and whatever `finish` wrote of
/// two blocks or more is canonical.
///
/// A file that opens needn't be: it may have bytes between its groups or behind them, wider fields than needed, other
/// slopes, or padding that isn't 0. It is read, and nothing is allocated.
///
/// # Errors
///
/// What [`Index::open`] refuses in a file, for the same reason (10 to 16); [`NotCanonical`](Refusal::NotCanonical) (27) for
/// a file that opens but isn't that one. The number of terms isn't asked for, so 28 isn't among them.
///
/// ```
/// use rosmarel::{BlockAddr, Builder, Index, Refusal, Version};
///
/// let mut builder = Builder::new();
/// builder.add_block(b"b", BlockAddr::new(0..10, 0))?;
/// builder.add_block(b"d", BlockAddr::new(10..25, 4))?;
/// let mut bytes = builder.finish(Version::V3)?;
/// assert_eq!(rosmarel::check_canonical(&bytes, Version::V3), Ok(()));
///
/// // a byte more in front of the footer: it opens, with the same blocks
/// bytes.insert(bytes.len() - 8, 0);
/// let index = Index::open(&bytes, Version::V3, 9)?;
/// assert_eq!(index.get_block(1), Some(BlockAddr::new(10..25, 4)));
/// assert_eq!(rosmarel::check_canonical(&bytes, Version::V3), Err(Refusal::NotCanonical));
///
/// // no footer: refused as opening refuses it
/// assert_eq!(rosmarel::check_canonical(&bytes[..7], Version::V3), Err(Refusal::Footer));
/// # Ok::<(), Refusal>(())
/// ```
pub fn check_canonical(index: &[u8], version: Version) -> Result<(), Refusal> {
    ffi::check_canonical(version.number(), index)
}

/// The length of the longest common prefix of two keys.
///
/// ```
/// assert_eq!(rosmarel::common_prefix_len(b"abcdef", b"abf"), 2);
/// ```
pub fn common_prefix_len(left: &[u8], right: &[u8]) -> usize {
    ffi::common_prefix_len(left, right)
}

/// The longest common prefix of two keys, as the front of the first.
///
/// ```
/// assert_eq!(rosmarel::common_prefix(b"abcdef", b"abf"), b"ab");
/// ```
pub fn common_prefix<'a>(left: &'a [u8], right: &[u8]) -> &'a [u8] {
    &left[..common_prefix_len(left, right)]
}

#[cfg(doctest)]
#[doc = include_str!("../README.md")]
struct Readme;
