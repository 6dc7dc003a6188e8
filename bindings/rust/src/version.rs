use crate::Refusal;

/// The version of an index: its groups have 128 blocks in version 3 and 256 in version 4. All else is the same in both.
///
/// An index doesn't say which one it is, so its version is kept beside it: it opens with the one that it was finished in.
/// Up to 128 blocks it is the same bytes in both, and opens with both; with more blocks and the other version opening
/// refuses it with [`GroupRecords`](Refusal::GroupRecords) (14). Where nobody knows the version, try both: what opens with
/// both is the same in both.
///
/// A number from outside becomes a version, or is refused, by [`from_number`](Version::from_number) or `try_from`.
///
/// ```
/// use rosmarel::{BlockAddr, Builder, Index, Refusal, Version};
///
/// let mut builder = Builder::new();
/// for i in 0..300u64 {
///     builder.add_block(&i.to_be_bytes(), BlockAddr::new(10 * i..10 * i + 10, i))?;
/// }
/// let bytes = builder.finish(Version::V4)?;
///
/// let index = Index::open(&bytes, Version::V4, 300)?;
/// assert_eq!(index.version(), Version::V4);
/// assert_eq!(index.get_block(299), Some(BlockAddr::new(2_990..3_000, 299)));
///
/// // it has two groups, and in version 3 it would have three
/// assert_eq!(Index::open(&bytes, Version::V3, 300).unwrap_err(), Refusal::GroupRecords);
/// # Ok::<(), Refusal>(())
/// ```
#[derive(Clone, Copy, Debug, PartialEq, Eq, PartialOrd, Ord, Hash)]
#[repr(u64)]
pub enum Version {
    /// Version 3: 128 blocks a group.
    V3 = 3,
    /// Version 4: 256 blocks a group.
    V4 = 4,
}

impl Version {
    /// The version that has this number.
    ///
    /// # Errors
    ///
    /// [`UnknownVersion`](Refusal::UnknownVersion) (30) for all numbers but 3 and 4.
    ///
    /// ```
    /// use rosmarel::{Refusal, Version};
    ///
    /// assert_eq!(Version::from_number(4), Ok(Version::V4));
    /// let refusal = Version::from_number(5).unwrap_err();
    /// assert_eq!(refusal, Refusal::UnknownVersion);
    /// assert_eq!(refusal.number(), 30);
    /// ```
    pub const fn from_number(number: u64) -> Result<Version, Refusal> {
        match number {
            3 => Ok(Version::V3),
            4 => Ok(Version::V4),
            _ => Err(Refusal::UnknownVersion),
        }
    }

    /// The version's number.
    pub const fn number(self) -> u64 {
        self as u64
    }

    /// How many blocks a group has. The last group of an index may have fewer.
    pub const fn group_len(self) -> usize {
        match self {
            Version::V3 => 128,
            Version::V4 => 256,
        }
    }
}

impl TryFrom<u64> for Version {
    type Error = Refusal;

    fn try_from(number: u64) -> Result<Version, Refusal> {
        Version::from_number(number)
    }
}

impl From<Version> for u64 {
    fn from(version: Version) -> u64 {
        version.number()
    }
}
