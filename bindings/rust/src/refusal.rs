use std::error::Error;
use std::fmt;

macro_rules! refusals {
    ($($number:literal $name:ident $sentence:literal,)*) => {
        /// Why a call was refused: the numbers of the specification's table, with a sentence each.
        ///
        /// A refused call has changed nothing. `Display` gives the sentence and the number.
        ///
        /// This crate doesn't return all of them. 1, 8, 20 and 24 are for callers of the archive that lend it areas and
        /// opened records of their own; in place of 17 to 19, 25 and 29, that nothing was found, it has `None`. 26 comes
        /// from [`Index::locate_with_keys_into`](crate::Index::locate_with_keys_into) alone, 27 from
        /// [`check_canonical`](crate::check_canonical), 28 from [`Index::open`](crate::Index::open), 30 from
        /// [`Version::from_number`](crate::Version::from_number).
        ///
        /// ```
        /// use rosmarel::{Index, Refusal, Version};
        ///
        /// let refusal = Index::open(b"short", Version::V3, 12).unwrap_err();
        /// assert_eq!(refusal, Refusal::Footer);
        /// assert_eq!(refusal.number(), 10);
        /// assert_eq!(
        ///     refusal.to_string(),
        ///     "the file is too short for its footer, or for the directory length there (refusal 10)",
        /// );
        /// ```
        #[derive(Clone, Copy, Debug, PartialEq, Eq, PartialOrd, Ord, Hash)]
        #[non_exhaustive]
        #[repr(u32)]
        pub enum Refusal {
            $(
                #[doc = concat!(stringify!($number), ": ", $sentence, ".")]
                $name = $number,
            )*
        }

        impl Refusal {
            /// The refusal that has this number.
            ///
            /// ```
            /// use rosmarel::Refusal;
            ///
            /// assert_eq!(Refusal::from_number(2), Some(Refusal::KeyTooLong));
            /// assert_eq!(Refusal::from_number(0), None);
            /// ```
            pub const fn from_number(number: u32) -> Option<Refusal> {
                match number {
                    $($number => Some(Refusal::$name),)*
                    _ => None,
                }
            }

            /// What the number stands for, as a sentence without its full stop.
            pub const fn sentence(self) -> &'static str {
                match self {
                    $(Refusal::$name => $sentence,)*
                }
            }
        }
    };
}

refusals! {
    1 BuilderAreas "the builder's areas are too short for its blocks, or it has more than 65,536 of them",
    2 KeyTooLong "the key is longer than 1,024 bytes",
    3 BlockNumbers "a block ends before it starts, or its end or first ordinal is 2^55 or more",
    4 BlockJoin "a block doesn't start where the one before it ends",
    5 OrdinalOrder "a block's first ordinal isn't above that of the block before it",
    6 KeyOrder "the key isn't above the last separator",
    7 TooManyBlocks "there are more than 65,536 blocks, or there is no room for one more",
    8 BuilderBlocks "a block in the builder's areas breaks the rules for blocks and keys",
    9 OutputTooShort "the output is shorter than the result",
    10 Footer "the file is too short for its footer, or for the directory length there",
    11 DirectoryMissing "the directory length in the file's footer is 0",
    12 Directory "the key directory has a wrong count, offset or length, or a key over 1,024 bytes",
    13 SeparatorOrder "the separators in the key directory don't rise",
    14 GroupRecords "the group records don't fit the number of blocks in this version, or the store",
    15 Group "a group has a width outside 1 to 56, a wrong number of blocks, or fields beyond the address bytes",
    16 Block "a block in the file is outside 0 to 2^55 - 1, or doesn't follow from the one before it",
    17 UnknownId "no block has this id",
    18 OrdinalBelowFirst "the ordinal is below the first block's",
    19 KeyAboveLast "the key is above the last separator",
    20 OpenedRecord "the opened record and the bytes of the index don't fit each other, or its version is neither 3 nor 4",
    21 AutomatonSize "the automaton's table has no state, more than 64 states, or a length that isn't theirs",
    22 AcceptFlag "an accept flag of the automaton is above 1",
    23 NextState "a next state of the automaton isn't one of its states",
    24 RoomTooShort "the room for the marks or for the example is too short",
    25 NoExample "the automaton accepts no string of the interval",
    26 KeyList "the key list has half a pair, more than 64 keys, a key outside its bytes, an offset that falls, or too few ids",
    27 NotCanonical "the index opens, but isn't the one that finish makes of the blocks and separators in it",
    28 TooFewTerms "the number of terms isn't above the last block's first ordinal",
    29 OrdinalBeyondTerms "the ordinal isn't below the number of terms",
    30 UnknownVersion "the version is neither 3 nor 4",
}

impl Refusal {
    /// The number in the specification's table.
    pub const fn number(self) -> u32 {
        self as u32
    }
}

impl fmt::Display for Refusal {
    fn fmt(&self, f: &mut fmt::Formatter<'_>) -> fmt::Result {
        write!(f, "{} (refusal {})", self.sentence(), self.number())
    }
}

impl Error for Refusal {}

impl From<Refusal> for u32 {
    fn from(refusal: Refusal) -> u32 {
        refusal.number()
    }
}
