//! Stand-in for the crate `tantivy_fst`, made for speed: a sorted list in place of the FST.
//!
//! Its bytes are the key directory (the count, pairs of offset and length, the keys), so a key's value is its place in
//! the list. They are built in two buffers and read where they lie.

use std::io;

pub use map::{Map, MapBuilder};

#[derive(Debug)]
pub enum Error {
    Fst(raw::Error),
    Io(io::Error),
}

/// States and steps over bytes.
pub trait Automaton {
    type State;

    fn start(&self) -> Self::State;

    fn is_match(&self, state: &Self::State) -> bool;

    /// False where no continuation is accepted.
    fn can_match(&self, state: &Self::State) -> bool;

    fn accept(&self, state: &Self::State, byte: u8) -> Self::State;
}

impl<A: Automaton> Automaton for &A {
    type State = A::State;

    #[inline]
    fn start(&self) -> A::State {
        (**self).start()
    }

    #[inline]
    fn is_match(&self, state: &A::State) -> bool {
        (**self).is_match(state)
    }

    #[inline]
    fn can_match(&self, state: &A::State) -> bool {
        (**self).can_match(state)
    }

    #[inline]
    fn accept(&self, state: &A::State, byte: u8) -> A::State {
        (**self).accept(state, byte)
    }
}

pub trait Streamer {
    type Item;

    fn next(&mut self) -> Option<Self::Item>;
}

pub trait IntoStreamer {
    type Into: Streamer;

    fn into_stream(self) -> Self::Into;
}

pub mod raw {
    use std::fmt;

    /// Why a list of keys was refused.
    #[derive(Debug)]
    pub struct Error(pub &'static str);

    impl fmt::Display for Error {
        fn fmt(&self, f: &mut fmt::Formatter<'_>) -> fmt::Result {
            f.write_str(self.0)
        }
    }

    impl std::error::Error for Error {}

    /// A directory with room for its pairs. As with an FST, no key is looked at when it is opened.
    #[derive(Debug)]
    pub struct Fst<D> {
        pub(crate) data: D,
        pub(crate) count: usize,
    }

    impl<D: AsRef<[u8]>> Fst<D> {
        pub fn new(data: D) -> Result<Fst<D>, crate::Error> {
            let bytes = data.as_ref();
            match bytes.split_first_chunk() {
                Some((count, rest)) if rest.len() / 8 >= u32::from_le_bytes(*count) as usize => {
                    let count = u32::from_le_bytes(*count) as usize;
                    Ok(Fst { data, count })
                }
                _ => Err(crate::Error::Fst(Error("cut short"))),
            }
        }
    }
}

pub mod map {
    use std::io::Write;

    use crate::raw::{self, Fst};
    use crate::{Error, IntoStreamer, Streamer};

    #[derive(Debug)]
    pub struct Map<D>(Fst<D>);

    impl<D> From<Fst<D>> for Map<D> {
        fn from(fst: Fst<D>) -> Map<D> {
            Map(fst)
        }
    }

    impl<D: AsRef<[u8]>> Map<D> {
        /// All keys in order, with their values.
        #[inline]
        pub fn stream(&self) -> Stream<'_> {
            let (pairs, keys) = self.0.data.as_ref()[4..].split_at(8 * self.0.count);
            let (pairs, _) = pairs.as_chunks();
            Stream {
                pairs,
                keys,
                next: 0,
            }
        }

        #[inline]
        pub fn range(&self) -> StreamBuilder<'_> {
            StreamBuilder(self.stream())
        }
    }

    pub struct StreamBuilder<'m>(Stream<'m>);

    impl StreamBuilder<'_> {
        /// Leaves out the keys below `bound`.
        #[inline]
        pub fn ge<K: AsRef<[u8]>>(mut self, bound: K) -> Self {
            let Stream { pairs, keys, .. } = self.0;
            let bound = bound.as_ref();
            self.0.next = pairs.partition_point(|pair| key(pair, keys) < bound);
            self
        }
    }

    impl<'m> IntoStreamer for StreamBuilder<'m> {
        type Into = Stream<'m>;

        #[inline]
        fn into_stream(self) -> Stream<'m> {
            self.0
        }
    }

    /// Offset and length, 4 bytes each.
    type Pair = [u8; 8];

    #[inline]
    fn key<'m>(pair: &Pair, keys: &'m [u8]) -> &'m [u8] {
        let both = u64::from_le_bytes(*pair);
        let (offset, length) = (both as u32 as usize, (both >> 32) as usize);
        &keys[offset..][..length]
    }

    pub struct Stream<'m> {
        pairs: &'m [Pair],
        keys: &'m [u8],
        next: usize,
    }

    impl<'m> Streamer for Stream<'m> {
        type Item = (&'m [u8], u64);

        #[inline]
        fn next(&mut self) -> Option<Self::Item> {
            let pair = self.pairs.get(self.next)?;
            let value = self.next as u64;
            self.next += 1;
            Some((key(pair, self.keys), value))
        }
    }

    /// Takes keys in order and writes their directory at the end: the pairs in one buffer, the keys in another.
    pub struct MapBuilder<W> {
        writer: W,
        pairs: Vec<Pair>,
        keys: Vec<u8>,
        /// Where the last key begins.
        last: usize,
    }

    impl<W: Write> MapBuilder<W> {
        pub fn new(writer: W) -> Result<MapBuilder<W>, Error> {
            Ok(MapBuilder {
                writer,
                pairs: Vec::new(),
                keys: Vec::new(),
                last: 0,
            })
        }

        #[inline]
        pub fn insert<K: AsRef<[u8]>>(&mut self, key: K, value: u64) -> Result<(), Error> {
            let key = key.as_ref();
            if value != self.pairs.len() as u64 {
                return Err(Error::Fst(raw::Error("a value isn't the key's place")));
            }
            if value > 0 && &self.keys[self.last..] >= key {
                return Err(Error::Fst(raw::Error("keys don't rise")));
            }
            self.last = self.keys.len();
            let both = self.last as u64 | (key.len() as u64) << 32;
            self.pairs.push(both.to_le_bytes());
            self.keys.extend_from_slice(key);
            Ok(())
        }

        pub fn into_inner(mut self) -> Result<W, Error> {
            let count = (self.pairs.len() as u32).to_le_bytes();
            for part in [&count[..], self.pairs.as_flattened(), &self.keys] {
                self.writer.write_all(part).map_err(Error::Io)?;
            }
            Ok(self.writer)
        }
    }
}
