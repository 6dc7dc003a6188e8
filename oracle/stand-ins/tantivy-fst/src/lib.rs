//! Stand-in for the crate `tantivy_fst`: a sorted list in place of the FST.
//!
//! Its bytes are the key directory of document 01 (the count, pairs of offset and length, the keys),
//! so a key's value is its place in the list.

use std::io;

pub use map::{Map, MapBuilder};

#[derive(Debug)]
pub enum Error {
    Fst(raw::Error),
    Io(io::Error),
}

/// States and steps over bytes.
pub trait Automaton {
    type State;

    fn start(&self) -> Self::State;

    fn is_match(&self, state: &Self::State) -> bool;

    /// False where no continuation is accepted.
    fn can_match(&self, state: &Self::State) -> bool;

    fn accept(&self, state: &Self::State, byte: u8) -> Self::State;
}

impl<A: Automaton> Automaton for &A {
    type State = A::State;

    fn start(&self) -> A::State {
        (**self).start()
    }

    fn is_match(&self, state: &A::State) -> bool {
        (**self).is_match(state)
    }

    fn can_match(&self, state: &A::State) -> bool {
        (**self).can_match(state)
    }

    fn accept(&self, state: &A::State, byte: u8) -> A::State {
        (**self).accept(state, byte)
    }
}

pub trait Streamer {
    type Item;

    fn next(&mut self) -> Option<Self::Item>;
}

pub trait IntoStreamer {
    type Into: Streamer;

    fn into_stream(self) -> Self::Into;
}

pub mod raw {
    use std::fmt;
    use std::ops::Range;

    /// Why a list of keys was refused.
    #[derive(Debug)]
    pub struct Error(pub &'static str);

    impl fmt::Display for Error {
        fn fmt(&self, f: &mut fmt::Formatter<'_>) -> fmt::Result {
            f.write_str(self.0)
        }
    }

    impl std::error::Error for Error {}

    /// A directory whose keys touch and rise.
    #[derive(Debug)]
    pub struct Fst<D> {
        pub(crate) data: D,
        pub(crate) keys: Vec<Range<usize>>,
    }

    impl<D: AsRef<[u8]>> Fst<D> {
        pub fn new(data: D) -> Result<Fst<D>, crate::Error> {
            let keys =
                read_directory(data.as_ref()).map_err(|why| crate::Error::Fst(Error(why)))?;
            Ok(Fst { data, keys })
        }
    }

    fn read_directory(bytes: &[u8]) -> Result<Vec<Range<usize>>, &'static str> {
        let number = |at: usize| -> Result<usize, &'static str> {
            let four = bytes.get(at..at + 4).ok_or("cut short")?;
            Ok(u32::from_le_bytes(four.try_into().unwrap()) as usize)
        };
        let count = number(0)?;
        let first = 4 + 8 * count;
        let mut keys: Vec<Range<usize>> = Vec::new();
        let mut next = 0;
        for i in 0..count {
            let (offset, length) = (number(4 + 8 * i)?, number(8 + 8 * i)?);
            if offset != next {
                return Err("keys don't touch");
            }
            next += length;
            let key = first + offset..first + next;
            if bytes.get(key.clone()).is_none() {
                return Err("cut short");
            }
            if keys
                .last()
                .is_some_and(|last| bytes[last.clone()] >= bytes[key.clone()])
            {
                return Err("keys don't rise");
            }
            keys.push(key);
        }
        if first + next != bytes.len() {
            return Err("bytes behind the keys");
        }
        Ok(keys)
    }
}

pub mod map {
    use std::io::Write;
    use std::ops::Range;

    use crate::raw::{self, Fst};
    use crate::{Error, IntoStreamer, Streamer};

    #[derive(Debug)]
    pub struct Map<D>(Fst<D>);

    impl<D> From<Fst<D>> for Map<D> {
        fn from(fst: Fst<D>) -> Map<D> {
            Map(fst)
        }
    }

    impl<D: AsRef<[u8]>> Map<D> {
        /// All keys in order, with their values.
        pub fn stream(&self) -> Stream<'_> {
            Stream {
                bytes: self.0.data.as_ref(),
                keys: &self.0.keys,
                next: 0,
            }
        }

        pub fn range(&self) -> StreamBuilder<'_> {
            StreamBuilder(self.stream())
        }
    }

    pub struct StreamBuilder<'m>(Stream<'m>);

    impl StreamBuilder<'_> {
        /// Leaves out the keys below `bound`.
        pub fn ge<K: AsRef<[u8]>>(mut self, bound: K) -> Self {
            let Stream { bytes, keys, .. } = self.0;
            self.0.next = keys.partition_point(|key| &bytes[key.clone()] < bound.as_ref());
            self
        }
    }

    impl<'m> IntoStreamer for StreamBuilder<'m> {
        type Into = Stream<'m>;

        fn into_stream(self) -> Stream<'m> {
            self.0
        }
    }

    pub struct Stream<'m> {
        bytes: &'m [u8],
        keys: &'m [Range<usize>],
        next: usize,
    }

    impl<'m> Streamer for Stream<'m> {
        type Item = (&'m [u8], u64);

        fn next(&mut self) -> Option<Self::Item> {
            let key = self.keys.get(self.next)?;
            let value = self.next as u64;
            self.next += 1;
            Some((&self.bytes[key.clone()], value))
        }
    }

    /// Takes keys in order and writes their directory at the end.
    pub struct MapBuilder<W> {
        writer: W,
        keys: Vec<Vec<u8>>,
    }

    impl<W: Write> MapBuilder<W> {
        pub fn new(writer: W) -> Result<MapBuilder<W>, Error> {
            Ok(MapBuilder {
                writer,
                keys: Vec::new(),
            })
        }

        pub fn insert<K: AsRef<[u8]>>(&mut self, key: K, value: u64) -> Result<(), Error> {
            let key = key.as_ref();
            if value != self.keys.len() as u64 {
                return Err(Error::Fst(raw::Error("a value isn't the key's place")));
            }
            if self.keys.last().is_some_and(|last| last.as_slice() >= key) {
                return Err(Error::Fst(raw::Error("keys don't rise")));
            }
            self.keys.push(key.to_vec());
            Ok(())
        }

        pub fn into_inner(mut self) -> Result<W, Error> {
            let mut directory = (self.keys.len() as u32).to_le_bytes().to_vec();
            let mut offset = 0u32;
            for key in &self.keys {
                let length = key.len() as u32;
                directory.extend(offset.to_le_bytes());
                directory.extend(length.to_le_bytes());
                offset += length;
            }
            directory.extend(self.keys.concat());
            self.writer.write_all(&directory).map_err(Error::Io)?;
            Ok(self.writer)
        }
    }
}
