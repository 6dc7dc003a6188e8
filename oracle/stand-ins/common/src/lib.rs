//! Stand-in for the crate `common`: what the block index uses of it and no more.

use std::io::{self, Read, Write};
use std::ops::{Deref, Range};
use std::sync::Arc;

/// A value with a byte form.
pub trait BinarySerializable: Sized {
    fn serialize<W: Write + ?Sized>(&self, writer: &mut W) -> io::Result<()>;

    fn deserialize<R: Read>(reader: &mut R) -> io::Result<Self>;

    fn num_bytes(&self) -> u64 {
        let mut bytes = Vec::new();
        self.serialize(&mut bytes)
            .expect("a vector takes all bytes");
        bytes.len() as u64
    }
}

/// A byte form whose length is always the same.
pub trait FixedSize {
    const SIZE_IN_BYTES: usize;
}

macro_rules! little_endian {
    ($($number:ty),*) => {$(
        impl BinarySerializable for $number {
            fn serialize<W: Write + ?Sized>(&self, writer: &mut W) -> io::Result<()> {
                writer.write_all(&self.to_le_bytes())
            }

            fn deserialize<R: Read>(reader: &mut R) -> io::Result<Self> {
                let mut bytes = [0; size_of::<$number>()];
                reader.read_exact(&mut bytes)?;
                Ok(<$number>::from_le_bytes(bytes))
            }
        }

        impl FixedSize for $number {
            const SIZE_IN_BYTES: usize = size_of::<$number>();
        }
    )*};
}

little_endian!(u16, u32, u64);

/// A shared part of some bytes. Reading takes from its front.
#[derive(Clone, Debug)]
pub struct OwnedBytes {
    all: Arc<[u8]>,
    part: Range<usize>,
}

impl OwnedBytes {
    pub fn new(bytes: Vec<u8>) -> OwnedBytes {
        let part = 0..bytes.len();
        OwnedBytes {
            all: bytes.into(),
            part,
        }
    }

    /// The first `count` bytes, and the rest.
    pub fn split(self, count: usize) -> (OwnedBytes, OwnedBytes) {
        assert!(count <= self.len(), "split behind the end");
        let middle = self.part.start + count;
        let left = OwnedBytes {
            all: self.all.clone(),
            part: self.part.start..middle,
        };
        let right = OwnedBytes {
            all: self.all,
            part: middle..self.part.end,
        };
        (left, right)
    }

    /// All but the last `count` bytes, and those.
    pub fn rsplit(self, count: usize) -> (OwnedBytes, OwnedBytes) {
        assert!(count <= self.len(), "split before the front");
        let front = self.len() - count;
        self.split(front)
    }
}

impl Deref for OwnedBytes {
    type Target = [u8];

    fn deref(&self) -> &[u8] {
        &self.all[self.part.clone()]
    }
}

impl AsRef<[u8]> for OwnedBytes {
    fn as_ref(&self) -> &[u8] {
        self
    }
}

impl Read for OwnedBytes {
    fn read(&mut self, buffer: &mut [u8]) -> io::Result<usize> {
        let count = buffer.len().min(self.len());
        buffer[..count].copy_from_slice(&self[..count]);
        self.part.start += count;
        Ok(count)
    }
}

/// A writer that counts what goes through it.
pub struct CountingWriter<W> {
    inner: W,
    count: u64,
}

impl<W: Write> CountingWriter<W> {
    pub fn wrap(inner: W) -> CountingWriter<W> {
        CountingWriter { inner, count: 0 }
    }

    pub fn written_bytes(&self) -> u64 {
        self.count
    }

    pub fn finish(self) -> W {
        self.inner
    }
}

impl<W: Write> Write for CountingWriter<W> {
    fn write(&mut self, bytes: &[u8]) -> io::Result<usize> {
        let count = self.inner.write(bytes)?;
        self.count += count as u64;
        Ok(count)
    }

    fn flush(&mut self) -> io::Result<()> {
        self.inner.flush()
    }
}
