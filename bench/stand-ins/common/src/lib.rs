//! Stand-in for the crate `common`, made for speed: what the block index uses of it and no more.

use std::io::{self, Read, Write};
use std::ops::Deref;
use std::sync::Arc;

/// A value with a byte form.
pub trait BinarySerializable: Sized {
    fn serialize<W: Write + ?Sized>(&self, writer: &mut W) -> io::Result<()>;

    fn deserialize<R: Read>(reader: &mut R) -> io::Result<Self>;

    fn num_bytes(&self) -> u64 {
        let mut bytes = Vec::new();
        self.serialize(&mut bytes)
            .expect("a vector takes all bytes");
        bytes.len() as u64
    }
}

/// A byte form whose length is always the same.
pub trait FixedSize {
    const SIZE_IN_BYTES: usize;
}

macro_rules! little_endian {
    ($($number:ty),*) => {$(
        impl BinarySerializable for $number {
            #[inline]
            fn serialize<W: Write + ?Sized>(&self, writer: &mut W) -> io::Result<()> {
                writer.write_all(&self.to_le_bytes())
            }

            #[inline]
            fn deserialize<R: Read>(reader: &mut R) -> io::Result<Self> {
                let mut bytes = [0; size_of::<$number>()];
                reader.read_exact(&mut bytes)?;
                Ok(<$number>::from_le_bytes(bytes))
            }
        }

        impl FixedSize for $number {
            const SIZE_IN_BYTES: usize = size_of::<$number>();
        }
    )*};
}

little_endian!(u16, u32, u64);

/// A shared part of some bytes. It holds the slice itself, so that to look at it is to copy a pointer and a length.
#[derive(Clone, Debug)]
pub struct OwnedBytes {
    // lives as long as `owner`, which is never written to
    part: &'static [u8],
    owner: Arc<Vec<u8>>,
}

impl OwnedBytes {
    pub fn new(bytes: Vec<u8>) -> OwnedBytes {
        let owner = Arc::new(bytes);
        // SAFETY: the vector behind `owner` neither moves nor changes while a clone of it is left, and each part has one
        // beside it; `deref` hands the part out for no longer than that.
        let part = unsafe { &*(owner.as_slice() as *const [u8]) };
        OwnedBytes { part, owner }
    }

    /// The first `count` bytes, and the rest.
    pub fn split(self, count: usize) -> (OwnedBytes, OwnedBytes) {
        let (left, right) = self.part.split_at(count);
        let left = OwnedBytes {
            part: left,
            owner: self.owner.clone(),
        };
        let right = OwnedBytes {
            part: right,
            owner: self.owner,
        };
        (left, right)
    }

    /// All but the last `count` bytes, and those.
    pub fn rsplit(self, count: usize) -> (OwnedBytes, OwnedBytes) {
        let front = self.part.len() - count;
        self.split(front)
    }
}

impl Deref for OwnedBytes {
    type Target = [u8];

    #[inline]
    fn deref(&self) -> &[u8] {
        self.part
    }
}

impl AsRef<[u8]> for OwnedBytes {
    #[inline]
    fn as_ref(&self) -> &[u8] {
        self.part
    }
}

/// Reading takes from the front.
impl Read for OwnedBytes {
    #[inline]
    fn read(&mut self, buffer: &mut [u8]) -> io::Result<usize> {
        self.part.read(buffer)
    }

    #[inline]
    fn read_exact(&mut self, buffer: &mut [u8]) -> io::Result<()> {
        self.part.read_exact(buffer)
    }
}

/// A writer that counts what goes through it.
pub struct CountingWriter<W> {
    inner: W,
    count: u64,
}

impl<W: Write> CountingWriter<W> {
    pub fn wrap(inner: W) -> CountingWriter<W> {
        CountingWriter { inner, count: 0 }
    }

    pub fn written_bytes(&self) -> u64 {
        self.count
    }

    pub fn finish(self) -> W {
        self.inner
    }
}

impl<W: Write> Write for CountingWriter<W> {
    #[inline]
    fn write(&mut self, bytes: &[u8]) -> io::Result<usize> {
        let count = self.inner.write(bytes)?;
        self.count += count as u64;
        Ok(count)
    }

    #[inline]
    fn write_all(&mut self, bytes: &[u8]) -> io::Result<()> {
        self.inner.write_all(bytes)?;
        self.count += bytes.len() as u64;
        Ok(())
    }

    fn flush(&mut self) -> io::Result<()> {
        self.inner.flush()
    }
}
