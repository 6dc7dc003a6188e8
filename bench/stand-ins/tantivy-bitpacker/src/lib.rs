//! Stand-in for the crate `tantivy_bitpacker`, made for speed: fields are joined in a word of 64 bits, which leaves when
//! it is full.

use std::io::{self, Write};

/// 64 minus leading zeros, if at most 56, else 64.
#[inline]
pub fn compute_num_bits(value: u64) -> u8 {
    let bits = 64 - value.leading_zeros() as u8;
    if bits <= 56 { bits } else { 64 }
}

/// Joins fields, the lowest bit first.
#[derive(Default)]
pub struct BitPacker {
    word: u64,
    /// Bits of the word that are taken: below 64.
    taken: u32,
}

impl BitPacker {
    pub fn new() -> BitPacker {
        BitPacker::default()
    }

    /// Appends a field of 1 to 64 bits that can hold the value.
    #[inline]
    pub fn write<W: Write + ?Sized>(
        &mut self,
        value: u64,
        num_bits: u8,
        output: &mut W,
    ) -> io::Result<()> {
        let before = self.taken;
        self.word |= value << before;
        self.taken += u32::from(num_bits);
        if self.taken >= 64 {
            output.write_all(&self.word.to_le_bytes())?;
            // the bits of the value that didn't fit; in two steps, since a shift by 64 isn't one
            self.word = (value >> (63 - before)) >> 1;
            self.taken -= 64;
        }
        Ok(())
    }

    /// Writes the bytes that wait, the last one filled with zeros.
    pub fn flush<W: Write + ?Sized>(&mut self, output: &mut W) -> io::Result<()> {
        let bytes = self.taken.div_ceil(8) as usize;
        output.write_all(&self.word.to_le_bytes()[..bytes])?;
        *self = BitPacker::new();
        Ok(())
    }
}
