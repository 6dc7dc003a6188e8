//! Stand-in for the crate `tantivy_bitpacker`, after the text of document 01.

use std::io::{self, Write};

/// 64 minus leading zeros, if at most 56, else 64.
pub fn compute_num_bits(value: u64) -> u8 {
    let bits = 64 - value.leading_zeros() as u8;
    if bits <= 56 { bits } else { 64 }
}

/// Joins fields, the lowest bit first.
#[derive(Default)]
pub struct BitPacker {
    waiting: u128,
    count: u32,
}

impl BitPacker {
    pub fn new() -> BitPacker {
        BitPacker::default()
    }

    /// Appends a field. A value that the field can't hold is an error of the caller.
    pub fn write<W: Write + ?Sized>(
        &mut self,
        value: u64,
        num_bits: u8,
        output: &mut W,
    ) -> io::Result<()> {
        assert!(num_bits <= 64 && u128::from(value) < 1 << num_bits);
        self.waiting |= u128::from(value) << self.count;
        self.count += u32::from(num_bits);
        while self.count >= 8 {
            output.write_all(&[self.waiting as u8])?;
            self.waiting >>= 8;
            self.count -= 8;
        }
        Ok(())
    }

    /// Writes the bits that wait as one byte, filled with zeros.
    pub fn flush<W: Write + ?Sized>(&mut self, output: &mut W) -> io::Result<()> {
        if self.count > 0 {
            output.write_all(&[self.waiting as u8])?;
        }
        *self = BitPacker::new();
        Ok(())
    }
}
