//! Sums that stand for bytes too many to store.

/// A prime.
const MODULUS: u64 = (1 << 56) - 5;

/// The remainder of the number that the bytes spell, the first one highest.
pub fn remainder(bytes: &[u8]) -> u64 {
    bytes
        .iter()
        .fold(0, |h, &byte| (256 * h + u64::from(byte)) % MODULUS)
}

/// The 64-bit FNV-1a hash.
pub fn fnv(bytes: &[u8]) -> u64 {
    bytes
        .iter()
        .fold(14_695_981_039_346_656_037, |h: u64, &byte| {
            (h ^ u64::from(byte)).wrapping_mul(1_099_511_628_211)
        })
}
