//! The block index of tantivy-sstable over the stand-ins of bench/stand-ins: as it is, with groups of 128 blocks, and with
//! groups of 256. build.rs puts it together; none of the Rust's text is kept here.
#![allow(dead_code, clippy::duplicate_mod)]

mod rust;

pub use index::v3::access;
pub use rust::{Block, Builder, Index, Rust, Store};

/// Groups of 128 blocks.
pub use index::v3::access::Groups as V3;
/// Groups of 256 blocks.
pub use index_256::v3::access::Groups as V4;

pub type TermOrdinal = u64;

#[derive(Debug)]
pub struct SSTableDataCorruption;

include!(concat!(env!("OUT_DIR"), "/text.rs"));
