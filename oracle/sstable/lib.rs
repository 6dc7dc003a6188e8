//! The block index of tantivy-sstable, as far as its text is at hand.
//! `index/mod.rs`, `index/v3.text.rs` and `block_match_automaton.rs` are the Rust's own bytes;
//! `common_prefix_len.rs` is that function, cut out of its `lib.rs`.
#![allow(dead_code)]

mod block_match_automaton;
mod index;

pub use index::v3::access;

pub type TermOrdinal = u64;

#[derive(Debug)]
pub struct SSTableDataCorruption;

include!("common_prefix_len.rs");
