//! Times and memory of the archive beside those of the crate's Rust.

// the declarations that the binding's own test compares with the archive
#[allow(dead_code)]
#[rustfmt::skip]
#[path = "../../bindings/rust/src/ffi.rs"]
pub mod ffi;

pub mod calls;
pub mod document;
pub mod inputs;
pub mod machine;
pub mod measure;
pub mod memory;
pub mod patterns;
pub mod plot;
pub mod readme;
pub mod report;
pub mod search;
pub mod tables;
pub mod words;

// what ffi.rs takes from its crate's root
use rosmarel::{BlockAddr, Refusal};
