// The Rust's text, and behind it a way in from outside to what is private there.
include!("v3.text.rs");

pub mod access;
