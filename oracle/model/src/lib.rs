//! Plain models of documents 01 and 02, and makers of cases. Nothing here calls the library that is compared.

pub mod areas;
pub mod around;
pub mod automaton;
pub mod batch;
pub mod blocks;
pub mod canonical;
pub mod faults;
pub mod files;
pub mod first;
pub mod foreign;
pub mod key_lists;
pub mod kinds;
pub mod numbers;
pub mod opening;
pub mod patterns;
pub mod rust;
pub mod settings;
pub mod sums;
pub mod tied;
pub mod version;
pub mod ways;
