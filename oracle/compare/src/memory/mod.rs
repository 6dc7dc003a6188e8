//! Memory that is lent to a call.

pub mod lent;
mod mapping;
pub mod out;
pub mod touched;
