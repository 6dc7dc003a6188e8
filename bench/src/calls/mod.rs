//! The calls that are timed: a file for each family of them. A new family is a file, and a line in `FAMILIES`.

pub mod add;
pub mod by_id;
pub mod by_key;
pub mod by_keys;
pub mod by_ordinal;
pub mod canonical;
pub mod example;
pub mod finish;
pub mod listing;
pub mod opening;
pub mod shorten;
pub mod store;

use tantivy_sstable::Rust;

use crate::inputs::Input;
use crate::plot::Scale;
use crate::report::Report;

/// Whose code a call is compared with.
#[derive(Clone, Copy, Debug, PartialEq, Eq)]
pub enum Whose {
    /// tantivy's alone
    Tantivy,
    /// tantivy's, and under it stand-ins of ours for other crates
    Both,
    /// ours alone
    Ours,
}

impl Whose {
    pub fn name(self) -> &'static str {
        match self {
            Whose::Tantivy => "tantivy",
            Whose::Both => "tantivy + stand-ins",
            Whose::Ours => "ours",
        }
    }
}

/// Which plots a call has.
#[derive(Clone, Copy, Debug, PartialEq, Eq)]
pub enum Plots {
    None,
    /// A panel for each workload
    One,
    /// The same, in a plot for each kind of keys
    ByKeys,
    /// A panel for each kind of keys, with a line for each pattern
    Lines,
}

/// A row's `what`, and what the document says of it.
pub struct Call {
    pub what: &'static str,
    /// What is timed on our side
    pub ours: &'static str,
    /// What the ratio is taken with
    pub with: &'static str,
    pub whose: Whose,
    /// What the other side is made of, and what the ratio says for that reason
    pub says: &'static str,
    pub scale: Scale,
    pub plots: Plots,
}

/// What is said of a call in version 4. It stands behind the same call in version 3.
pub const IN_V4: &str = "As above, in version 4: groups of 256 blocks.";

/// Of a call in both versions the one that is meant.
pub fn in_version<R: Rust>(v3: &'static Call, v4: &'static Call) -> &'static Call {
    if R::VERSION == 4 { v4 } else { v3 }
}

/// Measures a family's rows for one index.
pub type Measure = fn(&mut Report, &Input);

pub struct Family {
    pub calls: &'static [Call],
    /// For indexes of version 3
    pub measure: Measure,
    /// For indexes of version 4, where the family has rows of theirs
    pub measure_v4: Option<Measure>,
}

/// In the document's order.
pub const FAMILIES: [Family; 12] = [
    add::FAMILY,
    shorten::FAMILY,
    finish::FAMILY,
    store::FAMILY,
    opening::FAMILY,
    canonical::FAMILY,
    by_id::FAMILY,
    by_ordinal::FAMILY,
    by_key::FAMILY,
    by_keys::FAMILY,
    listing::FAMILY,
    example::FAMILY,
];

pub fn calls() -> impl Iterator<Item = &'static Call> {
    FAMILIES.iter().flat_map(|family| family.calls)
}
