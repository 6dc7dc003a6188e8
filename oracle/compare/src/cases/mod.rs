//! The cases, by topic. A further topic is one more file and one more line of the list.

mod areas;
mod automata;
mod batches;
mod canonical;
mod damage;
mod finishes;
mod foreign;
mod free;
mod fronts;
pub mod keys;
mod late;
mod limit;
mod listings;
mod lists;
mod lookups;
mod sizes;
mod stores;
mod terms;
mod versions;

use crate::tally::Tally;

/// A topic's name, and its cases.
pub const TOPICS: &[(&str, fn(&mut Tally))] = &[
    ("keys", keys::run),
    ("lists", lists::run),
    ("areas", areas::run),
    ("stores", stores::run),
    ("sizes", sizes::run),
    ("damage", damage::run),
    ("foreign", foreign::run),
    ("free", free::run),
    ("automata", automata::run),
    ("listings", listings::run),
    ("fronts", fronts::run),
    ("finishes", finishes::run),
    ("late", late::run),
    ("batches", batches::run),
    ("canonical", canonical::run),
    ("terms", terms::run),
    ("versions", versions::run),
    ("limit", limit::run),
];
