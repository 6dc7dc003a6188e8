//! Lookups of several keys at once.

mod orders;
mod others;
mod refused;
mod words;

use model::key_lists::{LAYOUTS, Order};
use model::numbers::Numbers;
use model::settings::MOST_KEYS;
use model::version::VERSIONS;

use crate::calls::opened::File;
use crate::tally::Tally;

/// A version tells nothing but which records are refused: version 4 gets fewer lists.
pub fn run(tally: &mut Tally) {
    for version in VERSIONS {
        words::run(tally, version);
        refused::run(tally, version);
        orders::run(tally, version);
        others::run(tally, version);
    }
}

/// Keys that were looked for one by one, in two lists.
pub fn of_keys(tally: &mut Tally, file: &File, pool: &[Vec<u8>]) {
    // numbers of its own: the other lookups' cases stay as they are
    let rng = &mut Numbers::from_seed(file.n());
    let count = pool.len().min(MOST_KEYS);
    for order in [Order::Falling, rng.pick(&[Order::Mixed, Order::Turns])] {
        let list = rng.pick(&LAYOUTS).list(&order.keys(rng, pool, count));
        let room = count + rng.pick(&[0, 0, 1, 5]);
        file.batch(tally, &list, room);
    }
}
