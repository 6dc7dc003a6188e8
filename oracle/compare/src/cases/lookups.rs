//! Lookups in a file.

use std::collections::BTreeSet;

use model::around::{self, beside, ids, keys, ords};
use model::key_lists::Layout;
use model::numbers::Numbers;
use model::settings::LIMIT;

use super::batches;
use crate::calls::opened::File;
use crate::tally::Tally;

/// Every lookup with ids, ordinals and keys around those of a file that opens: all of a short one, of a long one those
/// at the ends of groups and `some` others. Then ordinals with other numbers of terms.
pub fn around(tally: &mut Tally, rng: &mut Numbers, file: &mut File, some: usize) {
    let n = file.n();
    let ids = ids(file.version, rng, n, some);
    for &id in ids.iter().chain(&[
        n,
        n + 1,
        n.next_multiple_of(file.version.group_len() as u64),
        1 << 32,
        u64::MAX,
    ]) {
        file.id(tally, id);
        file.separator(tally, id);
    }
    let far = [LIMIT / 2, LIMIT, 1 << 63];
    let ords = ords(&file.opening().blocks, &ids, file.terms());
    for ord in ords.into_iter().chain(far) {
        file.ord(tally, ord);
    }
    let mut pool: Vec<Vec<u8>> = keys(&file.opening().keys, &ids).into_iter().collect();
    pool.push(vec![0xff; 1030]);
    for key in &pool {
        file.key(tally, key);
        file.address(tally, key);
    }
    batches::of_keys(tally, file, &pool);
    with_other_terms(tally, file);
}

/// Ordinals around the first, the last first one and the number of terms, with each number of terms. With the first two of these
/// numbers the file doesn't open; its record may have them all the same.
pub fn with_other_terms(tally: &mut Tally, file: &mut File) {
    let own = file.terms();
    let blocks = &file.opening().blocks;
    let (first, last) = (blocks[0].ord, blocks[blocks.len() - 1].ord);
    for terms in around::terms(last) {
        file.set_terms(terms);
        let ends = [first, last, terms].map(beside);
        let ords: BTreeSet<u64> = ends.into_iter().flatten().chain([u64::MAX]).collect();
        for ord in ords {
            file.ord(tally, ord);
        }
    }
    file.set_terms(own);
}

/// A few lookups of each kind, with any record.
pub fn some(tally: &mut Tally, file: &File) {
    let n = file.n();
    for id in [0, 1, n.wrapping_sub(1), n] {
        file.id(tally, id);
        file.separator(tally, id);
    }
    let around = beside(file.terms());
    for ord in [0, 5, LIMIT / 2, u64::MAX].into_iter().chain(around) {
        file.ord(tally, ord);
    }
    let keys = [&b""[..], b"b", b"c\xff", b"\xff\xff\xff"];
    for key in keys {
        file.key(tally, key);
        file.address(tally, key);
    }
    let list = Layout::Touching.list(&keys);
    file.batch(tally, &list, keys.len());
}
