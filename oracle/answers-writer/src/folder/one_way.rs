//! Index files that differ in one way from what the Rust's builder writes of the same blocks and separators.

use tantivy_sstable::access::Block;

use crate::folder::{Folder, table, version_of};
use model::blocks::{WORKED, touching};
use model::canonical::{NOT_CANONICAL, groups, number};
use model::files::File;
use model::foreign::Group;
use model::opening;
use model::version::V3;
use model::ways::{Way, exchanged, gap, padding, shared, slopes, with};

/// Keys of two bytes.
fn keys(count: usize) -> Vec<Vec<u8>> {
    (0..count)
        .map(|i| vec![b'b' + (i / 64) as u8, (2 * (i % 64)) as u8])
        .collect()
}

pub fn put(folder: &mut Folder, name: &str, what: &str, blocks: &[Block], store: &[u8]) {
    let bytes = File::new(&keys(blocks.len()), store).bytes();
    let opening = opening::open(version_of(name), &bytes);
    assert_eq!(opening.blocks, blocks, "{name}");
    assert_eq!(number(&opening, &bytes), NOT_CANONICAL, "{name}");
    folder.opens(table(name, "one way"), name, &bytes, what);
}

/// The last of the stores in which this differs.
fn last(stores: Vec<(Way, Vec<u8>)>, way: Way) -> Vec<u8> {
    let mut all = stores.into_iter().rev();
    all.find(|store| store.0 == way).expect("a store").1
}

pub fn files(folder: &mut Folder) {
    one_group(folder);
    more_groups(folder);
}

fn one_group(folder: &mut Folder) {
    let own = groups(V3, &WORKED);
    for (name, what, store) in [
        (
            "27-gap-before",
            "a byte before the fields",
            gap(&own, 0, &[0]),
        ),
        (
            "27-byte-behind",
            "a byte behind the fields",
            gap(&own, 1, &[0]),
        ),
        (
            "27-padding",
            "the first padding bit is 1",
            padding(&own, 0).swap_remove(0).1,
        ),
        (
            "27-wider-range-field",
            "range fields of 4 bits, 3 are enough",
            with(&own, 0, |group| group.range_width += 1),
        ),
        (
            "27-wider-ordinal-field",
            "ordinal fields of 3 bits, 2 are enough",
            with(&own, 0, |group| group.ord_width += 1),
        ),
        (
            "27-other-ordinal-slope",
            "ordinal slope 4, with which 2 bits are enough too; the writer's is 5",
            with(&own, 0, |group| group.ord_slope = 4),
        ),
    ] {
        put(folder, name, what, &WORKED, &store);
    }
    let two = touching(0, &[1, 2], 0, &[1]);
    put(
        folder,
        "27-other-range-slope",
        "range slope 1, with which 2 bits are enough too; the writer's is 2",
        &two,
        &last(slopes(&groups(V3, &two), 0), Way::RangeSlope),
    );
}

fn more_groups(folder: &mut Folder) {
    let lengths: Vec<u64> = (0..131).map(|i| i * i % 37).collect();
    let uneven = touching(70, &lengths, 5, &[3; 130]);
    let own = groups(V3, &uneven);
    for (name, what, store) in [
        (
            "27-gap",
            "two groups, a byte between them",
            gap(&own, 1, &[0]),
        ),
        (
            "27-padding-first-group",
            "two groups, a padding bit of the first one is 1",
            padding(&own, 0).swap_remove(0).1,
        ),
        (
            "27-wider-last-group",
            "two groups, range fields of the second one with a bit more than is needed",
            with(&own, 1, |group| group.range_width += 1),
        ),
        (
            "27-exchanged-groups",
            "two groups, the second one's fields first",
            exchanged(&own, 0),
        ),
    ] {
        put(folder, name, what, &uneven, &store);
    }
    let even = touching(9, &[6; 140], 3, &[2; 139]);
    put(
        folder,
        "27-shared-groups",
        "two groups, one set of fields for both",
        &even,
        &shared(&groups(V3, &even), 0).expect("equal fields"),
    );
    let one_more = &even[..129];
    let own: Vec<Group> = groups(V3, one_more);
    put(
        folder,
        "27-unused-slope",
        "a last group of one block with ordinal slope 1: no field needs it, and the writer's is 0",
        one_more,
        &with(&own, 1, |group| group.ord_slope = 1),
    );
    put(
        folder,
        "27-unused-width",
        "a last group of one block with ordinal width 2: no field needs it, and the writer's is 1",
        one_more,
        &with(&own, 1, |group| group.ord_width = 2),
    );
}
