//! Index files that are read with version 4: where a group's length shows.

use model::blocks::touching;
use model::canonical::groups;
use model::files::{File, short_keys};
use model::foreign::Group;
use model::version::{V3, V4};
use model::ways::gap;

use crate::folder::good::{many, uneven};
use crate::folder::refused::{self, Case};
use crate::folder::{Folder, foreign, one_way};

const TABLE: &str = "version 4";

pub fn files(folder: &mut Folder) {
    for (name, what, count) in [
        (
            "v4-one-group",
            "129 blocks in one group: the blocks and separators of two-groups.index",
            129,
        ),
        ("v4-full-group", "256 blocks: one group", 256),
        (
            "v4-two-groups",
            "257 blocks: the second group has one; the blocks and separators of three-groups.index",
            257,
        ),
    ] {
        let file = File::written(V4, &uneven(count), &many(count));
        folder.opens(TABLE, name, &file.bytes(), what);
    }
    for case in refused() {
        refused::check(V4, &case);
        folder.refused(TABLE, case.0, &case.3, case.2);
    }
    others(folder);
}

/// A file of so many blocks, as the writer makes it.
fn even(count: usize) -> File {
    let blocks = touching(0, &vec![1; count], 0, &vec![1; count - 1]);
    File::written(V4, &blocks, &short_keys(count))
}

fn refused() -> Vec<Case> {
    vec![
        (
            "v4-14-version-3",
            &["records' length"],
            "two-groups.index: its records are those of two groups, and 129 blocks make one",
            File::written(V3, &uneven(129), &many(129)).bytes(),
        ),
        (
            "v4-15-block-count",
            &["block count"],
            "129 blocks in one group, whose record says 128",
            even(129).with(|file| file.record(0, 34, &[127, 0])).bytes(),
        ),
        (
            "v4-15-fields",
            &["fields"],
            "256 blocks, and the last byte of their fields isn't there",
            even(256)
                .with(|file| {
                    file.addresses.pop();
                })
                .bytes(),
        ),
        (
            "v4-16-join",
            &["join"],
            "two groups; the second starts at 257, the first ends at 256 (row 4)",
            even(257).with(|file| file.first_start(1, 257)).bytes(),
        ),
    ]
}

/// Files that open, but that the writer wouldn't write.
fn others(folder: &mut Folder) {
    foreign::last_bit(
        folder,
        V4,
        "v4-foreign-last-bit",
        "256 blocks, both widths 56: the last field ends at bit 28,616, the highest that a group can have",
    );
    let blocks = uneven(260);
    let own = groups(V4, &blocks);
    let [first, second] = [0, 1].map(|k| Group {
        offset: if k == 0 { own[1].length() } else { 0 },
        ..own[k]
    });
    foreign::put(
        folder,
        "v4-foreign-order",
        "two groups, the second one's fields first",
        &[first, second],
        vec![0; own[0].length() + own[1].length()],
    );
    one_way::put(
        folder,
        "v4-27-gap",
        "two groups, a byte between them",
        &blocks,
        &gap(&own, 1, &[0]),
    );
}
