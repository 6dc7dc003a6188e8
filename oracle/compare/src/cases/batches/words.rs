//! Every short list of words over a few bytes.

use model::batch::KeyList;
use model::files::{smallest, worked_file};
use model::version::Version;

use crate::calls::opened::{self, File};
use crate::tally::Tally;

pub fn run(tally: &mut Tally, version: Version) {
    tally.section_of(
        version,
        "batches: every list of up to six words over areas of up to three bytes",
    );
    for (index, areas) in [
        (worked_file(), [&b""[..], b"c", b"gb", b"fbd"]),
        (smallest(), [&b""[..], b"b", b"ca", b"b\0a"]),
    ] {
        let file = opened::open(tally, version, &index.bytes());
        for area in areas {
            every(tally, &file, area);
        }
    }
}

/// Words up to one byte beyond the area, and the greatest one.
fn every(tally: &mut Tally, file: &File, area: &[u8]) {
    let words: Vec<u64> = (0..=area.len() as u64 + 1).chain([u64::MAX]).collect();
    // the most words of a list
    let longest = file.version.pick(6, 4);
    for length in 0..=longest {
        for which in 0..words.len().pow(length) {
            let digit = |k| which / words.len().pow(k) % words.len();
            let list = KeyList {
                pairs: (0..length).map(|k| words[digit(k)]).collect(),
                bytes: area.to_vec(),
            };
            rooms(tally, file, &list);
        }
    }
}

/// Room for all ids, and for a list that can be taken one less, one more and none.
fn rooms(tally: &mut Tally, file: &File, list: &KeyList) {
    let count = list.count();
    file.batch(tally, list, count);
    if list.causes(count).is_empty() {
        for room in [count.saturating_sub(1), count + 1, 0] {
            file.batch(tally, list, room);
        }
    }
}
