//! Every byte of canonical files with every other value.

use model::blocks::touching;
use model::canonical::{NOT_CANONICAL, groups};
use model::files::{File as Parts, keys_of_one_byte, smallest, two_group_file, worked_file};
use model::rust::Block;
use model::settings::LIMIT;
use model::version::Version;

use crate::calls::opened;
use crate::tally::Tally;

/// What the check can say.
const NUMBERS: [u64; 9] = [0, 10, 11, 12, 13, 14, 15, 16, NOT_CANONICAL];

/// A name, the file, from which byte on it is changed, and the numbers that no such change gives.
type Case = (&'static str, Parts, usize, &'static [u64]);

pub fn run(tally: &mut Tally, version: Version) {
    tally.section_of(
        version,
        "canonical: every byte of canonical files with every other value",
    );
    for (name, parts, from, never) in files(version) {
        let file = parts.bytes();
        assert_eq!(opened::open(tally, version, &file).checked, 0, "{name}");
        let mut seen = [0u64; NOT_CANONICAL as usize + 1];
        for at in from..file.len() {
            for value in (0..=u8::MAX).filter(|&value| value != file[at]) {
                let mut bytes = file.clone();
                bytes[at] = value;
                let changed = opened::open(tally, version, &bytes);
                seen[changed.checked as usize] += 1;
            }
        }
        let told = NUMBERS.map(|no| format!("{no}: {}", seen[no as usize]));
        println!("  {name}: {}", told.join(", "));
        for no in NUMBERS {
            let expected = !never.contains(&no);
            assert_eq!(seen[no as usize] > 0, expected, "{name}: {no}");
        }
    }
}

/// In version 4 those alone that are others there: the short ones are the same.
fn files(version: Version) -> Vec<Case> {
    let top = touching(LIMIT - 11, &[5, 5, 0], LIMIT - 9, &[1, 7]);
    let keys = [b"".to_vec(), b"\x00".to_vec(), b"\xff\xff".to_vec()];
    let whole = whole_bytes(version);
    let (one_more, two_more) = (two_group_file(version, 1), two_group_file(version, 2));
    let (one_from, two_from) = (one_more.directory.len(), two_more.directory.len());
    let short: Vec<Case> = vec![
        ("worked", worked_file(), 0, &[]),
        ("smallest", smallest(), 0, &[]),
        // the empty key, 00 and ff ff rise whatever one byte of them is
        ("top", Parts::written(version, &top, &keys), 0, &[13]),
        ("no padding", whole, 0, &[]),
    ];
    // from their stores on: keys stay as they are, and the directory's length has two bytes that aren't 0
    let long: Vec<Case> = vec![
        ("a group and a block", one_more, one_from, &[11, 13]),
        ("a group and two blocks", two_more, two_from, &[11, 13]),
    ];
    let some = version.pick(short.len(), 1);
    short.into_iter().take(some).chain(long).collect()
}

/// A file whose fields fill their bytes: the first of some lists.
fn whole_bytes(version: Version) -> Parts {
    let list = |i: u64| touching(40, &[3, i % 30, 9, 9], 7, &[5, 1, i]);
    let fills = |blocks: &Vec<Block>| groups(version, blocks)[0].bits() % 8 == 0;
    let blocks = (1..1000).map(list).find(fills).expect("a list");
    Parts::written(version, &blocks, &keys_of_one_byte(4))
}
