//! Files of one version, opened with the other, D52 to D54.

use model::blocks::touching;
use model::files::{File as Parts, keys_of_one_byte};
use model::rust::{Block, Index};
use model::version::{V3, V4, Version};

use super::opening::{by_id, number_in};
use super::{Difference, difference};
use crate::asked::quietly;

/// Blocks i..i+1 from ordinal i on, as the Rust of the version writes them: the empty key, then keys of one byte.
fn file(version: Version, n: usize, len: usize) -> Vec<u8> {
    let blocks = touching(0, &vec![1; n], 0, &vec![1; n - 1]);
    let keys = [vec![vec![]], keys_of_one_byte(n - 1)].concat();
    let bytes = Parts::written(version, &blocks, &keys).bytes();
    assert_eq!(bytes.len(), len);
    bytes
}

/// What the Rust of a version does with a file: its answers for some ids, then for an ordinal.
fn reads(version: Version, bytes: &[u8], ids: &[u64], ord: u64) -> String {
    let index = Index::open(version, bytes);
    let mut said: Vec<String> = ids.iter().map(|&id| by_id(&index, id)).collect();
    said.push(match quietly(|| index.get_and_locate_with_ord(ord)) {
        None => format!("panics at ordinal {ord}"),
        Some((id, Block { start, end, .. })) => {
            format!("gives ordinal {ord} as id {id}, {start}..{end}")
        }
    });
    format!("opens it, {}", said.join(", "))
}

/// The library's numbers for a file of this version.
fn numbers(version: Version, bytes: &[u8]) -> String {
    let [own, other] = [version, version.other()].map(|version| number_in(version, bytes));
    format!("{other}, with its own version {own}")
}

pub fn all() -> Vec<Difference> {
    let (four, three) = (file(V4, 129, 1_249), file(V3, 129, 1_285));
    let more = file(V4, 257, 2_469);
    let here = "gets 14, with its own version gets 0";
    vec![
        difference(
            "D52",
            "129 blocks of version 4 opened with 3",
            (
                reads(V3, &four, &[128], 128),
                "opens it, finds no id 128, gives ordinal 128 as id 128, 128..129",
            ),
            (numbers(V4, &four), here),
        ),
        difference(
            "D53",
            "129 blocks of version 3 opened with 4",
            (
                reads(V4, &three, &[128, 256], 128),
                "opens it, finds no id 128, gives id 256 as 128..129 from 128, gives ordinal 128 as id 256, 128..129",
            ),
            (numbers(V3, &three), here),
        ),
        difference(
            "D54",
            "257 blocks of version 4 opened with 3",
            (
                reads(V3, &more, &[128, 256], 256),
                "opens it, gives id 128 as 256..257 from 256, finds no id 256, gives ordinal 256 as id 128, 256..257",
            ),
            (numbers(V4, &more), here),
        ),
    ]
}
