//! Further differences, D37 to D50: fields that give values out of range, records too many, and single calls of the builder.

use model::blocks::block;
use model::rust::{self, Block};
use model::settings::{LIMIT, LONGEST_KEY, MOST_BLOCKS, STRIDE};
use model::version::V3;
use tantivy_sstable::access;

use super::building::{adds, builds, with_keys};
use super::opening::{gives, number, smallest};
use super::{Difference, difference};
use crate::asked::{overflow_checks, quietly};
use crate::calls::{building, stores};
use crate::memory::lent::Lent;
use crate::memory::out::Out;

pub fn all() -> Vec<Difference> {
    let mut all = below_zero();
    all.extend(at_the_limit());
    all.extend(too_many());
    all.extend(single_adds());
    all.extend(two_adds());
    all.push(last_add());
    all.push(shorten());
    all.push(store());
    all
}

/// A field that takes a value below 0.
fn below_zero() -> Vec<Difference> {
    let end = smallest().with(|file| {
        file.slopes(0, 0, 1);
        file.addresses = vec![0x06];
    });
    let ord = smallest().with(|file| {
        file.slopes(0, 1, 0);
        file.addresses = vec![0x05];
    });
    let (end, ord) = (end.bytes(), ord.bytes());
    let said = |panics, gives| if overflow_checks() { panics } else { gives };
    let of_end = "opens it and gives id 0 as 0..18446744073709551615 from 0";
    let of_ord = "opens it and gives id 1 as 1..2 from 18446744073709551615";
    let input = "a field that takes an end below 0";
    let first = (gives(&end, 0), said("opens it and panics at id 0", of_end));
    let second = (gives(&ord, 1), said("opens it and panics at id 1", of_ord));
    vec![
        difference("D37", input, first, (number(&end), "gets 16")),
        difference(
            "D38",
            "a field that takes an ordinal below 0",
            second,
            (number(&ord), "gets 16"),
        ),
    ]
}

/// A field that takes a value to the limit.
fn at_the_limit() -> Vec<Difference> {
    let end = smallest()
        .with(|file| file.first_start(0, LIMIT - 1))
        .bytes();
    let ord = smallest().with(|file| file.first_ord(0, LIMIT - 1)).bytes();
    let of_end = format!("opens it and gives id 0 as {}..{LIMIT} from 0", LIMIT - 1);
    let of_ord = format!("opens it and gives id 1 as 1..2 from {LIMIT}");
    vec![
        difference(
            "D39",
            "an end of 2^55 through a field",
            (gives(&end, 0), &of_end),
            (number(&end), "gets 16"),
        ),
        difference(
            "D40",
            "an ordinal of 2^55 through a field",
            (gives(&ord, 1), &of_ord),
            (number(&ord), "gets 16"),
        ),
    ]
}

/// More records, or more blocks in a group, than the count.
fn too_many() -> Vec<Difference> {
    let records = smallest().with(|file| {
        file.records.extend(file.records.clone());
        file.records_len = file.records.len() as u64;
    });
    let blocks = smallest().with(|file| file.record(0, 34, &[2, 0]));
    let (records, blocks) = (records.bytes(), blocks.bytes());
    let again = "opens it and gives id 128 as 0..1 from 0";
    let more = "opens it and gives id 2 as 2..2 from 1";
    vec![
        difference(
            "D41",
            "the record twice",
            (gives(&records, 128), again),
            (number(&records), "gets 14"),
        ),
        difference(
            "D42",
            "a block count of 3 for 2",
            (gives(&blocks, 2), more),
            (number(&blocks), "gets 15"),
        ),
    ]
}

const TAKEN: &str = "takes them and writes 8 bytes";

fn single_adds() -> Vec<Difference> {
    let one = |id, input, block: Block| {
        let add = [(block, &b""[..])];
        difference(
            id,
            input,
            (builds(&add), TAKEN),
            (adds(&add, STRIDE, 0, 0), "gets 3"),
        )
    };
    vec![
        one("D43", "an add of 1..0", block(1, 0, 0)),
        one("D44", "an add of 0..2^55", block(0, LIMIT, 0)),
        one("D45", "an add from ordinal 2^55 on", block(0, 0, LIMIT)),
    ]
}

/// The Rust's builder takes them; what it writes of them isn't compared.
fn takes(blocks: &[(Block, &[u8])]) -> String {
    let taken = quietly(|| {
        let mut builder = access::Builder::default();
        blocks
            .iter()
            .for_each(|&(block, key)| builder.add_block(key, block));
    });
    let word = if taken.is_some() {
        "takes"
    } else {
        "panics at one of"
    };
    format!("{word} {} blocks", blocks.len())
}

fn two_adds() -> Vec<Difference> {
    let two = |id, input, blocks: [Block; 2], number| {
        let both = [(blocks[0], &b""[..]), (blocks[1], &b"\x00"[..])];
        let here = adds(&both, 2 * STRIDE, 1, 0);
        difference(id, input, (takes(&both), "takes 2 blocks"), (here, number))
    };
    vec![
        two(
            "D46",
            "adds of 0..0, 1..1",
            [block(0, 0, 0), block(1, 1, 1)],
            "gets 4",
        ),
        two(
            "D47",
            "adds with ordinals 0, 0",
            [block(0, 0, 0), block(0, 0, 0)],
            "gets 5",
        ),
    ]
}

fn last_add() -> Difference {
    let keys: Vec<Vec<u8>> = (0..=MOST_BLOCKS)
        .map(|i| i.to_be_bytes()[5..].to_vec())
        .collect();
    let names: Vec<&[u8]> = keys.iter().map(Vec::as_slice).collect();
    let blocks = with_keys(&names);
    let here = adds(&blocks, STRIDE * blocks.len(), 3 * blocks.len(), 0);
    difference(
        "D48",
        "an add after 65,536 blocks",
        (takes(&blocks), "takes 65537 blocks"),
        (here, "gets 7"),
    )
}

fn shorten() -> Difference {
    let next = vec![0; LONGEST_KEY + 1];
    let mut builder = access::Builder::default();
    let answer = match quietly(|| builder.shorten_last_block_key_given_next_key(&next)) {
        None => "panics",
        Some(()) if builder.last_key().is_none() => "takes it and does nothing",
        Some(()) => "takes it",
    };
    let no = building::shorten(
        0,
        &mut Lent::new(&[]),
        &mut Lent::new(&[]),
        &Lent::new(&next),
    );
    let input = "a shorten with a next key of 1,025 bytes, before any block";
    difference(
        "D49",
        input,
        (answer.to_string(), "takes it and does nothing"),
        (format!("gets {no}"), "gets 2"),
    )
}

fn store() -> Difference {
    let answer = match quietly(|| rust::write_store(V3, &[])) {
        None => "panics".to_string(),
        Some(bytes) => format!("writes {} bytes", bytes.len()),
    };
    let no = stores::call(
        V3.number(),
        &Lent::new(&[]),
        &mut Lent::new(&[]),
        &mut Out::new(),
    );
    let here = (format!("gets {no}"), "gets 9");
    difference(
        "D50",
        "the slice of no blocks into no bytes",
        (answer, "writes 8 bytes"),
        here,
    )
}
