//! Files, and lookups in them.

use model::blocks::touching;
use model::files::{File as Parts, keys_of_one_byte, worked_file};
use model::rust::{self, Block, Index};
use model::settings::{LIMIT, OPENED_LEN};
use model::version::{V3, Version};

use super::{Difference, difference};
use crate::asked::{overflow_checks, quietly};
use crate::calls::{lookups, opened};
use crate::memory::lent::Lent;
use crate::memory::out::Out;

/// What the Rust does with a file.
fn opens(bytes: &[u8]) -> String {
    match quietly(|| Index::try_open(V3, bytes).is_ok()) {
        None => "panics",
        Some(true) => "opens it",
        Some(false) => "refuses it",
    }
    .to_string()
}

/// The Rust's answer for an id, in a file that it opens.
pub fn gives(bytes: &[u8], id: u64) -> String {
    format!("opens it and {}", by_id(&Index::open(V3, bytes), id))
}

/// The same alone.
pub fn by_id(index: &Index, id: u64) -> String {
    match quietly(|| index.get_block(id)) {
        None => format!("panics at id {id}"),
        Some(None) => format!("finds no id {id}"),
        Some(Some(Block { start, end, ord })) => {
            format!("gives id {id} as {start}..{end} from {ord}")
        }
    }
}

/// The library's number for a file, with as many terms as there can be.
pub fn number(bytes: &[u8]) -> String {
    number_in(V3, bytes)
}

/// The same in either version.
pub fn number_in(version: Version, bytes: &[u8]) -> String {
    let mut record = Lent::buffer(OPENED_LEN);
    let no = opened::call(version.number(), u64::MAX, &Lent::new(bytes), &mut record);
    let more = if no == 0 || record.holds(&[0; OPENED_LEN]) {
        ""
    } else {
        " and a record"
    };
    format!("gets {no}{more}")
}

fn file(blocks: &[Block], keys: &[Vec<u8>]) -> Vec<u8> {
    Parts::new(keys, &rust::write_store(V3, blocks)).bytes()
}

/// A file of two blocks, 0..1 and 1..2 from ordinals 0 and 1 on, with the keys of fewest bytes.
pub fn smallest() -> Parts {
    let parts = Parts::written(V3, &touching(0, &[1, 1], 0, &[1]), &[vec![], vec![0]]);
    assert_eq!(
        (parts.bytes().len(), number(&parts.bytes())),
        (74, "gets 0".to_string())
    );
    parts
}

pub fn all() -> Vec<Difference> {
    let mut all = footers();
    all.extend(directories());
    all.extend(records());
    all.extend(widths());
    all.extend(fields());
    all.extend(firsts());
    all.extend(orders());
    all.push(below());
    all.push(above());
    all
}

fn footers() -> Vec<Difference> {
    let empty = [0; 8];
    let beyond = 1u64.to_le_bytes();
    let no_store = [&[0; 4][..], &4u64.to_le_bytes()].concat();
    vec![
        difference(
            "D1",
            "an empty file",
            (opens(b""), "panics"),
            (number(b""), "gets 10"),
        ),
        difference(
            "D2",
            "8 zero bytes",
            (gives(&empty, 0), "opens it and gives id 0 as 0..0 from 0"),
            (number(&empty), "gets 11"),
        ),
        difference(
            "D3",
            "8 bytes whose directory length is 1",
            (opens(&beyond), "panics"),
            (number(&beyond), "gets 10"),
        ),
        difference(
            "D4",
            "12 bytes whose directory length is 4, with no store",
            (opens(&no_store), "panics"),
            (number(&no_store), "gets 10"),
        ),
    ]
}

fn directories() -> Vec<Difference> {
    let none = file(&[], &[]);
    let one = file(&touching(0, &[0], 0, &[]), &[vec![]]);
    let count = 65_537;
    let many = file(
        &touching(0, &vec![0; count], 0, &vec![1; count - 1]),
        &(0..count)
            .map(|i| i.to_be_bytes()[5..].to_vec())
            .collect::<Vec<_>>(),
    );
    let two = touching(0, &[0, 0], 0, &[1]);
    let long = file(&two, &[vec![], vec![0; 1025]]);
    let given = "opens it and gives id 0 as 0..0 from 0";
    vec![
        difference(
            "D5",
            "a file of no blocks",
            (opens(&none), "opens it"),
            (number(&none), "gets 12"),
        ),
        difference(
            "D6",
            "a file of one block",
            (gives(&one, 0), given),
            (number(&one), "gets 12"),
        ),
        difference(
            "D7",
            "a file of 65,537 blocks",
            (gives(&many, 0), given),
            (number(&many), "gets 12"),
        ),
        difference(
            "D8",
            "a key of 1,025 bytes",
            (gives(&long, 0), given),
            (number(&long), "gets 12"),
        ),
    ]
}

fn records() -> Vec<Difference> {
    let short = smallest().with(|file| file.records_len = 35).bytes();
    let beyond = smallest().with(|file| file.records_len = 38).bytes();
    let unfound = "opens it and finds no id 0";
    vec![
        difference(
            "D9",
            "records' length 35",
            (gives(&short, 0), unfound),
            (number(&short), "gets 14"),
        ),
        difference(
            "D10",
            "records' length 38",
            (opens(&beyond), "panics"),
            (number(&beyond), "gets 14"),
        ),
    ]
}

fn widths() -> Vec<Difference> {
    let none = smallest().with(|file| file.widths(0, 1, 0)).bytes();
    let wide = smallest().with(|file| file.widths(0, 1, 57)).bytes();
    let panics = "opens it and panics at id 0";
    let read = if overflow_checks() {
        panics
    } else {
        "opens it and gives id 0 as 0..9223372036854775809 from 0"
    };
    vec![
        difference(
            "D11",
            "a width of 0",
            (gives(&none, 0), read),
            (number(&none), "gets 15"),
        ),
        difference(
            "D12",
            "a width of 57",
            (gives(&wide, 0), panics),
            (number(&wide), "gets 15"),
        ),
    ]
}

fn fields() -> Vec<Difference> {
    let count = smallest().with(|file| file.record(0, 34, &[0, 0])).bytes();
    let none = smallest().with(|file| file.addresses.clear()).bytes();
    let offset = smallest().with(|file| file.offset(0, 2)).bytes();
    let (unfound, panics) = ("opens it and finds no id 1", "opens it and panics at id 0");
    let zeros = "opens it and gives id 0 as 0..0 from 0";
    vec![
        difference(
            "D13",
            "a block count of 1 for 2",
            (gives(&count, 1), unfound),
            (number(&count), "gets 15"),
        ),
        difference(
            "D14",
            "no address bytes",
            (gives(&none, 0), zeros),
            (number(&none), "gets 15"),
        ),
        difference(
            "D15",
            "an offset of 2",
            (gives(&offset, 0), panics),
            (number(&offset), "gets 15"),
        ),
    ]
}

fn firsts() -> Vec<Difference> {
    let top = smallest().with(|file| file.first_start(0, LIMIT)).bytes();
    let ord = smallest().with(|file| file.first_ord(0, LIMIT)).bytes();
    let start = format!("opens it and gives id 0 as {LIMIT}..{} from 0", LIMIT + 1);
    let from = format!("opens it and gives id 0 as 0..1 from {LIMIT}");
    vec![
        difference(
            "D16",
            "a first start of 2^55",
            (gives(&top, 0), &start),
            (number(&top), "gets 16"),
        ),
        difference(
            "D17",
            "a first ordinal of 2^55",
            (gives(&ord, 0), &from),
            (number(&ord), "gets 16"),
        ),
    ]
}

/// Blocks 0..3 and 3..0.
fn falling() -> Vec<u8> {
    let fall = |file: &mut Parts| {
        file.slopes(0, 0, 1);
        file.widths(0, 1, 3);
        file.addresses = vec![0x4f];
    };
    smallest().with(fall).bytes()
}

/// 129 empty blocks at 0, the last one at 1.
fn gap() -> Vec<u8> {
    let blocks = touching(0, &[0; 129], 0, &[1; 128]);
    let parts = Parts::new(&keys_of_one_byte(129), &rust::write_store(V3, &blocks));
    parts.with(|file| file.first_start(1, 1)).bytes()
}

fn orders() -> Vec<Difference> {
    let (falls, gap) = (falling(), gap());
    let same = smallest().with(|file| file.slopes(0, 1, 0)).bytes();
    let fall = "opens it and gives id 1 as 3..0 from 1";
    let away = "opens it and gives id 128 as 1..1 from 128";
    let again = "opens it and gives id 1 as 1..2 from 0";
    vec![
        difference(
            "D18",
            "an end below its start",
            (gives(&falls, 1), fall),
            (number(&falls), "gets 16"),
        ),
        difference(
            "D19",
            "a start away from the end before",
            (gives(&gap, 128), away),
            (number(&gap), "gets 16"),
        ),
        difference(
            "D20",
            "ordinals 0, 0",
            (gives(&same, 1), again),
            (number(&same), "gets 16"),
        ),
    ]
}

/// What the Rust does with an ordinal in a file, and what the library does with it, opened with so many terms.
fn ordinal(bytes: &[u8], terms: u64, ord: u64) -> [String; 2] {
    let index = Index::open(V3, bytes);
    let answer = match quietly(|| index.get_and_locate_with_ord(ord)) {
        None => "panics".to_string(),
        Some((id, _)) => format!("gives id {id}"),
    };
    let (lent, mut record) = (Lent::new(bytes), Lent::buffer(OPENED_LEN));
    assert_eq!(opened::call(V3.number(), terms, &lent, &mut record), 0);
    let no = lookups::locate_with_ord(&lent, &record, ord, &mut Out::some());
    [answer, format!("gets {no}")]
}

fn below() -> Difference {
    let keys = [vec![], vec![0]];
    let bytes = file(&touching(0, &[0, 0], 1, &[1]), &keys);
    let [rust, here] = ordinal(&bytes, u64::MAX, 0);
    let input = "ordinal 0 in a file whose first is 1";
    difference("D21", input, (rust, "panics"), (here, "gets 18"))
}

fn above() -> Difference {
    let [rust, here] = ordinal(&worked_file().bytes(), 12, 12);
    let input = "ordinal 12 in the worked file, which has 12 terms";
    difference("D51", input, (rust, "gives id 2"), (here, "gets 29"))
}
