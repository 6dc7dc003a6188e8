//! Blocks and keys that are handed over, and automata.

use model::blocks::{block, touching};
use model::rust::{self, Block, Store};
use model::settings::{GROUP_RECORD, LIMIT};
use model::version::V3;
use tantivy_fst::Automaton;
use tantivy_sstable::access;

use super::{Difference, difference};
use crate::asked::{overflow_checks, quietly};
use crate::calls::intervals::{Keys, can_block_match};
use crate::calls::{building, stores};
use crate::memory::lent::Lent;
use crate::memory::out::{Out, values};

/// What the Rust does with a slice of blocks.
pub fn writes(blocks: &[Block]) -> String {
    let Some(bytes) = quietly(|| rust::write_store(V3, blocks)) else {
        return "panics".to_string();
    };
    let store = Store::open(V3, &bytes);
    let gives = |id: usize| quietly(|| store.get(id as u64));
    let other = (0..blocks.len()).find(|&id| gives(id) != Some(Some(blocks[id])));
    match other.map(|id| (id, gives(id))) {
        None => BACK.to_string(),
        Some((id, None)) => {
            let width = bytes[8 + GROUP_RECORD * (id / V3.group_len()) + 33];
            format!("writes a store of range width {width}, and panics when id {id} is read")
        }
        Some((id, Some(block))) => format!("writes a store that gives id {id} as {block:?}"),
    }
}

/// The library's number for the slice.
fn store(blocks: &[Block]) -> String {
    let mut out = Lent::buffer(2_000_000);
    let mut len = Out::new();
    let no = stores::call(
        V3.number(),
        &Lent::new(&stores::flat(blocks)),
        &mut out,
        &mut len,
    );
    let more = if no == 0 || len.is(0) {
        ""
    } else {
        " and a length"
    };
    format!("gets {no}{more}")
}

/// What the Rust's builder does with blocks and keys.
pub fn builds(blocks: &[(Block, &[u8])]) -> String {
    match quietly(|| rust::write_index(V3, blocks)) {
        None => "takes them, and fails when it writes".to_string(),
        Some(bytes) => format!("takes them and writes {} bytes", bytes.len()),
    }
}

/// The library's numbers for the same adds, then that of a finish.
pub fn adds(blocks: &[(Block, &[u8])], room: usize, key_room: usize, out: usize) -> String {
    let (mut places, mut keys) = (Lent::buffer(room), Lent::buffer(key_room));
    let mut n = Out::of(0);
    for &(block, key) in blocks {
        let no = building::add(&mut n, &mut places, &mut keys, &Lent::new(key), block);
        if no != 0 {
            return format!("gets {no}");
        }
    }
    let (mut written, mut lengths) = (Lent::buffer(out), Out::some());
    let no = building::finish(
        V3.number(),
        n.value(),
        &places,
        &keys,
        &mut written,
        &mut lengths,
    );
    match no {
        0 => format!("writes {} bytes", values(&lengths).0[0]),
        no => format!("gets {no}"),
    }
}

pub fn all() -> Vec<Difference> {
    let mut all = numbers();
    all.extend(slices());
    all.extend(added());
    all.extend(finished());
    all.push(shorten());
    all.push(states());
    all
}

const BACK: &str = "writes a store that gives them back";

fn numbers() -> Vec<Difference> {
    let falls = [block(1, 0, 0)];
    let top = [block(0, LIMIT, 0)];
    let ord = [block(0, 0, LIMIT)];
    let wraps = if overflow_checks() { "panics" } else { BACK };
    let wide = "writes a store of range width 57, and panics when id 0 is read";
    vec![
        difference(
            "D22",
            "the slice 1..0",
            (writes(&falls), wraps),
            (store(&falls), "gets 3"),
        ),
        difference(
            "D23",
            "the slice 0..2^55",
            (writes(&top), wide),
            (store(&top), "gets 3"),
        ),
        difference(
            "D24",
            "a slice from ordinal 2^55 on",
            (writes(&ord), BACK),
            (store(&ord), "gets 3"),
        ),
    ]
}

fn slices() -> Vec<Difference> {
    let gap = [block(0, 0, 0), block(1, 1, 1)];
    let same = [block(0, 0, 0), block(0, 0, 0)];
    let lower = [block(0, 0, 1), block(0, 0, 0)];
    let many = touching(0, &vec![0; 65_537], 0, &vec![1; 65_536]);
    let wraps = if overflow_checks() { "panics" } else { BACK };
    let other = "writes a store that gives id 0 as Some(Block { start: 0, end: 1, ord: 0 })";
    vec![
        difference(
            "D25",
            "the slice 0..0, 1..1",
            (writes(&gap), other),
            (store(&gap), "gets 4"),
        ),
        difference(
            "D26",
            "a slice with ordinals 0, 0",
            (writes(&same), BACK),
            (store(&same), "gets 5"),
        ),
        difference(
            "D27",
            "a slice with ordinals 1, 0",
            (writes(&lower), wraps),
            (store(&lower), "gets 5"),
        ),
        difference(
            "D28",
            "a slice of 65,537 blocks",
            (writes(&many), BACK),
            (store(&many), "gets 7"),
        ),
    ]
}

/// An empty block from ordinal 0 on and, with a second key, one from 1 on.
pub fn with_keys<'a>(keys: &[&'a [u8]]) -> Vec<(Block, &'a [u8])> {
    let ords = 0..keys.len() as u64;
    ords.zip(keys)
        .map(|(ord, &key)| (block(0, 0, ord), key))
        .collect()
}

fn added() -> Vec<Difference> {
    let key = vec![0; 1025];
    let long = with_keys(&[&key]);
    let same = with_keys(&[b"\x00", b"\x00"]);
    let one = with_keys(&[b""]);
    let footer = "takes them and writes 8 bytes";
    let fails = "takes them, and fails when it writes";
    vec![
        difference(
            "D29",
            "an add of a key of 1,025 bytes",
            (builds(&long), footer),
            (adds(&long, 5, 1025, 0), "gets 2"),
        ),
        difference(
            "D30",
            "an add of key 00 after 00",
            (builds(&same), fails),
            (adds(&same, 10, 2, 500), "gets 6"),
        ),
        difference(
            "D31",
            "an add in an area of no numbers",
            (builds(&one), footer),
            (adds(&one, 0, 0, 0), "gets 7"),
        ),
    ]
}

fn finished() -> Vec<Difference> {
    let (none, one) = (with_keys(&[]), with_keys(&[b""]));
    let two = with_keys(&[b"", b"\x00"]);
    let (footer, whole) = (
        "takes them and writes 8 bytes",
        "takes them and writes 74 bytes",
    );
    let nothing = "writes 0 bytes";
    vec![
        difference(
            "D32",
            "a finish of two blocks into no bytes",
            (builds(&two), whole),
            (adds(&two, 10, 1, 0), "gets 9"),
        ),
        difference(
            "D33",
            "a finish of no blocks",
            (builds(&none), footer),
            (adds(&none, 0, 0, 100), nothing),
        ),
        difference(
            "D34",
            "a finish of one block",
            (builds(&one), footer),
            (adds(&one, 5, 0, 100), nothing),
        ),
    ]
}

fn shorten() -> Difference {
    let answer = match quietly(|| access::find_shorter_str_in_between(b"", b"")) {
        None => "panics".to_string(),
        Some(short) => format!("gives {short:x?}"),
    };
    let mut blocks = Lent::new(&[0, 0, 0, 0, 0]);
    let no = building::shorten(1, &mut blocks, &mut Lent::new(&[]), &Lent::new(&[]));
    difference(
        "D35",
        "an empty key shortened before an empty one",
        (answer, "panics"),
        (format!("gets {no}"), "gets 6"),
    )
}

/// 65 states, one after the other; the last accepts.
struct Long;

impl Automaton for Long {
    type State = u8;

    fn start(&self) -> u8 {
        0
    }

    fn is_match(&self, state: &u8) -> bool {
        *state == 64
    }

    fn can_match(&self, _: &u8) -> bool {
        true
    }

    fn accept(&self, state: &u8, _: u8) -> u8 {
        (state + 1) % 65
    }
}

fn states() -> Difference {
    let answer = quietly(|| access::can_block_match_automaton(None, &[0; 64], &Long));
    let next = |i: usize| ((i / 256 + 1) % 65) as u8;
    let mut bytes = vec![65];
    bytes.extend((0..65).map(|state| u8::from(state == 64)));
    bytes.extend((0..256 * 65).map(next));
    let mut matches = Out::new();
    let keys = Keys::new(None, b"", &[0; 64]);
    let no = can_block_match(&keys, &Lent::new(&bytes), &mut matches);
    difference(
        "D36",
        "an automaton of 65 states",
        (format!("answers {answer:?}"), "answers Some(true)"),
        (format!("gets {no}"), "gets 21"),
    )
}
