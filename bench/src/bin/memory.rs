//! The stack that each call of the archive takes, the deeper one of both versions, and what the Rust's calls allocate, in
//! version 3. A line each, tabs between the parts.

use std::alloc::{GlobalAlloc, Layout, System};
use std::arch::asm;
use std::hint::black_box;
use std::sync::atomic::{AtomicUsize, Ordering::Relaxed};

use common::OwnedBytes;
use rosmarel_bench::calls::by_keys::{BATCH, Batch};
use rosmarel_bench::ffi;
use rosmarel_bench::inputs::{Input, Keys, areas, rust_builder, theirs};
use rosmarel_bench::patterns::{self, Table};
use tantivy_sstable::{Block, Builder as _, Index as _, Rust, V3, V4, access};

static COUNT: AtomicUsize = AtomicUsize::new(0);
static BYTES: AtomicUsize = AtomicUsize::new(0);

struct Counting;

#[global_allocator]
static COUNTING: Counting = Counting;

// SAFETY: hands each call on.
unsafe impl GlobalAlloc for Counting {
    unsafe fn alloc(&self, layout: Layout) -> *mut u8 {
        COUNT.fetch_add(1, Relaxed);
        BYTES.fetch_add(layout.size(), Relaxed);
        // SAFETY: the caller's promise.
        unsafe { System.alloc(layout) }
    }

    unsafe fn dealloc(&self, place: *mut u8, layout: Layout) {
        // SAFETY: the caller's promise.
        unsafe { System.dealloc(place, layout) }
    }
}

/// How many allocations there are in a call, and of how many bytes.
fn allocations(call: impl FnOnce()) -> Option<(usize, usize)> {
    let before = (COUNT.load(Relaxed), BYTES.load(Relaxed));
    call();
    Some((
        COUNT.load(Relaxed) - before.0,
        BYTES.load(Relaxed) - before.1,
    ))
}

const PAINT: u64 = 0x5a5a_a5a5_5a5a_a5a5;

/// Words of the stack that is painted: 4 MB.
const WORDS: usize = 1 << 19;

extern "C" fn run(call: *mut &mut dyn FnMut()) {
    // SAFETY: `painted` passes a pointer to a live one.
    unsafe { (*call)() }
}

/// The bytes of a painted stack that a call wrote to, from its top to the deepest.
fn painted(mut call: &mut dyn FnMut()) -> usize {
    let mut stack = vec![PAINT; WORDS];
    let top = (stack.as_mut_ptr_range().end as usize) & !15;
    // SAFETY: r12 keeps the old stack over the call; the new one is `stack`, which nothing else uses meanwhile.
    unsafe {
        asm!(
            "mov r12, rsp",
            "mov rsp, {top}",
            "call {run}",
            "mov rsp, r12",
            top = in(reg) top,
            run = in(reg) run as *const (),
            in("rdi") &raw mut call,
            out("r12") _,
            clobber_abi("C"),
        );
    }
    let untouched = black_box(&stack)
        .iter()
        .take_while(|&&word| word == PAINT)
        .count();
    8 * (WORDS - untouched)
}

/// The stack of a call without what calling it takes.
fn stack(mut call: impl FnMut()) -> usize {
    let empty = painted(&mut || {
        black_box(0);
    });
    painted(&mut call).saturating_sub(empty)
}

/// The deeper stack of a call over the two indexes.
fn deeper(inputs: &[Input; 2], mut call: impl FnMut(&Input)) -> usize {
    let stacks = inputs.each_ref().map(|input| stack(|| call(input)));
    stacks[0].max(stacks[1])
}

/// A line; a call without a counterpart has two dashes at its end.
fn line(call: &str, n: usize, stack: usize, rust: Option<(usize, usize)>) {
    let rust = rust.map_or("-\t-".to_string(), |(count, bytes)| {
        format!("{count}\t{bytes}")
    });
    println!("{call}\t{n}\t{stack}\t{rust}");
}

fn building(inputs: &[Input; 2]) {
    let input = &inputs[0];
    let n = input.n as u64;
    let (mut blocks, mut keys) = areas(&input.keys, &input.blocks);
    let mut builder = rust_builder::<V3>(&input.keys, &input.blocks);
    let (last, block) = (input.keys.last().unwrap(), *input.blocks.last().unwrap());
    let add = stack(|| {
        ffi::add(&mut (n - 1), &mut blocks, &mut keys, last, block).unwrap();
    });
    let mut other = access::Builder::default();
    line(
        "rosmarel_add",
        input.n,
        add,
        allocations(|| other.add_block(last, theirs(block))),
    );
    let mut out = vec![0; input.index.len().max(inputs[1].index.len())];
    let finish = deeper(inputs, |input| {
        ffi::finish(input.version(), n, &blocks, &keys, &mut out).unwrap();
    });
    let mut bytes = Vec::with_capacity(input.index.len());
    let rust = allocations(|| builder.serialize(&mut bytes));
    line("rosmarel_finish", input.n, finish, rust);
    let finish_len = deeper(inputs, |input| {
        ffi::finish_len(input.version(), n, &blocks, &keys).unwrap();
    });
    line("rosmarel_finish_len", input.n, finish_len, None);
    let shorten = stack(|| ffi::shorten(n, &mut blocks, &mut keys, b"zz").unwrap());
    let rust = allocations(|| builder.shorten_last_block_key_given_next_key(b"zz"));
    line("rosmarel_shorten", input.n, shorten, rust);
    let rust_blocks: Vec<Block> = input.blocks.iter().map(|&block| theirs(block)).collect();
    let store = deeper(inputs, |input| {
        ffi::store(input.version(), &input.blocks, &mut out).unwrap();
    });
    bytes.clear();
    let rust = allocations(|| V3::append_store(&rust_blocks, &mut bytes));
    line("rosmarel_store", input.n, store, rust);
}

fn looking_up(inputs: &[Input; 2]) {
    let input = &inputs[0];
    let shared = OwnedBytes::new(input.index.clone());
    let rust = access::Index::load(shared.clone());
    let (id, key) = (input.n as u64 / 3, &input.keys[input.n / 3][..]);
    let ord = input.blocks[input.n / 3].first_ordinal;
    let taken = deeper(inputs, |input| {
        let answer = ffi::open(input.version(), input.least_terms(), &input.index);
        black_box(answer.unwrap());
    });
    let of_rust = allocations(|| {
        black_box(access::Index::load(shared.clone()));
    });
    line("rosmarel_open", input.n, taken, of_rust);
    let taken = deeper(inputs, |input| {
        ffi::check_canonical(input.version(), &input.index).unwrap();
    });
    line("rosmarel_check_canonical", input.n, taken, None);
    let taken = deeper(inputs, |input| {
        black_box(ffi::get_block(&input.index, &input.opened, id).unwrap());
    });
    let of_rust = allocations(|| {
        black_box(rust.get_block(id));
    });
    line("rosmarel_get_block", input.n, taken, of_rust);
    let taken = deeper(inputs, |input| {
        black_box(ffi::locate_with_ord(&input.index, &input.opened, ord).unwrap());
    });
    let of_rust = allocations(|| {
        black_box(rust.get_and_locate_with_ord(ord));
    });
    line("rosmarel_locate_with_ord", input.n, taken, of_rust);
    let taken = deeper(inputs, |input| {
        black_box(ffi::locate_with_key(&input.index, &input.opened, key).unwrap());
    });
    let of_rust = allocations(|| {
        black_box(rust.locate_with_key(key));
    });
    line("rosmarel_locate_with_key", input.n, taken, of_rust);
    let taken = deeper(inputs, |input| {
        black_box(ffi::get_block_with_key(&input.index, &input.opened, key).unwrap());
    });
    let of_rust = allocations(|| {
        black_box(rust.get_block_with_key(key));
    });
    line("rosmarel_get_block_with_key", input.n, taken, of_rust);
    let wanted: Vec<Vec<u8>> = (0..BATCH)
        .map(|i| input.keys[(i * 37 + 5) % input.n].clone())
        .collect();
    let batch = Batch::new(&wanted);
    let mut ids = [0; BATCH];
    let taken = deeper(inputs, |input| {
        let (index, opened) = (&input.index, &input.opened);
        ffi::locate_with_keys(index, opened, &batch.pairs, &batch.keys, &mut ids).unwrap();
    });
    let of_rust = allocations(|| {
        for key in &wanted {
            black_box(rust.locate_with_key(key));
        }
    });
    line("rosmarel_locate_with_keys", input.n, taken, of_rust);
    let taken = deeper(inputs, |input| {
        black_box(ffi::separator(&input.index, &input.opened, id));
    });
    line("rosmarel_separator", input.n, taken, None);
}

fn matching(inputs: &[Input; 2]) {
    let input = &inputs[0];
    let table = patterns::follow(54);
    let rust = access::Index::open(&input.index);
    let mut marks = vec![0; input.n];
    let taken = deeper(inputs, |input| {
        ffi::list(&input.index, &input.opened, &table, &mut marks).unwrap();
    });
    let of_rust = allocations(|| {
        let automaton = Table::read(&table).unwrap();
        rust.mark_for_automaton(&automaton, &mut marks);
    });
    line("rosmarel_list", input.n, taken, of_rust);
    let (start, end) = (&input.keys[0][..], &input.keys[1][..]);
    let taken = stack(|| {
        ffi::can_block_match(Some(start), end, &table).unwrap();
    });
    let of_rust = allocations(|| {
        let automaton = Table::read(&table).unwrap();
        access::can_block_match_automaton(Some(start), end, &automaton);
    });
    line("rosmarel_can_block_match", input.n, taken, of_rust);
    let mut out = vec![0; 1_024 + 64];
    let (before, example_end) = match input.keys.get(2) {
        Some(end) => (Some(&input.keys[1][..]), &end[..]),
        None => (None, start),
    };
    let taken = stack(|| {
        ffi::example(None, start, &table, &mut out).unwrap();
        // a block whose lower key is odd has an example
        ffi::example(before, example_end, &table, &mut out).unwrap();
    });
    line("rosmarel_example", input.n, taken, None);
    let taken = stack(|| {
        black_box(ffi::common_prefix_len(start, end));
    });
    let of_rust = allocations(|| {
        black_box(access::common_prefix_len(start, end));
    });
    line("rosmarel_common_prefix_len", input.n, taken, of_rust);
}

fn main() {
    for n in [2, 1_000, 65_536] {
        let inputs = [
            Input::new::<V3>(Keys::Shared, n),
            Input::new::<V4>(Keys::Shared, n),
        ];
        building(&inputs);
        looking_up(&inputs);
        matching(&inputs);
    }
}
