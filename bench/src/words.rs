//! What the document says beside its figures.

pub const FRONT: &str = "\
# Benchmarks

`bench/run` writes this file, the plots and the table in README.md: the exported functions of `librosmarel.a`, and the Rust crate
over them (bindings/rust), beside the Rust of tantivy-sstable 0.27.0. A ratio is our time / the other side's; below 1 ours is
faster. A ratio over its bar is bold. The bench's own tests are `cargo test --offline` in bench/; its build scripts put together
what they need, in a fresh clone too.
";

pub const WHOSE: &str = "
## Whose code it is compared with

The files of tantivy-sstable that the block index is made of are compiled as they are; bench/sstable/build.rs reads them and keeps
no copy. For version 4 they are compiled a second time with `STORE_BLOCK_LEN` set to 256, and the build sees that this line is all
that differs. The crates under them can't be had here. What stands in for them is ours, under bench/stand-ins, and made for speed,
so that the Rust's side isn't slow for our sake; the oracle has plainer ones of its own.

| stand-in | in place of | how it is made |
|---|---|---|
| bit packer | `tantivy_bitpacker` | fields are joined in a word of 64 bits, which leaves when it is full |
| key map | `tantivy_fst`, which builds an FST | a sorted list: pairs and keys are built in two buffers and read where they lie |
| byte container | `OwnedBytes` of `common` | holds its slice, beside a counted reference to the owner |
| numbers, counting writer | `common` | bytes are copied in one step |
| automaton | none of `tantivy_fst`'s is used | lends the table's bytes, checks them, and keeps the states that can match as bits |

In the column \"beside\" of the table above, tantivy: all of the other side is tantivy's code, and the ratio speaks of it. tantivy +
stand-ins: what is worked out is tantivy's code, over stand-ins of ours; each section says which. ours: the other side is ours, and
the ratio says nothing of tantivy.
";

pub const METHOD: &str = "\
## How it was measured

- Both sides stand in one program and get the same inputs. Before a row is timed, their answers are compared.
- Rows that name no version are version 3's, with groups of 128 blocks. Those of version 4 have groups of 256 on both sides, the same
  lists and questions, and 256 and 257 blocks in place of 128 and 129. Of listings they have those of short keys: what a listing
  reads of a group is the address of each marked block, whatever the keys are.
- The archive is what `rt lib --cpu x86-64` in crates/rosmarel writes: for x86-64 without extensions. The Rust is built for the same,
  with `opt-level = 3`, `codegen-units = 1` and `lto = \"fat\"`: its calls may be inlined into the driver, those of the archive can't. Its
  comparisons of keys are calls of the C library's `memcmp`, which at run time takes the widest vectors that the processor has.
- Buffers that are lent aren't cleared: they are used again and again, and warm. `Builder::add_block`, `Builder::finish` and a
  listing with addresses allocate what they need, as their users see it.
- Add: n blocks one after the other, from an empty builder. What was made is dropped outside the time, on both sides.
- Shorten: 256 pairs of neighbours, spread over the index; each lower key is the only one of its builder. Builders are set back
  between rounds, outside the time.
- Opening: the plain pass sums bytes in 32-bit numbers, which the compiler vectorises; a sum in 64-bit numbers it leaves scalar, and
  that one isn't the bar. The bar is for long keys; short ones are shown without. The number of terms is the least that opens, one
  above the last block's first ordinal.
- Check canonical: the same indexes as for opening, all of them canonical, so that every group is looked at. The other side opens the
  index and finishes its blocks and keys into a buffer that is there, three times each.
- Lookups: 4,096 questions made beforehand, spread over the whole index at random. Ids are all there; so are ordinals, from 0 to 99
  after the last block's first, which is the last below the number of terms; of the keys half are separators and half are a
  separator and one more byte, 00.
- Locate 64 keys: the same 4,096 keys in 64 lists. Areas and pairs are filled beforehand, each key's bytes right after those of the
  key before it; ids go into an area that is there. A call is 64 keys on every side.
- Listing: equal work on both sides, once as marks alone and once with the address of each marked block. Inside the time the Rust's
  automaton is made from the table's bytes, as ours is; \"table ready\" leaves that out on the Rust's side alone. Both sides put
  addresses into a list that has the room. Up to 65,536 blocks with keys short and long-shared, 4,096 with long-early and 1,000 with
  the longest keys, for which one listing takes the Rust a tenth of a second and more.
- A pattern doesn't end early (\"far\") if in a third of the blocks or more the Rust's search reads 100 bytes of a key or more from
  states that can match. There the bar is 0.1, elsewhere 0.5.
- Example: of 64 random blocks those that have one. Both sides write into a buffer that is there and has the room.
- Example, own keys: for \"none\" and \"late\" the start is a and then m's, the end b and then m's. The pattern reads the m's of either, in
  one state or in a ring of 30; of all other bytes `!` alone leads on after a and `~` alone after b, to acceptance. As no higher byte
  leads on from the start's m's, and no lower one from the end's, both keys are read to their ends. The start's last byte is z where
  nothing may follow it, and the end's is 7F where `~` may stand in its place. For \"ties\", with any length (64), and \"at once\",
  with dense (64), the start is m's alone, and the end begins and ends with z.
";

pub const PATTERNS: &str = "
## The patterns

The number of states is in brackets.

| name | accepts |
|---|---|
| all (1) | every key |
| any length (64) | keys with 63, 127, 191, .. bytes: from each state every byte leads on |
| dense (64) | from each state the bytes lead to all states as if at random; one accepts |
| contains (2) | keys that have one byte (37, or the digit 7) somewhere |
| begins (4) | keys that begin with two bytes of one of the keys |
| one key (10) | one of the keys |
| seven keys (64) | seven of the keys |
| number (9) | letters, then digits of which the first seven are those of one of the keys |
| ends early (64) | keys that begin with 61 bytes of the first key, then `!` |
| follows (3) | letters a to m and digits, then `!`: a block's lower key is read to its end |
| follows half (11, 64) | letters a to l, 8 digits, the last one even, m once or 54 times or a multiple, then `!` |

With \"follows half\" every other block is read to the end of its lower key and has no match.

";

/// Why rows are over their bars, by hand.
pub const NOT_REACHED: &str = include_str!("../not-reached.md");
