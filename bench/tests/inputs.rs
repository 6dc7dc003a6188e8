//! The lists of blocks are legal, and what their names say.

use rosmarel::{BlockAddr, MAX_NUMBER, Version};
use rosmarel_bench::inputs::{Keys, Steps, our_builder, rust_builder};
use tantivy_sstable::{Builder as _, Rust, V3, V4};

const SIZES: [usize; 5] = [2, 3, 128, 1_000, 65_536];

#[test]
fn blocks_touch_and_ordinals_rise() {
    for steps in Steps::ALL {
        for n in SIZES {
            let blocks = steps.blocks(n);
            assert!(blocks.len() == n && blocks.iter().all(|block| block.start <= block.end));
            assert!(blocks.windows(2).all(|two| two[0].end == two[1].start));
            assert!(
                blocks
                    .windows(2)
                    .all(|two| two[0].first_ordinal < two[1].first_ordinal)
            );
            let last = blocks[n - 1];
            assert!(last.end <= MAX_NUMBER && last.first_ordinal <= MAX_NUMBER);
            assert!(steps != Steps::Limit || last.end == MAX_NUMBER);
            assert!(steps != Steps::Empty || last.end == 0);
        }
    }
}

/// The index as the Rust writes it and as we do.
fn index<R: Rust>(keys: &[Vec<u8>], blocks: &[BlockAddr]) -> Vec<u8> {
    let version = Version::from_number(R::VERSION).unwrap();
    let mut index = Vec::new();
    rust_builder::<R>(keys, blocks).serialize(&mut index);
    assert_eq!(
        our_builder(keys, blocks).finish(version).as_ref(),
        Ok(&index)
    );
    index
}

#[test]
fn both_sides_write_the_same_index_of_all_lists() {
    for steps in Steps::ALL {
        for n in [2, 128, 129, 256, 257, 1_000] {
            let (keys, blocks) = (Keys::Short.make(n), steps.blocks(n));
            let same = index::<V3>(&keys, &blocks) == index::<V4>(&keys, &blocks);
            assert_eq!(same, n <= 128);
        }
    }
}

#[test]
fn keys_rise() {
    for kind in Keys::ALL {
        let keys = kind.make(1_000);
        assert!(keys.len() == 1_000 && keys.windows(2).all(|two| two[0] < two[1]));
        let lengths = if kind.long() { 100..=1_024 } else { 8..=8 };
        assert!(keys.iter().all(|key| lengths.contains(&key.len())));
    }
}
