//! The stand-ins made for speed give what plain ones would.

use std::io::Read;

use common::OwnedBytes;
use rosmarel_bench::inputs::{Keys, Numbers};
use tantivy_bitpacker::{BitPacker, compute_num_bits};
use tantivy_fst::raw::Fst;
use tantivy_fst::{IntoStreamer, Map, MapBuilder, Streamer};

/// Fields as bits in a list, the lowest first.
fn plainly_packed(fields: &[(u64, u8)]) -> Vec<u8> {
    let mut bits: Vec<u8> = Vec::new();
    for &(value, width) in fields {
        bits.extend((0..width).map(|bit| (value >> bit & 1) as u8));
    }
    let byte = |bits: &[u8]| (0..).zip(bits).map(|(place, bit)| bit << place).sum();
    bits.chunks(8).map(byte).collect()
}

fn packed(fields: &[(u64, u8)]) -> Vec<u8> {
    let mut packer = BitPacker::new();
    let mut bytes = Vec::new();
    for &(value, width) in fields {
        packer.write(value, width, &mut bytes).unwrap();
    }
    packer.flush(&mut bytes).unwrap();
    bytes
}

#[test]
fn fields_of_all_widths_are_packed() {
    let mut numbers = Numbers(5);
    for width in 1..=64 {
        let highest = u64::MAX >> (64 - width);
        for count in 0..40 {
            let fields: Vec<(u64, u8)> = (0..count)
                .map(|_| (numbers.next() & highest, width))
                .collect();
            assert_eq!(packed(&fields), plainly_packed(&fields));
        }
        assert_eq!(
            packed(&[(highest, width); 3]),
            plainly_packed(&[(highest, width); 3])
        );
    }
}

#[test]
fn fields_of_changing_widths_are_packed() {
    let mut numbers = Numbers(6);
    for _ in 0..2_000 {
        let fields: Vec<(u64, u8)> = (0..numbers.below(40))
            .map(|_| {
                let width = 1 + numbers.below(64) as u8;
                (numbers.next() >> (64 - width), width)
            })
            .collect();
        assert_eq!(packed(&fields), plainly_packed(&fields));
    }
}

#[test]
fn widths_of_numbers() {
    let widths = [0, 1, 2, 3, (1 << 56) - 1, 1 << 56, u64::MAX].map(compute_num_bits);
    assert_eq!(widths, [0, 1, 2, 2, 56, 64, 64]);
}

#[test]
fn parts_of_shared_bytes() {
    let (front, mut tail) = OwnedBytes::new((0..10).collect()).rsplit(3);
    let (left, right) = front.clone().split(2);
    drop(front);
    assert_eq!(
        (&left[..], &right[..], &tail[..]),
        (&[0, 1][..], &[2, 3, 4, 5, 6][..], &[7, 8, 9][..])
    );
    let mut two = [0; 2];
    tail.read_exact(&mut two).unwrap();
    assert_eq!((two, &tail[..]), ([7, 8], &[9][..]));
    assert!(tail.read_exact(&mut two).is_err());
}

/// The directory as it has to be: the count, pairs of offset and length, the keys.
fn directory(keys: &[Vec<u8>]) -> Vec<u8> {
    let mut bytes = (keys.len() as u32).to_le_bytes().to_vec();
    let mut offset = 0;
    for key in keys {
        bytes.extend((offset as u32).to_le_bytes());
        bytes.extend((key.len() as u32).to_le_bytes());
        offset += key.len();
    }
    bytes.extend(keys.concat());
    bytes
}

#[test]
fn keys_are_written_and_found() {
    for kind in Keys::ALL {
        let mut keys = kind.make(100);
        keys.insert(0, Vec::new());
        let mut builder = MapBuilder::new(Vec::new()).unwrap();
        for (key, id) in keys.iter().zip(0..) {
            builder.insert(key, id).unwrap();
        }
        let bytes = builder.into_inner().unwrap();
        assert_eq!(bytes, directory(&keys));
        let map = Map::from(Fst::new(&bytes).unwrap());
        let at = |key: &[u8]| map.range().ge(key).into_stream().next().map(|(_, id)| id);
        for (key, id) in keys.iter().zip(0..) {
            assert_eq!(at(key), Some(id));
            let after = [&key[..], &[0]].concat();
            assert_eq!(at(&after), (id < 100).then_some(id + 1));
        }
        let mut stream = map.stream();
        assert!(
            keys.iter()
                .zip(0..)
                .all(|(key, id)| stream.next() == Some((&key[..], id)))
        );
        assert_eq!(stream.next(), None);
    }
}

#[test]
fn keys_that_do_not_rise_are_refused() {
    let mut builder = MapBuilder::new(Vec::new()).unwrap();
    builder.insert(b"", 0).unwrap();
    assert!(builder.insert(b"", 1).is_err() && builder.insert(b"a", 2).is_err());
    builder.insert(b"b", 1).unwrap();
    assert!(builder.insert(b"b", 2).is_err() && builder.insert(b"a", 2).is_err());
    assert!(Fst::new([1, 0, 0, 0, 0]).is_err() && Fst::new([0; 3]).is_err());
}
