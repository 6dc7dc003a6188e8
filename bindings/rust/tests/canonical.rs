//! Whether an index is the one that finish makes of what it holds: files of our own, and foreign ones that differ in one way each.

mod model;

use model::{Draw, Entries, Plan, VERSIONS};
use rosmarel::{BlockAddr, Builder, Index, Refusal, Version};

/// Sizes around full groups.
const SIZES: [usize; 13] = [
    2, 3, 127, 128, 129, 255, 256, 257, 384, 385, 512, 513, 1_000,
];

fn number(bytes: &[u8], version: Version) -> u32 {
    rosmarel::check_canonical(bytes, version).map_or_else(Refusal::number, |()| 0)
}

/// The check's number, which is the model's.
fn checked(bytes: &[u8], version: Version) -> u32 {
    let number = number(bytes, version);
    let due = model::canonical_no(bytes, version);
    assert_eq!(number, due, "{version:?}, {} bytes", bytes.len());
    number
}

/// A file in parts: each group with its plan and where its fields begin, and the address bytes.
#[derive(Clone)]
struct Parts {
    version: Version,
    entries: Entries,
    groups: Vec<(Plan, usize)>,
    addresses: Vec<u8>,
}

impl Parts {
    /// As the writer makes it.
    fn new(version: Version, entries: &Entries) -> Parts {
        let plans = model::groups(version, &entries.blocks).map(model::plan);
        Parts::planned(version, entries, plans.collect())
    }

    /// With these plans, no byte before, between or behind the groups.
    fn planned(version: Version, entries: &Entries, plans: Vec<Plan>) -> Parts {
        let (mut groups, mut addresses) = (Vec::new(), Vec::new());
        for (group, plan) in model::groups(version, &entries.blocks).zip(plans) {
            groups.push((plan, addresses.len()));
            addresses.extend(model::fields(group, plan));
        }
        Parts {
            version,
            entries: entries.clone(),
            groups,
            addresses,
        }
    }

    fn plans(&self) -> Vec<Plan> {
        self.groups.iter().map(|group| group.0).collect()
    }

    /// The blocks of each group.
    fn blocks(&self) -> impl Iterator<Item = &[BlockAddr]> {
        model::groups(self.version, &self.entries.blocks)
    }

    fn bytes(&self) -> Vec<u8> {
        let mut records = Vec::new();
        for (group, &(plan, offset)) in self.blocks().zip(&self.groups) {
            records.extend(model::record(group, plan, offset));
        }
        let directory = self.entries.directory();
        let [records_len, directory_len] =
            [records.len(), directory.len()].map(|len| (len as u64).to_le_bytes());
        [
            &directory[..],
            &records_len,
            &records,
            &self.addresses,
            &directory_len,
        ]
        .concat()
    }

    /// The bits of a group's fields.
    fn bits(&self, group: usize) -> usize {
        let count = self.blocks().nth(group).unwrap().len();
        let Plan { range, ordinal } = self.groups[group].0;
        ((range.1 + ordinal.1) as usize) * (count - 1) + range.1 as usize
    }

    /// It opens, holds the same list, and isn't the file that finish makes of it.
    fn foreign(&self) {
        let (version, bytes) = (self.version, self.bytes());
        assert_eq!(model::read(&bytes, version).as_ref(), Ok(&self.entries));
        let index = Index::open_unknown_terms(&bytes, version).unwrap();
        let blocks = self.entries.blocks.iter().copied();
        assert!(index.blocks().eq((0..).zip(blocks)));
        assert_eq!(checked(&bytes, version), 27);
    }
}

/// Lists of every size, with the steps that the draw gives, for both versions.
fn lists() -> Vec<(Version, Entries)> {
    let mut draw = Draw::new(30);
    let sizes = SIZES.into_iter().chain(SIZES);
    let lists: Vec<Entries> = sizes.map(|n| draw.entries(n)).collect();
    let of = |version| lists.iter().map(move |list| (version, list.clone()));
    VERSIONS.into_iter().flat_map(of).collect()
}

#[test]
fn files_of_finish() {
    for (version, entries) in lists() {
        let mut builder = Builder::new();
        for (key, &block) in entries.keys.iter().zip(&entries.blocks) {
            builder.add_block(key, block).unwrap();
            // every front of the list, up to more than a group, and all of it
            let len = builder.len() as usize;
            if len <= 300 || len == entries.keys.len() {
                let due = if len < 2 { 10 } else { 0 };
                assert_eq!(number(&builder.finish(version).unwrap(), version), due);
            }
        }
        let parts = Parts::new(version, &entries);
        assert_eq!(parts.bytes(), entries.index(version));
        assert_eq!(checked(&parts.bytes(), version), 0);
    }
}

/// A file with one group in both versions is canonical in both; any other doesn't open with the other version.
#[test]
fn with_the_other_version() {
    for (version, entries) in lists() {
        let due = if entries.keys.len() <= 128 { 0 } else { 14 };
        let bytes = entries.index(version);
        assert_eq!(checked(&bytes, model::other(version)), due);
    }
}

/// Bytes of any value before the groups, between two of them, and behind the last.
#[test]
fn gaps() {
    for (version, entries) in lists() {
        let parts = Parts::new(version, &entries);
        for at in 0..=parts.groups.len() {
            for gap in [&[0][..], &[0xff, 0, 7]] {
                let mut other = parts.clone();
                let place = parts.groups.get(at).map_or(parts.addresses.len(), |g| g.1);
                other.addresses.splice(place..place, gap.iter().copied());
                for group in &mut other.groups[at..] {
                    group.1 += gap.len();
                }
                other.foreign();
            }
        }
    }
}

#[test]
fn padding() {
    let mut seen = 0;
    for (version, entries) in lists() {
        let parts = Parts::new(version, &entries);
        for group in 0..parts.groups.len() {
            let bits = parts.bits(group);
            for bit in bits..bits.div_ceil(8) * 8 {
                let mut other = parts.clone();
                other.addresses[parts.groups[group].1 + bit / 8] |= 1 << (bit % 8);
                other.foreign();
                seen += 1;
            }
        }
    }
    assert!(seen > 100, "{seen}");
}

/// One bit more in the range fields or in the ordinal fields of one group.
#[test]
fn wider_fields() {
    for (version, entries) in lists() {
        let own = Parts::new(version, &entries).plans();
        for group in 0..own.len() {
            let mut plans = own.clone();
            plans[group].range.1 += 1;
            Parts::planned(version, &entries, plans).foreign();
            let mut plans = own.clone();
            plans[group].ordinal.1 += 1;
            Parts::planned(version, &entries, plans).foreign();
        }
    }
}

/// Fields of 56 bits throughout, which end in a full group at bit 14,280, or at 28,616.
#[test]
fn widest_fields() {
    let mut seen = 0;
    for (version, entries) in lists() {
        let mut plans = Parts::new(version, &entries).plans();
        for plan in &mut plans {
            (plan.range.1, plan.ordinal.1) = (56, 56);
        }
        let parts = Parts::planned(version, &entries, plans);
        if entries.keys.len() >= version.group_len() {
            let due = match version {
                Version::V3 => 14_280,
                Version::V4 => 28_616,
            };
            assert_eq!(parts.bits(0), due);
            seen += 1;
        }
        parts.foreign();
    }
    assert!(seen > 20, "{seen}");
}

/// Other slopes that need no more bits. In a last group of one block any ordinal slope and any width will do.
#[test]
fn other_slopes() {
    let (mut seen, mut unused) = (0, 0);
    for (version, entries) in lists() {
        let own = Parts::new(version, &entries).plans();
        for (place, group) in model::groups(version, &entries.blocks).enumerate() {
            for by in [1, 2, u32::MAX, u32::MAX - 1] {
                let mut changed = [own[place]; 2];
                changed[0].range.0 = own[place].range.0.wrapping_add(by);
                changed[1].ordinal.0 = own[place].ordinal.0.wrapping_add(by);
                for plan in changed.into_iter().filter(|&plan| model::fits(group, plan)) {
                    let mut plans = own.clone();
                    plans[place] = plan;
                    Parts::planned(version, &entries, plans).foreign();
                    seen += 1;
                }
            }
            for width in (2..=56).filter(|_| group.len() == 1) {
                let mut plans = own.clone();
                plans[place].ordinal.1 = width;
                Parts::planned(version, &entries, plans).foreign();
                unused += 1;
            }
        }
    }
    assert!(seen > 20 && unused > 100, "{seen} {unused}");
}

/// Two groups' fields in each other's place, and one set of fields for both.
#[test]
fn exchanged_and_shared_groups() {
    for (version, entries) in lists() {
        let parts = Parts::new(version, &entries);
        if parts.groups.len() < 2 {
            continue;
        }
        let first = parts.groups[1].1;
        let end = parts.groups.get(2).map_or(parts.addresses.len(), |g| g.1);
        let mut other = parts.clone();
        other.addresses[..end].rotate_left(first);
        other.groups[0].1 = end - first;
        other.groups[1].1 = 0;
        other.foreign();
    }
    for version in VERSIONS {
        let mut even = Entries::default();
        for i in 0..2 * model::group_len(version) as u64 {
            let block = BlockAddr::new(6 * i..6 * i + 6, 2 * i);
            assert_eq!(even.add(&u16::to_be_bytes(i as u16), block), 0);
        }
        let mut shared = Parts::new(version, &even);
        shared.addresses.truncate(shared.groups[1].1);
        shared.groups[1].1 = 0;
        shared.foreign();
    }
}

/// Another first start or first ordinal with the same fields: what is read moves with it, which is another list and its own file. If
/// the fields stay where they were read, it is a matter of the list.
#[test]
fn moved_first_values() {
    let mut seen = [0, 0];
    for (version, entries) in lists() {
        for by in [1, 2, 300, 1 << 40] {
            let mut moved = entries.clone();
            for block in &mut moved.blocks {
                block.start += by;
                block.end += by;
                block.first_ordinal += 3 * by;
            }
            let plans = Parts::new(version, &entries).plans();
            let moved = Parts::planned(version, &moved, plans);
            assert_eq!(checked(&moved.bytes(), version), 0);
        }
        // the first block alone begins later, or has a higher ordinal
        let first = entries.blocks[0];
        let mut moved = entries.clone();
        moved.blocks[0].start = first.end;
        moved.blocks[0].first_ordinal = entries.blocks[1].first_ordinal - 1;
        let plans = Parts::new(version, &entries).plans();
        let group = model::groups(version, &moved.blocks).next().unwrap();
        if model::fits(group, plans[0]) {
            let moved = Parts::planned(version, &moved, plans);
            let number = checked(&moved.bytes(), version);
            seen[usize::from(number == 27)] += 1;
        }
    }
    assert!(seen[1] > 0, "{seen:?}");
}

/// Each byte of the worked index with each other value: every number comes up.
#[test]
fn every_byte() {
    for version in VERSIONS {
        let good = Entries::worked().index(version);
        let mut seen = [0; 28];
        for at in 0..good.len() {
            for value in (0..=u8::MAX).filter(|&value| value != good[at]) {
                let mut bytes = good.clone();
                bytes[at] = value;
                seen[checked(&bytes, version) as usize] += 1;
            }
        }
        for no in [0, 10, 11, 12, 13, 14, 15, 16, 27] {
            assert!(seen[no] > 0, "{no}: {seen:?}");
        }
    }
}
