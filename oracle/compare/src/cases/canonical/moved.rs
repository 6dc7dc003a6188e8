//! First values that are moved, with the fields or without them: other lists' files, some of which are canonical.

use model::canonical::{NOT_CANONICAL, end, groups};
use model::files::File as Parts;
use model::foreign::{self, Group, fits, ord_points, range_points};
use model::numbers::Numbers;
use model::rust::Block;
use model::settings::LIMIT;
use model::version::Version;

use super::{SHAPES, blocks, holding, keys, sizes};
use crate::calls::opened;
use crate::tally::Tally;

pub fn run(tally: &mut Tally, version: Version) {
    tally.section_of(
        version,
        "canonical: first values moved, with the fields or without them",
    );
    let mut rng = Numbers::from_seed(152);
    let mut seen = [0, 0];
    for n in sizes(version) {
        for shape in 0..SHAPES {
            let blocks = blocks(&mut rng, n, shape);
            records(tally, version, &mut rng, &blocks);
            alone(tally, version, &mut rng, &blocks, &mut seen);
        }
    }
    assert!(seen[0] > 0 && seen[1] > 0, "{seen:?}");
}

/// A group's first value in its record alone: all that is read in the group moves with it. A start leaves the list touching only in a
/// file of one group; an ordinal may.
fn records(tally: &mut Tally, version: Version, rng: &mut Numbers, blocks: &[Block]) {
    let keys = keys(rng, blocks.len());
    let parts = Parts::written(version, blocks, &keys);
    let count = blocks.len().div_ceil(version.group_len());
    for group in [0, count / 2, count - 1] {
        let first = blocks[version.group_len() * group];
        for by in [1, 2, 255, 256, 1 << 20, u64::MAX, u64::MAX - 1] {
            let mut other = parts.clone();
            other.first_ord(group, first.ord.wrapping_add(by));
            let file = opened::open(tally, version, &other.bytes());
            assert!(file.opening().no() != 0 || file.checked == 0);
            let mut other = parts.clone();
            other.first_start(group, first.start.wrapping_add(by));
            let file = opened::open(tally, version, &other.bytes());
            assert!(file.opening().no() != 0 || count == 1 && file.checked == 0);
        }
    }
}

/// The first block alone begins or is numbered elsewhere, and the fields make up for it: the same slopes and widths hold, if they are
/// enough, and may be those of the new list or not.
fn alone(
    tally: &mut Tally,
    version: Version,
    rng: &mut Numbers,
    blocks: &[Block],
    seen: &mut [u64; 2],
) {
    let own = groups(version, blocks);
    for by in 1..=8 {
        let first = blocks[0];
        let mut others = vec![blocks.to_vec(); 4];
        others[0][0].start = first.start.saturating_sub(by);
        others[1][0].start = (first.start + by).min(first.end);
        others[2][0].ord = first.ord.saturating_sub(by);
        others[3][0].ord = (first.ord + by).min(blocks[1].ord - 1);
        for other in others {
            assert!(other.iter().all(|block| block.end < LIMIT));
            let part = &other[..other.len().min(version.group_len())];
            let group = own[0];
            let range = fits(&range_points(part), group.range_slope, group.range_width);
            if !range || !fits(&ord_points(part), group.ord_slope, group.ord_width) {
                continue;
            }
            let mut all = own.clone();
            all[0] = Group {
                blocks: part,
                ..group
            };
            let store = foreign::store(&all, vec![0; end(&all)]);
            let keys = keys(rng, other.len());
            let file = holding(tally, version, &other, &keys, &store);
            seen[usize::from(file.checked == NOT_CANONICAL)] += 1;
        }
    }
}
