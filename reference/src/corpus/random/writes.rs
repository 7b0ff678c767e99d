//! Writes.

use super::spoil;
use crate::corpus::case::Case;
use crate::corpus::make::blank;
use crate::corpus::rng::Rng;
use crate::corpus::trees;
use crate::limits::MAX_DEPTH;
use crate::output;

/// A write, into exact room, one octet less or some more.
pub fn case(rng: &mut Rng) -> Case {
    let mut tree = trees::small(rng);
    if rng.once_in(20) {
        let depth = rng.pick(&[MAX_DEPTH, MAX_DEPTH + 1]);
        tree = trees::deepened(rng, tree, depth);
    }
    let mut canonical = spoil::canonical(rng, &output::canonical(&tree));
    let form = rng.pick(&[1, 2, 2, 3, 3, 3, 3, 3]);
    let written = match form {
        1 => output::canonical(&tree),
        2 => output::basic(&tree),
        _ => output::advanced(&tree),
    };
    let size = written.len();
    let room = match rng.below(8) {
        0..=3 => size + rng.below(10),
        4 => size - 1,
        5 if rng.once_in(3) => rng.below(size),
        _ => size,
    };
    if rng.once_in(5) {
        spoil::spoil_canonical(rng, &mut canonical);
    }
    let form = if rng.once_in(25) {
        rng.pick(&[0, 4, 9, u32::MAX])
    } else {
        form
    };
    let fill = rng.octet();
    Case::Write {
        form,
        canonical,
        out: blank(room, fill),
    }
}
