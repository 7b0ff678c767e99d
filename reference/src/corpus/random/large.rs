//! Large cases at the limits. They are few, since each takes many octets.

use super::texts;
use crate::corpus::case::Case;
use crate::corpus::fixed::sizes::{empties, nested, verbatim, FULL};
use crate::corpus::make;
use crate::corpus::rng::Rng;
use crate::corpus::{damage, spell, trees};
use crate::limits::*;
use crate::tree::Tree;

/// One of them; the kinds take turns.
pub fn case(rng: &mut Rng, turn: u64) -> Case {
    match turn % 8 {
        0 => long_source(rng),
        1 => many_nodes(rng),
        2 => full(rng),
        3 => deep(rng),
        4 => full_output(rng),
        5 => grown_to_full(rng),
        6 => grown_to_many(rng),
        _ => long_replacement(rng),
    }
}

/// A text filled up with whitespace to the longest source, or one more.
fn long_source(rng: &mut Rng) -> Case {
    let tree = trees::small(rng);
    let text = filled_up(rng, &tree);
    texts::into_some_room(rng, ADVANCED, text)
}

fn filled_up(rng: &mut Rng, tree: &Tree) -> Vec<u8> {
    let mut text = spell::advanced(rng, tree);
    let size = MAX_SOURCE + rng.below(2);
    while text.len() < size {
        text.push(rng.pick(b" \n\t\x0b"));
    }
    text
}

/// As many nodes as the octets hold, or one more, in the shortest spellings;
/// sometimes bad at the very end.
fn many_nodes(rng: &mut Rng) -> Case {
    let count = MAX_NODES - 1 + rng.below(2);
    let mut text = vec![b'('];
    for _ in 0..count {
        let piece: &[u8] = rng.pick(&[b"0:", b"()", b"##", b"||", b"\"\""]);
        text.extend(piece);
    }
    text.push(b')');
    if rng.once_in(4) {
        text.push(b']');
    }
    texts::into_some_room(rng, ADVANCED, text)
}

/// A canonical form of as many octets as may be, or one more.
fn full(rng: &mut Rng) -> Case {
    let mut text = verbatim(b'f', FULL + rng.below(2));
    let place = rng.below(FULL);
    text[place + 6] = rng.octet();
    if rng.once_in(4) {
        text = damage::damaged(rng, &text);
    }
    texts::into_some_room(rng, CANONICAL, text)
}

/// Lists nested far past the limit, closed or not.
fn deep(rng: &mut Rng) -> Case {
    let form = rng.pick(&[CANONICAL, ADVANCED]);
    let mut text = nested(MAX_DEPTH + 1 + rng.below(5_000));
    if rng.once_in(3) {
        text = damage::damaged(rng, &text);
    }
    texts::into_some_room(rng, form, text)
}

/// A large canonical form whose output in form 3 is nearly twice as long.
fn full_output(rng: &mut Rng) -> Case {
    let octet = rng.pick(b"\"\\\0");
    let count = 8_000 + rng.below(FULL - 8_000);
    let room = 2 * count + 1 + rng.below(2);
    make::write(ADVANCED, &verbatim(octet, count), room)
}

/// A replacement that makes the canonical form full, or one too large.
fn grown_to_full(rng: &mut Rng) -> Case {
    let layout = Tree::List(vec![trees::string(rng), trees::string(rng)]).layout();
    let node = 1 + rng.below(2);
    let stays = layout.octets.len() - (layout.records[node][2] - layout.records[node][1]) as usize;
    let text = verbatim(rng.octet(), FULL - stays + rng.below(2));
    let pair = make::pair_in(&layout, MAX_CANONICAL + rng.below(50), 40);
    make::replace(rng.pick(&[1, 2, 3]), &text, pair, node as u64)
}

/// A replacement that brings the nodes to the most that the octets hold beside
/// what stays, or one over.
fn grown_to_many(rng: &mut Rng) -> Case {
    let mut items = vec![Tree::List(Vec::new())];
    items.extend((0..rng.below(6)).map(|_| trees::string(rng)));
    let layout = Tree::List(items).layout();
    let stays = layout.records.len() - 1;
    let room = MAX_CANONICAL - (layout.octets.len() - 2);
    let text = empties(room / 2 - 1 + rng.below(2));
    let nodes = stays + room / 2;
    let numbers = (nodes + rng.below(3)) * RECORD - rng.below(2) * rng.below(9);
    let pair = make::pair_in(&layout, 16_400, numbers);
    make::replace(CANONICAL, &text, pair, 1)
}

/// A replacement text of the longest size, or one more.
fn long_replacement(rng: &mut Rng) -> Case {
    let layout = trees::small(rng).layout();
    let new = trees::small(rng);
    let text = filled_up(rng, &new);
    let pair = make::pair_in(&layout, 300, layout.records.len() * RECORD + 80);
    make::replace(
        ADVANCED,
        &text,
        pair,
        rng.below(layout.records.len()) as u64,
    )
}
