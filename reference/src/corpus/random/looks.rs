//! Comparisons, hints and data.

use super::spoil;
use crate::corpus::case::Case;
use crate::corpus::rng::Rng;
use crate::corpus::trees;
use crate::tree::Tree;

/// Two canonical forms that are the same, or differ in one thing.
pub fn comparison(rng: &mut Rng) -> Case {
    let default_hint = match rng.below(3) {
        0 => Vec::new(),
        1 => b"text/plain".to_vec(),
        _ => trees::octets(rng),
    };
    let one = trees::small(rng);
    let mut other = one.clone();
    for _ in 0..rng.below(3) {
        let node = rng.below(other.nodes());
        if let Some(place) = other.node_mut(node) {
            alter(rng, place, &default_hint);
        }
    }
    let mut a = spoil::canonical(rng, &one.layout().octets);
    let mut b = spoil::canonical(rng, &other.layout().octets);
    if rng.once_in(6) {
        let side = if rng.once_in(2) { &mut a } else { &mut b };
        spoil::spoil_canonical(rng, side);
    }
    Case::Same { a, b, default_hint }
}

/// Exchanges a missing hint for the default, the empty or another one, and the
/// other way round; seldom the data or the shape.
fn alter(rng: &mut Rng, tree: &mut Tree, default: &[u8]) {
    match tree {
        Tree::Text { hint, data } => match rng.below(8) {
            0..=2 => {
                *hint = match hint {
                    None => Some(default.to_vec()),
                    Some(_) => None,
                }
            }
            3 => *hint = Some(Vec::new()),
            4 => *hint = Some(trees::octets(rng)),
            5 => data.push(b'!'),
            6 => *tree = Tree::List(Vec::new()),
            _ => {}
        },
        Tree::List(items) => match rng.below(4) {
            0 => items.push(trees::string(rng)),
            1 => items.reverse(),
            2 => {
                items.pop();
            }
            _ => {}
        },
    }
}

/// Hint or data of each node of a tree, and of some that are not there.
pub fn every_node(rng: &mut Rng) -> Vec<Case> {
    let mut items: Vec<Tree> = (0..rng.below(4)).map(|_| trees::small(rng)).collect();
    for _ in 0..1 + rng.below(3) {
        let (hint, data) = (trees::octets(rng), trees::octets(rng));
        items.insert(rng.below(items.len() + 1), Tree::hinted(&hint, &data));
    }
    let layout = Tree::List(items).layout();
    let nodes = layout.records.len() as u64;
    let far = spoil::huge(rng, nodes);
    (0..=nodes)
        .chain([far])
        .map(|node| {
            let mut pair = spoil::pair(rng, &layout);
            if rng.once_in(6) {
                spoil::spoil_pair(rng, &mut pair);
            }
            if rng.once_in(2) {
                let default_hint = trees::octets(rng);
                Case::Hint {
                    pair,
                    node,
                    default_hint,
                }
            } else {
                Case::Data { pair, node }
            }
        })
        .collect()
}
