//! Random trees.

use super::rng::Rng;
use crate::tree::Tree;

/// A tree of at most that many nodes, with lists nested at most that deep.
pub fn tree(rng: &mut Rng, nodes: usize, depth: usize) -> Tree {
    if depth == 0 || rng.once_in(8) || (nodes <= 1 && !rng.once_in(4)) {
        return string(rng);
    }
    let mut left = nodes.saturating_sub(1);
    let mut items = Vec::new();
    while left > 0 && !rng.once_in(12) {
        let share = 1 + rng.below(left);
        items.push(tree(rng, share, depth - 1));
        left -= share;
    }
    Tree::List(items)
}

/// A tree as most cases have it.
pub fn small(rng: &mut Rng) -> Tree {
    let nodes = 1 + rng.below(9);
    tree(rng, nodes, 5)
}

/// The tree wrapped in lists until they nest exactly that deep.
pub fn deepened(rng: &mut Rng, mut tree: Tree, depth: usize) -> Tree {
    for _ in tree.depth()..depth {
        let mut items = vec![tree];
        if rng.once_in(10) {
            items.insert(rng.below(2), string(rng));
        }
        tree = Tree::List(items);
    }
    tree
}

/// A string, one in three with a hint, which may be empty.
pub fn string(rng: &mut Rng) -> Tree {
    let hint = match rng.below(9) {
        0 => Some(Vec::new()),
        1 | 2 => Some(octets(rng)),
        _ => None,
    };
    let data = octets(rng);
    Tree::Text { hint, data }
}

/// Octets that call for one spelling or another.
pub fn octets(rng: &mut Rng) -> Vec<u8> {
    let count = match rng.below(20) {
        0 => rng.pick(&[9, 10, 11]),
        1 => rng.pick(&[20, 35, 50]),
        2 if rng.once_in(3) => rng.pick(&[99, 100, 101]),
        _ => rng.below(6),
    };
    let alphabet: &[u8] = match rng.below(8) {
        0..=2 => b"abcXYZ019-./_:*+=",
        3 => b"hours night \"\\ 8",
        4 => b"()[]{}#|\"\\:3 a=&",
        5 => b"\0\x07\x08\t\n\x0b\x0c\r\x1f \x7e\x7f\x80\xfe\xff'",
        6 => b"0123456789",
        _ => return (0..count).map(|_| rng.octet()).collect(),
    };
    (0..count).map(|_| rng.pick(alphabet)).collect()
}
