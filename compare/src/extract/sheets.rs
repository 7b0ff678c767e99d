//! Sheets with private lists: fixed ones, random ones, and pairs that differ only
//! inside private lists.

use reference::corpus::rng::Rng;
use reference::corpus::trees;
use reference::limits::{MAX_CANONICAL, MAX_NODES};
use reference::tree::Tree;

/// The word that makes a list private.
const WORD: &[u8] = b"private";

/// Sheets that tell what is private from what is not.
pub const FIXED: &[&[u8]] = &[
    b"(7:private1:a)",
    b"(7:private)",
    b"7:private",
    b"(1:a7:private)",
    b"([1:h]7:private1:a)",
    b"([0:]7:private)",
    b"([7:private]7:private)",
    b"(7:Private1:a)",
    b"(7:PRIVATE)",
    b"(6:privat)",
    b"(8:private )",
    b"((7:private)7:private)",
    b"(()7:private)",
    b"(1:a(7:private(7:private1:b))(1:c(7:private)))",
    b"((7:private)(7:private)(7:private))",
    b"(0:(7:private0:))",
    b"()",
];

/// Lists of empty strings with 8,190 to 8,192 nodes.
pub fn full() -> impl Iterator<Item = Tree> {
    (MAX_NODES - 2..=MAX_NODES).map(|nodes| Tree::List(vec![Tree::text(b""); nodes - 1]))
}

/// Pairs at the limits: nothing behind the word, against one string that fills
/// the largest canonical form, and against 4,000 nodes.
pub fn pairs_at_limits() -> [[Tree; 2]; 2] {
    let within = |hidden: Vec<Tree>| {
        let mut items = vec![Tree::text(WORD)];
        items.extend(hidden);
        Tree::List(vec![Tree::text(b"a"), Tree::List(items)])
    };
    // Around the string's octets stand (1:a(7:private, its length with a colon, and )).
    let long = Tree::text(&vec![b'x'; MAX_CANONICAL - 22]);
    let many = vec![Tree::text(b""); 8_000];
    [vec![long], many].map(|hidden| [within(Vec::new()), within(hidden)])
}

/// A random tree in which many lists begin with the word, or nearly.
pub fn private(rng: &mut Rng) -> Tree {
    let (nodes, depth) = (1 + rng.below(30), rng.below(8));
    let mut tree = trees::tree(rng, nodes, depth);
    mark(rng, &mut tree);
    tree
}

fn mark(rng: &mut Rng, tree: &mut Tree) {
    let Tree::List(items) = tree else {
        return;
    };
    for item in items.iter_mut() {
        mark(rng, item);
    }
    let first = match rng.below(12) {
        0..=2 => Tree::text(WORD),
        3 => Tree::hinted(b"h", WORD),
        4 => Tree::hinted(b"", WORD),
        5 => Tree::text(b"Private"),
        6 => Tree::text(b"privatE"),
        7 => Tree::text(b"privately"),
        8 => {
            items.push(Tree::text(WORD));
            return;
        }
        _ => return,
    };
    items.insert(0, first);
}

/// The tree with other elements behind the word in private lists: alike.
pub fn refilled(rng: &mut Rng, tree: &Tree) -> Tree {
    match tree {
        Tree::Text { .. } => tree.clone(),
        Tree::List(items) => match items.first() {
            Some(Tree::Text { hint: None, data }) if data == WORD => {
                let mut other = vec![Tree::text(WORD)];
                other.extend((0..rng.below(4)).map(|_| trees::small(rng)));
                Tree::List(other)
            }
            _ => Tree::List(items.iter().map(|item| refilled(rng, item)).collect()),
        },
    }
}
