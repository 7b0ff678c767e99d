//! Replacements.

use super::{spoil, texts};
use crate::corpus::case::{Case, Pair};
use crate::corpus::rng::Rng;
use crate::corpus::trees;
use crate::entries::tree_of_text;
use crate::limits::*;
use crate::tree::{Layout, Tree};

/// A replacement of each node of a tree in turn, and of one past the last.
pub fn every_node(rng: &mut Rng) -> Vec<Case> {
    let tree = trees::small(rng);
    (0..=tree.nodes())
        .map(|node| replacement(rng, &tree, node))
        .collect()
}

/// A replacement in which something is likely to be wrong.
pub fn case(rng: &mut Rng) -> Case {
    if rng.once_in(3) {
        return near_the_deepest(rng);
    }
    let tree = trees::small(rng);
    let node = rng.below(tree.nodes());
    let (form, text) = texts::text(rng);
    let mut pair = pair_for(rng, &tree, node, form, &text);
    let mut node = node as u64;
    if rng.once_in(2) {
        spoil::spoil_pair(rng, &mut pair);
    }
    if rng.once_in(5) {
        let far = spoil::huge(rng, node);
        node = rng.pick(&[pair.nodes, pair.nodes.saturating_add(1), far]);
    }
    Case::Replace {
        form,
        text,
        pair,
        node,
    }
}

/// A replacement whose text is good in most cases.
fn replacement(rng: &mut Rng, tree: &Tree, node: usize) -> Case {
    let (form, text) = if rng.once_in(8) {
        texts::text(rng)
    } else {
        let nodes = 1 + rng.below(6);
        let new = trees::tree(rng, nodes, 4);
        texts::in_some_form(rng, &new)
    };
    let pair = pair_for(rng, tree, node, form, &text);
    Case::Replace {
        form,
        text,
        pair,
        node: node as u64,
    }
}

/// A replacement whose result nests exactly as deep as may be, or one deeper,
/// or in which a deep part is replaced by a shallow one.
fn near_the_deepest(rng: &mut Rng) -> Case {
    let shallow = trees::small(rng);
    let outer = 1 + rng.below(12);
    let outside = trees::deepened(rng, shallow, outer);
    let node = rng.below(outside.nodes());
    let around = depth_around(&outside, node);
    let depth = (MAX_DEPTH + rng.below(3)).saturating_sub(1 + around);
    let new = trees::small(rng);
    let new = trees::deepened(rng, new, depth);
    let (form, text) = texts::in_some_form(rng, &new);
    let pair = pair_for(rng, &outside, node, form, &text);
    Case::Replace {
        form,
        text,
        pair,
        node: node as u64,
    }
}

/// How many lists are around a node.
fn depth_around(tree: &Tree, node: usize) -> usize {
    let layout = tree.layout();
    let inner = layout.records[node];
    let around = |outer: &&[u32; RECORD]| outer[1] < inner[1] && inner[2] < outer[2];
    layout.records.iter().filter(around).count()
}

/// A canonical form with its own table in room that suits the corrected tree: more
/// than enough, exact, or one octet or record short of it.
fn pair_for(rng: &mut Rng, tree: &Tree, node: usize, form: u32, text: &[u8]) -> Pair {
    let old = tree.layout();
    let (octets, records) = match corrected(tree, node, form, text) {
        Some(new) => (new.octets.len(), new.records.len()),
        None => (old.octets.len(), old.records.len()),
    };
    let room = match rng.below(8) {
        0..=3 => octets + rng.below(12),
        4 => octets - 1,
        _ => octets,
    };
    let records = match rng.below(8) {
        0..=3 => records + rng.below(3),
        4 => records - 1,
        _ => records,
    };
    let numbers = records * RECORD + texts::remainder(rng);
    spoil::pair_in(rng, &old, room, numbers)
}

fn corrected(tree: &Tree, node: usize, form: u32, text: &[u8]) -> Option<Layout> {
    let mut tree = tree.clone();
    *tree.node_mut(node)? = tree_of_text(form, text).ok()?;
    (tree.depth() <= MAX_DEPTH).then(|| tree.layout())
}
