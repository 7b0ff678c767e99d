//! An element put into a list, and a node removed (S 8.7, 8.8).

use crate::entries::{own_tree, placed, store, tree_of_text, Reading};
use crate::limits::{NO_PLACE, NO_SUCH_NODE, RECORD};
use crate::tree::Tree;

impl Tree {
    /// Takes a node other than node 0 out of the tree; whether it was there.
    pub fn remove(&mut self, node: usize) -> bool {
        let Tree::List(items) = self else {
            return false;
        };
        let mut left = node - 1;
        for place in 0..items.len() {
            if left == 0 {
                items.remove(place);
                return true;
            }
            let nodes = items[place].nodes();
            if left < nodes {
                return items[place].remove(left);
            }
            left -= nodes;
        }
        false
    }
}

/// Puts the tree of a text into a list of a canonical form, as its k-th element.
#[allow(clippy::too_many_arguments)]
pub fn insert(
    form: u32,
    text: &[u8],
    canonical: &mut [u8],
    table: &mut [u32],
    length: usize,
    nodes: usize,
    node: usize,
    k: usize,
) -> Reading {
    let result = tree_of_text(form, text)
        .and_then(|element| {
            let mut tree = own_tree(canonical, length, table, nodes)?;
            match tree.node_mut(node).ok_or(NO_SUCH_NODE)? {
                Tree::List(items) if k <= items.len() => items.insert(k, element),
                _ => return Err(NO_PLACE),
            }
            Ok(tree)
        })
        .and_then(|tree| placed(&tree, canonical.len(), table.len() / RECORD));
    match result {
        Ok(layout) => {
            canonical[..length].fill(0);
            table[..nodes * RECORD].fill(0);
            store(&layout, canonical, table)
        }
        Err(refusal) => Reading::Refused(refusal),
    }
}

/// Removes a node of a canonical form, with all that is in it.
pub fn remove(
    canonical: &mut [u8],
    table: &mut [u32],
    length: usize,
    nodes: usize,
    node: usize,
) -> Reading {
    let result = own_tree(canonical, length, table, nodes).and_then(|mut tree| {
        if node >= nodes {
            return Err(NO_SUCH_NODE);
        }
        if node == 0 {
            return Err(NO_PLACE);
        }
        assert!(tree.remove(node), "a node below the count is there");
        Ok(tree.layout())
    });
    match result {
        Ok(layout) => {
            canonical[..length].fill(0);
            table[..nodes * RECORD].fill(0);
            store(&layout, canonical, table)
        }
        Err(refusal) => Reading::Refused(refusal),
    }
}
