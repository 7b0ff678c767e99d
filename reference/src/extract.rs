//! The extract of a sheet (S 11).

use crate::entries::{own_tree, placed, store, tree_of_canonical, Reading};
use crate::limits::RECORD;
use crate::tree::Tree;

/// The string that makes the list that it is first in private.
const WORD: &[u8] = b"private";

impl Tree {
    /// The tree with every list whose first element is the unhinted string
    /// `private` replaced by an empty one. Lists are judged as they stand here.
    pub fn extract(&self) -> Tree {
        match self {
            Tree::Text { .. } => self.clone(),
            Tree::List(items) => match items.first() {
                Some(Tree::Text { hint: None, data }) if data == WORD => Tree::List(Vec::new()),
                _ => Tree::List(items.iter().map(Tree::extract).collect()),
            },
        }
    }
}

/// The extract of a canonical form into a lent canonical form and node table.
pub fn extract(sheet: &[u8], length: usize, canonical: &mut [u8], table: &mut [u32]) -> Reading {
    given(tree_of_canonical(sheet, length), canonical, table)
}

/// The same of a canonical form with its own table.
pub fn extract_own(
    sheet: &[u8],
    length: usize,
    rows: &[u32],
    nodes: usize,
    canonical: &mut [u8],
    table: &mut [u32],
) -> Reading {
    given(own_tree(sheet, length, rows, nodes), canonical, table)
}

fn given(sheet: Result<Tree, u32>, canonical: &mut [u8], table: &mut [u32]) -> Reading {
    let result = sheet
        .map(|tree| tree.extract())
        .and_then(|tree| placed(&tree, canonical.len(), table.len() / RECORD));
    match result {
        Ok(layout) => store(&layout, canonical, table),
        Err(refusal) => Reading::Refused(refusal),
    }
}
