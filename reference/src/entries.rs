//! The entries: what each answers, and what every lent buffer holds after it.
//!
//! An entry first works out the whole result in memory of its own and only
//! then writes to what was lent, so a refusal cannot leave a trace.

use crate::limits::*;
use crate::tree::{Layout, Record, Tree, KIND_HINTED};
use crate::{advanced, basic, canonical, output};

/// The answer of [`read`] and [`replace`], and of an [extract](mod@crate::extract).
#[derive(Clone, Copy, Debug, PartialEq, Eq)]
pub enum Reading {
    /// The canonical form's length and its number of nodes.
    Accepted {
        /// Octets of the canonical form.
        length: usize,
        /// Records of the node table.
        nodes: usize,
    },
    /// The refusal's number.
    Refused(u32),
}

/// The answer of [`write()`].
#[derive(Clone, Copy, Debug, PartialEq, Eq)]
pub enum Writing {
    /// The number of octets written.
    Accepted {
        /// Octets written.
        length: usize,
    },
    /// The refusal's number.
    Refused(u32),
}

/// The answer of [`same`].
#[derive(Clone, Copy, Debug, PartialEq, Eq)]
pub enum Comparing {
    /// Whether both are the same.
    Accepted {
        /// Yes or no.
        same: bool,
    },
    /// The refusal's number; it goes with a no.
    Refused(u32),
}

/// The answer of [`hint`] and [`data`].
#[derive(Clone, Copy, Debug, PartialEq, Eq)]
pub struct Shown<'a> {
    /// Start and end of the part of the canonical form that is shown, or
    /// `None` where the default hint or an empty part is shown instead.
    pub part: Option<(usize, usize)>,
    /// The octets shown.
    pub octets: &'a [u8],
}

/// Reads a source into a lent canonical form and a lent node table.
pub fn read(form: u32, source: &[u8], canonical: &mut [u8], table: &mut [u32]) -> Reading {
    let result = tree_of_text(form, source)
        .and_then(|tree| placed(&tree, canonical.len(), table.len() / RECORD));
    match result {
        Ok(layout) => store(&layout, canonical, table),
        Err(refusal) => Reading::Refused(refusal),
    }
}

/// Writes a canonical form out in one of the three forms.
pub fn write(form: u32, canonical: &[u8], length: usize, out: &mut [u8]) -> Writing {
    match written(form, canonical, length, out.len()) {
        Ok(text) => {
            out[..text.len()].copy_from_slice(&text);
            Writing::Accepted { length: text.len() }
        }
        Err(refusal) => Writing::Refused(refusal),
    }
}

fn written(form: u32, canonical: &[u8], length: usize, room: usize) -> Result<Vec<u8>, u32> {
    let writer = match form {
        CANONICAL => output::canonical,
        BASIC => output::basic,
        ADVANCED => output::advanced,
        _ => return Err(BAD_FORM),
    };
    let text = writer(&tree_of_canonical(canonical, length)?);
    if text.len() > room {
        return Err(TOO_LARGE);
    }
    Ok(text)
}

/// Replaces one node of a canonical form by the tree of a text.
pub fn replace(
    form: u32,
    text: &[u8],
    canonical: &mut [u8],
    table: &mut [u32],
    length: usize,
    nodes: usize,
    node: usize,
) -> Reading {
    let result = corrected(form, text, canonical, table, (length, nodes), node)
        .and_then(|tree| placed(&tree, canonical.len(), table.len() / RECORD));
    match result {
        Ok(layout) => {
            // Whatever the old form and table had and the new lack is zeroed.
            // Both ranges were found to lie in what is lent.
            canonical[..length].fill(0);
            table[..nodes * RECORD].fill(0);
            store(&layout, canonical, table)
        }
        Err(refusal) => Reading::Refused(refusal),
    }
}

/// The corrected tree, before any limit is asked of it.
fn corrected(
    form: u32,
    text: &[u8],
    canonical: &[u8],
    table: &[u32],
    (length, nodes): (usize, usize),
    node: usize,
) -> Result<Tree, u32> {
    let replacement = tree_of_text(form, text)?;
    let (mut tree, _) = tree_of_pair(canonical, length, table, nodes)?;
    *tree.node_mut(node).ok_or(NO_SUCH_NODE)? = replacement;
    Ok(tree)
}

/// Compares two canonical forms; a missing hint counts as the default.
pub fn same(
    a: &[u8],
    a_length: usize,
    b: &[u8],
    b_length: usize,
    default_hint: &[u8],
) -> Comparing {
    match (
        tree_of_canonical(a, a_length),
        tree_of_canonical(b, b_length),
    ) {
        (Ok(a), Ok(b)) => Comparing::Accepted {
            same: a.same(&b, default_hint),
        },
        (Err(refusal), _) | (_, Err(refusal)) => Comparing::Refused(refusal),
    }
}

/// Shows a node's hint, or the default for all but a string with a hint.
pub fn hint<'a>(
    canonical: &'a [u8],
    length: usize,
    table: &[u32],
    nodes: usize,
    node: usize,
    default_hint: &'a [u8],
) -> Shown<'a> {
    let part = record_of(canonical, length, table, nodes, node)
        .filter(|record| record[0] == KIND_HINTED)
        .map(|record| (record[4] as usize, record[5] as usize));
    shown(canonical, part, default_hint)
}

/// Shows a node's data, or an empty part where there is no such node.
pub fn data<'a>(
    canonical: &'a [u8],
    length: usize,
    table: &[u32],
    nodes: usize,
    node: usize,
) -> Shown<'a> {
    let part = record_of(canonical, length, table, nodes, node)
        .map(|record| (record[6] as usize, record[7] as usize));
    shown(canonical, part, &[])
}

fn shown<'a>(canonical: &'a [u8], part: Option<(usize, usize)>, otherwise: &'a [u8]) -> Shown<'a> {
    let octets = match part {
        Some((start, end)) => &canonical[start..end],
        None => otherwise,
    };
    Shown { part, octets }
}

/// Rows 1 to 3: the tree of a text, judged without any limit on the tree.
pub(crate) fn tree_of_text(form: u32, source: &[u8]) -> Result<Tree, u32> {
    let parse = match form {
        CANONICAL => canonical::parse,
        BASIC => basic::parse,
        ADVANCED => advanced::parse,
        TERMINAL => advanced::parse_1997,
        _ => return Err(BAD_FORM),
    };
    if source.len() > MAX_SOURCE {
        return Err(SOURCE_TOO_LONG);
    }
    parse(source).ok_or(NOT_IN_LANGUAGE)
}

/// Rows 4 to 6: the layout of a tree that fits the limits and the room lent.
pub(crate) fn placed(tree: &Tree, room: usize, records: usize) -> Result<Layout, u32> {
    if tree.depth() > MAX_DEPTH {
        return Err(TOO_DEEP);
    }
    let layout = tree.layout();
    if layout.records.len() > records {
        return Err(TOO_MANY_NODES);
    }
    if layout.octets.len() > MAX_CANONICAL.min(room) {
        return Err(TOO_LARGE);
    }
    Ok(layout)
}

/// Row 7 without a table: the tree of a lent canonical form that fits the
/// fixed limits.
pub(crate) fn tree_of_canonical(canonical: &[u8], length: usize) -> Result<Tree, u32> {
    let octets = canonical.get(..length).ok_or(NOT_OWN)?;
    let tree = canonical::parse(octets).ok_or(NOT_OWN)?;
    placed(&tree, MAX_CANONICAL, usize::MAX).map_err(|_| NOT_OWN)?;
    Ok(tree)
}

/// Row 7 with a table, which must be the one that reading would give: as
/// many records, and all their numbers. S 1.4: the own table.
pub(crate) fn tree_of_pair(
    canonical: &[u8],
    length: usize,
    table: &[u32],
    nodes: usize,
) -> Result<(Tree, Layout), u32> {
    let tree = tree_of_canonical(canonical, length)?;
    let layout = tree.layout();
    if nodes != layout.records.len() || nodes > table.len() / RECORD {
        return Err(NOT_OWN);
    }
    if table[..nodes * RECORD] != *layout.records.as_flattened() {
        return Err(NOT_OWN);
    }
    Ok((tree, layout))
}

/// The tree of a canonical form with its own table.
pub(crate) fn own_tree(
    canonical: &[u8],
    length: usize,
    table: &[u32],
    nodes: usize,
) -> Result<Tree, u32> {
    tree_of_pair(canonical, length, table, nodes).map(|(tree, _)| tree)
}

/// The record of a node, if canonical form and table are good and it exists.
fn record_of(
    canonical: &[u8],
    length: usize,
    table: &[u32],
    nodes: usize,
    node: usize,
) -> Option<Record> {
    let (_, layout) = tree_of_pair(canonical, length, table, nodes).ok()?;
    layout.records.get(node).copied()
}

/// Writes a layout that was found to fit, and nothing past it.
pub(crate) fn store(layout: &Layout, canonical: &mut [u8], table: &mut [u32]) -> Reading {
    let numbers = layout.records.as_flattened();
    canonical[..layout.octets.len()].copy_from_slice(&layout.octets);
    table[..numbers.len()].copy_from_slice(numbers);
    Reading::Accepted {
        length: layout.octets.len(),
        nodes: layout.records.len(),
    }
}
