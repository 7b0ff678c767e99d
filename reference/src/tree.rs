//! The tree, its canonical octets and its node table.
//!
//! A source of 32,768 octets can nest 16,384 lists, which is too deep for
//! recursion on a test thread's stack. So the parsers, [`Tree::depth`] and the
//! drop use no recursion; whatever else is here recurses, and is only called
//! for trees whose depth has been found to be within the limit.

use crate::limits::RECORD;

/// An S-expression.
#[derive(Clone, Debug, PartialEq, Eq)]
pub enum Tree {
    /// A string: data octets, and perhaps a display hint. No hint and an
    /// empty hint are different.
    Text {
        /// The display hint's octets, if there is one.
        hint: Option<Vec<u8>>,
        /// The data octets.
        data: Vec<u8>,
    },
    /// A list of zero or more trees.
    List(Vec<Tree>),
}

/// The record of one node: kind, start, end, nodes, hint start, hint end,
/// data start, data end.
pub type Record = [u32; RECORD];

/// A tree laid out: its canonical octets and its records in node order.
#[derive(Clone, Debug, Default, PartialEq, Eq)]
pub struct Layout {
    /// The canonical form (S 2.4).
    pub octets: Vec<u8>,
    /// One record for each node, in the order in which the nodes begin.
    pub records: Vec<Record>,
}

/// Kind of a string without a hint.
pub const KIND_TEXT: u32 = 0;
/// Kind of a string with a hint.
pub const KIND_HINTED: u32 = 1;
/// Kind of a list.
pub const KIND_LIST: u32 = 2;

impl Tree {
    /// A string without a hint.
    pub fn text(data: &[u8]) -> Tree {
        Tree::Text {
            hint: None,
            data: data.to_vec(),
        }
    }

    /// A string with a hint.
    pub fn hinted(hint: &[u8], data: &[u8]) -> Tree {
        Tree::Text {
            hint: Some(hint.to_vec()),
            data: data.to_vec(),
        }
    }

    /// How deep lists nest: 0 for a string, 1 for a list without lists in it.
    pub fn depth(&self) -> usize {
        let mut deepest = 0;
        let mut waiting = vec![(self, 1)];
        while let Some((tree, depth)) = waiting.pop() {
            if let Tree::List(items) = tree {
                deepest = deepest.max(depth);
                waiting.extend(items.iter().map(|item| (item, depth + 1)));
            }
        }
        deepest
    }

    /// The number of nodes, counting this one.
    pub fn nodes(&self) -> usize {
        match self {
            Tree::Text { .. } => 1,
            Tree::List(items) => 1 + items.iter().map(Tree::nodes).sum::<usize>(),
        }
    }

    /// The node of that number, counted from 0 in the order of beginnings.
    pub fn node_mut(&mut self, node: usize) -> Option<&mut Tree> {
        if node == 0 {
            return Some(self);
        }
        let Tree::List(items) = self else {
            return None;
        };
        let mut left = node - 1;
        for item in items {
            let nodes = item.nodes();
            if left < nodes {
                return item.node_mut(left);
            }
            left -= nodes;
        }
        None
    }

    /// The canonical octets and the node table.
    pub fn layout(&self) -> Layout {
        let mut layout = Layout::default();
        self.lay(&mut layout, 0);
        layout
    }

    /// Laid out as an element of the list that is node `parent`, or as the whole.
    fn lay(&self, layout: &mut Layout, parent: u32) {
        let node = layout.records.len();
        let start = layout.here();
        // The place is taken first: a list's record comes before its elements'.
        layout.records.push([0; RECORD]);
        let (kind, hint, data) = match self {
            Tree::List(items) => {
                layout.octets.push(b'(');
                let inside = layout.here();
                items.iter().for_each(|item| item.lay(layout, number(node)));
                let data = (inside, layout.here());
                layout.octets.push(b')');
                (KIND_LIST, (0, 0), data)
            }
            Tree::Text { hint: None, data } => (KIND_TEXT, (0, 0), layout.verbatim(data)),
            Tree::Text {
                hint: Some(hint),
                data,
            } => {
                layout.octets.push(b'[');
                let hint = layout.verbatim(hint);
                layout.octets.push(b']');
                (KIND_HINTED, hint, layout.verbatim(data))
            }
        };
        let nodes = number(layout.records.len() - node);
        let end = layout.here();
        layout.records[node] = [
            kind, start, end, nodes, hint.0, hint.1, data.0, data.1, parent,
        ];
    }

    /// Whether two trees are equal where a missing hint counts as the default.
    pub fn same(&self, other: &Tree, default_hint: &[u8]) -> bool {
        match (self, other) {
            (Tree::Text { hint: h, data: d }, Tree::Text { hint: k, data: e }) => {
                d == e
                    && h.as_deref().unwrap_or(default_hint) == k.as_deref().unwrap_or(default_hint)
            }
            (Tree::List(these), Tree::List(those)) => {
                these.len() == those.len()
                    && these
                        .iter()
                        .zip(those)
                        .all(|(this, that)| this.same(that, default_hint))
            }
            _ => false,
        }
    }
}

impl Layout {
    fn here(&self) -> u32 {
        number(self.octets.len())
    }

    /// Appends a verbatim string and tells where its octets stand.
    fn verbatim(&mut self, octets: &[u8]) -> (u32, u32) {
        self.octets
            .extend_from_slice(octets.len().to_string().as_bytes());
        self.octets.push(b':');
        let start = self.here();
        self.octets.extend_from_slice(octets);
        (start, self.here())
    }
}

/// Sources are short, so every offset and count of a layout fits.
fn number(value: usize) -> u32 {
    u32::try_from(value).expect("a layout is far smaller than 4 GiB")
}

impl Drop for Tree {
    /// The derived drop would recurse once for each nested list.
    fn drop(&mut self) {
        let Tree::List(items) = self else {
            return;
        };
        let mut waiting = std::mem::take(items);
        while let Some(mut tree) = waiting.pop() {
            if let Tree::List(items) = &mut tree {
                waiting.append(items);
            }
        }
    }
}
