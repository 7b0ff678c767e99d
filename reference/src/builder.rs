//! Puts a tree together while a parser walks over its source.

use crate::tree::Tree;

/// The lists still open, outermost first, and the tree once it is whole.
///
/// Open lists stand in a vector instead of on the call stack, because a source
/// can nest thousands of them.
#[derive(Default)]
pub struct Builder {
    open: Vec<Vec<Tree>>,
    whole: Option<Tree>,
}

impl Builder {
    /// Opens a list; `None` after a whole tree.
    pub fn open(&mut self) -> Option<()> {
        if self.whole.is_some() {
            return None;
        }
        self.open.push(Vec::new());
        Some(())
    }

    /// Closes the innermost list; `None` if none is open.
    pub fn close(&mut self) -> Option<()> {
        let items = self.open.pop()?;
        self.add(Tree::List(items))
    }

    /// Adds a tree to the innermost list, or takes it as the whole; `None`
    /// after a whole tree.
    pub fn add(&mut self, tree: Tree) -> Option<()> {
        if self.whole.is_some() {
            return None;
        }
        match self.open.last_mut() {
            Some(items) => items.push(tree),
            None => self.whole = Some(tree),
        }
        Some(())
    }

    /// The whole tree; `None` if there is none yet.
    pub fn finish(self) -> Option<Tree> {
        self.whole
    }
}
