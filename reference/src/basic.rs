//! Form 2, basic: form 1, or base-64 of it in braces.

use crate::tree::Tree;
use crate::{base64, canonical};

/// The tree of a basic form; `None` if the source is none.
pub fn parse(source: &[u8]) -> Option<Tree> {
    match source {
        [b'{', inside @ .., b'}'] => canonical::parse(&base64::decode(inside)?),
        _ => canonical::parse(source),
    }
}
