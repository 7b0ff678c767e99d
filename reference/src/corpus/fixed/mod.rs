//! The cases that stand at the head of every corpus, whatever its seed.

pub mod escapes;
pub mod looks;
pub mod order;
pub mod replacements;
pub mod rooms;
pub mod sizes;
pub mod stray;
pub mod terminals;

use super::case::Case;
use super::{known, make};
use crate::canonical;
use crate::tree::{Layout, Tree};

/// All of them, in order.
pub fn cases() -> Vec<Case> {
    [
        texts(),
        rooms::cases(),
        replacements::cases(),
        looks::cases(),
        order::cases(),
        sizes::cases(),
        stray::cases(),
        escapes::cases(),
        terminals::cases(),
    ]
    .concat()
}

/// The known texts in every form, and whatever they give written in every
/// form.
fn texts() -> Vec<Case> {
    let mut cases = Vec::new();
    let mut forms: Vec<&[u8]> = Vec::new();
    for (form, text, answer) in known::all() {
        let others = [1, 2, 3, 4].into_iter().filter(|other| other != form);
        for form in [*form].into_iter().chain(others) {
            let case = make::read(form, text);
            if !cases.contains(&case) {
                cases.push(case);
            }
        }
        if let Ok(octets) = answer {
            if !forms.contains(octets) {
                forms.push(octets);
            }
        }
    }
    for octets in forms {
        cases.extend([1, 2, 3, 4].map(|form| make::write(form, octets, 2 * octets.len() + 9)));
    }
    cases
}

/// The tree of a canonical form written out in this program.
pub(super) fn tree(octets: &[u8]) -> Tree {
    canonical::parse(octets).expect("a canonical form")
}

/// Its layout.
pub(super) fn layout(octets: &[u8]) -> Layout {
    tree(octets).layout()
}
