//! Reads.

use crate::corpus::case::{Case, Lent, MAX_CANONICAL_ROOM, MAX_TABLE_ROOM};
use crate::corpus::rng::Rng;
use crate::corpus::{damage, spell, trees};
use crate::entries::tree_of_text;
use crate::limits::*;
use crate::output;
use crate::tree::{Layout, Tree};

/// A read of some text into some room.
pub fn case(rng: &mut Rng) -> Case {
    let (form, source) = text(rng);
    into_some_room(rng, form, source)
}

/// A text with its form: most often good, else wrong in one way or another.
pub fn text(rng: &mut Rng) -> (u32, Vec<u8>) {
    match rng.below(30) {
        0..=16 => good(rng),
        17..=21 => {
            let (form, text) = good(rng);
            (form, damage::damaged(rng, &text))
        }
        22..=24 => (rng.pick(&[3, 3, 4, 4, 2, 1]), damage::soup(rng)),
        25 | 26 => odd_length(rng),
        27 => {
            let (_, text) = good(rng);
            (rng.pick(&[1, 2, 3, 4]), text)
        }
        28 => {
            let depth = rng.pick(&[MAX_DEPTH, MAX_DEPTH + 1]);
            let tree = trees::small(rng);
            let tree = trees::deepened(rng, tree, depth);
            in_some_form(rng, &tree)
        }
        _ => {
            let (_, text) = good(rng);
            (rng.pick(&[0, 5, 9, 258, 1 << 16, u32::MAX]), text)
        }
    }
}

fn good(rng: &mut Rng) -> (u32, Vec<u8>) {
    let tree = trees::small(rng);
    in_some_form(rng, &tree)
}

/// A tree's text in one of the forms; form 3 in most cases, as it has the
/// most spellings.
pub fn in_some_form(rng: &mut Rng, tree: &Tree) -> (u32, Vec<u8>) {
    let canonical = output::canonical(tree);
    match rng.below(16) {
        0 => (CANONICAL, canonical),
        1 => (BASIC, canonical),
        2 => (ADVANCED, canonical),
        3 => (ADVANCED, output::advanced(tree)),
        4 | 5 => (BASIC, spell::basic(rng, &canonical)),
        6 => (TERMINAL, spell::advanced(rng, tree)),
        7..=9 => (TERMINAL, spell::terminal(rng, tree)),
        _ => (ADVANCED, spell::advanced(rng, tree)),
    }
}

/// A string whose length may be wrong, alone or in a list or as a hint.
fn odd_length(rng: &mut Rng) -> (u32, Vec<u8>) {
    let octets = trees::octets(rng);
    let string = damage::with_odd_length(rng, &octets);
    let text = match rng.below(4) {
        0 => [b"(1:a", &string[..], b"1:b)"].concat(),
        1 => [b"[", &string[..], b"]0:"].concat(),
        _ => string,
    };
    match rng.below(4) {
        0 => (CANONICAL, text),
        1 => (BASIC, spell::basic(rng, &text)),
        _ => (ADVANCED, text),
    }
}

/// The layout that a text gives if nothing but room could be missing.
pub fn layout_of(form: u32, source: &[u8]) -> Option<Layout> {
    let tree = tree_of_text(form, source).ok()?;
    (tree.depth() <= MAX_DEPTH).then(|| tree.layout())
}

/// Room to spare in most cases, else exact, or one octet or record short.
pub fn into_some_room(rng: &mut Rng, form: u32, source: Vec<u8>) -> Case {
    let (octets, records) = match layout_of(form, &source) {
        Some(layout) => (layout.octets.len(), layout.records.len()),
        None => (rng.below(40), rng.below(6)),
    };
    let room = match rng.below(10) {
        0..=5 => octets + rng.below(20),
        6 => octets.saturating_sub(1),
        7 if rng.once_in(3) => rng.below(octets + 1),
        _ => octets,
    };
    let records = match rng.below(10) {
        0..=5 => records + rng.below(4),
        6 => records.saturating_sub(1),
        7 if rng.once_in(3) => rng.below(records + 1),
        _ => records,
    };
    let numbers = records * RECORD + remainder(rng);
    Case::Read {
        form,
        source,
        canonical: lent(rng, room.min(MAX_CANONICAL_ROOM)),
        table: lent(rng, numbers.min(MAX_TABLE_ROOM)),
    }
}

/// Numbers of a table past its last whole record.
pub fn remainder(rng: &mut Rng) -> usize {
    rng.below(2) * rng.below(RECORD)
}

/// A buffer, seldom with anything given.
fn lent<T: From<u8>>(rng: &mut Rng, room: usize) -> Lent<T> {
    let fill = rng.octet();
    let given = if rng.once_in(8) {
        rng.below(room.min(6) + 1)
    } else {
        0
    };
    let given = (0..given).map(|_| T::from(rng.octet())).collect();
    Lent { room, fill, given }
}
