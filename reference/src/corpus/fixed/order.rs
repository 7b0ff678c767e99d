//! Cases in which two neighbours of an entry's order of refusals apply; the
//! first of them must be the answer.

use super::layout;
use super::sizes::{empties, nested};
use crate::corpus::case::{Case, Pair};
use crate::corpus::known::scope::LIST;
use crate::corpus::make;
use crate::limits::{MAX_DEPTH, MAX_NODES, MAX_SOURCE, RECORD};

/// The cases.
pub fn cases() -> Vec<Case> {
    [reads(), writes(), replaces()].concat()
}

fn reads() -> Vec<Case> {
    let too_long = vec![b'?'; MAX_SOURCE + 1];
    let too_deep = nested(MAX_DEPTH + 1);
    vec![
        make::read(9, &too_long),
        make::read(3, &too_long),
        make::read(3, &too_deep[..MAX_DEPTH + 1]),
        make::read_into(3, &too_deep, 0, 0),
        make::read_into(3, &too_deep, 100, 100),
        make::read_into(1, &empties(MAX_NODES), 0, 0),
        make::read_into(1, LIST, 13, 23),
        make::read_into(1, LIST, 13, 24),
        make::read_into(9, b"?", 0, 0),
        make::read_into(3, b"?", 0, 0),
    ]
}

fn writes() -> Vec<Case> {
    let bad = b"(3:abc";
    vec![
        make::write(9, bad, 0),
        make::write(1, bad, 0),
        make::write(1, LIST, 0),
    ]
}

fn replaces() -> Vec<Case> {
    let too_long = vec![b'?'; MAX_SOURCE + 1];
    let too_deep = nested(MAX_DEPTH + 1);
    let layout = layout(LIST);
    let own = || make::pair(&layout);
    let foreign = || Pair { nodes: 2, ..own() };
    let exact = || make::pair_in(&layout, LIST.len(), layout.records.len() * RECORD);
    vec![
        make::replace(9, &too_long, foreign(), 7),
        make::replace(3, &too_long, foreign(), 7),
        make::replace(3, b"?", foreign(), 7),
        make::replace(3, b"?", own(), 7),
        make::replace(3, &too_deep, foreign(), 7),
        make::replace(3, &too_deep, foreign(), 1),
        make::replace(3, &too_deep, own(), 7),
        make::replace(3, &too_deep, exact(), 1),
        make::replace(3, &too_deep[1..2 * MAX_DEPTH + 1], exact(), 0),
        make::replace(3, &too_deep[1..2 * MAX_DEPTH + 1], exact(), 1),
        make::replace(3, b"(a b c d e f)", exact(), 1),
        make::replace(3, b"abcdef", exact(), 1),
        make::replace(3, b"abc", exact(), 1),
    ]
}
