//! Texts and canonical forms of exact sizes: at each limit, and one past it.

use super::layout;
use crate::base64;
use crate::corpus::case::Case;
use crate::corpus::make::{self, read, read_into};
use crate::limits::*;

/// The cases.
pub fn cases() -> Vec<Case> {
    [
        depths(),
        counts(),
        lengths(),
        sources(),
        writes(),
        replaces(),
        comparisons(),
    ]
    .concat()
}

/// That many lists, each in the one before.
pub fn nested(count: usize) -> Vec<u8> {
    [vec![b'('; count], vec![b')'; count]].concat()
}

/// A list of that many empty strings, canonical.
pub fn empties(count: usize) -> Vec<u8> {
    [b"(", &b"0:".repeat(count)[..], b")"].concat()
}

/// A verbatim string of that many octets.
pub fn verbatim(octet: u8, count: usize) -> Vec<u8> {
    [format!("{count}:").as_bytes(), &vec![octet; count]].concat()
}

/// Data octets of a lone string whose canonical form has exactly the most
/// octets: six of them are its length and colon.
pub const FULL: usize = MAX_CANONICAL - 6;

fn in_braces(octets: &[u8]) -> Vec<u8> {
    [b"{", &base64::encode(octets)[..], b"}"].concat()
}

fn padded(text: &[u8], size: usize) -> Vec<u8> {
    [text, &vec![b' '; size - text.len()]].concat()
}

fn depths() -> Vec<Case> {
    let mut cases = Vec::new();
    for depth in [MAX_DEPTH - 1, MAX_DEPTH, MAX_DEPTH + 1] {
        let lists = nested(depth);
        cases.extend([1, 2, 3].map(|form| read(form, &lists)));
        cases.push(read(2, &in_braces(&lists)));
        cases.push(read(
            3,
            &[&lists[..depth], b"a 1:b", &lists[depth..]].concat(),
        ));
        // Not in the language, however deep.
        cases.push(read(1, &lists[..depth]));
        cases.push(read(3, &lists[..2 * depth - 1]));
        cases.push(read(3, &[&lists[..], b")"].concat()));
        cases.push(make::write(3, &lists, 2 * MAX_DEPTH + 10));
    }
    cases.push(read(3, &nested(MAX_SOURCE / 2)));
    cases.push(read(1, &vec![b'('; MAX_SOURCE / 8]));
    cases
}

/// As many nodes as the octets hold, around it, with records lent exactly, one
/// fewer and one more. One node over is over in octets too, so that records
/// alone decide between 5 and 6.
fn counts() -> Vec<Case> {
    let over = empties(MAX_NODES);
    let deep_and_over = [&nested(MAX_DEPTH)[..MAX_DEPTH], &over, &[b')'; MAX_DEPTH]].concat();
    let mut cases = Vec::new();
    for nodes in MAX_NODES - 2..=MAX_NODES + 1 {
        let text = empties(nodes - 1);
        for records in [nodes - 1, nodes, nodes + 1] {
            cases.push(read_into(1, &text, MAX_CANONICAL, records * RECORD));
        }
    }
    cases.extend([
        // A number is missing to the last record.
        read_into(
            1,
            &empties(MAX_NODES - 1),
            MAX_CANONICAL,
            MAX_NODES * RECORD - 1,
        ),
        read(1, &over[..over.len() - 1]),
        read(1, &deep_and_over),
    ]);
    cases
}

fn lengths() -> Vec<Case> {
    let full = verbatim(b'n', FULL);
    let over = verbatim(b'n', FULL + 1);
    vec![
        read_into(1, &full, MAX_CANONICAL, RECORD),
        read_into(1, &full, MAX_CANONICAL - 1, RECORD),
        read(1, &over),
        read(3, &[&over[..], b"\0"].concat()),
        read(2, &in_braces(&full)),
    ]
}

/// One octet more is in `order`.
fn sources() -> Vec<Case> {
    let mut digits = vec![b'9'; MAX_SOURCE - 4];
    digits.extend(b":abc");
    vec![read(3, &padded(b"3:abc", MAX_SOURCE)), read(3, &digits)]
}

/// Output twice as long as the canonical form, nearly, and forms one past
/// each limit.
fn writes() -> Vec<Case> {
    let quotes = verbatim(b'"', FULL);
    vec![
        make::write(3, &quotes, 2 * FULL + 2),
        make::write(1, &verbatim(0, FULL + 1), 20_000),
        make::write(1, &empties(MAX_NODES), 20_000),
        // Each `0:` goes out as two quotes and a space.
        make::write(3, &empties(MAX_NODES - 1), 3 * MAX_NODES),
    ]
}

fn replaces() -> Vec<Case> {
    let old = layout(b"(1:a1:b)");
    let wide = |text: &[u8]| {
        let pair = make::pair_in(&old, MAX_CANONICAL + 100, (MAX_NODES + 10) * RECORD);
        make::replace(3, text, pair, 1)
    };
    let full = layout(&verbatim(b'n', FULL));
    let deepest = layout(&nested(MAX_DEPTH));
    let room = make::pair_in(&deepest, 3 * MAX_DEPTH, 2 * MAX_DEPTH * RECORD);
    vec![
        wide(&padded(b"3:abc", MAX_SOURCE)),
        // Without node 1 it has two nodes and five octets; with the text,
        // 16,383 octets, and then two too many.
        wide(&empties(MAX_NODES - 4)),
        wide(&empties(MAX_NODES - 3)),
        wide(&verbatim(b'm', FULL - 5)),
        wide(&verbatim(b'm', FULL - 4)),
        wide(&nested(MAX_DEPTH - 1)),
        wide(&nested(MAX_DEPTH)),
        // What is replaced makes room for what comes.
        make::replace(3, b"()", make::pair_in(&full, MAX_CANONICAL, RECORD), 0),
        make::replace(3, b"a", room.clone(), MAX_DEPTH as u64 - 1),
        make::replace(3, b"()", room.clone(), MAX_DEPTH as u64 - 1),
        make::replace(3, b"(())", room.clone(), MAX_DEPTH as u64 - 1),
        make::replace(3, b"(())", room.clone(), MAX_DEPTH as u64 - 2),
        make::replace(3, &nested(MAX_DEPTH), room.clone(), 0),
        make::replace(3, &nested(MAX_DEPTH + 1), room, 0),
    ]
}

fn comparisons() -> Vec<Case> {
    let compare = |a: &[u8], b: &[u8]| Case::Same {
        a: make::canonical(a),
        b: make::canonical(b),
        default_hint: Vec::new(),
    };
    vec![
        compare(&nested(MAX_DEPTH), &nested(MAX_DEPTH)),
        compare(&nested(MAX_DEPTH), &nested(MAX_DEPTH + 1)),
        compare(b"()", &empties(MAX_NODES)),
        compare(&empties(MAX_NODES - 1), b"()"),
    ]
}
