//! Form 4: trees in braces, each limit hit exactly and by one, and texts that
//! are broken past a limit.

use super::super::case::Case;
use super::super::make;
use crate::base64;
use crate::limits::{MAX_DEPTH, MAX_NODES, TERMINAL};

/// All of them.
pub fn cases() -> Vec<Case> {
    [depths(), sizes(), after_limits()].concat()
}

fn read(text: &[u8]) -> Case {
    make::read(TERMINAL, text)
}

/// The octets in braces.
fn braced(octets: &[u8]) -> Vec<u8> {
    [b"{", &base64::encode(octets)[..], b"}"].concat()
}

/// So many lists in one another.
fn nested(depth: usize) -> Vec<u8> {
    [vec![b'('; depth], vec![b')'; depth]].concat()
}

/// `outer` lists open around braces with `inner` in one another.
fn around(outer: usize, inner: usize) -> Vec<u8> {
    [vec![b'('; outer], braced(&nested(inner)), vec![b')'; outer]].concat()
}

/// Depths are added: outside, inside, and one more than may be.
fn depths() -> Vec<Case> {
    let mut cases = Vec::new();
    for depth in [MAX_DEPTH, MAX_DEPTH + 1] {
        for outer in [0, 1, depth / 2, depth - 1] {
            cases.push(read(&around(outer, depth - outer)));
        }
    }
    // Deep before and after the braces, and not in them.
    cases.push(read(
        &[&b"("[..], &nested(MAX_DEPTH), &braced(b"1:a"), b")"].concat(),
    ));
    cases.push(read(
        &[&b"("[..], &braced(b"1:a"), &nested(MAX_DEPTH - 1), b")"].concat(),
    ));
    cases
}

/// As many nodes and octets as may be, and one more.
fn sizes() -> Vec<Case> {
    let mut cases = Vec::new();
    for nodes in [MAX_NODES - 1, MAX_NODES] {
        let half = nodes / 2;
        let inside = [&b"("[..], &b"0:".repeat(half - 1), b")"].concat();
        let text = [
            &b"("[..],
            &braced(&inside),
            &b"\"\"".repeat(nodes - half),
            b")",
        ]
        .concat();
        cases.push(read(&text));
    }
    for length in [16_378, 16_379] {
        let string = [length.to_string().as_bytes(), b":", &vec![b'x'; length]].concat();
        cases.push(read(&braced(&string)));
    }
    // Octets past the largest sheet, in braces and after them.
    let string = [b"9000:", &vec![b'y'; 9_000][..]].concat();
    let text = [&b"("[..], &braced(&string), &string, b"{MTph})"].concat();
    cases.push(read(&text));
    cases
}

/// A text that is broken is refused with 3, whatever limit it is past.
fn after_limits() -> Vec<Case> {
    let deep = around(1, MAX_DEPTH + 1);
    [&b"x"[..], b"{}", b"{MTph}", b")"]
        .into_iter()
        .map(|rest| read(&[&deep[..], rest].concat()))
        .collect()
}
