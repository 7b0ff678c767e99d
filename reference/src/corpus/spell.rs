//! Random spellings of a tree: texts in forms 2 to 4 that read back to it.

use super::rng::Rng;
use crate::base64;
use crate::lexeme::is_token_octet;
use crate::output::{self, is_token};
use crate::tree::Tree;

const WHITESPACE: &[u8; 6] = b" \t\n\x0b\x0c\r";

/// A spelling in form 3.
pub fn advanced(rng: &mut Rng, tree: &Tree) -> Vec<u8> {
    sexp(rng, tree, false)
}

/// A spelling in form 4: any tree in it may stand in braces.
pub fn terminal(rng: &mut Rng, tree: &Tree) -> Vec<u8> {
    sexp(rng, tree, true)
}

fn sexp(rng: &mut Rng, tree: &Tree, braces: bool) -> Vec<u8> {
    let mut out = Vec::new();
    space(rng, &mut out);
    value(rng, tree, braces, &mut out);
    space(rng, &mut out);
    out
}

/// A spelling in form 2, in braces.
pub fn basic(rng: &mut Rng, canonical: &[u8]) -> Vec<u8> {
    let mut out = vec![b'{'];
    letters(rng, canonical, &mut out);
    out.push(b'}');
    out
}

/// Spells a value and tells whether it ends with a token.
fn value(rng: &mut Rng, tree: &Tree, braces: bool, out: &mut Vec<u8>) -> bool {
    if braces && rng.once_in(3) {
        out.extend(basic(rng, &output::canonical(tree)));
        return false;
    }
    match tree {
        Tree::List(items) => {
            list(rng, items, braces, out);
            false
        }
        Tree::Text { hint, data } => {
            if let Some(hint) = hint {
                out.push(b'[');
                space(rng, out);
                simple(rng, hint, out);
                space(rng, out);
                out.push(b']');
                space(rng, out);
            }
            simple(rng, data, out)
        }
    }
}

fn list(rng: &mut Rng, items: &[Tree], braces: bool, out: &mut Vec<u8>) {
    out.push(b'(');
    space(rng, out);
    let mut after_token = false;
    for item in items {
        let mut piece = Vec::new();
        let ends_with_token = value(rng, item, braces, &mut piece);
        if after_token && is_token_octet(piece[0]) {
            out.push(rng.pick(WHITESPACE));
        }
        out.append(&mut piece);
        let before = out.len();
        space(rng, out);
        after_token = ends_with_token && out.len() == before;
    }
    out.push(b')');
}

/// Spells a simple string and tells whether as a token.
pub fn simple(rng: &mut Rng, octets: &[u8], out: &mut Vec<u8>) -> bool {
    if is_token(octets) && rng.once_in(2) {
        out.extend(octets);
        return true;
    }
    let kind = rng.below(4);
    if kind == 0 || rng.once_in(3) {
        out.extend(octets.len().to_string().into_bytes());
    }
    match kind {
        0 => {
            out.push(b':');
            out.extend(octets);
        }
        1 => quoted(rng, octets, out),
        2 => hexadecimal(rng, octets, out),
        _ => {
            out.push(b'|');
            letters(rng, octets, out);
            out.push(b'|');
        }
    }
    false
}

fn quoted(rng: &mut Rng, octets: &[u8], out: &mut Vec<u8>) {
    out.push(b'"');
    for octet in octets {
        continued(rng, out);
        let plain = matches!(octet, 32..=126) && !matches!(octet, b'"' | b'\\');
        if plain && !rng.once_in(5) {
            out.push(*octet);
        } else {
            escaped(rng, *octet, out);
        }
    }
    continued(rng, out);
    out.push(b'"');
}

/// Now and then a continued line, which stands for nothing.
fn continued(rng: &mut Rng, out: &mut Vec<u8>) {
    if rng.once_in(25) {
        let breaks: [&[u8]; 4] = [b"\r", b"\n", b"\r\n", b"\n\r"];
        out.push(b'\\');
        out.extend(rng.pick(&breaks));
    }
}

fn escaped(rng: &mut Rng, octet: u8, out: &mut Vec<u8>) {
    let named = match octet {
        7 => Some(b'a'),
        8 => Some(b'b'),
        9 => Some(b't'),
        10 => Some(b'n'),
        11 => Some(b'v'),
        12 => Some(b'f'),
        13 => Some(b'r'),
        b'"' | b'\'' | b'\\' | b'?' => Some(octet),
        _ => None,
    };
    out.push(b'\\');
    match (named, rng.below(3)) {
        (Some(name), 0 | 1) => out.push(name),
        (_, 0 | 2) => out.extend(format!("{octet:03o}").into_bytes()),
        _ => {
            out.push(b'x');
            out.push(hex_digit(rng, octet >> 4));
            out.push(hex_digit(rng, octet & 15));
        }
    }
}

fn hexadecimal(rng: &mut Rng, octets: &[u8], out: &mut Vec<u8>) {
    out.push(b'#');
    gap(rng, out);
    for octet in octets {
        out.push(hex_digit(rng, octet >> 4));
        gap(rng, out);
        out.push(hex_digit(rng, octet & 15));
        gap(rng, out);
    }
    out.push(b'#');
}

fn hex_digit(rng: &mut Rng, value: u8) -> u8 {
    let digits = if rng.once_in(2) {
        b"0123456789abcdef"
    } else {
        b"0123456789ABCDEF"
    };
    digits[usize::from(value)]
}

/// Base-64 letters with whitespace between, padded or not.
fn letters(rng: &mut Rng, octets: &[u8], out: &mut Vec<u8>) {
    let mut letters = base64::encode(octets);
    let padding = letters.iter().filter(|letter| **letter == b'=').count();
    letters.truncate(letters.len() - padding);
    let kept = if rng.once_in(2) {
        padding
    } else {
        rng.below(padding + 1)
    };
    letters.extend(vec![b'='; kept]);
    gap(rng, out);
    for letter in letters {
        out.push(letter);
        gap(rng, out);
    }
}

/// Whitespace between values: often none.
pub fn space(rng: &mut Rng, out: &mut Vec<u8>) {
    for _ in 0..[0, 0, 0, 1, 1, 2][rng.below(6)] {
        out.push(rng.pick(WHITESPACE));
    }
}

/// Whitespace between digits or letters: rarely any.
fn gap(rng: &mut Rng, out: &mut Vec<u8>) {
    if rng.once_in(12) {
        out.push(rng.pick(WHITESPACE));
    }
}
