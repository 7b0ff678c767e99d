//! A tree written in each of the three forms.

use crate::base64;
use crate::lexeme::{is_token_octet, is_token_start};
use crate::tree::Tree;

/// Form 1.
pub fn canonical(tree: &Tree) -> Vec<u8> {
    tree.layout().octets
}

/// Form 2, always in braces.
pub fn basic(tree: &Tree) -> Vec<u8> {
    [b"{", &base64::encode(&canonical(tree))[..], b"}"].concat()
}

/// Form 3.
pub fn advanced(tree: &Tree) -> Vec<u8> {
    match tree {
        Tree::Text { hint: None, data } => simple(data),
        Tree::Text {
            hint: Some(hint),
            data,
        } => [b"[", &simple(hint)[..], b"]", &simple(data)[..]].concat(),
        Tree::List(items) => {
            let items: Vec<Vec<u8>> = items.iter().map(advanced).collect();
            [b"(", &items.join(&b' ')[..], b")"].concat()
        }
    }
}

/// Whether the octets can be written as a token.
pub fn is_token(octets: &[u8]) -> bool {
    octets.first().is_some_and(|first| is_token_start(*first))
        && octets.iter().all(|octet| is_token_octet(*octet))
}

/// A token where possible, else quoted where possible, else hexadecimal.
fn simple(octets: &[u8]) -> Vec<u8> {
    if is_token(octets) {
        octets.to_vec()
    } else if octets.iter().all(|octet| (32..=126).contains(octet)) {
        quoted(octets)
    } else {
        hexadecimal(octets)
    }
}

fn quoted(octets: &[u8]) -> Vec<u8> {
    let mut written = vec![b'"'];
    for octet in octets {
        if matches!(octet, b'"' | b'\\') {
            written.push(b'\\');
        }
        written.push(*octet);
    }
    written.push(b'"');
    written
}

fn hexadecimal(octets: &[u8]) -> Vec<u8> {
    let digits: String = octets.iter().map(|octet| format!("{octet:02x}")).collect();
    format!("#{digits}#").into_bytes()
}
