//! Trees as terminals spell them, by RFC 9804 and without the library.

use crate::rng::Rng;

pub enum Tree {
    Word(Option<&'static str>, Vec<u8>),
    List(Vec<Tree>),
}

impl Tree {
    pub fn word(text: &str) -> Tree {
        Tree::Word(None, text.into())
    }
}

pub fn canonical(tree: &Tree, out: &mut Vec<u8>) {
    match tree {
        Tree::Word(hint, data) => {
            if let Some(hint) = hint {
                out.extend(format!("[{}:{hint}]", hint.len()).bytes());
            }
            out.extend(format!("{}:", data.len()).bytes());
            out.extend(data);
        }
        Tree::List(elements) => {
            out.push(b'(');
            elements.iter().for_each(|element| canonical(element, out));
            out.push(b')');
        }
    }
}

pub fn basic(tree: &Tree, out: &mut Vec<u8>) {
    let mut octets = Vec::new();
    canonical(tree, &mut octets);
    out.push(b'{');
    base64(&octets, out);
    out.push(b'}');
}

/// As people and terminals write it: each string in some way that can hold it.
pub fn advanced(tree: &Tree, rng: &mut Rng, out: &mut Vec<u8>) {
    match tree {
        Tree::Word(hint, data) => {
            if let Some(hint) = hint {
                out.extend(format!("[{hint}]").bytes());
            }
            word(data, rng, out);
        }
        Tree::List(elements) => {
            out.push(b'(');
            for element in elements {
                advanced(element, rng, out);
                out.extend(rng.one_of(&[&b" "[..], b"  ", b"\n\t", b"\r\n"]));
            }
            out.push(b')');
        }
    }
}

/// As the terminals of 1997 send it: some trees in base-64 in braces.
pub fn terminal(tree: &Tree, rng: &mut Rng, out: &mut Vec<u8>) {
    match tree {
        _ if rng.below(4) == 0 => basic(tree, out),
        Tree::Word(..) => advanced(tree, rng, out),
        Tree::List(elements) => {
            out.push(b'(');
            for element in elements {
                terminal(element, rng, out);
                out.push(b' ');
            }
            out.push(b')');
        }
    }
}

fn word(data: &[u8], rng: &mut Rng, out: &mut Vec<u8>) {
    let letters = !data.is_empty() && data.iter().all(u8::is_ascii_lowercase);
    let plain = |octet: &u8| matches!(octet, b' '..=b'~') && !b"\"\\".contains(octet);
    match rng.below(5) {
        0 | 1 if letters => out.extend(data),
        2 if data.iter().all(plain) => {
            out.push(b'"');
            out.extend(data);
            out.push(b'"');
        }
        3 => {
            out.push(b'|');
            base64(data, out);
            out.push(b'|');
        }
        4 => out.extend([format!("{}:", data.len()).as_bytes(), data].concat()),
        _ => {
            let digits: String = data.iter().map(|octet| format!("{octet:02X}")).collect();
            out.extend(format!("#{digits}#").bytes());
        }
    }
}

fn base64(octets: &[u8], out: &mut Vec<u8>) {
    let letters = b"ABCDEFGHIJKLMNOPQRSTUVWXYZabcdefghijklmnopqrstuvwxyz0123456789+/";
    for group in octets.chunks(3) {
        let at = |place: usize| group.get(place).map_or(0, |octet| u32::from(*octet));
        let bits = at(0) << 16 | at(1) << 8 | at(2);
        for place in 0..4 {
            let letter = letters[(bits >> (18 - 6 * place) & 63) as usize];
            out.push(if place <= group.len() { letter } else { b'=' });
        }
    }
}
