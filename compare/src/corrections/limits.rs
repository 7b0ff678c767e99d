//! Each limit met exactly and passed by one: nodes, octets, depth and the text's
//! length, with records and octets lent exactly, one fewer and one more.

use reference::canonical;
use reference::corpus::fixed::sizes::{empties, nested};
use reference::limits::{ADVANCED, CANONICAL, MAX_CANONICAL, MAX_DEPTH, MAX_NODES, MAX_SOURCE};
use reference::tree::Layout;

use super::call::{Asked, Call};
use super::own;

pub fn calls() -> Vec<Call> {
    let mut calls = Vec::new();
    of_nodes(&mut calls);
    of_octets(&mut calls);
    of_depth(&mut calls);
    of_text(&mut calls);
    calls
}

fn laid(octets: &[u8]) -> Layout {
    canonical::parse(octets).expect("a canonical form").layout()
}

/// An insertion with one octet and one record more, fewer and just as many as the
/// text's tree takes, where so many octets and records are missing.
fn around(
    sheet: &Layout,
    asked: Asked,
    form: u32,
    text: &[u8],
    more: &Layout,
    calls: &mut Vec<Call>,
) {
    let call = Call {
        form,
        text: text.to_vec(),
        ..own(sheet, asked)
    };
    for octets in [
        more.octets.len() - 1,
        more.octets.len(),
        more.octets.len() + 1,
    ] {
        for records in [
            more.records.len() - 1,
            more.records.len(),
            more.records.len() + 1,
        ] {
            calls.push(call.clone().with_room(octets, records));
        }
    }
}

/// Lists of 8,189 to 8,192 nodes: one or two nodes more at both ends and in the
/// middle, and past the last place; and a node fewer.
fn of_nodes(calls: &mut Vec<Call>) {
    for nodes in MAX_NODES - 3..=MAX_NODES {
        let sheet = laid(&empties(nodes - 1));
        for k in [0, nodes / 2, nodes - 1, nodes] {
            for text in [&b"0:"[..], b"()", b"(0:)"] {
                let asked = Asked::Insert { node: 0, k };
                around(&sheet, asked, CANONICAL, text, &laid(text), calls);
            }
        }
        for node in [0, 1, nodes / 2, nodes - 1, nodes] {
            calls.push(own(&sheet, Asked::Remove { node }));
            calls.push(own(&sheet, Asked::Remove { node }).with_room(1, 1));
        }
    }
}

/// A sheet that a text brings to 16,383 octets, to 16,384 and to one more.
fn of_octets(calls: &mut Vec<Call>) {
    let sheet = laid(b"(3:one)");
    for octets in MAX_CANONICAL - 1..=MAX_CANONICAL + 1 {
        let left = octets - sheet.octets.len();
        let data = left - 6;
        let text = [format!("{data}:").as_bytes(), &vec![b'x'; data]].concat();
        assert_eq!(text.len(), left);
        let asked = Asked::Insert { node: 0, k: 1 };
        around(&sheet, asked, CANONICAL, &text, &laid(&text), calls);
    }
}

/// Lists in the innermost of some lists: 127, 128 and 129 deep in all.
fn of_depth(calls: &mut Vec<Call>) {
    for outer in [1, 2, MAX_DEPTH - 1, MAX_DEPTH] {
        let sheet = laid(&nested(outer));
        let node = outer - 1;
        for depth in MAX_DEPTH - 1..=MAX_DEPTH + 1 {
            let text = match depth.saturating_sub(outer) {
                0 => b"0:".to_vec(),
                inner => [vec![b'('; inner], vec![b')'; inner]].concat(),
            };
            let asked = Asked::Insert { node, k: 0 };
            around(&sheet, asked, CANONICAL, &text, &laid(&text), calls);
        }
        calls.push(own(&sheet, Asked::Remove { node }));
    }
}

/// A text of 32,768 octets and of one more, good and with something behind it.
fn of_text(calls: &mut Vec<Call>) {
    let sheet = laid(b"(3:one)");
    for octets in MAX_SOURCE - 1..=MAX_SOURCE + 1 {
        for last in [b' ', b')'] {
            let mut text = vec![b' '; octets];
            text[..2].copy_from_slice(b"()");
            text[octets - 1] = last;
            let asked = Asked::Insert { node: 0, k: 0 };
            around(&sheet, asked, ADVANCED, &text, &laid(b"()"), calls);
        }
    }
}
