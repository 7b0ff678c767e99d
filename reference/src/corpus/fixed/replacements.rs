//! Replacements in small trees: every node, growing and shrinking, with
//! tables that are not the canonical form's own.

use super::{layout, tree};
use crate::corpus::case::{Case, Pair};
use crate::corpus::known::scope::LIST;
use crate::corpus::make;
use crate::limits::RECORD;

/// The cases.
pub fn cases() -> Vec<Case> {
    [
        every_node(),
        fills(),
        foreign_tables(),
        foreign_counts(),
        foreign_forms(),
        rooms(),
    ]
    .concat()
}

/// Canonical forms with strings, hints and lists at several depths.
pub const FORMS: &[&[u8]] = &[
    LIST,
    b"()",
    b"0:",
    b"[0:]1:a",
    b"(1:a(1:b(1:c[1:h]1:d))1:e)",
    b"((((1:x)1:y)1:z)())",
    b"(10:abcdefghij(0:0:0:)[3:abc]9:123456789)",
];

fn every_node() -> Vec<Case> {
    let texts: &[(u32, &[u8])] = &[
        (3, b"\"hi\""),
        (3, b" ( a [ b ] c ( ) ) "),
        (1, b"[0:]0:"),
        (2, b"{KCgxOmEpKQ}"), // ((1:a))
        (3, b"()"),
        (3, b"0123"),
    ];
    let mut cases = Vec::new();
    for octets in FORMS {
        let layout = layout(octets);
        for node in 0..=layout.records.len() as u64 {
            for (form, text) in texts {
                let pair = make::pair_in(
                    &layout,
                    octets.len() + 40,
                    layout.records.len() * RECORD + 100,
                );
                cases.push(make::replace(*form, text, pair, node));
            }
        }
    }
    cases
}

/// Octets may grow while records become fewer, and the other way round.
fn fills() -> Vec<Case> {
    let old = layout(b"((0:0:0:)10:abcdefghij)");
    let texts: &[(u64, &[u8])] = &[
        (1, b"\"as long as it needs to be\""),
        (1, b"a"),
        (5, b"(()())"),
        (5, b"(() () () () () ())"),
        (5, b"abcdefghij"),
        (0, b"()"),
        (0, b"a"),
    ];
    let mut cases = Vec::new();
    for (node, text) in texts {
        for (room, numbers) in [(60, 111), (41, 108), (40, 108), (23, 54), (23, 62)] {
            cases.push(make::replace(
                3,
                text,
                make::pair_in(&old, room, numbers),
                *node,
            ));
        }
    }
    cases
}

/// Every number of the table changed in turn.
fn foreign_tables() -> Vec<Case> {
    let layout = layout(LIST);
    let mut cases = Vec::new();
    for place in 0..layout.records.len() * RECORD {
        for change in [1, u32::MAX, 1 << 31] {
            let mut pair = make::pair(&layout);
            pair.table.given[place] = pair.table.given[place].wrapping_add(change);
            cases.extend(all_three(&pair, 1));
        }
    }
    // Past the count nothing matters.
    let mut pair = make::pair(&layout);
    pair.table.given.extend([u32::MAX; RECORD + 2]);
    cases.extend(all_three(&pair, 2));
    cases
}

/// Nine times this is 2 in 64 bits.
const WRAPPING: u64 = 2_049_638_230_412_172_402;

/// Counts and node numbers that are off, also such that nine times the count
/// would wrap to the numbers of no record, or of three.
fn foreign_counts() -> Vec<Case> {
    let layout = layout(LIST);
    let mut cases = Vec::new();
    for nodes in [
        0,
        1,
        2,
        4,
        5,
        6,
        1 << 32,
        (1 << 32) + 3,
        (1 << 61) + 3,
        1 << 61,
        WRAPPING,
        WRAPPING + 3,
        u64::MAX,
    ] {
        let mut pair = make::pair(&layout);
        pair.nodes = nodes;
        cases.extend(all_three(&pair, 1));
    }
    for node in [3, 4, 5, 1 << 32, (1 << 32) + 1, (1 << 61) + 1, u64::MAX] {
        cases.extend(all_three(&make::pair(&layout), node));
    }
    for length in [0, 13, 15, 26, 27, (1 << 32) + 14, u64::MAX] {
        let mut pair = make::pair(&layout);
        pair.canonical.length = length;
        cases.extend(all_three(&pair, 1));
    }
    cases
}

/// Fewer records lent than counted; the table of another tree of the same
/// shape; octets that are no canonical form.
fn foreign_forms() -> Vec<Case> {
    let layout = layout(LIST);
    let mut cases = Vec::new();
    for numbers in [0, 8, 16, 23] {
        let mut pair = make::pair_in(&layout, 20, numbers);
        pair.table.given.truncate(numbers);
        cases.extend(all_three(&pair, 0));
    }
    for octets in [
        &b"(2:ab[2:xy]0:)"[..],
        b"(3:abc[1:x]0:]",
        b"(3:abc[1:x]00)",
        b"(3:abc[1:x](:)",
    ] {
        let mut pair = make::pair(&layout);
        pair.canonical = make::canonical(octets);
        cases.extend(all_three(&pair, 1));
    }
    cases
}

fn all_three(pair: &Pair, node: u64) -> [Case; 3] {
    [
        make::replace(3, b"\"hi\"", pair.clone(), node),
        Case::Hint {
            pair: pair.clone(),
            node,
            default_hint: b"d".to_vec(),
        },
        Case::Data {
            pair: pair.clone(),
            node,
        },
    ]
}

/// Room for the corrected tree, exact and one less.
fn rooms() -> Vec<Case> {
    let old = layout(LIST);
    let text = b"(a b c)";
    let mut tree = tree(LIST);
    *tree.node_mut(1).expect("three nodes") = super::tree(b"(1:a1:b1:c)");
    let corrected = tree.layout();
    let (octets, records) = (corrected.octets.len(), corrected.records.len());
    let mut cases = Vec::new();
    for room in [octets - 1, octets, octets + 1] {
        for numbers in [records * RECORD - 1, records * RECORD, records * RECORD + 7] {
            cases.push(make::replace(
                3,
                text,
                make::pair_in(&old, room, numbers),
                1,
            ));
        }
    }
    cases
}
