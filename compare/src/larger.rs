//! Sheets of about as many nodes as octets can hold, each with its own table, and
//! sheets as deep as may be; and texts of form 4 past the limits. The corpus of
//! `vectors` has no room for such tables.

use reference::base64;
use reference::canonical;
use reference::corpus::case::{Case, Pair};
use reference::corpus::fixed::sizes::{empties, nested, verbatim};
use reference::corpus::make::{pair_in, read_into, replace};
use reference::limits::{MAX_CANONICAL, MAX_DEPTH, MAX_NODES, RECORD, TERMINAL};
use reference::tree::Layout;

/// The cases.
pub fn cases() -> Vec<Case> {
    let mut cases = Vec::new();
    for nodes in [MAX_NODES - 1, MAX_NODES] {
        let layout = laid(&empties(nodes - 1));
        for records in [nodes - 1, nodes, nodes + 1] {
            around(&layout, records, &mut cases);
        }
        spoilt(&layout, &mut cases);
    }
    for depth in [MAX_DEPTH - 1, MAX_DEPTH] {
        let layout = laid(&nested(depth));
        around(&layout, depth + 1, &mut cases);
    }
    cases.extend(past_limits());
    cases
}

/// Trees in braces, of form 4, in texts past the largest sheet: too deep, which
/// comes before their size, more nodes than records, and broken all the same.
fn past_limits() -> Vec<Case> {
    let braced = |octets: &[u8]| [b"{", &base64::encode(octets)[..], b"}"].concat();
    let long = verbatim(b'x', 9_000);
    let read = |parts: &[&[u8]], records: usize| {
        let text = [&[&b"("[..]], parts, &[b")"]].concat().concat();
        read_into(TERMINAL, &text, MAX_CANONICAL, records * RECORD)
    };
    let deep = [
        &nested(MAX_DEPTH)[..MAX_DEPTH],
        &long,
        &nested(MAX_DEPTH)[MAX_DEPTH..],
    ]
    .concat();
    let many = braced(&empties(4_000));
    let rest = &b"\"\"".repeat(4_191);
    vec![
        read(&[&braced(&deep), &long], MAX_NODES),
        read(&[&long, &braced(&deep)], MAX_NODES),
        read(&[&braced(&deep), &long, b"{"], MAX_NODES),
        read(&[&braced(&long), &long, b"{MTph"], MAX_NODES),
        read(&[&braced(&long), &long], 3),
        read(&[&braced(&long), &long], 2),
        // 8,193 nodes, in as many records and in one fewer.
        read(&[&many, rest], MAX_NODES + 1),
        read(&[&many, rest], MAX_NODES),
    ]
}

fn laid(octets: &[u8]) -> Layout {
    canonical::parse(octets).expect("a canonical form").layout()
}

/// With so many records lent, nodes at both ends and in the middle: shown, and
/// giving way to a string, a list and what is too long. Fewer records than nodes
/// are no table of the sheet's.
fn around(layout: &Layout, records: usize, cases: &mut Vec<Case>) {
    let nodes = layout.records.len();
    let given = nodes.min(records) * RECORD;
    let pair = || {
        let mut pair = pair_in(layout, MAX_CANONICAL, records * RECORD);
        pair.table.given.truncate(given);
        pair
    };
    for node in [0, 1, nodes / 2, nodes - 1, nodes] {
        looks(pair(), node as u64, cases);
        for text in [&b"0:"[..], b"()", b"1:a", b"(0:)", b"(0:0:)", b"2:ab"] {
            cases.push(replace(1, text, pair(), node as u64));
        }
    }
}

fn looks(pair: Pair, node: u64, cases: &mut Vec<Case>) {
    cases.push(Case::Data {
        pair: pair.clone(),
        node,
    });
    cases.push(Case::Hint {
        pair,
        node,
        default_hint: b"none".to_vec(),
    });
}

/// The last record another, or the count one off.
fn spoilt(layout: &Layout, cases: &mut Vec<Case>) {
    let nodes = layout.records.len();
    let own = || pair_in(layout, MAX_CANONICAL, (nodes + 1) * RECORD);
    for number in 0..RECORD {
        let mut pair = own();
        pair.table.given[(nodes - 1) * RECORD + number] += 1;
        looks(pair.clone(), 0, cases);
        cases.push(replace(1, b"0:", pair, 1));
    }
    for count in [nodes - 1, nodes + 1] {
        let mut pair = own();
        pair.nodes = count as u64;
        looks(pair, 0, cases);
    }
}
