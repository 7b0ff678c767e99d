//! Comparisons, hints and data.

mod common;

use common::*;
use reference::entries::{self, Comparing};

fn same(a: &[u8], b: &[u8], default_hint: &[u8]) -> bool {
    let one = entries::same(a, a.len(), b, b.len(), default_hint);
    let other = entries::same(b, b.len(), a, a.len(), default_hint);
    assert_eq!(one, other);
    match one {
        Comparing::Accepted { same } => same,
        Comparing::Refused(refusal) => panic!("refused with {refusal}"),
    }
}

#[test]
fn a_missing_hint_counts_as_the_default() {
    assert!(same(b"1:a", b"[1:d]1:a", b"d"));
    assert!(!same(b"1:a", b"[1:d]1:a", b"e"));
    assert!(!same(b"1:a", b"[1:d]1:a", b""));
    assert!(same(b"1:a", b"[0:]1:a", b""));
    assert!(!same(b"1:a", b"[0:]1:a", b"d"));
    assert!(!same(b"[0:]1:a", b"[1:d]1:a", b"d"));
    assert!(!same(b"[0:]1:a", b"[1:d]1:a", b""));
    for default_hint in [&b""[..], b"d", b"e"] {
        assert!(same(b"1:a", b"1:a", default_hint));
        assert!(same(b"[1:d]1:a", b"[1:d]1:a", default_hint));
        assert!(!same(b"[1:D]1:a", b"[1:d]1:a", default_hint));
    }
    assert!(same(
        b"(1:a([1:d]1:b)[0:]1:c)",
        b"([1:d]1:a(1:b)[0:]1:c)",
        b"d"
    ));
    assert!(!same(
        b"(1:a([1:d]1:b)[0:]1:c)",
        b"([1:d]1:a(1:b)1:c)",
        b"d"
    ));
}

#[test]
fn data_and_shape_count() {
    assert!(!same(b"3:abc", b"3:ABC", b""));
    assert!(!same(b"0:", b"()", b""));
    assert!(!same(b"(1:a)", b"1:a", b""));
    assert!(!same(b"(1:a1:b)", b"(1:b1:a)", b""));
    assert!(!same(b"(1:a())", b"(1:a)", b""));
    assert!(!same(b"((1:a)1:b)", b"(1:a(1:b))", b""));
    assert!(!same(b"(2:ab)", b"(1:a1:b)", b""));
    // A hint is no data: h and a are not a and h.
    assert!(!same(b"[1:h]1:a", b"[1:a]1:h", b""));
    assert!(same(LIST, LIST, b""));
}

fn hint(pair: &Pair, node: usize) -> (Option<(usize, usize)>, Vec<u8>) {
    let Pair {
        canonical,
        table,
        length,
        nodes,
    } = pair;
    let shown = entries::hint(canonical, *length, table, *nodes, node, b"default");
    (shown.part, shown.octets.to_vec())
}

fn data(pair: &Pair, node: usize) -> (Option<(usize, usize)>, Vec<u8>) {
    let Pair {
        canonical,
        table,
        length,
        nodes,
    } = pair;
    let shown = entries::data(canonical, *length, table, *nodes, node);
    (shown.part, shown.octets.to_vec())
}

#[test]
fn parts_of_the_list() {
    let pair = Pair::roomy(LIST);
    let default = (None, b"default".to_vec());
    assert_eq!(hint(&pair, 0), default);
    assert_eq!(hint(&pair, 1), default);
    assert_eq!(hint(&pair, 2), (Some((9, 10)), b"x".to_vec()));
    assert_eq!(data(&pair, 0), (Some((1, 13)), b"3:abc[1:x]0:".to_vec()));
    assert_eq!(data(&pair, 1), (Some((3, 6)), b"abc".to_vec()));
    assert_eq!(data(&pair, 2), (Some((13, 13)), Vec::new()));
    for node in [3, 4, 1 << 32, 1 << 61, usize::MAX] {
        assert_eq!(hint(&pair, node), default);
        assert_eq!(data(&pair, node), (None, Vec::new()));
    }
}

#[test]
fn an_empty_hint_is_shown_as_such() {
    let pair = Pair::roomy(b"[0:]1:a");
    assert_eq!(hint(&pair, 0), (Some((3, 3)), Vec::new()));
    assert_eq!(data(&pair, 0), (Some((6, 7)), b"a".to_vec()));
}

#[test]
fn bad_forms_and_tables_show_the_default_and_nothing() {
    let spoilers: [fn(&mut Pair); 10] = [
        |pair| pair.length += 1,
        |pair| pair.length -= 1,
        |pair| pair.length = usize::MAX,
        |pair| pair.nodes += 1,
        |pair| pair.nodes = 0,
        |pair| pair.nodes += 1 << 61,
        |pair| pair.table[20] = u32::MAX,
        // A parent that the node is not in.
        |pair| pair.table[26] = 1,
        |pair| pair.table.truncate(26),
        |pair| pair.canonical[0] = b'[',
    ];
    for (number, spoil) in spoilers.into_iter().enumerate() {
        let mut pair = Pair::roomy(LIST);
        spoil(&mut pair);
        for node in 0..4 {
            assert_eq!(
                hint(&pair, node),
                (None, b"default".to_vec()),
                "spoiler {number}"
            );
            assert_eq!(data(&pair, node), (None, Vec::new()), "spoiler {number}");
        }
    }
}
