//! Which tables are a canonical form's own, and what is no canonical form,
//! shown by replacements.

mod common;

use common::*;
use reference::entries::Reading;

#[test]
fn a_table_is_own_only_if_every_number_is() {
    for place in 0..27 {
        for change in [1, u32::MAX, 1 << 31, 1 << 8] {
            let mut pair = Pair::roomy(LIST);
            pair.table[place] = pair.table[place].wrapping_add(change);
            assert_eq!(pair.refusal(3, b"a", 1), 7, "number {place}");
        }
    }
    // What lies past the count doesn't matter.
    let mut pair = Pair::roomy(LIST);
    pair.table[27..43].fill(7);
    assert_eq!(
        pair.replace(3, b"abc", 1),
        Reading::Accepted {
            length: 14,
            nodes: 3
        }
    );
    assert_eq!(pair.table[27..43], [7; 16]);
}

#[test]
fn counts_and_lengths_said_wrongly() {
    for nodes in [
        0,
        1,
        2,
        4,
        13,
        14,
        1 << 32,
        (1 << 61) + 3,
        1 << 61,
        usize::MAX,
    ] {
        let mut pair = Pair::roomy(LIST);
        pair.nodes = nodes;
        assert_eq!(pair.refusal(3, b"a", 1), 7, "{nodes} nodes");
    }
    for length in [0, 13, 15, 64, 65, (1 << 32) + 14, usize::MAX] {
        let mut pair = Pair::roomy(LIST);
        pair.length = length;
        assert_eq!(pair.refusal(3, b"a", 1), 7, "{length} octets");
    }
    for node in [3, 4, 13, 1 << 32, (1 << 61) + 1, usize::MAX] {
        assert_eq!(Pair::roomy(LIST).refusal(3, b"a", node), 8, "node {node}");
    }
    // A record less than counted.
    let mut pair = Pair::roomy(LIST);
    pair.table.truncate(23);
    assert_eq!(pair.refusal(3, b"a", 1), 7);
}

#[test]
fn octets_that_are_no_canonical_form() {
    for octets in [
        &b"(3:abc[1:x]0:]"[..],
        b"(3:abc[1:x]00)",
        b"(3:abd[1:x]1:)",
        b"(03:ab[1:x]0:)",
    ] {
        let mut bad = Pair::roomy(LIST);
        bad.canonical[..14].copy_from_slice(octets);
        assert_eq!(bad.refusal(3, b"a", 1), 7);
    }
    // Other octets with the same table are as good.
    let mut other = Pair::roomy(LIST);
    other.canonical[..14].copy_from_slice(b"(3:ABC[1:Y]0:)");
    assert_eq!(
        other.replace(3, b"()", 2),
        Reading::Accepted {
            length: 9,
            nodes: 3
        }
    );
    assert_eq!(other.canonical[..9], *b"(3:ABC())");
}
