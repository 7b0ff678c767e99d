//! Replacements: what the buffers hold afterwards, and the limits.

mod common;

use common::*;
use reference::entries::Reading;

const DEEP: &[u8] = b"(1:a(1:b(1:c[1:h]1:d))1:e)";

#[test]
fn the_lists_around_a_node_grow_with_it() {
    let mut pair = Pair::new(DEEP, 33, 93);
    let reading = pair.replace(3, b"(x \"\")", 5);
    assert_eq!(
        reading,
        Reading::Accepted {
            length: 30,
            nodes: 10
        }
    );
    assert_eq!(pair.canonical[..30], *b"(1:a(1:b((1:x0:)[1:h]1:d))1:e)");
    assert_eq!(pair.canonical[30..], [OCTET; 3]);
    let records = [
        [2, 0, 30, 10, 0, 0, 1, 29, 0],
        [0, 1, 4, 1, 0, 0, 3, 4, 0],
        [2, 4, 26, 7, 0, 0, 5, 25, 0],
        [0, 5, 8, 1, 0, 0, 7, 8, 2],
        [2, 8, 25, 5, 0, 0, 9, 24, 2],
        [2, 9, 16, 3, 0, 0, 10, 15, 4],
        [0, 10, 13, 1, 0, 0, 12, 13, 5],
        [0, 13, 15, 1, 0, 0, 15, 15, 5],
        [1, 16, 24, 1, 19, 20, 23, 24, 4],
        [0, 26, 29, 1, 0, 0, 28, 29, 0],
    ];
    assert_eq!(pair.table[..90], *records.as_flattened());
    assert_eq!(pair.table[90..], [NUMBER; 3]);
}

#[test]
fn octets_grow_while_records_become_fewer() {
    let mut pair = Pair::new(DEEP, 40, 72 + 11);
    let reading = pair.replace(3, b"0123456789abcdef", 4);
    assert_eq!(reading, Reading::Refused(3));
    let reading = pair.replace(3, b"\"0123456789abcdef\"", 4);
    assert_eq!(
        reading,
        Reading::Accepted {
            length: 32,
            nodes: 6
        }
    );
    assert_eq!(pair.canonical[..32], *b"(1:a(1:b16:0123456789abcdef)1:e)");
    assert_eq!(pair.canonical[32..], [OCTET; 8]);
    let records = [
        [2, 0, 32, 6, 0, 0, 1, 31, 0],
        [0, 1, 4, 1, 0, 0, 3, 4, 0],
        [2, 4, 28, 3, 0, 0, 5, 27, 0],
        [0, 5, 8, 1, 0, 0, 7, 8, 2],
        [0, 8, 27, 1, 0, 0, 11, 27, 2],
        [0, 28, 31, 1, 0, 0, 30, 31, 0],
        // The two records that are gone, zero in all their numbers.
        [0; 9],
        [0; 9],
    ];
    assert_eq!(pair.table[..72], *records.as_flattened());
    assert_eq!(pair.table[72..], [NUMBER; 11]);
}

#[test]
fn records_grow_while_octets_become_fewer() {
    let mut pair = Pair::new(DEEP, 28, 90);
    let reading = pair.replace(2, b"{KCgpKCkp}", 6); // (()())
    assert_eq!(
        reading,
        Reading::Accepted {
            length: 24,
            nodes: 10
        }
    );
    assert_eq!(pair.canonical, *b"(1:a(1:b(1:c(()())))1:e)\0\0\xa5\xa5");
    let records = [
        [2, 0, 24, 10, 0, 0, 1, 23, 0],
        [0, 1, 4, 1, 0, 0, 3, 4, 0],
        [2, 4, 20, 7, 0, 0, 5, 19, 0],
        [0, 5, 8, 1, 0, 0, 7, 8, 2],
        [2, 8, 19, 5, 0, 0, 9, 18, 2],
        [0, 9, 12, 1, 0, 0, 11, 12, 4],
        [2, 12, 18, 3, 0, 0, 13, 17, 4],
        [2, 13, 15, 1, 0, 0, 14, 14, 6],
        [2, 15, 17, 1, 0, 0, 16, 16, 6],
        [0, 20, 23, 1, 0, 0, 22, 23, 0],
    ];
    assert_eq!(pair.table, records.as_flattened());
}

#[test]
fn node_0_is_the_whole() {
    let mut pair = Pair::new(DEEP, 27, 72 + 6);
    let reading = pair.replace(1, b"[1:k]0:", 0);
    assert_eq!(
        reading,
        Reading::Accepted {
            length: 7,
            nodes: 1
        }
    );
    assert_eq!(pair.canonical[..7], *b"[1:k]0:");
    assert_eq!(pair.canonical[7..26], [0; 19]);
    assert_eq!(pair.canonical[26], OCTET);
    assert_eq!(pair.table[..9], [1, 0, 7, 1, 3, 4, 7, 7, 0]);
    assert_eq!(pair.table[9..72], [0; 63]);
    // The remainder of the table is never written.
    assert_eq!(pair.table[72..], [NUMBER; 6]);
}

#[test]
fn a_table_without_a_spare_record() {
    let mut pair = Pair::new(DEEP, 26, 72 + 7);
    let reading = pair.replace(3, b"()", 2);
    assert_eq!(
        reading,
        Reading::Accepted {
            length: 10,
            nodes: 4
        }
    );
    assert_eq!(pair.canonical[..10], *b"(1:a()1:e)");
    assert_eq!(pair.canonical[10..], [0; 16]);
    assert_eq!(pair.table[36..72], [0; 36]);
    assert_eq!(pair.table[72..], [NUMBER; 7]);
}

#[test]
fn room_for_the_corrected_tree_and_no_more() {
    // (1:a(...)1:e) with a string of five octets for the list: 15 octets.
    let mut pair = Pair::new(b"(1:a()1:e)", 15, 36);
    let reading = pair.replace(3, b"12345", 2);
    assert_eq!(reading, Reading::Refused(3));
    let reading = pair.replace(3, b"hello", 2);
    assert_eq!(
        reading,
        Reading::Accepted {
            length: 15,
            nodes: 4
        }
    );
    assert_eq!(pair.canonical, b"(1:a5:hello1:e)");
    assert_eq!(Pair::new(b"(1:a()1:e)", 14, 36).refusal(3, b"hello", 2), 6);
    assert_eq!(Pair::new(b"(1:a()1:e)", 15, 44).refusal(3, b"(x)", 2), 5);
    assert_eq!(Pair::new(b"(1:a()1:e)", 12, 45).refusal(3, b"(x)", 2), 6);
    let mut pair = Pair::new(b"(1:a()1:e)", 13, 45);
    let reading = pair.replace(3, b"(x)", 2);
    assert_eq!(
        reading,
        Reading::Accepted {
            length: 13,
            nodes: 5
        }
    );
}

#[test]
fn the_limits_of_the_corrected_tree() {
    let wide = || Pair::new(b"(1:a1:b)", 20_000, 80_000);
    // Without node 1, five octets and two nodes stay.
    let reading = wide().replace(1, &verbatim(b'm', 16_373), 1);
    assert_eq!(
        reading,
        Reading::Accepted {
            length: 16_384,
            nodes: 3
        }
    );
    assert_eq!(wide().refusal(1, &verbatim(b'm', 16_374), 1), 6);
    let reading = wide().replace(1, &empties(8_188), 1);
    assert_eq!(
        reading,
        Reading::Accepted {
            length: 16_383,
            nodes: 8_191
        }
    );
    assert_eq!(wide().refusal(1, &empties(8_189), 1), 6);
    let few = || Pair::new(b"(1:a1:b)", 20_000, 8_191 * 8 - 1);
    assert_eq!(few().refusal(1, &empties(8_188), 1), 5);
    assert_eq!(few().refusal(1, &empties(8_189), 1), 5);
    let reading = wide().replace(1, &nested(127), 1);
    assert_eq!(
        reading,
        Reading::Accepted {
            length: 259,
            nodes: 129
        }
    );
    assert_eq!(wide().refusal(1, &nested(128), 1), 4);
    assert_eq!(wide().refusal(1, &nested(16_384), 1), 4);
}

#[test]
fn the_limit_of_the_text() {
    let wide = || Pair::new(b"(1:a1:b)", 20_000, 40_000);
    let reading = wide().replace(3, &padded(b"a", 32_768), 1);
    assert_eq!(
        reading,
        Reading::Accepted {
            length: 8,
            nodes: 3
        }
    );
    assert_eq!(wide().refusal(3, &padded(b"a", 32_769), 1), 2);
}

#[test]
fn what_is_replaced_makes_room() {
    let mut full = Pair::new(&verbatim(b'n', 16_378), 16_384, 9);
    let reading = full.replace(1, &verbatim(b'm', 16_378), 0);
    assert_eq!(
        reading,
        Reading::Accepted {
            length: 16_384,
            nodes: 1
        }
    );
    let mut deep = Pair::roomy(&nested(128));
    let reading = deep.replace(3, b"( ( ) )", 126);
    assert_eq!(
        reading,
        Reading::Accepted {
            length: 256,
            nodes: 128
        }
    );
    assert_eq!(Pair::roomy(&nested(128)).refusal(3, b"(())", 127), 4);
}
