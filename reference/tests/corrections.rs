//! Elements put into lists and nodes removed, on sheets worked out by hand.

use reference::corrections::{insert, remove};
use reference::entries::{read, Reading};
use reference::limits::*;

/// A sheet in lent space with room past it, and its length and node count.
fn lent(text: &[u8], room: usize, records: usize) -> (Vec<u8>, Vec<u32>, usize, usize) {
    let (mut canonical, mut table) = (vec![0xa5; room], vec![7; records * RECORD]);
    match read(ADVANCED, text, &mut canonical, &mut table) {
        Reading::Accepted { length, nodes } => (canonical, table, length, nodes),
        Reading::Refused(refusal) => panic!("refused {refusal}"),
    }
}

#[track_caller]
fn inserts(sheet: &[u8], node: usize, k: usize, text: &[u8], new: &[u8], nodes: usize) {
    let (mut canonical, mut table, length, count) = lent(sheet, 40, 12);
    let answer = insert(
        ADVANCED,
        text,
        &mut canonical,
        &mut table,
        length,
        count,
        node,
        k,
    );
    let length = new.len();
    assert_eq!(answer, Reading::Accepted { length, nodes });
    assert_eq!(&canonical[..length], new);
    assert_eq!(canonical[length], 0xa5);
    assert_eq!(table[nodes * RECORD], 7);
}

#[track_caller]
fn removes(sheet: &[u8], node: usize, new: &[u8], nodes: usize) {
    let (mut canonical, mut table, old, count) = lent(sheet, 40, 12);
    let answer = remove(&mut canonical, &mut table, old, count, node);
    let length = new.len();
    assert_eq!(answer, Reading::Accepted { length, nodes });
    assert_eq!(&canonical[..length], new);
    assert!(canonical[length..old].iter().all(|octet| *octet == 0));
    assert_eq!(canonical[old], 0xa5);
    let freed = nodes * RECORD..count * RECORD;
    assert!(table[freed].iter().all(|number| *number == 0));
    assert_eq!(table[count * RECORD], 7);
}

#[test]
fn an_element_takes_its_place() {
    inserts(b"(a b)", 0, 0, b"x", b"(1:x1:a1:b)", 4);
    inserts(b"(a b)", 0, 1, b"x", b"(1:a1:x1:b)", 4);
    inserts(b"(a b)", 0, 2, b"x", b"(1:a1:b1:x)", 4);
    inserts(b"(a (b) c)", 2, 1, b"(x)", b"(1:a(1:b(1:x))1:c)", 7);
    inserts(b"()", 0, 0, b"[h]x", b"([1:h]1:x)", 2);
}

#[test]
fn a_node_goes_with_all_that_is_in_it() {
    removes(b"(a b)", 1, b"(1:b)", 2);
    removes(b"(a b)", 2, b"(1:a)", 2);
    removes(b"(a (b c) d)", 2, b"(1:a1:d)", 3);
    removes(b"(a (b c) d)", 4, b"(1:a(1:b)1:d)", 5);
    removes(b"((()))", 1, b"()", 1);
}

#[track_caller]
fn refuses_insertion(expected: u32, form: u32, text: &[u8], node: usize, k: usize) {
    let (mut canonical, mut table, length, count) = lent(b"(a (b) c)", 40, 12);
    let before = (canonical.clone(), table.clone());
    let answer = insert(
        form,
        text,
        &mut canonical,
        &mut table,
        length,
        count,
        node,
        k,
    );
    assert_eq!(answer, Reading::Refused(expected));
    assert_eq!((canonical, table), before);
}

#[test]
fn refusals_of_an_insertion_come_in_order() {
    refuses_insertion(BAD_FORM, 9, b"(", 9, 9);
    refuses_insertion(NOT_IN_LANGUAGE, ADVANCED, b"(", 9, 9);
    refuses_insertion(NO_SUCH_NODE, ADVANCED, b"x", 5, 9);
    refuses_insertion(NO_PLACE, ADVANCED, b"x", 1, 0);
    refuses_insertion(NO_PLACE, ADVANCED, b"x", 0, 4);
    refuses_insertion(NO_PLACE, ADVANCED, b"x", 2, usize::MAX);
    let deep = [vec![b'('; MAX_DEPTH], vec![b')'; MAX_DEPTH]].concat();
    refuses_insertion(NO_PLACE, ADVANCED, &deep, 1, 0);
    refuses_insertion(TOO_DEEP, ADVANCED, &deep, 0, 0);
}

#[test]
fn refusals_of_a_removal_come_in_order() {
    for (length_less, node, expected) in [(1, 0, NOT_OWN), (0, 5, NO_SUCH_NODE), (0, 0, NO_PLACE)] {
        let (mut canonical, mut table, length, count) = lent(b"(a (b) c)", 40, 12);
        let before = (canonical.clone(), table.clone());
        let answer = remove(
            &mut canonical,
            &mut table,
            length - length_less,
            count,
            node,
        );
        assert_eq!(answer, Reading::Refused(expected));
        assert_eq!((canonical, table), before);
    }
}
