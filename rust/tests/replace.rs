//! Replacing: what lent room holds afterwards, and the order of refusals.

mod common;

use common::*;
use etglavino::{Extent, Form, Refusal, Slot, MAX_SOURCE, RECORD};

#[test]
fn correction_of_the_specification() {
    let mut sheet = Sheet::list();
    let extent = Extent {
        length: 13,
        nodes: 3,
    };
    assert_eq!(sheet.replace(3, b"\"hi\"", 1), Ok(extent));
    let table = [
        2, 0, 13, 3, 0, 0, 1, 12, 0, //
        0, 1, 5, 1, 0, 0, 3, 5, 0, //
        1, 5, 12, 1, 8, 9, 12, 12, 0,
    ];
    // The old last octet becomes 0, what lay past it stays.
    let expected = Sheet {
        extent,
        ..Sheet::exact(b"(2:hi[1:x]0:)\0", &table).spare(40, 43)
    };
    assert_eq!(sheet, expected);
}

#[test]
fn by_name_of_the_form() {
    let mut sheet = Sheet::list();
    for (form, text) in [
        (Form::Canonical, &b"1:a"[..]),
        (Form::Basic, b"{MTpi}"),
        (Form::Advanced, b"c"),
        (Form::Terminal1997, b" {MTpk}\n"),
    ] {
        let (canonical, table) = (&mut sheet.canonical, &mut sheet.table);
        let answer = etglavino::replace(form, text, canonical, table, sheet.extent, 1);
        sheet.extent = answer.expect("a text of its form");
    }
    assert_eq!(sheet.canonical[..12], *b"(1:d[1:x]0:)");
    assert_eq!(sheet.extent.length, 12);
}

#[test]
fn records_that_are_gone_become_zero() {
    let mut sheet = Sheet::list();
    let extent = Extent {
        length: 3,
        nodes: 1,
    };
    assert_eq!(sheet.replace(1, b"1:q", 0), Ok(extent));
    let mut table = [0; 27];
    table[..9].copy_from_slice(&[0, 0, 3, 1, 0, 0, 2, 3, 0]);
    let octets = [&b"1:q"[..], &[0; 11]].concat();
    let expected = Sheet {
        extent,
        ..Sheet::exact(&octets, &table).spare(40, 43)
    };
    assert_eq!(sheet, expected);
}

#[test]
fn the_lists_around_a_node_grow_with_it() {
    // (1:a(1:b)1:c), whose node 3 is 1:b.
    let old = [
        2, 0, 13, 5, 0, 0, 1, 12, 0, //
        0, 1, 4, 1, 0, 0, 3, 4, 0, //
        2, 4, 9, 2, 0, 0, 5, 8, 0, //
        0, 5, 8, 1, 0, 0, 7, 8, 2, //
        0, 9, 12, 1, 0, 0, 11, 12, 0,
    ];
    let mut sheet = Sheet::exact(b"(1:a(1:b)1:c)", &old).spare(5, 12);
    assert_eq!(sheet.replace(3, b"([h]dd)", 3), Err(Refusal::Size));
    assert_eq!(sheet.replace(3, b"(d e)", 3), Err(Refusal::Nodes));
    let extent = Extent {
        length: 16,
        nodes: 6,
    };
    assert_eq!(sheet.replace(3, b"(dd)", 3), Ok(extent));
    let new = [
        2, 0, 16, 6, 0, 0, 1, 15, 0, //
        0, 1, 4, 1, 0, 0, 3, 4, 0, //
        2, 4, 12, 3, 0, 0, 5, 11, 0, //
        2, 5, 11, 2, 0, 0, 6, 10, 2, //
        0, 6, 10, 1, 0, 0, 8, 10, 3, //
        0, 12, 15, 1, 0, 0, 14, 15, 0,
    ];
    let expected = Sheet::exact(b"(1:a((2:dd))1:c)", &new).spare(2, 3);
    assert_eq!(sheet, expected);
}

#[test]
fn an_insertion_tells_where_its_text_went_wrong() {
    let (mut canonical, mut table) = ([0; 32], [0; 36]);
    let sheet = etglavino::read_form(1, LIST, &mut canonical, &mut table).expect("a sheet");
    let slot = Slot { node: 0, k: 1 };
    for (form, text, place) in [
        (1, &b"3:abcX"[..], 5),
        (2, b"(3:ab", 5),
        (2, b"{", 0),
        (3, b"(", 0),
    ] {
        let told = etglavino::insert_form(form, text, &mut canonical, &mut table, sheet, slot);
        assert_eq!(told, Err(Refusal::Syntax { place }));
    }
    let far = Slot { node: 9, k: 0 };
    let told = etglavino::insert_form(1, b"1:x", &mut canonical, &mut table, sheet, far);
    assert_eq!(told, Err(Refusal::NoNode));
}

#[test]
fn each_refusal() {
    let replaced = |form, text: &[u8], node| Sheet::list().replace(form, text, node);
    for form in [0, 5, u32::MAX] {
        assert_eq!(replaced(form, b"hi", 1), Err(Refusal::Form));
    }
    let long = padded(b"hi", MAX_SOURCE + 1);
    assert_eq!(replaced(3, &long, 1), Err(Refusal::SourceSize));
    assert_eq!(replaced(1, b"hi", 1), Err(Refusal::Syntax { place: 0 }));
    assert_eq!(replaced(1, b"3:abcX", 1), Err(Refusal::Syntax { place: 5 }));
    assert_eq!(replaced(3, b"", 1), Err(Refusal::Syntax { place: 0 }));
    for node in [3, 4, usize::MAX] {
        assert_eq!(replaced(3, b"hi", node), Err(Refusal::NoNode));
    }
    // The node is an element of the outermost list, so that 127 lists fit.
    let mut sheet = Sheet::of(LIST);
    assert_eq!(sheet.replace(1, &nested(128), 1), Err(Refusal::Depth));
    assert!(sheet.replace(1, &nested(127), 1).is_ok());
}

#[test]
fn the_limits_speak_of_the_corrected_tree() {
    // Nine octets and two nodes stay; 16,374 octets of 8,187 nodes fill it up but
    // for one octet.
    let mut sheet = Sheet::of(LIST);
    assert_eq!(sheet.replace(1, &empties(8_187), 1), Err(Refusal::Size));
    assert!(sheet.replace(1, &empties(8_186), 1).is_ok());
    assert_eq!(sheet.extent.nodes, 8_189);
    // With a record too few it has too many nodes.
    let mut sheet = Sheet::of(LIST);
    sheet.table.truncate(8_188 * RECORD);
    assert_eq!(sheet.replace(1, &empties(8_186), 1), Err(Refusal::Nodes));
    // Nine octets stay, and five digits and a colon stand before the string's.
    let mut sheet = Sheet::of(LIST);
    assert_eq!(sheet.replace(1, &verbatim(16_370), 1), Err(Refusal::Size));
    assert!(sheet.replace(1, &verbatim(16_369), 1).is_ok());
    assert_eq!(sheet.extent.length, 16_384);
    // Of the tree that node 0 was, nothing counts any more.
    let mut sheet = Sheet::of(&nested(128));
    assert_eq!(sheet.replace(1, &nested(129), 0), Err(Refusal::Depth));
    assert!(sheet.replace(1, &empties(8_191), 0).is_ok());
    assert!(sheet.replace(1, &verbatim(16_378), 0).is_ok());
}

#[test]
fn sheets_and_tables_that_are_not_their_own() {
    for place in 0..LIST_TABLE.len() {
        let mut sheet = Sheet::list();
        sheet.table[place] += 1;
        assert_eq!(sheet.replace(3, b"hi", 1), Err(Refusal::NotOwn), "{place}");
    }
    let extents = [(14, 2), (14, 4), (13, 3), (15, 3), (55, 3), (14, 9)];
    for (length, nodes) in extents
        .into_iter()
        .chain([(usize::MAX, 3), (14, usize::MAX)])
    {
        let mut sheet = Sheet::list();
        sheet.extent = Extent { length, nodes };
        assert_eq!(sheet.replace(3, b"hi", 1), Err(Refusal::NotOwn));
    }
    let mut sheet = Sheet::list();
    sheet.canonical[0] = b'[';
    assert_eq!(sheet.replace(3, b"hi", 1), Err(Refusal::NotOwn));
}

#[test]
fn the_first_refusal_that_applies() {
    let mut bad = Sheet::list();
    bad.table[23] += 1;
    let long = padded(b"(", MAX_SOURCE + 1);
    assert_eq!(bad.replace(9, &long, 9), Err(Refusal::Form));
    assert_eq!(bad.replace(3, &long, 9), Err(Refusal::SourceSize));
    assert_eq!(bad.replace(3, b"(", 9), Err(Refusal::Syntax { place: 0 }));
    assert_eq!(bad.replace(3, b"()", 9), Err(Refusal::NotOwn));
    let mut tight = Sheet::exact(LIST, &LIST_TABLE);
    assert_eq!(tight.replace(1, &nested(128), 9), Err(Refusal::NoNode));
    assert_eq!(tight.replace(1, &nested(128), 1), Err(Refusal::Depth));
    assert_eq!(tight.replace(1, b"(4:more)", 1), Err(Refusal::Nodes));
    assert_eq!(tight.replace(1, b"4:more", 1), Err(Refusal::Size));
    assert_eq!(tight, Sheet::exact(LIST, &LIST_TABLE));
}
