//! Comparing, and the hint and the data of a node.

mod common;

use common::*;
use etglavino::{data, data_part, hint, hint_part, Extent, Refusal, RECORD};

type Pair = (&'static [u8], &'static [u8]);

fn same(a: &[u8], b: &[u8], default_hint: &[u8]) -> Result<bool, Refusal> {
    etglavino::same(a, a.len(), b, b.len(), default_hint)
}

#[test]
fn the_same_or_not() {
    let cases: [(Pair, &[u8], bool); 12] = [
        ((LIST, LIST), b"", true),
        ((LIST, LIST), b"x", true),
        ((b"()", b"0:"), b"", false),
        ((b"()", b"(())"), b"", false),
        ((b"(1:a1:b)", b"(2:ab)"), b"", false),
        ((b"(1:a)", b"(1:b)"), b"", false),
        ((b"(1:a)", b"(1:a1:a)"), b"", false),
        // A missing hint is the default, an empty one is not missing.
        ((b"1:a", b"[1:x]1:a"), b"x", true),
        ((b"[1:x]1:a", b"1:a"), b"x", true),
        ((b"1:a", b"[1:x]1:a"), b"y", false),
        ((b"1:a", b"[0:]1:a"), b"x", false),
        ((b"1:a", b"[0:]1:a"), b"", true),
    ];
    for ((a, b), default_hint, expected) in cases {
        let shown = (String::from_utf8_lossy(a), String::from_utf8_lossy(b));
        assert_eq!(same(a, b, default_hint), Ok(expected), "{shown:?}");
    }
}

#[test]
fn sheets_that_cannot_be_compared() {
    let large = [nested(129), empties(8_192), verbatim(16_379)];
    let small = [&b""[..], b"abc", b"()()"];
    for bad in large.iter().map(Vec::as_slice).chain(small) {
        assert_eq!(same(bad, LIST, b""), Err(Refusal::NotOwn));
        assert_eq!(same(LIST, bad, b""), Err(Refusal::NotOwn));
        assert_eq!(same(bad, bad, b""), Err(Refusal::NotOwn));
    }
    for length in [13, 15, usize::MAX] {
        let refused = Err(Refusal::NotOwn);
        assert_eq!(etglavino::same(LIST, length, LIST, 14, b""), refused);
        assert_eq!(etglavino::same(LIST, 14, LIST, length, b""), refused);
    }
    let lent = [LIST, b"and more"].concat();
    assert_eq!(etglavino::same(&lent, 14, LIST, 14, b""), Ok(true));
}

fn hint_of(sheet: &Sheet, node: usize) -> Option<(usize, usize)> {
    hint_part(&sheet.canonical, &sheet.table, sheet.extent, node)
}

fn data_of(sheet: &Sheet, node: usize) -> Option<(usize, usize)> {
    data_part(&sheet.canonical, &sheet.table, sheet.extent, node)
}

#[test]
fn parts_of_the_list() {
    let sheet = Sheet::list();
    let hints = [None, None, Some((9, 10)), None];
    let places = [Some((1, 13)), Some((3, 6)), Some((13, 13)), None];
    for node in 0..4 {
        assert_eq!(hint_of(&sheet, node), hints[node]);
        assert_eq!(data_of(&sheet, node), places[node]);
    }
    let Sheet {
        canonical,
        table,
        extent,
    } = &sheet;
    let shown: [&[u8]; 4] = [b"3:abc[1:x]0:", b"abc", b"", b""];
    let hints: [&[u8]; 4] = [b"none", b"none", b"x", b"none"];
    for node in 0..4 {
        assert_eq!(data(canonical, table, *extent, node), shown[node]);
        assert_eq!(hint(canonical, table, *extent, node, b"none"), hints[node]);
    }
}

#[test]
fn an_empty_hint_is_shown_and_not_the_default() {
    let sheet = Sheet::exact(b"[0:]1:a", &[1, 0, 7, 1, 3, 3, 6, 7, 0]);
    assert_eq!(hint_of(&sheet, 0), Some((3, 3)));
    let shown = hint(&sheet.canonical, &sheet.table, sheet.extent, 0, b"none");
    assert!(shown.is_empty());
}

/// Neither hint nor data is shown of any node; the default is, and nothing.
fn shows_nothing(sheet: &Sheet) {
    for node in [0, 1, 2, 3, usize::MAX] {
        assert_eq!(hint_of(sheet, node), None);
        assert_eq!(data_of(sheet, node), None);
        let (canonical, table) = (&sheet.canonical, &sheet.table);
        assert_eq!(hint(canonical, table, sheet.extent, node, b"d"), b"d");
        assert!(data(canonical, table, sheet.extent, node).is_empty());
    }
}

#[test]
fn bad_sheets_and_tables_show_nothing() {
    for place in 0..3 * RECORD {
        let mut sheet = Sheet::list();
        sheet.table[place] ^= 1;
        shows_nothing(&sheet);
    }
    let extents = [(14, 2), (14, 4), (13, 3), (15, 3), (55, 3), (0, 0)];
    for (length, nodes) in extents
        .into_iter()
        .chain([(usize::MAX, 3), (14, usize::MAX)])
    {
        let mut sheet = Sheet::list();
        sheet.extent = Extent { length, nodes };
        shows_nothing(&sheet);
    }
    let mut sheet = Sheet::list();
    sheet.canonical[13] = b'(';
    shows_nothing(&sheet);
}
