//! Extracts, worked out from S 11 by hand.

use reference::entries::{read, Reading};
use reference::extract::{extract, extract_own};
use reference::limits::*;

/// What an extract gives of a sheet, in room for anything.
fn extracted(sheet: &[u8]) -> Vec<u8> {
    let (mut canonical, mut table) = (vec![0; MAX_CANONICAL], vec![0; RECORD * MAX_NODES]);
    match extract(sheet, sheet.len(), &mut canonical, &mut table) {
        Reading::Accepted { length, .. } => canonical[..length].to_vec(),
        Reading::Refused(refusal) => panic!("refused {refusal}"),
    }
}

#[test]
fn lists_that_begin_with_the_unhinted_word_become_empty() {
    for (sheet, shown) in [
        (&b"(7:private1:a)"[..], &b"()"[..]),
        (b"(7:private)", b"()"),
        (b"(1:a(7:private1:b)1:c)", b"(1:a()1:c)"),
        (b"((1:a(7:private(7:private)))())", b"((1:a())())"),
        (b"((7:private)(7:private1:x))", b"(()())"),
        // A list is judged as it stands in the sheet: its first element is a list.
        (b"((7:private)7:private)", b"(()7:private)"),
    ] {
        assert_eq!(extracted(sheet), shown, "{}", sheet.escape_ascii());
    }
}

#[test]
fn all_else_stays() {
    for sheet in [
        &b"7:private"[..],
        b"(1:a7:private)",
        b"([1:h]7:private1:a)",
        b"([0:]7:private1:a)",
        b"([7:private]1:a1:b)",
        b"(7:Private1:a)",
        b"(6:privat1:a)",
        b"(8:private!1:a)",
        b"(0:7:private)",
        b"()",
    ] {
        assert_eq!(extracted(sheet), sheet, "{}", sheet.escape_ascii());
    }
}

#[test]
fn an_extract_is_read_as_form_1_reads_it() {
    let (mut canonical, mut table) = ([9; 20], [9; 40]);
    let answer = extract(b"(1:a(7:private)1:b)xx", 19, &mut canonical, &mut table);
    let (mut expected, mut numbers) = ([9; 20], [9; 40]);
    let reading = read(CANONICAL, b"(1:a()1:b)", &mut expected, &mut numbers);
    assert_eq!(answer, reading);
    assert_eq!((canonical, table), (expected, numbers));
}

#[test]
fn room_is_judged_on_the_extract_and_the_sheet_first() {
    let sheet = b"(1:a(7:private1:b))";
    let (mut octets, mut rows) = ([0; 32], [0; 64]);
    let nodes = match read(CANONICAL, sheet, &mut octets, &mut rows) {
        Reading::Accepted { nodes, .. } => nodes,
        Reading::Refused(refusal) => panic!("refused {refusal}"),
    };
    let given = |room: usize, records: usize, length: usize, count: usize| {
        let (mut canonical, mut table) = (vec![7; room], vec![7; RECORD * records]);
        let alone = extract(sheet, length, &mut canonical.clone(), &mut table.clone());
        let own = extract_own(sheet, length, &rows, count, &mut canonical, &mut table);
        if let Reading::Refused(_) = own {
            assert!(canonical.iter().all(|octet| *octet == 7));
            assert!(table.iter().all(|number| *number == 7));
        }
        (alone, own)
    };
    let accepted = Reading::Accepted {
        length: 7,
        nodes: 3,
    };
    assert_eq!(given(7, 3, 19, nodes), (accepted, accepted));
    let refused = |alone, own| (Reading::Refused(alone), Reading::Refused(own));
    assert_eq!(given(7, 2, 19, nodes), refused(5, 5));
    assert_eq!(given(6, 3, 19, nodes), refused(6, 6));
    assert_eq!(given(6, 2, 19, nodes), refused(5, 5));
    assert_eq!(given(0, 0, 18, nodes), refused(7, 7));
    assert_eq!(given(7, 3, 20, nodes), refused(7, 7));
    assert_eq!(given(7, 3, 19, nodes - 1), (accepted, Reading::Refused(7)));
}
