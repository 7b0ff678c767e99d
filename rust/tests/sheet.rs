//! Sheets that keep octets and records together, and ways through their nodes.

mod common;

use common::{empties, nested, LIST, LIST_TABLE};
use etglavino::{
    Extent, Form, Kind, OwnedSheet, Record, Refusal, Sheet, Value, MAX_CANONICAL, MAX_NODES, RECORD,
};

/// The records of S 16.1.
fn list_records() -> Vec<Record> {
    let rows = LIST_TABLE.chunks_exact(RECORD);
    rows.map(|row| Record::from(<[u32; RECORD]>::try_from(row).unwrap()))
        .collect()
}

#[test]
fn the_list_in_lent_and_in_owned_space() {
    let (mut octets, mut records) = ([7; 20], [Record::default(); 4]);
    let source = b" ( abc [ x ] \"\" ) ";
    let lent = Sheet::read(Form::Advanced, source, &mut octets[..], &mut records[..]).unwrap();
    let owned = OwnedSheet::of_text(Form::Advanced, source).unwrap();
    assert_eq!(lent.canonical(), LIST);
    assert_eq!(lent.records(), list_records());
    assert_eq!(owned.canonical(), LIST);
    assert_eq!(owned.records(), list_records());
    assert_eq!(lent, owned);
    let (octets, records, extent) = owned.into_parts();
    assert_eq!((octets.len(), records.len()), (14, 3));
    let (length, nodes) = (14, 3);
    assert_eq!(extent, Extent { length, nodes });
    assert!(Sheet::of(octets, records, extent).is_ok());
    assert_eq!(&lent.into_parts().0[14..], [7; 6]);
}

#[test]
fn what_is_no_sheet_is_not_taken() {
    let (length, nodes) = (14, 3);
    let extent = Extent { length, nodes };
    assert!(Sheet::of(LIST, list_records(), extent).is_ok());
    let mut wrong = list_records();
    wrong[2].hint_end += 1;
    for (octets, records, extent) in [
        (&LIST[..13], list_records(), extent),
        (LIST, wrong, extent),
        (LIST, list_records(), Extent { length: 13, nodes }),
        (LIST, list_records(), Extent { length, nodes: 2 }),
    ] {
        let answer = Sheet::of(octets, records, extent);
        assert_eq!(answer.map(drop), Err(Refusal::NotOwn));
    }
}

#[test]
fn nodes_and_their_places() {
    let sheet = OwnedSheet::of_text(Form::Canonical, LIST).unwrap();
    let kinds: Vec<_> = sheet.nodes().map(|node| node.kind()).collect();
    assert_eq!(kinds, [Kind::List, Kind::String, Kind::Hinted]);
    let ranges: Vec<_> = (&sheet).into_iter().map(|node| node.range()).collect();
    assert_eq!(ranges, [0..14, 1..6, 6..13]);
    let data: Vec<_> = sheet.nodes().map(|node| node.data()).collect();
    assert_eq!(data, [&b"3:abc[1:x]0:"[..], b"abc", b""]);
    let hints: Vec<_> = sheet.nodes().map(|node| node.hint()).collect();
    assert_eq!(hints, [None, None, Some(&b"x"[..])]);
    let hint = sheet.node(2).unwrap();
    assert_eq!(
        (hint.hint_range(), hint.data_range()),
        (Some(9..10), 13..13)
    );
    assert_eq!(hint.canonical(), b"[1:x]0:");
    assert_eq!(sheet.root().numbers(), 0..3);
    assert_eq!(sheet.nodes().len(), 3);
    assert!(sheet.node(3).is_none());
}

#[test]
fn children_and_parents() {
    let sheet = OwnedSheet::of_text(Form::Advanced, b"(a (b (c) ()) d)").unwrap();
    // 0 ( 1 a 2 ( 3 b 4 ( 5 c ) 6 () ) 7 d )
    let children = |node: usize| -> Vec<usize> {
        let node = sheet.node(node).unwrap();
        node.children().map(|child| child.number()).collect()
    };
    assert_eq!(children(0), [1, 2, 7]);
    assert_eq!(children(2), [3, 4, 6]);
    assert_eq!(children(4), [5]);
    for leaf in [1, 3, 5, 6, 7] {
        assert_eq!(children(leaf), []);
    }
    let parents: Vec<_> = sheet
        .nodes()
        .map(|node| node.parent().map(|list| list.number()))
        .collect();
    let expected = [
        None,
        Some(0),
        Some(0),
        Some(2),
        Some(2),
        Some(4),
        Some(2),
        Some(0),
    ];
    assert_eq!(parents, expected);
    let around = |node: usize| -> Vec<usize> {
        let node = sheet.node(node).unwrap();
        node.ancestors().map(|list| list.number()).collect()
    };
    assert_eq!((around(5), around(6)), (vec![4, 2, 0], vec![2, 0]));
    assert_eq!((around(7), around(0)), (vec![0], vec![]));
    let child = |place| sheet.root().child(place).map(|node| node.number());
    assert_eq!((child(1), child(2), child(3)), (Some(2), Some(7), None));
}

#[test]
fn every_node_is_a_child_of_its_parent() {
    for text in [nested(32), empties(100), b"(1:a(1:b(1:c)())1:d())".to_vec()] {
        let sheet = OwnedSheet::of_text(Form::Canonical, &text).unwrap();
        for node in sheet.nodes().skip(1) {
            let parent = node.parent().expect("only the whole has none");
            let beside = parent
                .children()
                .filter(|child| child.number() == node.number());
            assert_eq!(beside.count(), 1);
            let last = node.ancestors().last().expect("some list");
            assert_eq!(last.number(), 0);
        }
        let below: usize = sheet.nodes().map(|node| node.children().count()).sum();
        assert_eq!(below, sheet.extent().nodes - 1);
    }
}

#[test]
fn owned_sheets_grow_up_to_the_limits() {
    let mut sheet = OwnedSheet::of_text(Form::Canonical, b"(0:)").unwrap();
    sheet
        .replace(Form::Canonical, &empties(MAX_NODES - 2), 1)
        .unwrap();
    assert_eq!(sheet.extent().nodes, MAX_NODES);
    let before = sheet.clone();
    let two = sheet.replace(Form::Advanced, b"(a)", 2);
    assert_eq!(two, Err(Refusal::Nodes));
    assert_eq!(sheet, before);
    assert_eq!(sheet.records(), before.records());
    assert_eq!(
        sheet.replace(Form::Advanced, b"a", MAX_NODES),
        Err(Refusal::NoNode)
    );
    let open = sheet.replace(Form::Advanced, b"(", 2);
    assert_eq!(open.map_err(Refusal::number), Err(3));
    sheet.replace(Form::Advanced, b"done", 0).unwrap();
    assert_eq!(sheet.canonical(), b"4:done");
    let long = vec![b'a'; MAX_CANONICAL];
    assert_eq!(sheet.replace(Form::Advanced, &long, 0), Err(Refusal::Size));
    assert_eq!(sheet.text(Form::Basic).unwrap(), b"{NDpkb25l}");
}

#[test]
fn lent_space_stays_as_large_as_it_is() {
    let (mut octets, mut records) = ([0; 7], [Record::default(); 2]);
    let read = Sheet::read(Form::Advanced, b"(a b)", &mut octets[..], &mut records[..]);
    assert_eq!(read.map(drop), Err(Refusal::Nodes));
    let mut sheet =
        Sheet::read(Form::Advanced, b"(ab)", &mut octets[..], &mut records[..]).unwrap();
    assert_eq!(
        sheet.replace(Form::Advanced, b"abcd", 1),
        Err(Refusal::Size)
    );
    assert_eq!(sheet.canonical(), b"(2:ab)");
    sheet.replace(Form::Advanced, b"abc", 1).unwrap();
    assert_eq!(sheet.canonical(), b"(3:abc)");
    // Arrays are space too, kept by the sheet.
    let kept = Sheet::read(Form::Advanced, b"()", [0; 2], [Record::default(); 1]).unwrap();
    assert_eq!(kept.canonical(), b"()");
}

#[test]
fn extracts_values_and_hours() {
    let text = b"(ann (private sick) ([f64]#4020000000000000# [f64]#0000000000000000# [f64]#0000000000000000#))";
    let sheet = OwnedSheet::of_text(Form::Advanced, text).unwrap();
    let extract = sheet.extract(Vec::new(), Vec::new()).unwrap();
    assert_eq!(extract.root().child(1).unwrap().canonical(), b"()");
    assert_eq!(
        sheet.extract([0; 4], [Record::default(); 8]).map(drop),
        Err(Refusal::Size)
    );
    assert_eq!(sheet.same(&extract, b""), Ok(false));
    assert_eq!(sheet.same(&sheet.clone(), b""), Ok(true));
    let line = extract.root().child(2).unwrap();
    let (hours, total) = line.line().unwrap();
    assert_eq!(
        (hours.ordinary, hours.night, total.quarters),
        (8.0, 0.0, 32)
    );
    assert_eq!(line.child(0).unwrap().value(), Ok(Value::Double(8.0)));
    assert_eq!(line.value(), Err(Refusal::NotTyped));
    assert_eq!(extract.root().line(), Err(Refusal::NotLine));
    assert_eq!(extract.root().week().unwrap_err().node, 1);
}
