//! Elements put into lists and nodes removed: what lent room holds afterwards,
//! and the order of refusals.

mod common;

use common::*;
use etglavino::{Extent, Form, Record, Refusal, Slot, MAX_SOURCE, RECORD};

/// Puts an element into a list; in a refusal nothing may have changed. Over
/// records the same must happen.
fn insert(sheet: &mut Sheet, text: &[u8], node: usize, k: usize) -> Result<Extent, Refusal> {
    let slot = Slot { node, k };
    both(
        sheet,
        |canonical, table, extent| etglavino::insert_form(3, text, canonical, table, extent, slot),
        |canonical, records, extent| {
            etglavino::insert_records_form(3, text, canonical, records, extent, slot)
        },
    )
}

/// Removes a node, in the same two ways.
fn remove(sheet: &mut Sheet, node: usize) -> Result<Extent, Refusal> {
    both(
        sheet,
        |canonical, table, extent| etglavino::remove(canonical, table, extent, node),
        |canonical, records, extent| etglavino::remove_records(canonical, records, extent, node),
    )
}

fn both(
    sheet: &mut Sheet,
    flat: impl Fn(&mut [u8], &mut [u32], Extent) -> Result<Extent, Refusal>,
    by_records: impl Fn(&mut [u8], &mut [Record], Extent) -> Result<Extent, Refusal>,
) -> Result<Extent, Refusal> {
    let before = sheet.clone();
    let answer = flat(&mut sheet.canonical, &mut sheet.table, sheet.extent);
    match answer {
        Ok(extent) => sheet.extent = extent,
        Err(_) => assert_eq!(*sheet, before),
    }
    let mut canonical = before.canonical;
    let whole = before.table.chunks_exact(RECORD);
    let record = |numbers: &[u32]| {
        let numbers: [u32; RECORD] = numbers.try_into().expect("a record's");
        Record::from(numbers)
    };
    let mut records: Vec<Record> = whole.map(record).collect();
    assert_eq!(
        by_records(&mut canonical, &mut records, before.extent),
        answer
    );
    assert_eq!(canonical, sheet.canonical);
    let numbers = records
        .iter()
        .flat_map(|&record| <[u32; RECORD]>::from(record));
    assert!(numbers.eq(sheet.table[..records.len() * RECORD].iter().copied()));
    answer
}

/// The sheet holds these octets and their table, then zeros where more was
/// before, and past that what was lent.
fn holds(sheet: &Sheet, octets: &[u8], old: Extent) {
    let (afresh, table) = read(1, octets).expect("a canonical form");
    assert_eq!(sheet.extent.length, afresh.len());
    assert_eq!(sheet.extent.nodes * RECORD, table.len());
    let (front, past) = sheet.canonical.split_at(afresh.len());
    assert_eq!(front, afresh);
    let freed = old.length.saturating_sub(afresh.len());
    assert!(past[..freed].iter().all(|octet| *octet == 0));
    assert!(past[freed..].iter().all(|octet| *octet == OCTET));
    let (front, past) = sheet.table.split_at(table.len());
    assert_eq!(front, table);
    let freed = (old.nodes * RECORD).saturating_sub(table.len());
    assert!(past[..freed].iter().all(|number| *number == 0));
    assert!(past[freed..].iter().all(|number| *number == NUMBER));
}

#[test]
fn at_each_place_of_a_list() {
    for (k, octets) in [
        &b"(2:hi3:abc[1:x]0:)"[..],
        b"(3:abc2:hi[1:x]0:)",
        b"(3:abc[1:x]0:2:hi)",
    ]
    .into_iter()
    .enumerate()
    {
        let mut sheet = Sheet::list();
        let (length, nodes) = (18, 4);
        assert_eq!(
            insert(&mut sheet, b"\"hi\"", 0, k),
            Ok(Extent { length, nodes })
        );
        holds(&sheet, octets, Sheet::list().extent);
    }
}

#[test]
fn by_name_of_the_form() {
    let mut sheet = Sheet::list();
    for (form, text) in [
        (Form::Canonical, &b"1:a"[..]),
        (Form::Basic, b"{MTpi}"),
        (Form::Advanced, b"c"),
    ] {
        let (canonical, table) = (&mut sheet.canonical, &mut sheet.table);
        let last = Slot { node: 0, k: 2 };
        let answer = etglavino::insert(form, text, canonical, table, sheet.extent, last);
        sheet.extent = answer.expect("a text of its form");
    }
    assert_eq!(sheet.canonical[..23], *b"(3:abc[1:x]0:1:c1:b1:a)");
}

#[test]
fn the_lists_around_grow_and_shrink() {
    let mut sheet = Sheet::exact(&[], &[]).spare(40, 99);
    let (canonical, table) = (&mut sheet.canonical, &mut sheet.table);
    sheet.extent = etglavino::read_form(1, b"(1:a(1:b)1:c)", canonical, table).expect("a sheet");
    let first = sheet.extent;
    assert_eq!(
        insert(&mut sheet, b"(d e)", 2, 1).map(|new| new.nodes),
        Ok(8)
    );
    holds(&sheet, b"(1:a(1:b(1:d1:e))1:c)", first);
    let grown = sheet.extent;
    assert_eq!(remove(&mut sheet, 5).map(|new| new.nodes), Ok(7));
    holds(&sheet, b"(1:a(1:b(1:e))1:c)", grown);
    assert_eq!(remove(&mut sheet, 2).map(|new| new.nodes), Ok(3));
    holds(&sheet, b"(1:a1:c)", grown);
    // The space is used again.
    assert_eq!(
        insert(&mut sheet, b"bb", 0, 1).map(|new| new.length),
        Ok(12)
    );
    assert_eq!(sheet.canonical[..13], *b"(1:a2:bb1:c)\0");
}

#[test]
fn removing_what_was_inserted() {
    for k in 0..=2 {
        let mut sheet = Sheet::list();
        let node = [1, 2, 3][k];
        let grown = insert(&mut sheet, b"(long word)", 0, k).expect("room for it");
        assert_eq!(remove(&mut sheet, node), Ok(Sheet::list().extent));
        holds(&sheet, LIST, grown);
    }
}

#[test]
fn room_just_enough_and_one_short() {
    let spare = |octets, numbers| Sheet::exact(LIST, &LIST_TABLE).spare(octets, numbers);
    assert!(insert(&mut spare(4, RECORD), b"hi", 0, 1).is_ok());
    assert_eq!(
        insert(&mut spare(3, RECORD), b"hi", 0, 1),
        Err(Refusal::Size)
    );
    assert_eq!(
        insert(&mut spare(3, RECORD - 1), b"hi", 0, 1),
        Err(Refusal::Nodes)
    );
    // A removal needs none.
    assert!(remove(&mut spare(0, 0), 1).is_ok());
}

#[test]
fn each_refusal() {
    let inserted = |text: &[u8], node, k| insert(&mut Sheet::list(), text, node, k);
    let long = padded(b"hi", MAX_SOURCE + 1);
    assert_eq!(inserted(&long, 9, 9), Err(Refusal::SourceSize));
    assert_eq!(inserted(b"(", 9, 9), Err(Refusal::Syntax { place: 0 }));
    for node in [3, 4, usize::MAX] {
        assert_eq!(inserted(b"hi", node, 9), Err(Refusal::NoNode));
        assert_eq!(remove(&mut Sheet::list(), node), Err(Refusal::NoNode));
    }
    // A string, a place past the last, and the whole.
    assert_eq!(inserted(b"hi", 1, 0), Err(Refusal::NoPlace));
    for k in [3, 4, usize::MAX] {
        assert_eq!(inserted(b"hi", 0, k), Err(Refusal::NoPlace));
    }
    assert_eq!(remove(&mut Sheet::list(), 0), Err(Refusal::NoPlace));
    // Before 4 to 6.
    let deep = nested(128);
    assert_eq!(inserted(&deep, 0, 3), Err(Refusal::NoPlace));
    assert_eq!(inserted(&deep, 0, 2), Err(Refusal::Depth));
    // Not its own table, before the node is looked at.
    let mut other = Sheet::list();
    other.table[3] ^= 1;
    assert_eq!(
        insert(&mut other.clone(), b"hi", 9, 9),
        Err(Refusal::NotOwn)
    );
    assert_eq!(remove(&mut other, 9), Err(Refusal::NotOwn));
}
