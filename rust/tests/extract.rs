//! Extracts. Expected values are worked out from S 11 by hand.

mod common;

use common::{Sheet, NUMBER, OCTET};
use etglavino::{Extent, Record, Refusal, MAX_CANONICAL, MAX_NODES, RECORD};

/// What an extract leaves, by each of the ways to ask for it, which must agree:
/// in just that much room, around which nothing may change.
fn extracted(octets: &[u8], room: usize, records: usize) -> Result<(Vec<u8>, Vec<u32>), Refusal> {
    let sheet = Sheet::of(octets);
    let rows: Vec<Record> = as_records(&sheet.table);
    let answers = [false, true].map(|own| {
        let (mut canonical, mut table) = (vec![OCTET; room], vec![NUMBER; records * RECORD + 7]);
        let answer = if own {
            let extent = sheet.extent;
            etglavino::extract_own(
                &sheet.canonical,
                &sheet.table,
                extent,
                &mut canonical,
                &mut table,
            )
        } else {
            etglavino::extract(&sheet.canonical, octets.len(), &mut canonical, &mut table)
        };
        (answer, canonical, table)
    });
    let over_records = [false, true].map(|own| {
        let (mut canonical, mut table) = (vec![OCTET; room], vec![other(); records]);
        let answer = if own {
            let extent = sheet.extent;
            etglavino::extract_own_records(
                &sheet.canonical,
                &rows,
                extent,
                &mut canonical,
                &mut table,
            )
        } else {
            etglavino::extract_records(&sheet.canonical, octets.len(), &mut canonical, &mut table)
        };
        (answer, canonical, table)
    });
    assert_eq!(answers[0], answers[1]);
    assert_eq!(over_records[0], over_records[1]);
    let [(answer, canonical, table), _] = answers;
    let [(again, octets, records), _] = over_records;
    assert_eq!((answer, &canonical), (again, &octets));
    assert_eq!(as_records(&table), records);
    let extent = answer.unwrap_or_default();
    let (octets, past) = canonical.split_at(extent.length);
    let (numbers, beyond) = table.split_at(extent.nodes * RECORD);
    assert!(past.iter().all(|octet| *octet == OCTET));
    assert!(beyond.iter().all(|number| *number == NUMBER));
    answer.map(|_| (octets.to_vec(), numbers.to_vec()))
}

fn other() -> Record {
    Record::from([NUMBER; RECORD])
}

fn as_records(numbers: &[u32]) -> Vec<Record> {
    let nine = |numbers: &[u32]| <[u32; RECORD]>::try_from(numbers).expect("nine");
    numbers
        .chunks_exact(RECORD)
        .map(|numbers| Record::from(nine(numbers)))
        .collect()
}

#[test]
fn what_is_hidden_and_what_is_not() {
    for (sheet, shown) in [
        (&b"(7:private1:a)"[..], &b"()"[..]),
        (b"(1:a(7:private1:b)1:c)", b"(1:a()1:c)"),
        (b"((1:a(7:private(7:private)))())", b"((1:a())())"),
        (b"((7:private)7:private)", b"(()7:private)"),
        (b"((7:private)(7:private1:x))", b"(()())"),
        (b"([1:h]7:private1:a)", b"([1:h]7:private1:a)"),
        (b"(1:a7:private)", b"(1:a7:private)"),
        (b"(7:Private)", b"(7:Private)"),
        (b"(8:private!)", b"(8:private!)"),
        (b"7:private", b"7:private"),
    ] {
        let expected = common::read(1, shown);
        let room = (MAX_CANONICAL, MAX_NODES);
        assert_eq!(extracted(sheet, room.0, room.1), expected);
    }
}

#[test]
fn spellings_of_the_word_are_one() {
    for text in [
        &b"(private a)"[..],
        b"(\"private\" a)",
        b"(#70726976617465# a)",
        b"(|cHJpdmF0ZQ==| a)",
        b"(7:private a)",
    ] {
        let (octets, _) = common::read(3, text).expect("a text");
        assert_eq!(extracted(&octets, 2, 1), common::read(1, b"()"));
    }
}

#[test]
fn rooms_are_judged_on_the_extract() {
    let sheet = b"(1:a(7:private1:b))";
    assert_eq!(extracted(sheet, 7, 3), common::read(1, b"(1:a())"));
    assert_eq!(extracted(sheet, 6, 3), Err(Refusal::Size));
    assert_eq!(extracted(sheet, 7, 2), Err(Refusal::Nodes));
    assert_eq!(extracted(sheet, 0, 0), Err(Refusal::Nodes));
}

#[test]
fn a_bad_sheet_or_table_comes_first() {
    let (mut canonical, mut table) = ([OCTET; 8], [NUMBER; 18]);
    let mut records = [other(); 2];
    for (sheet, length) in [
        (&b"(1:a"[..], 4),
        (b"()", 3),
        (b"()", 1),
        (b"()", usize::MAX),
    ] {
        let none = etglavino::extract(sheet, length, &mut canonical[..0], &mut table[..0]);
        let room = etglavino::extract(sheet, length, &mut canonical, &mut table);
        let recorded = etglavino::extract_records(sheet, length, &mut canonical, &mut records);
        assert_eq!([none, room, recorded], [Err(Refusal::NotOwn); 3]);
    }
    let rows = [2, 0, 2, 1, 0, 0, 1, 1, 0];
    let extent = Extent {
        length: 2,
        nodes: 1,
    };
    for place in 0..RECORD {
        let mut foreign = rows;
        foreign[place] += 1;
        let flat = etglavino::extract_own(b"()", &foreign, extent, &mut canonical, &mut table);
        let foreign = as_records(&foreign);
        let recorded =
            etglavino::extract_own_records(b"()", &foreign, extent, &mut canonical, &mut records);
        let none = etglavino::extract_own_records(b"()", &foreign, extent, &mut canonical, &mut []);
        assert_eq!([flat, recorded, none], [Err(Refusal::NotOwn); 3]);
    }
    // Nothing was written in any of these, and the sheet's own table is accepted.
    assert_eq!((canonical, table), ([OCTET; 8], [NUMBER; 18]));
    assert_eq!(records, [other(); 2]);
    let own = etglavino::extract_own(b"()", &rows, extent, &mut canonical, &mut table);
    assert_eq!(own, Ok(extent));
}
