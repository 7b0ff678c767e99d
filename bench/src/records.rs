//! The third table: the entries that are lent a table, over numbers and over
//! records, on a full sheet and on a short one. Nanoseconds a call.

use std::hint::black_box;

use bench::clock::race;
use bench::report::{call_row, head, Cell};
use bench::texts::{canonical_of, texts, SHORT};
use etglavino::{Extent, Form, Record, Slot, MAX_CANONICAL, MAX_NODES, RECORD};

/// Prints the table.
pub fn table() {
    println!("\nNanoseconds a call, over numbers and over records:");
    head(&["entry", "octets", "numbers", "records", "records / numbers"]);
    let texts = texts();
    let tokens = texts.iter().find(|text| text.name == "tokens");
    let full = canonical_of(&tokens.expect("a text of tokens").source);
    for (name, octets) in [("tokens", full), ("short", canonical_of(SHORT))] {
        reading(name, &octets);
        replacing(name, &octets);
        correcting(name, &octets);
        looking(name, &octets);
        valuing(name, &octets);
        extracting(name, &octets);
    }
}

fn print(name: &str, octets: &[u8], calls: &mut [&mut dyn FnMut()]) {
    let figures = race(calls);
    let (numbers, records) = (figures[0], figures[1]);
    let cells = [
        Cell::Time(numbers),
        Cell::Time(records),
        Cell::Ratio(records, numbers),
    ];
    call_row(name, octets.len(), &cells);
}

/// A sheet with its table, both ways.
struct Sheet {
    canonical: Vec<u8>,
    numbers: Vec<u32>,
    records: Vec<Record>,
    extent: Extent,
}

impl Sheet {
    fn of(octets: &[u8]) -> Sheet {
        let mut canonical = vec![0; MAX_CANONICAL];
        let mut numbers = vec![0; MAX_NODES * RECORD];
        let mut records = vec![Record::from([0; RECORD]); MAX_NODES];
        let answer = etglavino::read(Form::Canonical, octets, &mut canonical, &mut numbers);
        let again = etglavino::read_records(Form::Canonical, octets, &mut canonical, &mut records);
        assert_eq!(answer, again);
        Sheet {
            canonical,
            numbers,
            records,
            extent: answer.expect("a sheet that fits"),
        }
    }
}

fn reading(name: &str, octets: &[u8]) {
    let (mut one, mut two) = (Sheet::of(octets), Sheet::of(octets));
    print(
        &format!("read in form 1, {name}"),
        octets,
        &mut [
            &mut || {
                let source = black_box(octets);
                let answer = etglavino::read_form(1, source, &mut one.canonical, &mut one.numbers);
                assert!(black_box(answer).is_ok());
            },
            &mut || {
                let source = black_box(octets);
                let (canonical, records) = (&mut two.canonical, &mut two.records);
                let answer = etglavino::read_records_form(1, source, canonical, records);
                assert!(black_box(answer).is_ok());
            },
        ],
    );
}

/// A node gives way to a token of its own length.
fn replacing(name: &str, octets: &[u8]) {
    let (mut one, mut two) = (Sheet::of(octets), Sheet::of(octets));
    let (text, node) = (b"abcde", 1);
    print(
        &format!("replace the first, {name}"),
        octets,
        &mut [
            &mut || {
                let (canonical, numbers) = (&mut one.canonical, &mut one.numbers);
                let text = black_box(text);
                let answer =
                    etglavino::replace(Form::Advanced, text, canonical, numbers, one.extent, node);
                one.extent = answer.expect("a node of that number");
            },
            &mut || {
                let (canonical, records) = (&mut two.canonical, &mut two.records);
                let text = black_box(text);
                let answer = etglavino::replace_records(
                    Form::Advanced,
                    text,
                    canonical,
                    records,
                    two.extent,
                    node,
                );
                two.extent = answer.expect("a node of that number");
            },
        ],
    );
}

/// An element put into the first list, and removed again: two calls.
fn correcting(name: &str, octets: &[u8]) {
    let (mut one, mut two) = (Sheet::of(octets), Sheet::of(octets));
    let (text, slot) = (b"abcde", Slot { node: 0, k: 0 });
    print(
        &format!("insert and remove the first, {name}"),
        octets,
        &mut [
            &mut || {
                let (canonical, numbers) = (&mut one.canonical, &mut one.numbers);
                let text = black_box(text);
                let more =
                    etglavino::insert(Form::Advanced, text, canonical, numbers, one.extent, slot);
                let less =
                    etglavino::remove(canonical, numbers, more.expect("a list with room"), 1);
                one.extent = less.expect("a node of that number");
            },
            &mut || {
                let (canonical, records) = (&mut two.canonical, &mut two.records);
                let text = black_box(text);
                let form = Form::Advanced;
                let more =
                    etglavino::insert_records(form, text, canonical, records, two.extent, slot);
                let more = more.expect("a list with room");
                let less = etglavino::remove_records(canonical, records, more, 1);
                two.extent = less.expect("a node of that number");
            },
        ],
    );
}

fn looking(name: &str, octets: &[u8]) {
    let sheet = Sheet::of(octets);
    let (canonical, extent) = (&sheet.canonical[..], sheet.extent);
    print(
        &format!("a node's data, {name}"),
        octets,
        &mut [
            &mut || {
                let part = etglavino::data_part(black_box(canonical), &sheet.numbers, extent, 1);
                assert!(black_box(part).is_some());
            },
            &mut || {
                let records = &sheet.records[..];
                let part = etglavino::data_records_part(black_box(canonical), records, extent, 1);
                assert!(black_box(part).is_some());
            },
        ],
    );
}

fn valuing(name: &str, octets: &[u8]) {
    let sheet = Sheet::of(octets);
    let (canonical, extent) = (&sheet.canonical[..], sheet.extent);
    print(
        &format!("a node's value, {name}"),
        octets,
        &mut [
            &mut || {
                let value = etglavino::value(black_box(canonical), &sheet.numbers, extent, 1);
                assert!(black_box(value).is_ok());
            },
            &mut || {
                let records = &sheet.records[..];
                let value = etglavino::value_records(black_box(canonical), records, extent, 1);
                assert!(black_box(value).is_ok());
            },
        ],
    );
}

fn extracting(name: &str, octets: &[u8]) {
    let (mut one, mut two) = (Sheet::of(octets), Sheet::of(octets));
    print(
        &format!("extract, {name}"),
        octets,
        &mut [
            &mut || {
                let sheet = black_box(octets);
                let (canonical, numbers) = (&mut one.canonical, &mut one.numbers);
                let answer = etglavino::extract(sheet, sheet.len(), canonical, numbers);
                assert!(black_box(answer).is_ok());
            },
            &mut || {
                let sheet = black_box(octets);
                let (canonical, records) = (&mut two.canonical, &mut two.records);
                let answer = etglavino::extract_records(sheet, sheet.len(), canonical, records);
                assert!(black_box(answer).is_ok());
            },
        ],
    );
}
