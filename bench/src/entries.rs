//! The second table: the other entries, on the sheets of the first table's texts.

use std::hint::black_box;

use bench::clock::{race, Figure};
use bench::report::{head, row, Cell};
use bench::texts::{canonical_of, texts};
use etglavino::{Extent, Form, Slot, MAX_CANONICAL, MAX_NODES, MAX_SOURCE, RECORD};
use reference::corrections;
use reference::entries as other;
use reference::entries::Reading;

/// A sheet with its table and room to grow.
#[derive(Clone)]
struct Sheet {
    canonical: Vec<u8>,
    table: Vec<u32>,
    extent: Extent,
}

impl Sheet {
    /// The sheet of the advanced text of that name.
    fn of(name: &str) -> Sheet {
        let texts = texts();
        let text = texts.iter().find(|text| text.name == name);
        let octets = canonical_of(&text.expect("a text of that name").source);
        let (mut canonical, mut table) = (vec![0; MAX_CANONICAL], vec![0; MAX_NODES * RECORD]);
        let answer = etglavino::read(Form::Canonical, &octets, &mut canonical, &mut table);
        Sheet {
            canonical,
            table,
            extent: answer.expect("a sheet that fits"),
        }
    }
}

/// Prints the table.
pub fn table() {
    head(&["entry", "octets", "copy", "library", "reference"]);
    let sheets = ["tokens", "quoted"].map(|name| (name, Sheet::of(name)));
    for (name, sheet) in &sheets {
        reading(name, sheet);
    }
    for (name, sheet) in &sheets {
        let last = sheet.extent.nodes - 1;
        for (place, node) in [("first", 1), ("middle", last / 2), ("last", last)] {
            replacing(&format!("replace the {place}, {name}"), sheet, node);
        }
    }
    for (name, sheet) in &sheets {
        let sheet = &with_room(sheet);
        let last = elements(sheet);
        for (place, k) in [("first", 0), ("middle", last / 2), ("last", last)] {
            inserting(
                &format!("insert the {place} and remove it, {name}"),
                sheet,
                k,
            );
        }
    }
    for (name, sheet) in &sheets {
        comparing(name, sheet);
        looking(name, sheet, sheet.extent.nodes / 2);
    }
    for form in [Form::Canonical, Form::Basic] {
        writing("tokens", form, &sheets[0].1);
    }
    for name in [
        "tokens",
        "quoted",
        "quoted, escapes",
        "hexadecimal",
        "mixed",
    ] {
        writing(name, Form::Advanced, &Sheet::of(name));
    }
}

fn print(name: &str, octets: usize, figures: &[Figure]) {
    let cells: Vec<Cell> = figures.iter().map(|figure| Cell::Time(*figure)).collect();
    row(name, octets, &cells);
}

/// What the rest is to be seen beside.
fn reading(name: &str, sheet: &Sheet) {
    let source = &sheet.canonical[..sheet.extent.length];
    let (mut one, mut two, mut copied) = (sheet.clone(), sheet.clone(), source.to_vec());
    let figures = race(&mut [
        &mut || copied.copy_from_slice(black_box(source)),
        &mut || {
            let answer = etglavino::read_form(1, source, &mut one.canonical, &mut one.table);
            assert!(black_box(answer).is_ok());
        },
        &mut || {
            let answer = other::read(1, source, &mut two.canonical, &mut two.table);
            black_box(answer);
        },
    ]);
    print(&format!("read in form 1, {name}"), source.len(), &figures);
}

fn writing(name: &str, form: Form, sheet: &Sheet) {
    let length = sheet.extent.length;
    let canonical = &sheet.canonical[..];
    let (mut copied, mut one, mut two) =
        (vec![0; length], vec![0; MAX_SOURCE], vec![0; MAX_SOURCE]);
    let figures = race(&mut [
        &mut || copied.copy_from_slice(black_box(&canonical[..length])),
        &mut || {
            let answer = etglavino::write(form, black_box(canonical), length, &mut one);
            assert!(black_box(answer).is_ok());
        },
        &mut || {
            let answer = other::write(form as u32, black_box(canonical), length, &mut two);
            black_box(answer);
        },
    ]);
    let name = format!("write in form {}, {name}", form as u32);
    print(&name, length, &figures);
}

/// A node gives way to a short token and to a longer one in turn, so that all
/// that follows moves each time.
fn replacing(name: &str, sheet: &Sheet, node: usize) {
    let texts: [&[u8]; 2] = [b"ab", b"abc"];
    let (mut one, mut two) = (sheet.clone(), sheet.clone());
    let (mut count, mut other_count) = (0, 0);
    let mut copied = vec![0; sheet.extent.length];
    let figures = race(&mut [
        &mut || copied.copy_from_slice(black_box(&sheet.canonical[..sheet.extent.length])),
        &mut || {
            count += 1;
            let (canonical, table) = (&mut one.canonical, &mut one.table);
            let text = black_box(texts[count % 2]);
            let answer =
                etglavino::replace(Form::Advanced, text, canonical, table, one.extent, node);
            one.extent = answer.expect("room for the longer one");
        },
        &mut || {
            other_count += 1;
            let Extent { length, nodes } = two.extent;
            let (canonical, table) = (&mut two.canonical, &mut two.table);
            let text = black_box(texts[other_count % 2]);
            match other::replace(3, text, canonical, table, length, nodes, node) {
                Reading::Accepted { length, nodes } => two.extent = Extent { length, nodes },
                Reading::Refused(number) => panic!("refused {number}"),
            }
        },
    ]);
    print(name, sheet.extent.length, &figures);
}

/// Elements of node 0, a list.
fn elements(sheet: &Sheet) -> usize {
    let (mut node, mut count) = (1, 0);
    while node < sheet.extent.nodes {
        node += sheet.table[node * RECORD + 3] as usize;
        count += 1;
    }
    count
}

/// The sheet without its last element, so that another one fits.
fn with_room(sheet: &Sheet) -> Sheet {
    let mut short = sheet.clone();
    let (mut last, mut next) = (0, 1);
    while next < sheet.extent.nodes {
        last = next;
        next += sheet.table[next * RECORD + 3] as usize;
    }
    let answer = etglavino::remove(&mut short.canonical, &mut short.table, sheet.extent, last);
    short.extent = answer.expect("a list with an element");
    short
}

/// Node 0 gets an element at the place, and loses it again: two calls.
fn inserting(name: &str, sheet: &Sheet, k: usize) {
    let (mut one, mut two) = (sheet.clone(), sheet.clone());
    let mut node = 1;
    (0..k).for_each(|_| node += sheet.table[node * RECORD + 3] as usize);
    let slot = Slot { node: 0, k };
    let mut copied = vec![0; sheet.extent.length];
    let figures = race(&mut [
        &mut || copied.copy_from_slice(black_box(&sheet.canonical[..sheet.extent.length])),
        &mut || {
            let (canonical, table) = (&mut one.canonical, &mut one.table);
            let text = black_box(b"abc");
            let answer =
                etglavino::insert(Form::Advanced, text, canonical, table, one.extent, slot);
            let more = answer.expect("room for one more");
            let answer = etglavino::remove(canonical, table, more, node);
            assert_eq!(answer, Ok(one.extent));
        },
        &mut || {
            let Extent { length, nodes } = two.extent;
            let (canonical, table) = (&mut two.canonical, &mut two.table);
            let text = black_box(b"abc");
            match corrections::insert(3, text, canonical, table, length, nodes, 0, k) {
                Reading::Accepted { length, nodes } => {
                    black_box(corrections::remove(canonical, table, length, nodes, node));
                }
                Reading::Refused(number) => panic!("refused {number}"),
            }
        },
    ]);
    print(name, sheet.extent.length, &figures);
}

fn comparing(name: &str, sheet: &Sheet) {
    let length = sheet.extent.length;
    let (a, b) = (&sheet.canonical[..], sheet.canonical.clone());
    let mut copied = vec![0; length];
    let figures = race(&mut [
        &mut || copied.copy_from_slice(black_box(&a[..length])),
        &mut || {
            let answer = etglavino::same(black_box(a), length, black_box(&b), length, b"");
            assert_eq!(black_box(answer), Ok(true));
        },
        &mut || {
            black_box(other::same(
                black_box(a),
                length,
                black_box(&b),
                length,
                b"",
            ));
        },
    ]);
    print(&format!("compare with an equal, {name}"), length, &figures);
}

fn looking(name: &str, sheet: &Sheet, node: usize) {
    let (canonical, table, extent) = (&sheet.canonical[..], &sheet.table[..], sheet.extent);
    let mut copied = vec![0; extent.length];
    let figures = race(&mut [
        &mut || copied.copy_from_slice(black_box(&canonical[..extent.length])),
        &mut || {
            let octets = etglavino::data(black_box(canonical), table, extent, node);
            assert!(!black_box(octets).is_empty());
        },
        &mut || {
            let (length, nodes) = (extent.length, extent.nodes);
            black_box(other::data(
                black_box(canonical),
                length,
                table,
                nodes,
                node,
            ));
        },
    ]);
    print(&format!("a node's data, {name}"), extent.length, &figures);
}
