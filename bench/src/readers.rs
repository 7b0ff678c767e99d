//! The first table: readers of the same texts.

use std::hint::black_box;

use bench::clock::race;
use bench::gcrypt::Gcrypt;
use bench::plain::Reader;
use bench::report::{head, row, Cell};
use bench::texts::{texts, Text};
use etglavino::{MAX_SOURCE, RECORD};

/// What every reader is lent.
struct Lent {
    canonical: Vec<u8>,
    table: Vec<u32>,
}

impl Lent {
    fn to(text: &Text) -> Lent {
        Lent {
            canonical: vec![0; text.octets],
            table: vec![0; text.records * RECORD],
        }
    }
}

/// Prints the table.
pub fn table(gcrypt: Option<&Gcrypt>) {
    head(&[
        "reading",
        "octets",
        "copy",
        "library",
        "plain Rust",
        "library / plain",
        "library, cleared first",
        "reference",
        "libgcrypt",
    ]);
    for text in texts() {
        measure(&text, gcrypt);
    }
}

fn measure(text: &Text, gcrypt: Option<&Gcrypt>) {
    let source = &text.source[..];
    let mut copied = vec![0; MAX_SOURCE];
    let [mut one, mut two, mut three, mut four] = [(); 4].map(|()| Lent::to(text));
    let mut reader = Reader::new();
    let mut out = vec![0; 2 * MAX_SOURCE];
    let told = told(gcrypt, text);
    let figures = race(&mut [
        &mut || copied[..source.len()].copy_from_slice(black_box(source)),
        &mut || library(text, &mut one),
        &mut || plain_rust(text, &mut reader, &mut two),
        &mut || {
            three.canonical.fill(0);
            three.table.fill(0);
            library(text, &mut three);
        },
        &mut || {
            let (canonical, table) = (&mut four.canonical, &mut four.table);
            let answer = reference::entries::read(text.form, black_box(source), canonical, table);
            black_box(answer);
        },
        &mut || {
            if let (Some(gcrypt), None) = (gcrypt, told) {
                black_box(gcrypt.canonical(black_box(source), &mut out));
            }
        },
    ]);
    let [copy, library, plain, cleared, reference, gcrypt] = figures[..] else {
        unreachable!("one figure for each call");
    };
    let cells = [
        Cell::Time(copy),
        Cell::Time(library),
        Cell::Time(plain),
        Cell::Ratio(library, plain),
        Cell::Time(cleared),
        Cell::Time(reference),
        told.map_or(Cell::Time(gcrypt), Cell::Word),
    ];
    row(text.name, source.len(), &cells);
}

/// Reads the text of that name so many times; `None` if a word means nothing.
pub fn repeat(reader: &str, name: &str, times: &str) -> Option<()> {
    let text = texts().into_iter().find(|text| text.name == name)?;
    let times: u64 = times.parse().ok()?;
    let (mut lent, mut plain) = (Lent::to(&text), Reader::new());
    for _ in 0..times {
        match reader {
            "library" => library(&text, &mut lent),
            "plain" => plain_rust(&text, &mut plain, &mut lent),
            _ => return None,
        }
    }
    Some(())
}

fn plain_rust(text: &Text, reader: &mut Reader, lent: &mut Lent) {
    let (canonical, table) = (&mut lent.canonical, &mut lent.table);
    let answer = reader.read(text.form, black_box(&text.source), canonical, table);
    assert!(black_box(answer).is_ok());
}

fn library(text: &Text, lent: &mut Lent) {
    let answer = etglavino::read_form(
        text.form,
        black_box(&text.source),
        &mut lent.canonical,
        &mut lent.table,
    );
    assert!(black_box(answer).is_ok());
}

/// Why libgcrypt is not timed on a text, if it isn't.
fn told(gcrypt: Option<&Gcrypt>, text: &Text) -> Option<&'static str> {
    let mut lent = Lent::to(text);
    let source = &text.source;
    let answer = etglavino::read_form(text.form, source, &mut lent.canonical, &mut lent.table);
    let length = answer.expect("a text that fits").length;
    let mut out = vec![0; 2 * MAX_SOURCE];
    match gcrypt.map(|gcrypt| gcrypt.canonical(source, &mut out)) {
        None => Some("not there"),
        Some(None) => Some("refuses it"),
        Some(Some(count)) if out[..count] != lent.canonical[..length] => Some("answers otherwise"),
        Some(Some(_)) => None,
    }
}
