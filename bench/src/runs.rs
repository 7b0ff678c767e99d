//! The last table: a run of sheets split, all of them one after another.

use std::hint::black_box;

use bench::clock::race;
use bench::report::{head, row, Cell};
use bench::texts::{canonical_of, texts};
use etglavino::run;

const MIB: usize = 1 << 20;

/// Prints the table.
pub fn table() {
    head(&["run", "octets", "copy", "library"]);
    for (name, sheet) in [
        ("full sheets", &sheet("tokens")[..]),
        ("short sheets", &sheet("short, advanced")[..]),
        ("the shortest", b"0:"),
    ] {
        for size in [MIB / 4, MIB] {
            splitting(&format!("split, {name}"), sheet, size / sheet.len());
        }
    }
}

fn sheet(name: &str) -> Vec<u8> {
    let texts = texts();
    let text = texts.iter().find(|text| text.name == name);
    canonical_of(&text.expect("a text of that name").source)
}

fn splitting(name: &str, sheet: &[u8], sheets: usize) {
    let octets = sheet.repeat(sheets);
    let mut copied = octets.clone();
    let figures = race(&mut [
        &mut || copied.copy_from_slice(black_box(&octets)),
        &mut || assert_eq!(black_box(run(black_box(&octets))).count(), sheets),
    ]);
    let cells: Vec<Cell> = figures.into_iter().map(Cell::Time).collect();
    row(name, octets.len(), &cells);
}
