//! Two tables: a spool opened, and a spool added to.

use std::hint::black_box;
use std::ptr;

use bench::clock::race;
use bench::report::{head, row, Cell};
use bench::texts::{canonical_of, texts};
use etglavino::{spool_add, spool_open, Adding};
use reference::spool as other;

const MIB: usize = 1 << 20;

/// Prints the tables.
pub fn table() {
    let full = sheet("tokens");
    head(&["spool", "octets", "copy", "library", "reference"]);
    for (name, sheet) in [
        ("full sheets", &full[..]),
        ("short sheets", &sheet("short, advanced")[..]),
        ("the shortest", b"0:"),
    ] {
        for size in [MIB / 4, MIB] {
            opening(&format!("open, {name}"), &filled(sheet, size));
        }
    }
    head(&[
        "adding",
        "octets",
        "copy",
        "copy, an octet a store",
        "copy, an octet a call",
        "checks",
        "add",
        "checks and steps",
    ]);
    adding("a full sheet to an empty area", &full, &[]);
    adding("a full sheet after eight", &full, &filled(&full, MIB / 8));
}

fn sheet(name: &str) -> Vec<u8> {
    let texts = texts();
    let text = texts.iter().find(|text| text.name == name);
    canonical_of(&text.expect("a text of that name").source)
}

/// As many entries of the sheet as there is room for.
fn filled(sheet: &[u8], size: usize) -> Vec<u8> {
    let entry = other::entry(sheet);
    let mut area = entry.repeat(size / entry.len());
    area.resize(size, 0);
    area
}

fn opening(name: &str, area: &[u8]) {
    let mut copied = area.to_vec();
    let figures = race(&mut [
        &mut || copied.copy_from_slice(black_box(area)),
        &mut || assert!(black_box(spool_open(black_box(area), 0)).is_ok()),
        &mut || {
            black_box(other::open(black_box(area), 0));
        },
    ]);
    let cells: Vec<Cell> = figures.into_iter().map(Cell::Time).collect();
    row(name, area.len(), &cells);
}

/// Each time the sheet is added, and then the spool ends before it again.
fn adding(name: &str, sheet: &[u8], old: &[u8]) {
    let mut area = old.to_vec();
    let end = other::parse(old).expect("no damage").end;
    area.truncate(end);
    area.resize(end + sheet.len() + 99, 7);
    area[end] = 0;
    let (mut copied, mut stored, mut called) = (sheet.to_vec(), sheet.to_vec(), sheet.to_vec());
    let (mut whole, mut stepped) = (area.clone(), area.clone());
    let figures = race(&mut [
        &mut || copied.copy_from_slice(black_box(sheet)),
        &mut || {
            for (to, octet) in stored.iter_mut().zip(black_box(sheet)) {
                // SAFETY: a place in the vector; no two stores are made one.
                unsafe { ptr::write_volatile(to, *octet) };
            }
        },
        &mut || {
            for (place, octet) in sheet.iter().enumerate() {
                store(&mut called, place, *octet);
            }
        },
        &mut || assert!(black_box(Adding::start(black_box(&area), sheet, sheet.len())).is_ok()),
        &mut || {
            assert_eq!(spool_add(black_box(&mut whole), sheet, sheet.len()), Ok(()));
            whole[end] = 0;
        },
        &mut || {
            let started = Adding::start(black_box(&stepped), sheet, sheet.len());
            let mut adding = started.expect("room");
            while !adding.step(&mut stepped, sheet) {}
            stepped[end] = 0;
        },
    ]);
    let cells: Vec<Cell> = figures.into_iter().map(Cell::Time).collect();
    row(name, sheet.len(), &cells);
}

#[inline(never)]
fn store(octets: &mut [u8], place: usize, octet: u8) {
    octets[place] = octet;
}
