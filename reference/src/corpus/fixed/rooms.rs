//! Reads and writes with just so much room lent, and wrong lengths.

use crate::corpus::case::{Canonical, Case};
use crate::corpus::known::scope::LIST;
use crate::corpus::make::{self, blank};
use crate::limits::RECORD;

/// The cases.
pub fn cases() -> Vec<Case> {
    [reads(), forms(), writes(), lengths()].concat()
}

/// Fourteen octets and three records are needed; the remainder of a table
/// past its whole records is of no use.
fn reads() -> Vec<Case> {
    let mut cases = Vec::new();
    for room in [0, 1, 13, 14, 15] {
        for numbers in [0, 7, 8, 16, 23, 24, 25, 31, 32, 33] {
            cases.push(make::read_into(1, LIST, room, numbers));
        }
    }
    cases.push(make::read_into(3, b"a", 3, RECORD));
    cases.push(make::read_into(3, b"a", 2, RECORD));
    cases.push(make::read_into(3, b"a", 3, RECORD - 1));
    cases.push(make::read_into(3, b"a", 0, 0));
    cases
}

fn forms() -> Vec<Case> {
    let odd = [
        0,
        4,
        9,
        257,
        1 << 16,
        (1 << 16) + 1,
        1 << 31,
        u32::MAX - 1,
        u32::MAX,
    ];
    odd.into_iter()
        .flat_map(|form| [make::read(form, LIST), make::write(form, LIST, 40)])
        .collect()
}

/// Output of exact size and one less: 14 octets as they are, 22 in braces, 11
/// advanced.
fn writes() -> Vec<Case> {
    let mut cases = Vec::new();
    for (form, size) in [(1, 14), (2, 22), (3, 11)] {
        for room in [0, size - 1, size, size + 1] {
            cases.push(make::write(form, LIST, room));
        }
    }
    cases
}

/// Lengths that are not the canonical form's, or not even in what is lent.
fn lengths() -> Vec<Case> {
    const FAR: u64 = 1 << 32;
    let lengths = [0, 1, 13, 15, 26, 27, FAR, FAR + 14, 1 << 63, u64::MAX];
    lengths.into_iter().flat_map(with_length).collect()
}

fn with_length(length: u64) -> Vec<Case> {
    let right = make::canonical(LIST);
    let wrong = Canonical {
        length,
        ..right.clone()
    };
    let write = |form| Case::Write {
        form,
        canonical: wrong.clone(),
        out: blank(30, 5),
    };
    let compare = |a: &Canonical, b: &Canonical| Case::Same {
        a: a.clone(),
        b: b.clone(),
        default_hint: b"x".to_vec(),
    };
    vec![
        write(1),
        write(3),
        write(9),
        compare(&right, &wrong),
        compare(&wrong, &right),
    ]
}
