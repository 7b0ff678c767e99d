//! A case and its outcome as a person reads them.

use super::case::{Argument, Case};
use super::run::{run, Buffer};
use crate::limits::RECORD;

/// The case's arguments, the line expected of it, and every buffer afterwards.
pub fn explain(number: u64, case: &Case) -> String {
    let mut page = format!("case {number}: {}\n", case.name());
    for (name, value) in case.arguments() {
        page += &argument(name, value);
    }
    let outcome = run(case);
    page += &format!("expected\n  {}", outcome.line(number, case.name()));
    for (name, buffer) in &outcome.buffers {
        page += &format!("{name} afterwards\n");
        page += &match buffer {
            Buffer::Octets(octets) => dump(octets),
            Buffer::Numbers(numbers) => rows(numbers),
        };
    }
    page
}

fn argument(name: &str, argument: Argument) -> String {
    match argument {
        Argument::Form(form) => format!("{name} {form}\n"),
        Argument::Count(count) => format!("{name} {count}\n"),
        Argument::Octets(octets) => format!("{name}, {} octets\n{}", octets.len(), dump(octets)),
        Argument::LentOctets(lent) => {
            let (room, fill, given) = (lent.room, lent.fill, lent.given.len());
            let given_octets = dump(&lent.given);
            format!("{name}, {room} octets lent, fill {fill}, {given} given\n{given_octets}")
        }
        Argument::LentNumbers(lent) => {
            let (room, fill, given) = (lent.room, lent.fill, lent.given.len());
            let given_numbers = rows(&lent.given);
            format!("{name}, {room} numbers lent, fill {fill}, {given} given\n{given_numbers}")
        }
    }
}

/// Sixteen octets a line: place, hexadecimal, and what is printable.
fn dump(octets: &[u8]) -> String {
    let line = |(place, octets): (usize, &[u8])| {
        let digits: String = octets.iter().map(|octet| format!("{octet:02x} ")).collect();
        let letters: String = octets.iter().map(|octet| letter(*octet)).collect();
        format!("  {:5}  {digits:48} {letters}\n", 16 * place)
    };
    octets.chunks(16).enumerate().map(line).collect()
}

fn letter(octet: u8) -> char {
    match octet {
        32..=126 => char::from(octet),
        _ => '.',
    }
}

/// One record a line; the last line may be a remainder.
fn rows(numbers: &[u32]) -> String {
    let line = |(place, record): (usize, &[u32])| {
        let record: Vec<String> = record.iter().map(u32::to_string).collect();
        format!("  {place:5}  {}\n", record.join(" "))
    };
    numbers.chunks(RECORD).enumerate().map(line).collect()
}
