//! Base-64 whose last letter is any of the 64: most have low bits left over.

use super::super::case::Case;
use super::super::make;
use crate::base64;

/// Ends of two and of three letters, between bars and in braces, with every
/// number of `=` up to one too many, with and without whitespace between.
pub fn cases() -> Vec<Case> {
    let mut cases = Vec::new();
    for (form, marks, octets) in [
        (3, b"||", &b"a"[..]),
        (3, b"||", b"ab"),
        (2, b"{}", b"2:ab"),
        (2, b"{}", b"3:abc"),
    ] {
        for last in base64::LETTERS {
            let most = 4 - letters_at_end(octets);
            for pads in 0..=most + 1 {
                cases.push(make::read(form, &text(marks, octets, *last, pads, b"")));
            }
            for pads in [0, most] {
                cases.push(make::read(form, &text(marks, octets, *last, pads, b" \n")));
            }
        }
    }
    cases
}

/// How many letters stand in the last group.
fn letters_at_end(octets: &[u8]) -> usize {
    octets.len() % 3 + 1
}

/// The octets between marks, with another last letter and so many `=`, and
/// `gap` after each.
fn text(marks: &[u8; 2], octets: &[u8], last: u8, pads: usize, gap: &[u8]) -> Vec<u8> {
    let mut letters = base64::encode(octets);
    letters.retain(|letter| *letter != b'=');
    let end = letters.len() - 1;
    letters[end] = last;
    letters.extend(vec![b'='; pads]);
    let inside = letters
        .iter()
        .flat_map(|letter| [&[*letter][..], gap].concat());
    [marks[0]]
        .into_iter()
        .chain(inside)
        .chain([marks[1]])
        .collect()
}
