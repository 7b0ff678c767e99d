//! Letters of base-64, and which of them is wrong where they stand for a tree.

use etglavino::{Form, OwnedSheet, Refusal};

/// What a letter stands for.
pub fn letter(octet: u8) -> Option<u8> {
    match octet {
        b'A'..=b'Z' => Some(octet - b'A'),
        b'a'..=b'z' => Some(octet - b'a' + 26),
        b'0'..=b'9' => Some(octet - b'0' + 52),
        b'+' => Some(62),
        b'/' => Some(63),
        _ => None,
    }
}

/// Whether letters may end so: none is left over, and no bits but zeros.
pub fn ends(letters: &[u8]) -> bool {
    let last = letters.last().copied().unwrap_or_default();
    match letters.len() % 4 {
        0 => true,
        1 => false,
        2 => last % 16 == 0,
        _ => last % 4 == 0,
    }
}

/// The whole octets that letters stand for.
pub fn octets(letters: &[u8]) -> Vec<u8> {
    let at = |letter: usize| u16::from(letters.get(letter).copied().unwrap_or_default());
    let octet = |number: usize| {
        let (first, bit) = (number * 8 / 6, number * 8 % 6);
        let both = at(first) << 6 | at(first + 1);
        (both << bit >> 4) as u8
    };
    (0..letters.len() * 6 / 8).map(octet).collect()
}

/// How many octets begin a canonical form, and whether they are one: this is what
/// the library says.
fn begins(octets: &[u8]) -> (usize, bool) {
    match OwnedSheet::of_text(Form::Canonical, octets) {
        Err(Refusal::Syntax { place }) => (place, false),
        _ => (octets.len(), true),
    }
}

/// Whether octets are a canonical form, of any size.
pub fn whole(octets: &[u8]) -> bool {
    begins(octets).1
}

/// The first letter after which no tree can come of them.
pub fn wrong(letters: &[u8]) -> Option<usize> {
    let mut octets = octets(letters);
    let (right, _) = begins(&octets);
    // The letter that has the first bits of the octet behind those that are right.
    let (first, bit) = (right * 8 / 6, right * 8 % 6);
    let value = *letters.get(first)?;
    let bits = value & (63 >> bit);
    octets.truncate(right);
    let may_end = bit > 0 && bits == 0 && whole(&octets);
    let low = 2 + bit as u32;
    let may_go_on = (0..1u16 << low).any(|rest| {
        octets.truncate(right);
        octets.push(((u16::from(bits) << low) | rest) as u8);
        begins(&octets).0 == right + 1
    });
    match may_end || may_go_on {
        true => Some(first + 1).filter(|second| *second < letters.len()),
        false => Some(first),
    }
}
