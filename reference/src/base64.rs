//! Base-64 (RFC 4648) as it stands between bars and in braces.

use crate::lexeme::is_whitespace;

/// The letters in the order of their values.
pub const LETTERS: &[u8; 64] = b"ABCDEFGHIJKLMNOPQRSTUVWXYZabcdefghijklmnopqrstuvwxyz0123456789+/";

/// The octets that the letters stand for; `None` if this is not base-64.
///
/// Whitespace may stand anywhere. Padding may be short or missing, but is
/// never too long, and nothing but whitespace and padding follows it. Low bits
/// left over must be zero (request 2).
pub fn decode(inside: &[u8]) -> Option<Vec<u8>> {
    let solid: Vec<u8> = inside
        .iter()
        .copied()
        .filter(|octet| !is_whitespace(*octet))
        .collect();
    let count = solid.iter().take_while(|octet| **octet != b'=').count();
    let (letters, padding) = solid.split_at(count);
    if padding.iter().any(|octet| *octet != b'=') {
        return None;
    }
    let most_padding = match letters.len() % 4 {
        0 => 0,
        2 => 2,
        3 => 1,
        _ => return None,
    };
    if padding.len() > most_padding {
        return None;
    }
    let values: Vec<u32> = letters
        .iter()
        .map(|letter| value(*letter))
        .collect::<Option<_>>()?;
    let stray = match (letters.len() % 4, values.last()) {
        (2, Some(last)) => last & 0b1111,
        (3, Some(last)) => last & 0b11,
        _ => 0,
    };
    if stray != 0 {
        return None;
    }
    Some(values.chunks(4).flat_map(octets_of_group).collect())
}

fn value(letter: u8) -> Option<u32> {
    let place = LETTERS.iter().position(|other| *other == letter)?;
    u32::try_from(place).ok()
}

/// Two letters give one octet, three two, four three.
fn octets_of_group(group: &[u32]) -> Vec<u8> {
    let mut bits = 0;
    for place in 0..4 {
        bits = bits << 6 | group.get(place).copied().unwrap_or(0);
    }
    let [_, first, second, third] = bits.to_be_bytes();
    [first, second, third][..group.len() - 1].to_vec()
}

/// Padded base-64 without whitespace.
pub fn encode(octets: &[u8]) -> Vec<u8> {
    octets.chunks(3).flat_map(letters_of_group).collect()
}

fn letters_of_group(group: &[u8]) -> [u8; 4] {
    let octet = |place: usize| u32::from(group.get(place).copied().unwrap_or(0));
    let bits = octet(0) << 16 | octet(1) << 8 | octet(2);
    let mut letters = [b'='; 4];
    for (place, letter) in letters.iter_mut().enumerate().take(group.len() + 1) {
        *letter = LETTERS[(bits >> (18 - 6 * place) & 63) as usize];
    }
    letters
}
