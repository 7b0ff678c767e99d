//! Texts that are wrong, or nearly.

use super::rng::Rng;

/// Octets that mean something in one form or another.
const TELLING: &[u8] = b"()[]{}#|\"\\:=+/0123456789abxXzZ \t\n\x0b\x0c\r\0\x7f\x80\xff&'?";

/// The text with one thing wrong, seldom two.
pub fn damaged(rng: &mut Rng, text: &[u8]) -> Vec<u8> {
    let mut text = text.to_vec();
    damage(rng, &mut text);
    if rng.once_in(6) {
        damage(rng, &mut text);
    }
    text
}

fn damage(rng: &mut Rng, text: &mut Vec<u8>) {
    if text.is_empty() {
        text.push(rng.pick(TELLING));
        return;
    }
    let place = rng.below(text.len());
    match rng.below(8) {
        0 => text[place] = rng.pick(TELLING),
        1 => text[place] ^= 1 << rng.below(8),
        2 => {
            text.remove(place);
        }
        3 => text.insert(place, text[place]),
        4 => text.truncate(place),
        5 => text.insert(place, rng.pick(TELLING)),
        6 => {
            let neighbour = (place + 1) % text.len();
            text.swap(place, neighbour);
        }
        _ => splice(rng, text, place),
    }
}

/// Puts a copy of one part of the text into another place.
fn splice(rng: &mut Rng, text: &mut Vec<u8>, place: usize) {
    let start = rng.below(text.len());
    let end = (start + 1 + rng.below(8)).min(text.len());
    let part = text[start..end].to_vec();
    text.splice(place..place, part);
}

/// A short text of pieces thrown together.
pub fn soup(rng: &mut Rng) -> Vec<u8> {
    const PIECES: &[&[u8]] = &[
        b"(", b"(", b"(", b")", b")", b")", b"[", b"]", b"{", b"}", b"#", b"|", b"\"", b"\\", b":",
        b"0", b"1", b"2", b"3", b"10", b"a", b"B", b"=", b"+", b" ", b"\n", b"\x0b", b"0:", b"1:x",
        b"3:abc", b"[1:h]", b"[ h ]", b"\"a\"", b"1\"b\"", b"#61#", b"1#62#", b"|YQ|", b"1|Yg==|",
        b"\\x4a", b"\\101", b"\\n", b"\\\r\n", b"{MDo}", b"-7", b"\xff", b"\0", b"&",
    ];
    let count = 1 + rng.below(9);
    (0..count).flat_map(|_| rng.pick(PIECES).to_vec()).collect()
}

/// A string whose length is spelled truly, too large by a power of two that a
/// number type could lose, one off, or with zeros in front.
pub fn with_odd_length(rng: &mut Rng, octets: &[u8]) -> Vec<u8> {
    let length = octets.len() as u128;
    let digits = match rng.below(9) {
        0 => length.to_string(),
        1 => (length + (1 << 32)).to_string(),
        2 => (length + (1 << 64)).to_string(),
        3 => (length + (1 << 63)).to_string(),
        4 => (length + (1 << 16)).to_string(),
        5 => format!("0{length}"),
        6 => format!("{}{length}", 10_000_000_000_000_000_000_u64),
        7 => (length + 1).to_string(),
        _ => length.saturating_sub(1).to_string(),
    };
    let hex: String = octets.iter().map(|octet| format!("{octet:02x}")).collect();
    let body = match rng.below(4) {
        0 | 1 => [b":", octets].concat(),
        2 => format!("#{hex}#").into_bytes(),
        _ => [b"|", &crate::base64::encode(octets)[..], b"|"].concat(),
    };
    [digits.as_bytes(), &body].concat()
}
