//! Request 2: low bits that base-64 leaves over, each answer from the request's
//! own words.

mod common;

use common::canonical;

/// RFC 4648's alphabet.
const LETTERS: &[u8] = b"ABCDEFGHIJKLMNOPQRSTUVWXYZabcdefghijklmnopqrstuvwxyz0123456789+/";

/// Octets of the canonical form of a string.
fn verbatim(octets: &[usize]) -> Vec<u8> {
    let length = octets.len().to_string().into_bytes();
    let octets = octets.iter().map(|octet| u8::try_from(*octet).unwrap());
    length.into_iter().chain([b':']).chain(octets).collect()
}

#[test]
fn every_last_letter_between_bars() {
    for (value, letter) in LETTERS.iter().enumerate() {
        // `Y` is 24, `W` is 22: `Yx` has four bits too many, `YWx` two.
        let two = (value % 16 == 0).then(|| vec![(24 << 2) | (value / 16)]);
        let three = (value % 4 == 0).then(|| vec![97, ((22 % 16) << 4) | (value / 4)]);
        for (octets, letters, most) in [(two, &b"Y"[..], 2), (three, b"YW", 1)] {
            let expected = octets.ok_or(3).map(|octets| verbatim(&octets));
            for pads in 0..=most {
                let text = [b"|", letters, &[*letter], &b"=="[..pads], b"|"].concat();
                let shown = String::from_utf8_lossy(&text).into_owned();
                assert_eq!(canonical(3, &text), expected, "{shown}");
            }
        }
    }
}

#[test]
fn every_last_letter_in_braces() {
    for (value, letter) in LETTERS.iter().enumerate() {
        // `MjphY` is `2:a` and six bits of an octet; the last letter has the other two.
        let text = [b"{MjphY", &[*letter][..], b"==}"].concat();
        let expected = match value % 16 {
            0 => Ok(verbatim(&[97, (24 << 2) | (value / 16)])),
            _ => Err(3),
        };
        assert_eq!(canonical(2, &text), expected, "{}", char::from(*letter));
    }
}
