//! Request 3: the octets that may stand after a backslash, each answer from the
//! request's own words.

mod common;

use common::canonical;

/// The escapes of 1997 and of request 3: the octet after the backslash, and the
/// octet it means.
const ESCAPES: [(u8, u8); 11] = [
    (b'b', 8),
    (b't', 9),
    (b'v', 11),
    (b'n', 10),
    (b'f', 12),
    (b'r', 13),
    (b'"', b'"'),
    (b'\'', b'\''),
    (b'\\', b'\\'),
    (b'a', 7),
    (b'?', 63),
];

#[test]
fn every_octet_after_a_backslash() {
    for octet in 0..=255 {
        let listed = ESCAPES.iter().find(|(after, _)| *after == octet);
        let expected = match (octet, listed) {
            (b'\r' | b'\n', _) => Ok(b"0:".to_vec()),
            (_, Some((_, means))) => Ok(vec![b'1', b':', *means]),
            _ => Err(3),
        };
        let text = [b'"', b'\\', octet, b'"'];
        assert_eq!(canonical(3, &text), expected, "octet {octet}");
    }
}
