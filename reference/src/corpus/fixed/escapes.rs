//! Every octet after a backslash.

use super::super::case::Case;
use super::super::make;

/// Alone, and with digits behind it, as octal and hexadecimal escapes have them.
pub fn cases() -> Vec<Case> {
    let texts = (0..=255).flat_map(|octet| {
        [
            vec![b'"', b'\\', octet, b'"'],
            vec![b'"', b'\\', octet, b'0', b'7', b'"'],
        ]
    });
    texts.map(|text| make::read(3, &text)).collect()
}
