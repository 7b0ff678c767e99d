//! What octets are to the grammar of advanced text.

/// Whitespace between values.
pub const fn is_whitespace(octet: u8) -> bool {
    matches!(octet, b' ' | 9..=13)
}

/// What a token may begin with.
pub const fn starts_token(octet: u8) -> bool {
    octet.is_ascii_alphabetic()
        || matches!(octet, b'-' | b'.' | b'/' | b'_' | b':' | b'*' | b'+' | b'=')
}

/// Which octets a token goes on with.
pub const TOKEN: [bool; 256] = {
    let mut token = [false; 256];
    let mut octet = 0;
    while octet < 256 {
        token[octet] = starts_token(octet as u8) || (octet as u8).is_ascii_digit();
        octet += 1;
    }
    token
};

/// Which octets stand for themselves between quotation marks.
pub const PLAIN: [bool; 256] = {
    let mut plain = [false; 256];
    let mut octet = 32;
    while octet < 127 {
        plain[octet] = octet as u8 != b'"' && octet as u8 != b'\\';
        octet += 1;
    }
    plain
};

/// In the lists of values: no digit, no letter.
pub const NONE: u8 = 255;

/// Values of hexadecimal digits.
pub const HEX: [u8; 256] = {
    let mut values = [NONE; 256];
    let mut value = 0;
    while value < 16 {
        values[b"0123456789abcdef"[value] as usize] = value as u8;
        values[b"0123456789ABCDEF"[value] as usize] = value as u8;
        value += 1;
    }
    values
};

/// Values of base-64 letters.
pub const LETTER: [u8; 256] = {
    let letters = b"ABCDEFGHIJKLMNOPQRSTUVWXYZabcdefghijklmnopqrstuvwxyz0123456789+/";
    let mut values = [NONE; 256];
    let mut value = 0;
    while value < 64 {
        values[letters[value] as usize] = value as u8;
        value += 1;
    }
    values
};
