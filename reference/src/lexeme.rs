//! The five kinds of simple string in form 3: verbatim, token, quoted,
//! hexadecimal and base-64.

use crate::base64;
use crate::canonical::decimal;
use crate::cursor::Cursor;

/// Space, tab, line feed, vertical tab, form feed, carriage return.
pub fn is_whitespace(octet: u8) -> bool {
    octet == 32 || (9..=13).contains(&octet)
}

/// What a token may start with.
pub fn is_token_start(octet: u8) -> bool {
    octet.is_ascii_alphabetic() || b"-./_:*+=".contains(&octet)
}

/// What a token may go on with.
pub fn is_token_octet(octet: u8) -> bool {
    is_token_start(octet) || octet.is_ascii_digit()
}

/// The octets of the simple string ahead; `None` if there is none.
pub fn simple(cursor: &mut Cursor) -> Option<Vec<u8>> {
    match cursor.peek()? {
        b'0'..=b'9' => with_length(cursor),
        start if is_token_start(start) => Some(cursor.run(is_token_octet).to_vec()),
        _ => marked(cursor),
    }
}

/// Verbatim, or a marked string whose length stands directly before it.
fn with_length(cursor: &mut Cursor) -> Option<Vec<u8>> {
    let length = decimal(cursor)?;
    if cursor.eat(b':').is_some() {
        return Some(cursor.take(length)?.to_vec());
    }
    let octets = marked(cursor)?;
    (octets.len() == length).then_some(octets)
}

/// A string between marks: quoted, hexadecimal or base-64.
fn marked(cursor: &mut Cursor) -> Option<Vec<u8>> {
    match cursor.step()? {
        b'"' => quoted(cursor),
        b'#' => hexadecimal(cursor.until(b'#')?),
        b'|' => base64::decode(cursor.until(b'|')?),
        _ => None,
    }
}

/// What follows an opening quote, up to and with the closing one.
fn quoted(cursor: &mut Cursor) -> Option<Vec<u8>> {
    let mut octets = Vec::new();
    loop {
        match cursor.step()? {
            b'"' => return Some(octets),
            b'\\' => octets.extend(escape(cursor)?),
            octet @ 32..=126 => octets.push(octet),
            _ => return None,
        }
    }
}

/// What follows a backslash: one octet, or none where a line is continued.
fn escape(cursor: &mut Cursor) -> Option<Option<u8>> {
    let octet = match cursor.step()? {
        b'a' => 7,
        b'b' => 8,
        b't' => 9,
        b'n' => 10,
        b'v' => 11,
        b'f' => 12,
        b'r' => 13,
        itself @ (b'"' | b'\'' | b'\\' | b'?') => itself,
        b'x' => hex_digit(cursor.step()?)? * 16 + hex_digit(cursor.step()?)?,
        first @ b'0'..=b'7' => octal(first, cursor)?,
        // Line breaks of two octets are taken whole: the second octet alone
        // could not stand in quotes.
        b'\r' => {
            let _ = cursor.eat(b'\n');
            return Some(None);
        }
        b'\n' => {
            let _ = cursor.eat(b'\r');
            return Some(None);
        }
        _ => return None,
    };
    Some(Some(octet))
}

/// Three octal digits, of which the first is taken already; at most 255.
fn octal(first: u8, cursor: &mut Cursor) -> Option<u8> {
    let mut value = u32::from(first - b'0');
    for _ in 0..2 {
        value = value * 8 + char::from(cursor.step()?).to_digit(8)?;
    }
    u8::try_from(value).ok()
}

/// The octets of hexadecimal digits; their number must be even.
fn hexadecimal(inside: &[u8]) -> Option<Vec<u8>> {
    let digits: Vec<u8> = inside
        .iter()
        .filter(|octet| !is_whitespace(**octet))
        .map(|octet| hex_digit(*octet))
        .collect::<Option<_>>()?;
    if !digits.len().is_multiple_of(2) {
        return None;
    }
    Some(
        digits
            .chunks(2)
            .map(|pair| pair[0] * 16 + pair[1])
            .collect(),
    )
}

fn hex_digit(octet: u8) -> Option<u8> {
    let value = char::from(octet).to_digit(16)?;
    u8::try_from(value).ok()
}
