//! Simple strings. Each function takes a source and a place, gives the place
//! after what it found, and `None` where that is not there.

use super::octets::*;

/// The simple string at a place, appended to `out` in canonical form. `scratch`
/// is for what has to be decoded before its length is known.
pub fn simple(
    source: &[u8],
    at: usize,
    scratch: &mut Vec<u8>,
    out: &mut Vec<u8>,
) -> Option<(usize, usize)> {
    let first = *source.get(at)?;
    if starts_token(first) {
        let rest = &source[at + 1..];
        let more = rest.iter().position(|octet| !TOKEN[*octet as usize]);
        let end = at + 1 + more.unwrap_or(rest.len());
        return Some((end, put(&source[at..end], out)));
    }
    let (length, at) = if first.is_ascii_digit() {
        let (length, next) = decimal(source, at)?;
        (Some(length), next)
    } else {
        (None, at)
    };
    if *source.get(at)? == b':' {
        let end = (at + 1).checked_add(length?)?;
        return Some((end, put(source.get(at + 1..end)?, out)));
    }
    if let Some(octets) = unescaped(source, at) {
        let fits = length.is_none_or(|length| length == octets.len());
        return fits.then(|| (at + octets.len() + 2, put(octets, out)));
    }
    scratch.clear();
    let next = match source[at] {
        b'"' => quoted(source, at + 1, scratch)?,
        b'#' => hexadecimal(source, at + 1, scratch)?,
        b'|' => base64(source, at + 1, b'|', scratch)?,
        _ => return None,
    };
    let fits = length.is_none_or(|length| length == scratch.len());
    fits.then(|| (next, put(scratch, out)))
}

/// The octets of a quoted string without escapes, as most are: they can be taken
/// as they stand.
fn unescaped(source: &[u8], at: usize) -> Option<&[u8]> {
    let rest = source[at..].strip_prefix(b"\"")?;
    let end = rest.iter().position(|octet| !PLAIN[*octet as usize])?;
    (rest[end] == b'"').then(|| &rest[..end])
}

/// Appends a string in canonical form; where its octets begin.
pub fn put(octets: &[u8], out: &mut Vec<u8>) -> usize {
    let mut digits = [0; 20];
    let mut first = digits.len();
    let mut left = octets.len();
    loop {
        first -= 1;
        digits[first] = b'0' + (left % 10) as u8;
        left /= 10;
        if left == 0 {
            break;
        }
    }
    out.extend_from_slice(&digits[first..]);
    out.push(b':');
    let start = out.len();
    out.extend_from_slice(octets);
    start
}

/// A decimal whose first digit is at the place.
pub fn decimal(source: &[u8], at: usize) -> Option<(usize, usize)> {
    if source[at] == b'0' {
        return Some((0, at + 1));
    }
    let mut value = 0_usize;
    let mut next = at;
    while let Some(digit) = source.get(next).filter(|octet| octet.is_ascii_digit()) {
        value = value
            .checked_mul(10)?
            .checked_add(usize::from(digit - b'0'))?;
        next += 1;
    }
    Some((value, next))
}

fn quoted(source: &[u8], mut at: usize, out: &mut Vec<u8>) -> Option<usize> {
    loop {
        let rest = &source[at..];
        let plain = rest.iter().position(|octet| !PLAIN[*octet as usize])?;
        out.extend_from_slice(&rest[..plain]);
        at += plain + 1;
        match rest[plain] {
            b'"' => return Some(at),
            b'\\' => at = escape(source, at, out)?,
            _ => return None,
        }
    }
}

/// What stands after a backslash.
fn escape(source: &[u8], at: usize, out: &mut Vec<u8>) -> Option<usize> {
    let named = match *source.get(at)? {
        b'a' => 7,
        b'b' => 8,
        b't' => 9,
        b'n' => 10,
        b'v' => 11,
        b'f' => 12,
        b'r' => 13,
        mark @ (b'"' | b'\'' | b'\\' | b'?') => mark,
        b'\r' => return Some(at + 1 + usize::from(source.get(at + 1) == Some(&b'\n'))),
        b'\n' => return Some(at + 1 + usize::from(source.get(at + 1) == Some(&b'\r'))),
        b'x' => {
            let (high, low) = (*source.get(at + 1)?, *source.get(at + 2)?);
            let (high, low) = (HEX[high as usize], HEX[low as usize]);
            if high == NONE || low == NONE {
                return None;
            }
            out.push(high << 4 | low);
            return Some(at + 3);
        }
        b'0'..=b'7' => {
            let digits = source.get(at..at + 3)?;
            let mut value = 0;
            for digit in digits {
                if !matches!(digit, b'0'..=b'7') {
                    return None;
                }
                value = value << 3 | u32::from(digit - b'0');
            }
            out.push(u8::try_from(value).ok()?);
            return Some(at + 3);
        }
        _ => return None,
    };
    out.push(named);
    Some(at + 1)
}

fn hexadecimal(source: &[u8], at: usize, out: &mut Vec<u8>) -> Option<usize> {
    let mut high = None;
    for (place, octet) in source.iter().enumerate().skip(at) {
        let value = HEX[*octet as usize];
        if value != NONE {
            match high.take() {
                Some(first) => out.push(first << 4 | value),
                None => high = Some(value),
            }
        } else if *octet == b'#' {
            return high.is_none().then_some(place + 1);
        } else if !is_whitespace(*octet) {
            return None;
        }
    }
    None
}

/// Base-64 up to the mark that closes it.
pub fn base64(source: &[u8], mut at: usize, mark: u8, out: &mut Vec<u8>) -> Option<usize> {
    // Groups of four letters, as long as nothing stands between.
    for group in source[at..].chunks_exact(4) {
        let values = [group[0], group[1], group[2], group[3]].map(|l| LETTER[l as usize]);
        if values.contains(&NONE) {
            break;
        }
        out.extend_from_slice(&three(values));
        at += 4;
    }
    let (mut group, mut count, mut pads) = ([0; 4], 0, 0);
    loop {
        let octet = *source.get(at)?;
        at += 1;
        let value = LETTER[octet as usize];
        if value != NONE && pads == 0 {
            group[count] = value;
            count += 1;
            if count == 4 {
                out.extend_from_slice(&three(group));
                (group, count) = ([0; 4], 0);
            }
        } else if octet == b'=' {
            pads += 1;
        } else if octet == mark {
            break;
        } else if !is_whitespace(octet) {
            return None;
        }
    }
    match (count, pads) {
        (0, 0) => {}
        (2, 0..=2) if group[1] & 15 == 0 => out.extend_from_slice(&three(group)[..1]),
        (3, 0..=1) if group[2] & 3 == 0 => out.extend_from_slice(&three(group)[..2]),
        _ => return None,
    }
    Some(at)
}

/// Four letters' values give three octets.
fn three([a, b, c, d]: [u8; 4]) -> [u8; 3] {
    [a << 2 | b >> 4, b << 4 | c >> 2, c << 6 | d]
}
