//! Where a text went wrong, for people.

mod braces;
mod walk;

#[cfg(test)]
mod tests;

use etglavino::{Form, Refusal};

/// Octets shown before the place, and from it on.
const BEFORE: usize = 50;
const AFTER: usize = 20;

/// Where a text that was refused with 3 went wrong. The library tells it of
/// canonical text; of the others it is found here.
pub fn of(refusal: Refusal, form: Form, text: &[u8]) -> Option<usize> {
    let Refusal::Syntax { place } = refusal else {
        return None;
    };
    Some(match form {
        Form::Basic if text.first() == Some(&b'{') => walk::basic(text),
        Form::Canonical | Form::Basic => place,
        Form::Advanced => walk::advanced(text, false),
        Form::Terminal1997 => walk::advanced(text, true),
    })
}

/// A place in words. Where it is the text's length, nothing that is there is
/// wrong, and more should follow.
pub fn words(source: &[u8], place: usize) -> String {
    match (place == source.len(), place) {
        (true, 1) => "cut short after 1 octet".into(),
        (true, _) => format!("cut short after {place} octets"),
        (false, _) => format!("from octet {place} on"),
    }
}

/// The line of a place, or what is near of it, with a caret under the place.
/// Octets that can't be printed are spelled. Of a text that is cut short at the
/// end of a line this is that line.
pub fn shown(source: &[u8], place: usize) -> String {
    let (before, after) = source.split_at(place.min(source.len()));
    let behind = usize::from(after.is_empty() && before.ends_with(b"\n"));
    let ended = &before[..before.len() - behind];
    let start = ended.iter().rposition(|octet| *octet == b'\n');
    let near = before.len().saturating_sub(BEFORE);
    let before = spelled(&before[start.map_or(0, |at| at + 1).max(near)..]);
    // A line feed that is itself wrong is shown.
    let end = match after.iter().position(|octet| *octet == b'\n') {
        Some(end) => end.max(1),
        None => after.len(),
    };
    let after = spelled(&after[..end.min(AFTER)]);
    format!("  {before}{after}\n  {}^", " ".repeat(before.len()))
}

/// Octets as text; what can't be printed is spelled.
pub fn spelled(octets: &[u8]) -> String {
    let spell = |octet: &u8| match octet {
        b' '..=b'~' => char::from(*octet).to_string(),
        _ => format!("\\x{octet:02x}"),
    };
    octets.iter().map(spell).collect()
}
