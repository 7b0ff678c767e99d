//! Form 1, canonical: verbatim strings and lists, nothing between them.

use crate::builder::Builder;
use crate::cursor::Cursor;
use crate::tree::Tree;

/// The tree of a canonical form; `None` if the source is not exactly one.
pub fn parse(source: &[u8]) -> Option<Tree> {
    let mut cursor = Cursor::new(source);
    let mut builder = Builder::default();
    while let Some(octet) = cursor.peek() {
        match octet {
            b'(' => {
                cursor.step();
                builder.open()?;
            }
            b')' => {
                cursor.step();
                builder.close()?;
            }
            _ => builder.add(string(&mut cursor)?)?,
        }
    }
    builder.finish()
}

fn string(cursor: &mut Cursor) -> Option<Tree> {
    let hint = match cursor.eat(b'[') {
        None => None,
        Some(()) => {
            let hint = verbatim(cursor)?;
            cursor.eat(b']')?;
            Some(hint)
        }
    };
    let data = verbatim(cursor)?;
    Some(Tree::Text { hint, data })
}

fn verbatim(cursor: &mut Cursor) -> Option<Vec<u8>> {
    let length = decimal(cursor)?;
    cursor.eat(b':')?;
    Some(cursor.take(length)?.to_vec())
}

/// A decimal: `0`, or digits that start with 1 to 9.
///
/// There may be thousands of digits. A number too large for the type stays at
/// the type's largest, which is still more than any source holds; it must
/// never wrap to something small.
pub fn decimal(cursor: &mut Cursor) -> Option<usize> {
    match cursor.run(|octet| octet.is_ascii_digit()) {
        [] | [b'0', _, ..] => None,
        digits => Some(digits.iter().fold(0_usize, |value, digit| {
            value
                .saturating_mul(10)
                .saturating_add(usize::from(digit - b'0'))
        })),
    }
}
