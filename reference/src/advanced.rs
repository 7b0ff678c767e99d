//! Form 3, advanced: lists, hints and simple strings, with whitespace. And
//! form 4, that of the terminals of 1997: form 3 with trees in braces.

use crate::builder::Builder;
use crate::cursor::Cursor;
use crate::lexeme::{is_whitespace, simple};
use crate::tree::Tree;
use crate::{base64, canonical};

/// The tree of an advanced form; `None` if the source is none.
pub fn parse(source: &[u8]) -> Option<Tree> {
    sexp(source, false)
}

/// The tree of a text of form 4; `None` if the source is none.
pub fn parse_1997(source: &[u8]) -> Option<Tree> {
    sexp(source, true)
}

/// One value, with whitespace around it; `braces` says whether a value may
/// stand in braces.
fn sexp(source: &[u8], braces: bool) -> Option<Tree> {
    let mut cursor = Cursor::new(source);
    let mut builder = Builder::default();
    cursor.run(is_whitespace);
    while let Some(octet) = cursor.peek() {
        match octet {
            b'(' => {
                cursor.step();
                builder.open()?;
            }
            b')' => {
                cursor.step();
                builder.close()?;
            }
            b'{' if braces => {
                cursor.step();
                let octets = base64::decode(cursor.until(b'}')?)?;
                builder.add(canonical::parse(&octets)?)?;
            }
            _ => builder.add(string(&mut cursor)?)?,
        }
        cursor.run(is_whitespace);
    }
    builder.finish()
}

/// A simple string, perhaps with a hint in brackets before it. Neither the
/// hint nor the string hinted can be anything but a simple string.
fn string(cursor: &mut Cursor) -> Option<Tree> {
    let hint = match cursor.eat(b'[') {
        None => None,
        Some(()) => {
            cursor.run(is_whitespace);
            let hint = simple(cursor)?;
            cursor.run(is_whitespace);
            cursor.eat(b']')?;
            cursor.run(is_whitespace);
            Some(hint)
        }
    };
    let data = simple(cursor)?;
    Some(Tree::Text { hint, data })
}
