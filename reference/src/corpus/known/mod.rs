//! Texts whose answers were worked out by hand from the documents. The corpus
//! takes the texts; the tests hold the answers against the program.

pub mod documents;
pub mod readings;
pub mod scope;
pub mod terminals;

use crate::limits::NOT_IN_LANGUAGE;

/// A form, a text, and its canonical form or refusal, given room enough.
pub type Known = (u32, &'static [u8], Result<&'static [u8], u32>);

/// Not in the form's language.
const BAD: Result<&[u8], u32> = Err(NOT_IN_LANGUAGE);

/// All of them.
pub fn all() -> impl Iterator<Item = &'static Known> {
    [
        scope::TEXTS,
        documents::TEXTS,
        readings::BRACES_AND_BARS,
        readings::TOKENS,
        readings::LENGTHS,
        readings::QUOTED,
        readings::HEXADECIMAL,
        readings::HINTS,
        readings::WHOLES,
        terminals::TEXTS,
    ]
    .into_iter()
    .flatten()
}
