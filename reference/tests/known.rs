//! Every text whose answer was worked out by hand: those of the documents and
//! those for the settled points.

mod common;

use common::{canonical, read, tree};
use reference::corpus::known;

#[test]
fn every_known_text_has_its_answer() {
    for (form, text, answer) in known::all() {
        let shown = String::from_utf8_lossy(text);
        let expected = answer.map(<[u8]>::to_vec);
        assert_eq!(canonical(*form, text), expected, "form {form}: {shown}");
    }
}

#[test]
fn every_known_canonical_form_reads_to_itself_in_every_form() {
    for (_, text, answer) in known::all() {
        if let Ok(octets) = answer {
            let layout = tree(octets).layout();
            for form in [1, 2, 3] {
                let shown = String::from_utf8_lossy(text);
                let expected = Ok((octets.to_vec(), layout.records.clone()));
                assert_eq!(read(form, octets), expected, "form {form}: {shown}");
            }
        }
    }
}

#[test]
fn the_lists_are_as_long_as_they_should_be() {
    // Whoever drops a text by accident should notice.
    assert!(known::scope::TEXTS.len() >= 80);
    assert!(known::documents::TEXTS.len() >= 85);
    assert!(known::all().count() >= 350);
}
