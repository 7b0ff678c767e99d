//! Writing: the three forms, the room they take, the order of refusals.

mod common;

use common::*;
use etglavino::{Form, Refusal};

/// Writes the octets, which are the whole sheet, in just that much room.
fn write(form: u32, octets: &[u8], room: usize) -> Result<Vec<u8>, Refusal> {
    write_part(form, octets, octets.len(), room)
}

/// The same with a length said of them. Output past what is written stays, and
/// in a refusal that is all of it.
fn write_part(form: u32, octets: &[u8], length: usize, room: usize) -> Result<Vec<u8>, Refusal> {
    let mut out = vec![OCTET; room];
    let answer = etglavino::write_form(form, octets, length, &mut out);
    let (text, past) = out.split_at(answer.unwrap_or(0));
    assert!(past.iter().all(|octet| *octet == OCTET));
    answer.map(|_| text.to_vec())
}

#[test]
fn outputs_in_just_their_room() {
    let cases: [(u32, &[u8], &[u8]); 12] = [
        (1, LIST, LIST),
        (2, LIST, b"{KDM6YWJjWzE6eF0wOik=}"),
        (3, LIST, b"(abc [x]\"\")"),
        (2, b"()", b"{KCk=}"),
        (3, b"()", b"()"),
        (3, b"4:1997", b"\"1997\""),
        (3, b"6:a3:xyz", b"a3:xyz"),
        (3, b"4:a\"\\b", b"\"a\\\"\\\\b\""),
        (3, b"2:@\x1f", b"#401f#"),
        (3, b"[0:]1:\xff", b"[\"\"]#ff#"),
        (3, b"(()(1:a)1:~)", b"(() (a) \"~\")"),
        (2, b"1:a", b"{MTph}"),
    ];
    for (form, octets, text) in cases {
        let shown = String::from_utf8_lossy(octets);
        let expected = Ok(text.to_vec());
        assert_eq!(write(form, octets, text.len()), expected, "{form} {shown}");
        assert_eq!(write(form, octets, text.len() + 7), expected);
        assert_eq!(write(form, octets, text.len() - 1), Err(Refusal::Size));
        assert_eq!(write(form, octets, 0), Err(Refusal::Size));
    }
}

#[test]
fn forms_by_name_are_forms_by_number() {
    let texts: [(Form, &[u8]); 3] = [
        (Form::Canonical, LIST),
        (Form::Basic, b"{KDM6YWJjWzE6eF0wOik=}"),
        (Form::Advanced, b"(abc [x]\"\")"),
    ];
    for (form, text) in texts {
        let mut out = [OCTET; 30];
        let written = etglavino::write(form, LIST, LIST.len(), &mut out);
        assert_eq!(written, Ok(text.len()), "{form:?}");
        assert_eq!(out[..text.len()], *text);
        assert_eq!(out[text.len()..], [OCTET; 30][text.len()..]);
    }
}

#[test]
fn the_sheet_is_the_first_length_octets() {
    let lent = [LIST, b"and more"].concat();
    assert_eq!(write_part(1, &lent, 14, 20), Ok(LIST.to_vec()));
    assert_eq!(write_part(1, &lent, 15, 20), Err(Refusal::NotOwn));
    assert_eq!(write_part(1, &lent, 13, 20), Err(Refusal::NotOwn));
    assert_eq!(write_part(1, LIST, 15, 20), Err(Refusal::NotOwn));
    assert_eq!(write_part(1, LIST, usize::MAX, 20), Err(Refusal::NotOwn));
}

#[test]
fn sheets_that_are_not_one_fitting_canonical_form() {
    let bad: [&[u8]; 6] = [b"", b"abc", b"( )", b"()()", b"03:abc", b"{KCk=}"];
    for octets in bad {
        for form in [1, 2, 3] {
            assert_eq!(write(form, octets, 100), Err(Refusal::NotOwn));
        }
    }
    let large = [nested(129), empties(8_192), verbatim(16_379)];
    for octets in &large {
        assert_eq!(write(1, octets, 40_000), Err(Refusal::NotOwn));
    }
}

#[test]
fn the_most_that_an_output_takes() {
    // All quotation marks: each takes two octets in form 3.
    let octets = [b"16378:", &[b'"'; 16_378][..]].concat();
    let text = format!("\"{}\"", "\\\"".repeat(16_378)).into_bytes();
    assert_eq!(write(3, &octets, 2 * octets.len()), Ok(text));
    // Braces and padding take more than twice the smallest sheets.
    assert_eq!(write(2, b"()", 2 * 2 + 2), Ok(b"{KCk=}".to_vec()));
    assert_eq!(write(2, b"2:ab", 2 * 4 + 2), Ok(b"{MjphYg==}".to_vec()));
}

#[test]
fn the_first_refusal_that_applies() {
    for form in [0, 4, u32::MAX] {
        assert_eq!(write(form, LIST, 100), Err(Refusal::Form));
        assert_eq!(write(form, b"abc", 0), Err(Refusal::Form));
    }
    assert_eq!(write(3, b"abc", 0), Err(Refusal::NotOwn));
}
