//! The cases of S 16 with whole tables, outputs and sizes, by hand.

mod common;

use common::*;
use reference::entries::{self, Reading, Writing};
use reference::limits::*;

#[test]
fn the_empty_list() {
    let expected = Ok((b"()".to_vec(), vec![[2, 0, 2, 1, 0, 0, 1, 1, 0]]));
    for form in [1, 2, 3] {
        assert_eq!(read(form, b"()"), expected);
    }
    assert_eq!(read(2, b"{KCk=}"), expected);
}

#[test]
fn the_empty_string() {
    let expected = Ok((b"0:".to_vec(), vec![[0, 0, 2, 1, 0, 0, 2, 2, 0]]));
    for form in [1, 2, 3] {
        assert_eq!(read(form, b"0:"), expected);
    }
}

#[test]
fn the_list_in_each_form() {
    let expected = Ok((LIST.to_vec(), LIST_RECORDS.to_vec()));
    assert_eq!(read(1, LIST), expected);
    assert_eq!(read(2, LIST), expected);
    assert_eq!(read(3, b" ( abc [ x ] \"\" ) "), expected);
    assert_eq!(read(2, b"{KDM6YWJjWzE6eF0wOik=}"), expected);
}

#[test]
fn a_deeper_table() {
    let octets = b"(1:a(1:b(1:c[1:h]1:d))1:e)";
    let records = vec![
        [2, 0, 26, 8, 0, 0, 1, 25, 0],
        [0, 1, 4, 1, 0, 0, 3, 4, 0],
        [2, 4, 22, 5, 0, 0, 5, 21, 0],
        [0, 5, 8, 1, 0, 0, 7, 8, 2],
        [2, 8, 21, 3, 0, 0, 9, 20, 2],
        [0, 9, 12, 1, 0, 0, 11, 12, 4],
        [1, 12, 20, 1, 15, 16, 19, 20, 4],
        [0, 22, 25, 1, 0, 0, 24, 25, 0],
    ];
    let expected = Ok((octets.to_vec(), records));
    assert_eq!(read(3, b"(a (b (c [h] d)) e)"), expected);
    assert_eq!(read(1, octets), expected);
}

#[test]
fn an_empty_hint_has_a_place() {
    let expected = Ok((b"[0:]1:a".to_vec(), vec![[1, 0, 7, 1, 3, 3, 6, 7, 0]]));
    assert_eq!(read(3, b"[\"\"]a"), expected);
    let expected = Ok((b"1:a".to_vec(), vec![[0, 0, 3, 1, 0, 0, 2, 3, 0]]));
    assert_eq!(read(3, b"a"), expected);
}

#[test]
fn lengths_of_two_digits_move_what_follows() {
    let text = b"(\"0123456789\" \"\" [abcdefghijkl]b)";
    let octets = b"(10:01234567890:[12:abcdefghijkl]1:b)".to_vec();
    let records = vec![
        [2, 0, 37, 4, 0, 0, 1, 36, 0],
        [0, 1, 14, 1, 0, 0, 4, 14, 0],
        [0, 14, 16, 1, 0, 0, 16, 16, 0],
        [1, 16, 36, 1, 20, 32, 35, 36, 0],
    ];
    assert_eq!(read(3, text), Ok((octets, records)));
}

fn write(form: u32, octets: &[u8], room: usize) -> Result<Vec<u8>, u32> {
    let mut out = vec![OCTET; room];
    let writing = entries::write(form, octets, octets.len(), &mut out);
    let length = match writing {
        Writing::Accepted { length } => length,
        Writing::Refused(_) => 0,
    };
    assert!(out[length..].iter().all(|octet| *octet == OCTET));
    match writing {
        Writing::Accepted { length } => Ok(out[..length].to_vec()),
        Writing::Refused(refusal) => Err(refusal),
    }
}

#[test]
fn outputs() {
    let cases: [(u32, &[u8], &[u8]); 16] = [
        (1, LIST, LIST),
        (2, LIST, b"{KDM6YWJjWzE6eF0wOik=}"),
        (3, LIST, b"(abc [x]\"\")"),
        (1, b"()", b"()"),
        (2, b"()", b"{KCk=}"),
        (3, b"()", b"()"),
        (2, b"1:a", b"{MTph}"),
        (2, b"2:ab", b"{MjphYg==}"),
        (3, b"(1:a(1:b())[0:]1:c)", b"(a (b ()) [\"\"]c)"),
        (3, b"4:1997", b"\"1997\""),
        (3, b"4:a b\\", b"\"a b\\\\\""),
        (3, b"3:a\"b", b"\"a\\\"b\""),
        (3, b"3:a'b", b"\"a'b\""),
        (3, b"2:\x1fK", b"#1f4b#"),
        (
            3,
            b"[1:\xff]18:-./_:*+=0123456789",
            b"[#ff#]-./_:*+=0123456789",
        ),
        (3, b"([1: ]1:~1:\x7f)", b"([\" \"]\"~\" #7f#)"),
    ];
    for (form, octets, expected) in cases {
        let shown = String::from_utf8_lossy(octets);
        assert_eq!(
            write(form, octets, 60),
            Ok(expected.to_vec()),
            "{form} {shown}"
        );
        assert_eq!(write(form, octets, expected.len()), Ok(expected.to_vec()));
        assert_eq!(write(form, octets, expected.len() - 1), Err(TOO_LARGE));
    }
}

#[test]
fn what_is_written_may_be_twice_as_long() {
    let quotes = verbatim(b'"', 16_378);
    let written = write(3, &quotes, 32_758).unwrap();
    assert_eq!(written.len(), 2 * 16_378 + 2);
    assert_eq!(canonical(3, &written), Ok(quotes.clone()));
    assert_eq!(write(3, &quotes, 32_757), Err(6));
    assert_eq!(write(2, &quotes, 40_000).unwrap().len(), 21_850);
}

#[test]
fn the_correction_of_the_specification() {
    let mut pair = Pair::new(LIST, 20, 33);
    let reading = pair.replace(3, b"\"hi\"", 1);
    assert_eq!(
        reading,
        Reading::Accepted {
            length: 13,
            nodes: 3
        }
    );
    assert_eq!(pair.canonical[..13], *b"(2:hi[1:x]0:)");
    assert_eq!(pair.canonical[13], 0);
    assert_eq!(pair.canonical[14..], [OCTET; 6]);
    let records = [
        [2, 0, 13, 3, 0, 0, 1, 12, 0],
        [0, 1, 5, 1, 0, 0, 3, 5, 0],
        [1, 5, 12, 1, 8, 9, 12, 12, 0],
    ];
    assert_eq!(pair.table[..27], *records.as_flattened());
    assert_eq!(pair.table[27..], [NUMBER; 6]);
}

#[test]
fn depth() {
    for form in [1, 2, 3] {
        assert_eq!(canonical(form, &nested(127)), Ok(nested(127)));
        assert_eq!(canonical(form, &nested(128)), Ok(nested(128)));
        assert_eq!(canonical(form, &nested(129)), Err(4));
        assert_eq!(canonical(form, &[b'('; 129]), Err(3));
        assert_eq!(canonical(form, &nested(16_384)), Err(4));
        assert_eq!(canonical(form, &vec![b'('; 32_768]), Err(3));
        assert_eq!(canonical(form, &nested(129)[1..]), Err(3));
    }
}

#[test]
fn node_count() {
    let (octets, records) = read(1, &empties(8_191)).unwrap();
    assert_eq!(octets, empties(8_191));
    assert_eq!(records.len(), 8_192);
    assert_eq!(records[0], [2, 0, 16_384, 8_192, 0, 0, 1, 16_383, 0]);
    assert_eq!(
        records[8_191],
        [0, 16_381, 16_383, 1, 0, 0, 16_383, 16_383, 0]
    );
    // 02: 5 in 8,192 records, 6 in more.
    let over = empties(8_192);
    assert_eq!(read_into(1, &over, 20_000, 8_192 * 9).unwrap_err(), 5);
    assert_eq!(read_into(1, &over, 20_000, 8_193 * 9).unwrap_err(), 6);
    assert_eq!(canonical(1, &over[..16_385]), Err(3));
}

#[test]
fn canonical_size() {
    let (octets, records) = read(1, &verbatim(b'n', 16_378)).unwrap();
    assert_eq!(octets.len(), 16_384);
    assert_eq!(records, [[0, 0, 16_384, 1, 0, 0, 6, 16_384, 0]]);
    assert_eq!(canonical(1, &verbatim(b'n', 16_379)), Err(6));
    assert_eq!(
        canonical(1, &[&verbatim(b'n', 16_379)[..], b"n"].concat()),
        Err(3)
    );
    assert_eq!(canonical(3, &verbatim(b'n', 16_379)), Err(6));
}

#[test]
fn source_size() {
    assert_eq!(
        canonical(3, &padded(b"3:abc", 32_768)),
        Ok(b"3:abc".to_vec())
    );
    assert_eq!(canonical(3, &padded(b"3:abc", 32_769)), Err(2));
    assert_eq!(canonical(1, &verbatim(b'n', 32_762)), Err(6));
    assert_eq!(canonical(1, &verbatim(b'n', 32_763)), Err(2));
}

#[test]
fn lengths_are_never_wrapped() {
    // 32,764 digits, then a colon and three octets.
    for digit in [b'0', b'1', b'9'] {
        let text = [&vec![digit; 32_764][..], b":abc"].concat();
        for form in [1, 2, 3] {
            assert_eq!(canonical(form, &text), Err(3));
        }
    }
    // Every power of two up to 2^127, plus 3.
    for power in 3..128 {
        let text = format!("{}:abc", (1_u128 << power) + 3);
        assert_eq!(canonical(1, text.as_bytes()), Err(3), "{text}");
        let text = format!("{}\"abc\"", (1_u128 << power) + 3);
        assert_eq!(canonical(3, text.as_bytes()), Err(3), "{text}");
    }
}
