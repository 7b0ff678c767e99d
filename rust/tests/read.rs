//! Reading: the examples of S 16, the limits, the order of refusals.

mod common;

use common::*;
use etglavino::{Extent, Form, Refusal, MAX_SOURCE};

fn canonical(form: u32, source: &[u8]) -> Result<Vec<u8>, Refusal> {
    read(form, source).map(|(octets, _)| octets)
}

#[test]
fn the_empty_list_and_the_empty_string() {
    let list = Ok((b"()".to_vec(), vec![2, 0, 2, 1, 0, 0, 1, 1, 0]));
    let string = Ok((b"0:".to_vec(), vec![0, 0, 2, 1, 0, 0, 2, 2, 0]));
    for form in [1, 2, 3, 4] {
        assert_eq!(read(form, b"()"), list);
        assert_eq!(read(form, b"0:"), string);
    }
    assert_eq!(read(2, b"{KCk=}"), list);
}

#[test]
fn the_list_in_each_form() {
    let expected = Ok((LIST.to_vec(), LIST_TABLE.to_vec()));
    assert_eq!(read(1, LIST), expected);
    assert_eq!(read(2, b"{KDM6YWJjWzE6eF0wOik=}"), expected);
    assert_eq!(read(3, b" ( abc [ x ] \"\" ) "), expected);
}

#[test]
fn forms_by_name_are_forms_by_number() {
    let sources: [(Form, &[u8]); 4] = [
        (Form::Canonical, LIST),
        (Form::Basic, b"{KDM6YWJjWzE6eF0wOik=}"),
        (Form::Advanced, b"(abc [x]\"\")"),
        (Form::Terminal1997, b"({MzphYmM=}{WzE6eF0wOg==})"),
    ];
    for (form, source) in sources {
        let (mut octets, mut table) = ([OCTET; 15], [NUMBER; 28]);
        let answer = etglavino::read(form, source, &mut octets, &mut table);
        let extent = Extent {
            length: 14,
            nodes: 3,
        };
        assert_eq!(answer, Ok(extent), "{form:?}");
        assert_eq!((&octets[..14], octets[14]), (LIST, OCTET));
        assert_eq!((&table[..27], table[27]), (&LIST_TABLE[..], NUMBER));
    }
    // Not every form takes each of these.
    assert_eq!(canonical(1, b"{KCk=}"), Err(Refusal::Syntax { place: 0 }));
    assert_eq!(canonical(3, b"{KCk=}"), Err(Refusal::Syntax { place: 0 }));
    assert_eq!(canonical(4, b"{KCk=}"), Ok(b"()".to_vec()));
    assert_eq!(canonical(1, b"( )"), Err(Refusal::Syntax { place: 1 }));
    assert_eq!(canonical(2, b"( )"), Err(Refusal::Syntax { place: 1 }));
    assert_eq!(canonical(3, b"( )"), Ok(b"()".to_vec()));
}

#[test]
fn advanced_strings() {
    let cases: [(&[u8], &[u8]); 8] = [
        (b"a3:xyz", b"6:a3:xyz"),
        (b"|YWJjZA|", b"4:abcd"),
        (b"4|YWJjZA==|", b"4:abcd"),
        (b"\"\\377\"", b"1:\xff"),
        (b"3\"\\x41\\\r\n\\102\\'\"", b"3:AB'"),
        (b"2# 4 03E #", b"2:@>"),
        (b"3:abc\n", b"3:abc"),
        (b"[\"\"]a", b"[0:]1:a"),
    ];
    for (source, octets) in cases {
        let shown = String::from_utf8_lossy(source);
        assert_eq!(canonical(3, source), Ok(octets.to_vec()), "{shown}");
    }
}

#[test]
fn not_in_the_language() {
    let advanced: [&[u8]; 15] = [
        b"03:abc",
        b"3\"ab\"",
        b"#616#",
        b"(1997)",
        b"[1:x](1:a)",
        b"",
        b"\"\\400\"",
        b"\"\\q\"",
        b"|YWJjZ|",
        b"|YWJj=|",
        b"()()",
        b"(",
        b"({3Rt=} \"1997\" murphy 3:{XC++})",
        // Lengths that are small again in 32 and in 64 bits.
        b"4294967299:abc",
        b"18446744073709551619:abc",
    ];
    for source in advanced {
        let shown = String::from_utf8_lossy(source);
        assert_eq!(
            canonical(3, source),
            Err(Refusal::Syntax { place: 0 }),
            "{shown}"
        );
    }
    for (source, place) in [
        (&b"3:abc\n"[..], 5),
        (b"4294967299:abc", 14),
        (b"abc", 0),
        (b"", 0),
    ] {
        assert_eq!(canonical(1, source), Err(Refusal::Syntax { place }));
        assert_eq!(canonical(2, source), Err(Refusal::Syntax { place }));
    }
    for source in [&b"{}"[..], b"{K}", b"{KCk=} ", b"{YWJj}", b""] {
        assert_eq!(canonical(2, source), Err(Refusal::Syntax { place: 0 }));
    }
}

#[test]
fn each_limit_and_one_past_it() {
    assert_eq!(canonical(1, &nested(128)), Ok(nested(128)));
    assert_eq!(canonical(1, &nested(129)), Err(Refusal::Depth));
    assert_eq!(canonical(1, &empties(8_191)), Ok(empties(8_191)));
    // Nodes have no limit but the records lent: one over is over in octets too.
    let over = empties(8_192);
    assert_eq!(read_in(1, &over, 20_000, 8_192 * 9), Err(Refusal::Nodes));
    assert_eq!(read_in(1, &over, 20_000, 8_193 * 9), Err(Refusal::Size));
    assert_eq!(canonical(1, &verbatim(16_378)), Ok(verbatim(16_378)));
    assert_eq!(canonical(1, &verbatim(16_379)), Err(Refusal::Size));
    let text = b"(3:abc[1:x]0:)";
    let longest = padded(text, MAX_SOURCE);
    assert_eq!(canonical(3, &longest), Ok(LIST.to_vec()));
    let longer = padded(text, MAX_SOURCE + 1);
    assert_eq!(canonical(3, &longer), Err(Refusal::SourceSize));
}

#[test]
fn the_room_lent() {
    let expected = Ok((LIST.to_vec(), LIST_TABLE.to_vec()));
    assert_eq!(read_in(1, LIST, 14, 27), expected);
    assert_eq!(read_in(1, LIST, 13, 27), Err(Refusal::Size));
    assert_eq!(read_in(1, LIST, 14, 26), Err(Refusal::Nodes));
    // Eight numbers are no record, and stay as they were.
    assert_eq!(read_in(1, LIST, 14, 35), expected);
    assert_eq!(read_in(1, LIST, 0, 27), Err(Refusal::Size));
    assert_eq!(read_in(1, LIST, 14, 0), Err(Refusal::Nodes));
}

#[test]
fn the_first_refusal_that_applies() {
    let long = vec![b')'; MAX_SOURCE + 1];
    for form in [0, 5, u32::MAX] {
        assert_eq!(read(form, &long), Err(Refusal::Form));
    }
    assert_eq!(read(1, &long), Err(Refusal::SourceSize));
    // 129 opened and none closed; too many nodes, too many octets, no end.
    assert_eq!(read(1, &[b'('; 129]), Err(Refusal::Syntax { place: 129 }));
    let open = &empties(8_192)[..16_385];
    assert_eq!(read(1, open), Err(Refusal::Syntax { place: 16_385 }));
    let open = [b"(", &verbatim(16_379)[..]].concat();
    assert_eq!(read(1, &open), Err(Refusal::Syntax { place: open.len() }));
    // Too deep with too few records; too many nodes with too little room.
    assert_eq!(read_in(1, &nested(129), 99, 128 * 9), Err(Refusal::Depth));
    assert_eq!(read_in(1, LIST, 13, 26), Err(Refusal::Nodes));
}
