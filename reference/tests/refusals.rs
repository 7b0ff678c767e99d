//! The order of refusals, each neighbouring pair of it, and the rooms. That a
//! refusal leaves everything as it was is checked by the helpers on the way.

mod common;

use common::*;
use reference::entries::{self, Comparing, Writing};

#[test]
fn form_numbers() {
    for form in [0, 5, 9, 256 + 1, 65_536 + 2, u32::MAX] {
        assert_eq!(canonical(form, LIST), Err(1));
        assert_eq!(write(form, LIST, LIST.len(), 100), Err(1));
        assert_eq!(Pair::roomy(LIST).refusal(form, b"a", 1), 1);
    }
    // Form 4 is read and never written.
    assert_eq!(canonical(4, LIST), Ok(LIST.to_vec()));
    assert_eq!(write(4, LIST, LIST.len(), 100), Err(1));
    assert_eq!(write(4, b"bad", 3, 0), Err(1));
}

#[test]
fn reading_goes_1_to_6() {
    let long = vec![b'?'; 32_769];
    assert_eq!(canonical(9, &long), Err(1));
    assert_eq!(canonical(3, &long), Err(2));
    // 3 before 4, 5 and 6, however late the fault shows.
    assert_eq!(canonical(3, &[b'('; 129]), Err(3));
    assert_eq!(canonical(1, &[&empties(9_000)[..], b"?"].concat()), Err(3));
    assert_eq!(
        canonical(1, &[&verbatim(b'n', 20_000)[..], b"?"].concat()),
        Err(3)
    );
    assert_eq!(read_into(3, b"?", 0, 0), Err(3));
    // 4 before 5 and 6.
    assert_eq!(read_into(3, &nested(129), 0, 0), Err(4));
    let all = [&[b'('; 129][..], &b"0:".repeat(9_000), &[b')'; 129]].concat();
    assert_eq!(canonical(1, &all), Err(4));
    // 5 before 6.
    assert_eq!(canonical(1, &empties(8_200)), Err(5));
    assert_eq!(read_into(1, LIST, 0, 0), Err(5));
    assert_eq!(read_into(1, LIST, 13, 26), Err(5));
    assert_eq!(read_into(1, LIST, 13, 27), Err(6));
}

#[test]
fn reading_into_exact_room() {
    let whole = Ok((LIST.to_vec(), LIST_RECORDS.to_vec()));
    assert_eq!(read_into(1, LIST, 14, 27), whole);
    // The numbers past the last whole record are of no use.
    assert_eq!(read_into(1, LIST, 14, 35), whole);
    assert_eq!(read_into(1, LIST, 14, 26), Err(5));
    assert_eq!(read_into(1, LIST, 13, 35), Err(6));
    assert_eq!(
        read_into(3, b"a", 3, 9),
        Ok((b"1:a".to_vec(), vec![[0, 0, 3, 1, 0, 0, 2, 3, 0]]))
    );
    assert_eq!(read_into(3, b"a", 3, 8), Err(5));
    assert_eq!(read_into(3, b"a", 2, 9), Err(6));
    // The limits hold however much is lent, and nodes have none but the records.
    assert_eq!(read_into(1, &empties(8_192), 99_999, 8_192 * 9), Err(5));
    assert_eq!(read_into(1, &empties(8_192), 99_999, 8_193 * 9), Err(6));
    assert_eq!(read_into(1, &empties(8_191), 16_384, 8_192 * 9 - 1), Err(5));
    assert!(read_into(1, &empties(8_191), 16_384, 8_192 * 9).is_ok());
    assert_eq!(
        read_into(1, &verbatim(b'n', 16_379), 99_999, 99_999),
        Err(6)
    );
}

fn write(form: u32, octets: &[u8], length: usize, room: usize) -> Result<usize, u32> {
    let mut out = vec![OCTET; room];
    match entries::write(form, octets, length, &mut out) {
        Writing::Accepted { length } => Ok(length),
        Writing::Refused(refusal) => {
            assert_eq!(out, vec![OCTET; room]);
            Err(refusal)
        }
    }
}

#[test]
fn writing_goes_1_7_6() {
    assert_eq!(write(9, b"(", 1, 0), Err(1));
    assert_eq!(write(9, b"(", usize::MAX, 0), Err(1));
    assert_eq!(write(3, b"(", 1, 0), Err(7));
    assert_eq!(write(3, LIST, 15, 0), Err(7));
    assert_eq!(write(3, LIST, 14, 0), Err(6));
    assert_eq!(write(3, LIST, 14, 10), Err(6));
    assert_eq!(write(3, LIST, 14, 11), Ok(11));
}

#[test]
fn writing_takes_one_fitting_canonical_form() {
    for length in [0, 13, 15, 1 << 32, (1 << 32) + 14, usize::MAX] {
        assert_eq!(write(1, LIST, length, 100), Err(7), "{length}");
    }
    // What lies past the length doesn't matter.
    assert_eq!(write(1, b"1:a)))", 3, 100), Ok(3));
    assert_eq!(write(1, b"1:a)))", 4, 100), Err(7));
    for octets in [
        &b"a"[..],
        b"{KCk=}",
        b"( )",
        b"01:a",
        b"[1:x]()",
        b"",
        b"1:a1:b",
    ] {
        assert_eq!(write(1, octets, octets.len(), 100), Err(7));
    }
    assert_eq!(write(1, &nested(128), 256, 300), Ok(256));
    assert_eq!(write(1, &nested(129), 258, 300), Err(7));
    assert_eq!(write(1, &empties(8_191), 16_384, 17_000), Ok(16_384));
    assert_eq!(write(1, &empties(8_192), 16_386, 17_000), Err(7));
    assert_eq!(write(1, &verbatim(0, 16_378), 16_384, 16_384), Ok(16_384));
    assert_eq!(write(1, &verbatim(0, 16_379), 16_385, 20_000), Err(7));
}

#[test]
fn replacing_goes_1_2_3_7_8_4_5_6() {
    let long = vec![b'?'; 32_769];
    let foreign = || {
        let mut pair = Pair::roomy(LIST);
        pair.table[2] += 1;
        pair
    };
    let own = || Pair::roomy(LIST);
    let exact = || Pair::new(LIST, 14, 27);
    assert_eq!(foreign().refusal(9, &long, 3), 1);
    assert_eq!(foreign().refusal(3, &long, 3), 2);
    assert_eq!(foreign().refusal(3, b"?", 3), 3);
    assert_eq!(foreign().refusal(3, &nested(129), 3), 7);
    assert_eq!(own().refusal(3, b"?", 3), 3);
    assert_eq!(own().refusal(3, &nested(129), 3), 8);
    assert_eq!(exact().refusal(3, &nested(129), 3), 8);
    // 128 lists at node 1 are 129 with the one around.
    assert_eq!(exact().refusal(3, &nested(128), 1), 4);
    assert_eq!(exact().refusal(3, &nested(127), 1), 5);
    assert_eq!(exact().refusal(3, b"(a b c d e f)", 1), 5);
    assert_eq!(exact().refusal(3, b"abcdef", 1), 6);
    // A text over a limit alone says nothing while 7 and 8 apply.
    assert_eq!(foreign().refusal(1, &empties(10_000), 0), 7);
    assert_eq!(own().refusal(1, &verbatim(b'n', 20_000), 3), 8);
}

#[test]
fn comparing_refuses_with_7_only() {
    let refused = Comparing::Refused(7);
    let bad: [(&[u8], usize); 6] = [
        (LIST, 13),
        (LIST, 15),
        (LIST, usize::MAX),
        (b"a", 1),
        (b"", 0),
        (&nested(129), 258),
    ];
    for (octets, length) in bad {
        assert_eq!(entries::same(octets, length, LIST, 14, b""), refused);
        assert_eq!(entries::same(LIST, 14, octets, length, b""), refused);
        assert_eq!(entries::same(octets, length, octets, length, b""), refused);
    }
    assert_eq!(
        entries::same(LIST, 14, LIST, 14, b""),
        Comparing::Accepted { same: true }
    );
}
