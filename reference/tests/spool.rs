//! Spools: the examples of S 16.6 and what S 9.2 says of damage, worked out by hand.

use reference::spool::{added, entry, open, Opening};

fn opened(area: &[u8], number: usize) -> (u32, usize, (usize, usize)) {
    let Opening {
        answer,
        count,
        part,
    } = open(area, number);
    (answer, count, part)
}

fn string(length: usize) -> Vec<u8> {
    // 2 to 5 digits and a colon, and then octets up to that length.
    let sheet = (1..7).find_map(|taken| {
        let text = format!("{}:", length.checked_sub(taken)?);
        (text.len() == taken).then(|| [text.into_bytes(), vec![b'v'; length - taken]].concat())
    });
    sheet.expect("a string of that many octets in all")
}

#[test]
fn lengths() {
    for (length, groups) in [
        (2, &[0x02][..]),
        (127, &[0x7f]),
        (128, &[0x80, 0x01]),
        (16_383, &[0xff, 0x7f]),
        (16_384, &[0x80, 0x80, 0x01]),
    ] {
        let sheet = string(length);
        assert_eq!(entry(&sheet), [groups, &sheet].concat());
        assert_eq!(
            opened(&entry(&sheet), 0),
            (0, 1, (groups.len(), groups.len() + length))
        );
    }
}

#[test]
fn ends() {
    assert_eq!(opened(b"", 0), (0, 0, (0, 0)));
    assert_eq!(opened(b"\0\xc8\x07", 0), (0, 0, (0, 0)));
    assert_eq!(opened(b"\x02()\x020:\0\x09", 1), (0, 2, (4, 6)));
    assert_eq!(opened(b"\x02()\x020:", 0), (0, 2, (1, 3)));
    assert_eq!(opened(b"\x02()", 1), (0, 1, (0, 0)));
    assert_eq!(opened(b"\x02()\0\x82", 0), (0, 1, (1, 3)));
}

#[test]
fn damage() {
    for area in [
        &b"\x82\0()"[..],
        b"\x80\0",
        b"\x82\x80\0()",
        b"\x82",
        b"\x02(",
        b"\x02((\0",
        b"\x02()\x010\0",
        b"\x82\x80\x80\x80\x80\x80\x80\x80\x80\x80\x80\x01()",
    ] {
        assert_eq!(opened(area, 0), (10, 0, (0, 0)), "{area:x?}");
        assert_eq!(added(area, b"(", 9), Err(10), "{area:x?}");
    }
}

#[test]
fn additions() {
    assert_eq!(
        added(b"\0\x09\x09\x09\x09", b"()", 2),
        Ok(b"\x02()\0\x09".to_vec())
    );
    assert_eq!(
        added(b"\x02()\0\x09\x09", b"0:x", 2),
        Ok(b"\x02()\x020:".to_vec())
    );
    assert_eq!(added(b"\x02()\0\x09", b"0:", 2), Err(6));
    assert_eq!(added(b"\x02()\0\x09", b"0:", 3), Err(7));
    assert_eq!(added(b"", b"0", 1), Err(7));
    assert_eq!(added(b"", b"0:", 2), Err(6));
}
