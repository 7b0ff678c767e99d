//! Runs of sheets. What is expected is worked out by hand.

use etglavino::{run, split};

#[test]
fn where_the_first_ends() {
    for (octets, first) in [
        (&b""[..], None),
        (b"0:", Some(2)),
        (b"0:0:", Some(2)),
        (b"2:ab(", Some(4)),
        (b"(1:a)()0:", Some(5)),
        (b"(()(1:b))x", Some(9)),
        (b"[1:h]0:x", Some(7)),
        (b"10:abcdefghij3:", Some(13)),
        (b"(()", None),
        (b")0:", None),
        (b"3:ab", None),
        (b"01:a", None),
        (b"1a", None),
        (b"[1:h](1:a)", None),
        (b" 0:", None),
        (b"9223372036854775810:ab", None),
        (b"18446744073709551618:ab", None),
        (b"99999999999999999999999999999999:a", None),
    ] {
        assert_eq!(split(octets), first, "{}", octets.escape_ascii());
    }
}

/// Past every limit: deeper, more nodes, more octets.
#[test]
fn of_any_size() {
    let deep = [vec![b'('; 100_000], vec![b')'; 100_000]].concat();
    let many = [&b"("[..], &b"0:".repeat(70_000), b")"].concat();
    let mut long = b"1000000:".to_vec();
    long.extend(vec![b'('; 1_000_000]);
    let whole = [&deep[..], &many, &long].concat();
    let sheets: Vec<&[u8]> = run(&whole).collect();
    assert_eq!(sheets, [&deep[..], &many, &long]);
    assert_eq!(split(&long[..long.len() - 1]), None);
}

#[test]
fn one_after_another() {
    let mut sheets = run(b"0:(1:a)[1:h]1:b2:x");
    let found: Vec<&[u8]> = sheets.by_ref().collect();
    assert_eq!(found, [&b"0:"[..], b"(1:a)", b"[1:h]1:b"]);
    assert_eq!(sheets.rest(), b"2:x");
    assert_eq!(sheets.next(), None);
    assert_eq!(run(b"").next(), None);
}
