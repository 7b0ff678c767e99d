//! Runs of sheets. What is expected is worked out by hand.

use reference::run::{sheets, split};

#[test]
fn where_the_first_ends() {
    for (run, first) in [
        (&b""[..], 0),
        (b"0:", 2),
        (b"0:0:", 2),
        (b"2:ab(", 4),
        (b"(1:a)()0:", 5),
        (b"(()(1:b))x", 9),
        (b"[1:h]0:x", 7),
        (b"10:abcdefghij3:", 13),
        (b"(()", 0),
        (b")0:", 0),
        (b"3:ab", 0),
        (b"01:a", 0),
        (b"1a", 0),
        (b"[1:h](1:a)", 0),
        (b" 0:", 0),
        (b"18446744073709551618:ab", 0),
        (b"99999999999999999999999999999999:a", 0),
    ] {
        assert_eq!(split(run), first, "{}", run.escape_ascii());
    }
}

#[test]
fn of_any_size() {
    let mut deep = vec![b'('; 400];
    deep.extend(vec![b')'; 400]);
    deep.extend(b"0:");
    assert_eq!(split(&deep), 800);
}

#[test]
fn one_after_another() {
    let (found, rest) = sheets(b"0:(1:a)[1:h]1:b2:x");
    assert_eq!(found, [&b"0:"[..], b"(1:a)", b"[1:h]1:b"]);
    assert_eq!(rest, b"2:x");
    assert_eq!(sheets(b"").0, Vec::<&[u8]>::new());
}
