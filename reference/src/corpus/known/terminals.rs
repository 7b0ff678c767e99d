//! Texts of form 4, each answer worked out by hand from S 3.3 and from
//! Rivest's draft of 1997.

use super::{Known, BAD};
use crate::limits::BAD_FORM;

/// Braces wherever a value may stand, and nowhere else.
pub const TEXTS: &[Known] = &[
    // That of S 16.7, which the draft has too, and one of RFC 9804.
    (4, b"{MzphYmM=}", Ok(b"3:abc")),
    (4, b"{KDE6YTE6YjE\n6Yyk= }", Ok(b"(1:a1:b1:c)")),
    // It decodes with an octet 0 after the tree.
    (4, b"{KDE6YTE6YjE6YykA}", BAD),
    // `3Rt=` leaves low bits that are not zero (request 2), and its octets DD 1B
    // are no canonical tree. Besides, `3:` takes `{XC` as its octets, so that the
    // last brace closes nothing.
    (4, b"({3Rt=} \"1997\" murphy 3:{XC++})", BAD),
    (
        4,
        b"(\"1997\" murphy 3:{XC++)",
        Ok(b"(4:19976:murphy3:{XC2:++)"),
    ),
    // Neighbours need no space.
    (4, b"(a{MTpi}c)", Ok(b"(1:a1:b1:c)")),
    (4, b"({MTpi}{MTpi})", Ok(b"(1:b1:b)")),
    (4, b"({KCk=}3:abc{KCk=})", Ok(b"(()3:abc())")),
    (4, b" \t{ MT\x0bph }\n", Ok(b"1:a")),
    (4, b"({WzE6eF0wOg==} b)", Ok(b"([1:x]0:1:b)")),
    (4, b"((({KDE6YSk=})))", Ok(b"((((1:a))))")),
    // Padding and low bits as in form 2.
    (4, b"{MDo}", Ok(b"0:")),
    (4, b"{MDo==}", BAD),
    (4, b"{MDp=}", BAD),
    (4, b"{MjphYg}", Ok(b"2:ab")),
    (4, b"{MjphYg===}", BAD),
    (4, b"{MjphYh==}", BAD),
    // Not one canonical tree: none, two, half of one, advanced text, braces.
    (4, b"{}", BAD),
    (4, b"({})", BAD),
    (4, b"{ }", BAD),
    (4, b"({MTpiMTpi})", BAD),
    (4, b"({KA==}{KQ==})", BAD),
    (4, b"{YWJj}", BAD),
    (4, b"{MTpiCg==}", BAD),
    (4, b"{e01UcGl9}", BAD),
    // Two values.
    (4, b"{MTpi} {MTpi}", BAD),
    (4, b"a{MTpi}", BAD),
    (4, b"{MTpi}a", BAD),
    // No length before them, and neither in hints nor after them.
    (4, b"3{MTpi}", BAD),
    (4, b"3:{MTpi}", BAD),
    (4, b"[x]{MTpi}", BAD),
    (4, b"[{MTpi}]x", BAD),
    (4, b"[ {MTpi} ] x", BAD),
    // Not closed, not opened, and inside other strings.
    (4, b"{MTpi", BAD),
    (4, b"({MTpi)", BAD),
    (4, b"MTpi}", BAD),
    (4, b"\"{MTpi}\"", Ok(b"6:{MTpi}")),
    (4, b"6:{MTpi}", Ok(b"6:{MTpi}")),
    // Braces in form 3, and a form past the last.
    (3, b"(a{MTpi}c)", BAD),
    (5, b"{MzphYmM=}", Err(BAD_FORM)),
];
