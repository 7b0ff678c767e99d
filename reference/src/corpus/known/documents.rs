//! The S-expressions that stand in RFC 9804, in Rivest's draft of 1997 and in
//! Petit-Huguenin's formal model of 2024, in the form each is meant to be in.

use super::{Known, BAD};

/// The texts, in the order of the RFC, then what only the other two have.
pub const TEXTS: &[Known] = &[
    // 1, 2
    (
        3,
        b"(snicker \"abc\" (#03# |YWJj|))",
        Ok(b"(7:snicker3:abc(1:\x033:abc))"),
    ),
    (3, b"\"snicker\"", Ok(b"7:snicker")),
    (3, b"#03#", Ok(b"1:\x03")),
    (3, b"abc", Ok(b"3:abc")),
    (3, b"\"abc\"", Ok(b"3:abc")),
    (3, b"#616263#", Ok(b"3:abc")),
    (3, b"3:abc", Ok(b"3:abc")),
    (3, b"|YWJj|", Ok(b"3:abc")),
    (
        3,
        b"(abc (de #6667#) \"ghi jkl\")",
        Ok(b"(3:abc(2:de2:fg)7:ghi jkl)"),
    ),
    // 4.1 Verbatim
    (1, b"3:abc", Ok(b"3:abc")),
    (1, b"7:subject", Ok(b"7:subject")),
    (1, b"4:::\":", Ok(b"4:::\":")),
    (1, b"12:hello world!", Ok(b"12:hello world!")),
    (1, b"10:abcdefghij", Ok(b"10:abcdefghij")),
    (1, b"0:", Ok(b"0:")),
    // 4.2 Quoted
    (3, b"\"subject\"", Ok(b"7:subject")),
    (3, b"\"hi there\"", Ok(b"8:hi there")),
    (3, b"7\"subject\"", Ok(b"7:subject")),
    (
        3,
        b"\"\\xFE is the same octet as \\376\"",
        Ok(b"24:\xfe is the same octet as \xfe"),
    ),
    (3, b"3\"\\n\\n\\n\"", Ok(b"3:\n\n\n")),
    (
        3,
        b"\"This has\\n two lines.\"",
        Ok(b"20:This has\n two lines."),
    ),
    (
        3,
        b"\"This has \\\none line.\"",
        Ok(b"18:This has one line."),
    ),
    (3, b"\"\"", Ok(b"0:")),
    // 4.3 Tokens
    (3, b"subject", Ok(b"7:subject")),
    (3, b"not-before", Ok(b"10:not-before")),
    (3, b":=..", Ok(b"4::=..")),
    (3, b"class-of-1997", Ok(b"13:class-of-1997")),
    (
        3,
        b"//example.net/names/smith",
        Ok(b"25://example.net/names/smith"),
    ),
    (3, b"*", Ok(b"1:*")),
    // 4.4 Hexadecimal
    (3, b"3#616263#", Ok(b"3:abc")),
    (3, b"# 616\n263 #", Ok(b"3:abc")),
    (3, b"##", Ok(b"0:")),
    // 4.5 Base-64
    (3, b"| Y W\nJ j |", Ok(b"3:abc")),
    (3, b"3|YWJj|", Ok(b"3:abc")),
    (3, b"|YWJjZA==|", Ok(b"4:abcd")),
    (3, b"|YWJjZA|", Ok(b"4:abcd")),
    (3, b"||", Ok(b"0:")),
    // 4.6 Hints; one without a string is no S-expression.
    (
        3,
        b"[\"text/plain; charset=utf-8\"]\"b\\xC3\\xB7b\\xE2\\x98\\xBA\"",
        Ok(b"[25:text/plain; charset=utf-8]7:b\xc3\xb7b\xe2\x98\xba"),
    ),
    (3, b"[image/gif]", BAD),
    (3, b"[charset=unicode-1-1]", BAD),
    (3, b"[ text/richtext ]", BAD),
    (3, b"[\"text/plain; charset=iso-8859-1\"]", BAD),
    (3, b"[application/postscript]", BAD),
    (3, b"[audio/basic]", BAD),
    (3, b"[\"http://example.com/display-types/funky.html\"]", BAD),
    (3, b"[application/octet-stream]", BAD),
    (3, b"[image/gif]||", Ok(b"[9:image/gif]0:")),
    (
        3,
        b"[charset=unicode-1-1]a",
        Ok(b"[19:charset=unicode-1-1]1:a"),
    ),
    (3, b"[ text/richtext ] a", Ok(b"[13:text/richtext]1:a")),
    (
        3,
        b"[\"text/plain; charset=iso-8859-1\"]a",
        Ok(b"[30:text/plain; charset=iso-8859-1]1:a"),
    ),
    (
        3,
        b"[application/octet-stream]##",
        Ok(b"[24:application/octet-stream]0:"),
    ),
    (3, b"\"ABC\"", Ok(b"3:ABC")),
    // 5 Lists
    (3, b"(a bob c)", Ok(b"(1:a3:bob1:c)")),
    (
        3,
        b"( a ( bob c ) ( ( d e ) ( e f ) ) )",
        Ok(b"(1:a(3:bob1:c)((1:d1:e)(1:e1:f)))"),
    ),
    (
        3,
        b"(11:certificate(6:issuer3:bob)(7:subject5:alice))",
        Ok(b"(11:certificate(6:issuer3:bob)(7:subject5:alice))"),
    ),
    (
        3,
        b"(|ODpFeGFtcGxlIQ==| \"1997\" murphy 3:XC+)",
        Ok(b"(10:8:Example!4:19976:murphy3:XC+)"),
    ),
    (3, b"()", Ok(b"()")),
    // 6.2 Canonical
    (1, b"(6:issuer3:bob)", Ok(b"(6:issuer3:bob)")),
    (
        1,
        b"(4:icon[12:image/bitmap]9:xxxxxxxxx)",
        Ok(b"(4:icon[12:image/bitmap]9:xxxxxxxxx)"),
    ),
    (
        1,
        b"(7:subject(3:ref5:alice6:mother))",
        Ok(b"(7:subject(3:ref5:alice6:mother))"),
    ),
    (1, b"10:foo)]}>bar", Ok(b"10:foo)]}>bar")),
    // 6.3 Basic
    (2, b"(1:a1:b1:c)", Ok(b"(1:a1:b1:c)")),
    (2, b"{KDE6YTE6YjE\n6Yyk= }", Ok(b"(1:a1:b1:c)")),
    // 9 In memory
    (3, b"(\"abc\" \"de\")", Ok(b"(3:abc2:de)")),
    (3, b"[gif] #61626364#", Ok(b"[3:gif]4:abcd")),
    (3, b"(abc [d]ef (g))", Ok(b"(3:abc[1:d]2:ef(1:g))")),
    // Only in the other two. Braces are of the basic form alone.
    (3, b"{MzphYmM=}", BAD),
    (2, b"{MzphYmM=}", Ok(b"3:abc")),
    (1, b"4:::::", Ok(b"4:::::")),
    // The page's tab after the continued line makes this one bad; the model has it
    // without, and a page that indents by spaces is taken with them.
    (3, b"\"This has\\\n\tone.\"", BAD),
    (3, b"\"This has\\\none.\"", Ok(b"12:This hasone.")),
    (3, b"\"This has\\\n  one.\"", Ok(b"14:This has  one.")),
    (
        3,
        b"//microsoft.com/names/smith",
        Ok(b"27://microsoft.com/names/smith"),
    ),
    (3, b"# 616\n\t  263 #", Ok(b"3:abc")),
    (3, b"# 616\n  263 #", Ok(b"3:abc")),
    (3, b"| Y W\n\t  J j |", Ok(b"3:abc")),
    (3, b"| Y W J j |", Ok(b"3:abc")),
    (3, b"[URI]", BAD),
    (3, b"[text/richtext]", BAD),
    (3, b"[\"http://abc.com/display-types/funky.html\"]", BAD),
    (
        3,
        b"[\"http://abc.com/display-types/funky.html\"]*",
        Ok(b"[39:http://abc.com/display-types/funky.html]1:*"),
    ),
    (
        3,
        b"\"text/plain; charset=iso-8859-1\"",
        Ok(b"30:text/plain; charset=iso-8859-1"),
    ),
    (
        3,
        b"application/octet-stream",
        Ok(b"24:application/octet-stream"),
    ),
    (3, b"(a b c)", Ok(b"(1:a1:b1:c)")),
    (
        3,
        b"( a ( b c ) ( ( d e ) ( e f ) )  )",
        Ok(b"(1:a(1:b1:c)((1:d1:e)(1:e1:f)))"),
    ),
    (3, b"({3Rt=} \"1997\" murphy 3:{XC++})", BAD),
    // It decodes with an octet 0 after the tree.
    (2, b"{KDE6YTE6YjE6YykA}", BAD),
    // The array layouts are no S-expressions in any form.
    (3, b"\x01\x00\x03abc", BAD),
    (1, b"\x03\x00\x05\x01\x00\x01g\x00", BAD),
];
