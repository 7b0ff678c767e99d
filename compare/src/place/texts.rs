//! Texts whose places are asked for.

/// Examples, S 16.5 and others by hand: how many octets of each begin some canonical
/// form (S 7.3).
pub const EXAMPLES: [(&[u8], usize); 14] = [
    (b"", 0),
    (b"3:abcX", 5),
    (b"03:", 1),
    (b"(3:ab", 5),
    (b"99999999999999999999:a", 22),
    (b"[1:xx", 4),
    (b"[1:x](", 5),
    (b"()()", 2),
    (b")", 0),
    (b"00:", 1),
    (b"12x", 2),
    (b"3:abc\n", 5),
    (b"(1:a x)", 4),
    (b"10..0", 2),
];

/// Texts cut short, each its own place: lengths that are 1 in fewer bits, and texts as
/// long as what the library's work space is cut by, and one longer.
pub fn cut_short() -> Vec<Vec<u8>> {
    let mut texts = Vec::new();
    for wrapping in ["65537:a", "4294967297:a", "18446744073709551617:a"] {
        for lead in ["", "(", "[", "[1:x]"] {
            texts.push([lead, wrapping].concat().into_bytes());
        }
    }
    for zeros in 1..=30 {
        texts.push(["1", &"0".repeat(zeros), ":a"].concat().into_bytes());
        texts.push(["[1", &"0".repeat(zeros)].concat().into_bytes());
    }
    for length in [128, 129, 1_000, 1_024, 1_025, 32_767, 32_768] {
        texts.push(vec![b'('; length]);
        texts.push(vec![b'7'; length]);
    }
    texts
}

/// Texts whose last octet is wrong, each as long as those.
pub fn wrong_at_the_end() -> Vec<Vec<u8>> {
    let mut texts = Vec::new();
    for length in [128, 129, 1_024, 1_025, 32_768] {
        for octet in [b'(', b'7'] {
            let mut text = vec![octet; length];
            text[length - 1] = b'x';
            texts.push(text);
        }
    }
    texts
}

/// Lengths of many digits, with what may and may not follow them.
pub fn lengths() -> Vec<Vec<u8>> {
    let mut texts = Vec::new();
    for digits in 1..=30 {
        for tail in [&b":"[..], b":a", b"x", b"", b"]1:a", b")"] {
            for lead in [&b""[..], b"(", b"[", b"[1:x]", b"(1:a"] {
                texts.push([lead, &vec![b'9'; digits], tail].concat());
                texts.push([lead, &vec![b'0'; digits], tail].concat());
            }
        }
    }
    texts
}

/// Canonical forms, with every prefix of each, every change of one octet of it, and
/// what may not follow it.
pub fn around() -> Vec<Vec<u8>> {
    let mut texts = Vec::new();
    for form in canonical_forms() {
        texts.extend((0..=form.len()).map(|end| form[..end].to_vec()));
        for at in 0..form.len() {
            for octet in 0..=255 {
                let mut text = form.clone();
                text[at] = octet;
                texts.push(text);
            }
        }
        for more in [&b"X"[..], b"(", b")", b"0:", b"\n"] {
            texts.push([&form, more].concat());
        }
    }
    texts
}

fn canonical_forms() -> Vec<Vec<u8>> {
    let mut forms: Vec<Vec<u8>> = [
        &b"()"[..],
        b"0:",
        b"3:abc",
        b"10:0123456789",
        b"(3:abc[1:x]0:)",
        b"[0:]0:",
        b"[2:ab]3:cde",
        b"(()(()))",
        b"(1:((1:))1:])",
        b"(4:1:a)([1:]]1:[))",
        b"((1:a)(1:b)[3:f32]4:\0\0\0\0)",
    ]
    .iter()
    .map(|form| form.to_vec())
    .collect();
    forms.push([&b"100:"[..], &[b'7'; 100]].concat());
    forms
}

/// Good texts, of which the sheets lent let none in: too deep, of too many nodes, too
/// large; and a small one.
pub fn good() -> Vec<Vec<u8>> {
    vec![
        [[b'('; 129], [b')'; 129]].concat(),
        [&b"("[..], &b"0:".repeat(100), b")"].concat(),
        [&b"300:"[..], &[b'7'; 300]].concat(),
        b"1:b".to_vec(),
    ]
}
