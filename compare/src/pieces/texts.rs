//! Texts that are cut.

/// Texts of up to nine octets, each cut in every way.
pub const SHORT: &[&[u8]] = &[
    b"(0:)",
    b"(1:a)",
    b"(1:a1:b)",
    b"[1:h]0:",
    b"[1:h]1:d",
    b"[0:]2:ab",
    b"((()))",
    b"(()())()",
    b"(()(()))",
    b"6:abcdef",
    b"(4:1:a))",
    b"[1:]]1:[",
    b"([0:]0:)",
    b"([1:h]0:)",
    b"3:abcX",
    b"3:abc\n",
    b"03:abc",
    b"(3:ab",
    b"(1:a x)",
    b"[1:xx",
    b"[1:x](0:)",
    b"[1:x][1:y",
    b"10:abcdef",
    b"12345678:",
    b"999999999",
    b"{KCk=}",
    b"10..0",
    b"\0\xff()0:",
];

/// What makes up every text of up to four octets.
pub const ALPHABET: &[u8] = b"()[]:012a";

/// Texts of which every single and double cut is tried.
pub fn fixed() -> Vec<Vec<u8>> {
    let texts: [&[u8]; 24] = [
        b"",
        b"0:",
        b"()",
        b"10:0123456789",
        b"10:012345678",
        b"10:0123456789a",
        b"(3:abc[1:x]0:)",
        b"(3:abc[1:x]0:",
        b"(3:abc[1:x]0:))",
        b"(3:abc[01:x]0:)",
        b"(3:abc[1:x](0:))",
        b"[12:aaaaaaaaaaaa]11:bbbbbbbbbbb",
        b"[2:ab]3:cde",
        b"[2:ab]03:cde",
        b"(()(()))",
        b"(1:((1:))1:])",
        b"(4:1:a)([1:]]1:[))",
        b"((1:a)(1:b)[3:f32]4:\0\0\0\0)",
        b"(5:shift3:ann(4:from5:22:00)(2:to5:06:00)(7:private4:sick))",
        b"4294967297:a",
        b"18446744073709551617:a",
        b"(18446744073709551616:)",
        b"100000000000000000000000000000000000001:a",
        b"(abc [x] \"\")",
    ];
    let mut texts: Vec<Vec<u8>> = texts.iter().map(|text| text.to_vec()).collect();
    texts.push([&b"100:"[..], &[b'7'; 100]].concat());
    texts.push([&b"(100:"[..], &[b')'; 100]].concat());
    texts
}

/// A string whose canonical form has that many octets, from 12 on.
pub fn string(octets: usize) -> Vec<u8> {
    let digits = |data: usize| data.to_string().len();
    let data = (0..octets)
        .rev()
        .find(|data| digits(*data) + 1 + data == octets);
    let data = data.expect("no count of octets is skipped here");
    [format!("{data}:").into_bytes(), vec![b'v'; data]].concat()
}

/// Texts around the most of a canonical form and of a source: strings that end
/// there, one octet more and one less; open lists and lengths that never end; and
/// what goes wrong before, at and behind each edge.
pub fn around_the_limits() -> Vec<Vec<u8>> {
    let mut texts = Vec::new();
    for edge in [16_384, 32_768] {
        for octets in [edge - 1, edge, edge + 1, edge + 2] {
            texts.push(string(octets));
            texts.push(vec![b'('; octets]);
            texts.push(vec![b'7'; octets]);
            let mut open = string(octets - 1);
            open.insert(0, b'(');
            texts.push(open);
            let mut behind = string(octets - 1);
            behind.push(b'x');
            texts.push(behind);
        }
    }
    for count in [8_190, 8_191, 8_192, 16_382, 16_383, 16_384] {
        texts.push([&b"("[..], &b"0:".repeat(count), b")"].concat());
        texts.push([vec![b'('; count], vec![b')'; count]].concat());
    }
    for depth in [127, 128, 129] {
        let inner = string(16_384);
        texts.push([vec![b'('; depth], vec![b')'; depth]].concat());
        texts.push([vec![b'('; depth], inner, vec![b')'; depth]].concat());
    }
    // Lengths that stand across the sheet's end, and across what follows it.
    for before in [16_381, 16_382, 16_383, 16_384] {
        let head = [&b"("[..], &string(before - 1)].concat();
        texts.push([&head[..], b"12:abcdefghijkl)"].concat());
        texts.push([&head[..], b"[12:abcdefghijkl]3:abc)"].concat());
        texts.push([&head[..], b"012:abcdefghijkl)"].concat());
        texts.push([&head[..], b"99999999999999999999:abc)"].concat());
        texts.push([&head[..], b"[1:h]())"].concat());
    }
    texts.push(vec![b'x'; 40_000]);
    texts.push(string(70_000));
    texts
}
