//! Where a text goes wrong: the largest number of its octets that begin some
//! canonical form, of any size. It is found by trying: of each prefix it is asked
//! whether a reader that runs out of octets has met anything wrong so far.

/// What a reader found.
enum Look {
    /// What it looked for, and how many octets are left.
    Found(usize),
    /// It ran out of octets, and nothing was wrong.
    Short,
    /// An octet that cannot stand there.
    Wrong,
}

/// The place that is told with refusal 3: in form 1, and in form 2 where the text
/// does not begin with a brace; else 0.
pub fn place(form: u32, text: &[u8]) -> usize {
    if form == 1 || (form == 2 && text.first() != Some(&b'{')) {
        (0..=text.len())
            .rev()
            .find(|&taken| begins(&text[..taken]))
            .unwrap_or(0)
    } else {
        0
    }
}

/// Whether octets begin some canonical form.
pub fn begins(octets: &[u8]) -> bool {
    // The lists that are open are only counted: a source may nest thousands.
    let (mut rest, mut open) = (octets, 0_usize);
    loop {
        match rest.first() {
            None => return true,
            Some(b'(') => {
                rest = &rest[1..];
                open += 1;
                continue;
            }
            Some(b')') => {
                if open == 0 {
                    return false;
                }
                rest = &rest[1..];
                open -= 1;
            }
            Some(_) => match string(rest) {
                Look::Found(left) => rest = &rest[rest.len() - left..],
                Look::Short => return true,
                Look::Wrong => return false,
            },
        }
        if open == 0 {
            // A whole tree: nothing may follow.
            return rest.is_empty();
        }
    }
}

fn string(octets: &[u8]) -> Look {
    match octets.split_first() {
        Some((b'[', hint)) => match verbatim(hint) {
            Look::Found(left) => match hint[hint.len() - left..].split_first() {
                None => Look::Short,
                Some((b']', data)) => verbatim(data),
                Some(_) => Look::Wrong,
            },
            other => other,
        },
        _ => verbatim(octets),
    }
}

fn verbatim(octets: &[u8]) -> Look {
    let digits = octets
        .iter()
        .take_while(|octet| octet.is_ascii_digit())
        .count();
    match (digits, octets.first()) {
        (_, None) => return Look::Short,
        (0, _) => return Look::Wrong,
        (2.., Some(b'0')) => return Look::Wrong,
        _ => {}
    }
    match octets.get(digits) {
        None => Look::Short,
        Some(b':') => {
            let left = octets.len() - digits - 1;
            // What is no number of this type is more than any text has.
            let spelled = std::str::from_utf8(&octets[..digits]).expect("digits");
            match spelled.parse::<usize>() {
                Ok(size) if size <= left => Look::Found(left - size),
                _ => Look::Short,
            }
        }
        Some(_) => Look::Wrong,
    }
}

#[cfg(test)]
mod tests {
    use super::place;

    #[test]
    fn examples_of_the_request() {
        let examples: [(&[u8], usize); 13] = [
            (b"", 0),
            (b"3:abcX", 5),
            (b"03:", 1),
            (b"(3:ab", 5),
            (b"99999999999999999999:a", 22),
            (b"[1:xx", 4),
            (b"[1:x](", 5),
            (b"()()", 2),
            (b")", 0),
            (b"00:", 1),
            (b"12x", 2),
            (b"3:abc\n", 5),
            (b"(1:a x)", 4),
        ];
        for (text, wanted) in examples {
            let shown = String::from_utf8_lossy(text);
            assert_eq!(place(1, text), wanted, "{shown}");
            assert_eq!(place(2, text), wanted, "{shown}");
            assert_eq!(place(3, text), 0, "{shown}");
        }
        assert_eq!(place(2, b"{KCk="), 0);
        assert_eq!(place(1, b"{KCk="), 0);
        assert_eq!(place(1, &[b'('; 1000]), 1000);
    }
}
