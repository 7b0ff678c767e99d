//! The place, by hand and beside what the library makes of every short text.

use std::collections::BTreeSet;

use super::{of, shown, walk, words};
use etglavino::{Form, OwnedSheet, Refusal};

#[test]
fn wrong_or_cut_short() {
    assert_eq!(words(b"03:", 1), "from octet 1 on");
    assert_eq!(words(b"(3:ab", 5), "cut short after 5 octets");
    assert_eq!(words(b"(", 1), "cut short after 1 octet");
    assert_eq!(words(b"", 0), "cut short after 0 octets");
}

#[test]
fn a_caret_under_the_place() {
    assert_eq!(shown(b"3:abcX", 5), "  3:abcX\n       ^");
    assert_eq!(shown(b"03:", 1), "  03:\n   ^");
    assert_eq!(shown(b"(3:ab", 5), "  (3:ab\n       ^");
    assert_eq!(shown(b"", 0), "  \n  ^");
    assert_eq!(shown(b"2:\x00\xffx", 4), "  2:\\x00\\xffx\n            ^");
    assert_eq!(shown(b"2:a\n(x\ny", 5), "  (x\n   ^");
    assert_eq!(shown(b"(a\n(b\n", 6), "  (b\\x0a\n        ^");
    assert_eq!(shown(b"(a\n]", 3), "  ]\n  ^");
    // A line feed that is wrong, and then other octets that can't be printed.
    assert_eq!(shown(b"{KCk=}\n", 6), "  {KCk=}\\x0a\n        ^");
    assert_eq!(shown(b"3:abc\n(d)", 5), "  3:abc\\x0a\n       ^");
    assert_eq!(shown(b"\"\n\n\"", 1), "  \"\\x0a\n   ^");
    assert_eq!(shown(b"()\n\0a", 3), "  \\x00a\n  ^");
    let long = [b'a'; 200];
    let lines = shown(&long, 100);
    assert_eq!(
        lines.split('\n').map(str::len).collect::<Vec<_>>(),
        [72, 53]
    );
}

#[test]
fn places_by_hand() {
    for (place, text) in [
        (3, "(a ]b)"),
        (6, "(a (b)"),
        (3, "()\n)"),
        (1, "[(]a"),
        (4, "[x] (a)"),
        (2, r#""\q""#),
        (2, r#""\400""#),
        (4, r#"3"ab""#),
        (5, r#"3"abcd""#),
        (4, "#616#"),
        (3, "2#6"),
        (8, "2#6 1 6 #"),
        (5, "|YWJj=|"),
        (3, "|YR==|"),
        (3, "1|YWJ|"),
        (4, "1|YQJ|"),
        (1, r#"({3Rt=} "1997" murphy 3:{XC++})"#),
        (26, "(99999999999999999999:abc)"),
    ] {
        assert_eq!(refused_at(Form::Advanced, text), Some(place), "{text}");
    }
}

/// A text that tells a length near what can be counted, or beyond it, is cut short
/// where it ends.
#[test]
fn lengths_near_what_can_be_counted() {
    let longest = [usize::MAX, usize::MAX / 2, usize::MAX / 4 * 3];
    for length in longest.iter().flat_map(|most| *most - 9..=*most) {
        for digits in [length.to_string(), format!("{length}0")] {
            for rest in [":abc", "\"abc", "#616263", "|YWJj", "|YWJ"] {
                let text = format!("({digits}{rest}");
                assert_eq!(
                    refused_at(Form::Advanced, &text),
                    Some(text.len()),
                    "{text}"
                );
            }
            // What ends before that is wrong at its end.
            for rest in ["\"abc\"", "#616263#", "|YWJj|"] {
                let text = format!("{digits}{rest}");
                assert_eq!(
                    refused_at(Form::Advanced, &text),
                    Some(text.len() - 1),
                    "{text}"
                );
            }
        }
    }
}

#[test]
fn places_in_braces_by_hand() {
    // `(3:abc)` is KDM6YWJjKQ==, and `(3:ab)` KDM6YWIp.
    for (place, text) in [
        (1, "{"),
        (1, "{}"),
        (12, "{KDM6YWJjKQ="),
        (13, "{KDM6YWJjKQ=="),
        (14, "{KDM6YWJjKQ==}\n"),
        (9, "{KDM6YWIp}"),
        (9, "{KDM6YWJj}"),
        // Bits left over, letters behind the tree, and a first octet that begins none.
        (10, "{KDM6YWJjKR==}"),
        (11, "{KDM6YWJjKQA=}"),
        (1, "{zzzz}"),
        (2, "{Kzzz}"),
        (3, "{KD(}"),
    ] {
        assert_eq!(refused_at(Form::Basic, text), Some(place), "{text}");
        // A tree in braces is followed by whitespace in form 4.
        let within = format!("({text}");
        if place < text.len() && !text.ends_with('\n') {
            assert_eq!(
                refused_at(Form::Terminal1997, &within),
                Some(place + 1),
                "{within}"
            );
        }
    }
}

fn refused_at(form: Form, text: &str) -> Option<usize> {
    let refusal = OwnedSheet::of_text(form, text.as_bytes()).unwrap_err();
    of(refusal, form, text.as_bytes())
}

/// Whether some text begins so: the library takes it with one of these endings.
fn may_begin(form: Form, front: &[u8], endings: &[Vec<u8>]) -> bool {
    endings.iter().any(|ending| {
        let answer = OwnedSheet::of_text(form, &[front, ending].concat());
        !matches!(answer, Err(Refusal::Syntax { .. }))
    })
}

/// Goes through every text of these octets up to a length, as far as some text
/// begins so, and holds the place of each to that; how many there are. Texts with
/// digits that could be a length over 12 are left out, which no ending here ends.
fn hold(form: Form, octets: &[u8], most: usize, endings: &[Vec<u8>]) -> usize {
    let (mut fronts, mut count) = (vec![Vec::new()], 0);
    while let Some(front) = fronts.pop() {
        for octet in octets {
            let text = [&front[..], &[*octet]].concat();
            let mut runs = text.split(|octet| !octet.is_ascii_digit());
            if runs.any(|run| run.len() > 2 || run > b"12" && run.len() == 2) {
                continue;
            }
            let right = may_begin(form, &text, endings);
            let place = match form {
                Form::Basic => walk::basic(&text),
                _ => walk::advanced(&text, form == Form::Terminal1997),
            };
            let spelled = String::from_utf8_lossy(&text);
            assert_eq!(place, front.len() + usize::from(right), "{spelled}");
            count += 1;
            if right && text.len() < most {
                fronts.push(text);
            }
        }
    }
    count
}

/// Every way to take one of each, in this order.
fn joined(parts: &[&[String]]) -> Vec<Vec<u8>> {
    let join = |all: Vec<Vec<u8>>, part: &&[String]| {
        let each = |front: &Vec<u8>| {
            let ends = part.iter().map(|end| [front, end.as_bytes()].concat());
            ends.collect::<Vec<_>>()
        };
        all.iter().flat_map(each).collect()
    };
    parts.iter().fold(vec![Vec::new()], join)
}

fn strings(all: &[&str]) -> Vec<String> {
    all.iter().map(|one| (*one).into()).collect()
}

/// Nothing, one of it, and so on.
fn up_to(most: usize, of: &str) -> Vec<String> {
    (0..=most).map(|count| of.repeat(count)).collect()
}

#[test]
fn places_beside_the_library_in_lists_and_hints() {
    let (colon, hint) = (strings(&["", ":"]), strings(&["", "]a"]));
    let endings = joined(&[&colon, &up_to(12, "a"), &hint, &up_to(5, ")")]);
    let count = hold(Form::Advanced, b"()[]a1: {", 5, &endings);
    assert!(count > 4_000, "{count}");
}

#[test]
fn places_beside_the_library_in_quoted_strings() {
    let (mark, end) = (strings(&["", "\""]), strings(&["\"", ""]));
    let escape = strings(&["", "\n", "1", "11", "a", "aa"]);
    let endings = joined(&[&mark, &escape, &up_to(12, "a"), &end]);
    let count = hold(Form::Advanced, b"\"\\012x4a\r\n\x07", 5, &endings);
    assert!(count > 4_000, "{count}");
}

/// Texts of such octets between two marks, which up to `most` of a letter may
/// complete.
fn hold_between(mark: &str, letter: &str, most: usize, octets: &[u8]) {
    let (begin, end) = (strings(&["", mark]), strings(&[mark, ""]));
    let endings = joined(&[&begin, &up_to(most, letter), &end]);
    let count = hold(Form::Advanced, octets, 6, &endings);
    assert!(count > 4_000, "{count}");
}

#[test]
fn places_beside_the_library_in_hexadecimal() {
    hold_between("#", "a", 24, b"#012fG ");
}

#[test]
fn places_beside_the_library_in_bars() {
    hold_between("|", "A", 16, b"|12AQR= !");
}

const LETTERS: &[u8] = b"ABCDEFGHIJKLMNOPQRSTUVWXYZabcdefghijklmnopqrstuvwxyz0123456789+/";

/// Three octets or fewer in base-64, without padding.
fn encoded(octets: &[u8]) -> String {
    let bits = (0..3).fold(0, |bits, at| {
        bits << 8 | octets.get(at).map_or(0, |o| usize::from(*o))
    });
    let letter = |at: usize| char::from(LETTERS[bits >> (18 - 6 * at) & 63]);
    (0..=octets.len()).map(letter).collect()
}

/// Every text in braces of up to four letters, beside what the library says of
/// every three octets.
#[test]
fn places_beside_the_library_in_braces() {
    let (mut fronts, mut right) = (vec![Vec::new()], BTreeSet::from(["{".to_string()]));
    for length in 1..=3 {
        let longer = |front: &Vec<u8>| {
            (0..=255)
                .map(|octet| [&front[..], &[octet]].concat())
                .collect::<Vec<_>>()
        };
        let longer: Vec<_> = fronts.iter().flat_map(longer).collect();
        fronts.clear();
        for front in longer {
            let text = format!("{{{}", encoded(&front));
            let ends: &[&str] = match OwnedSheet::of_text(Form::Canonical, &front) {
                Err(Refusal::Syntax { place }) if place < length => continue,
                Err(Refusal::Syntax { .. }) if length < 3 => &[],
                Err(Refusal::Syntax { .. }) => &[""],
                Ok(_) if length < 3 => &["}", "=}"],
                _ => &["}"],
            };
            for end in ends {
                let whole = format!("{text}{end}");
                right.extend((1..=whole.len()).map(|cut| whole[..cut].to_string()));
            }
            fronts.push(front);
        }
    }
    assert!(right.contains("{MTph}") && right.contains("{KCk=}"));
    assert!(right.len() > 2_000, "{}", right.len());
    for front in right.iter().filter(|front| front.len() < 5) {
        for octet in LETTERS.iter().chain(b"=} (") {
            let text = format!("{front}{}", char::from(*octet));
            let fine = right.contains(&text) || *octet == b' ' && !front.ends_with('}');
            assert_eq!(
                walk::basic(text.as_bytes()),
                front.len() + usize::from(fine),
                "{text}"
            );
        }
    }
}

/// No place is before that which the library tells of a canonical text: every
/// beginning of one begins an advanced text too.
#[test]
fn no_place_is_before_the_canonical_one() {
    let text = b"(5:shift[1:h]3:a\x00b(2:to5:06:00)[0:]0:())";
    for at in 0..text.len() {
        for octet in 0..=255 {
            let mut damaged = text.to_vec();
            damaged[at] = octet;
            let canonical = OwnedSheet::of_text(Form::Canonical, &damaged);
            let told = canonical.err().map_or(text.len(), Refusal::place);
            assert!(walk::advanced(&damaged, false) >= told, "{at} {octet}");
        }
    }
}
