//! The plain reader and the library give the same answers, octets and records,
//! and leave the same behind in all that is lent: on the texts that are timed,
//! and on the examples of docs/SPECIFICATION.md (S 16), whose answers stand here
//! as it gives them or as they follow from it by hand.

use bench::plain::Reader;
use bench::texts::texts;
use etglavino::{Extent, Refusal, MAX_CANONICAL, MAX_NODES, RECORD};
use reference::entries::{self, Reading};

type Answer = Result<Extent, Refusal>;

/// What is lent, whole.
#[derive(Clone, Debug, PartialEq)]
struct Lent {
    canonical: Vec<u8>,
    table: Vec<u32>,
}

impl Lent {
    /// Room for any tree that fits and somewhat more, with something in it.
    fn new() -> Lent {
        Lent {
            canonical: vec![0xa5; MAX_CANONICAL + 9],
            table: vec![0xdead_beef; (MAX_NODES + 2) * RECORD + 3],
        }
    }

    /// The same with a sheet and its table at the front.
    fn with(octets: &[u8], records: &[[u32; RECORD]]) -> Lent {
        let mut lent = Lent::new();
        lent.canonical[..octets.len()].copy_from_slice(octets);
        lent.table[..records.len() * RECORD].copy_from_slice(records.as_flattened());
        lent
    }
}

/// Reads a text with both; each has to give this answer and leave this behind.
fn both(reader: &mut Reader, form: u32, source: &[u8], answer: Answer, left: &Lent) {
    let start = String::from_utf8_lossy(&source[..source.len().min(40)]);
    let (mut one, mut two) = (Lent::new(), Lent::new());
    let plain = reader.read(form, source, &mut one.canonical, &mut one.table);
    let proved = etglavino::read_form(form, source, &mut two.canonical, &mut two.table);
    // It tells no place.
    let numbered = answer.map_err(Refusal::number);
    assert_eq!(
        plain.map_err(Refusal::number),
        numbered,
        "plain, form {form}: {start}"
    );
    assert_eq!(proved, answer, "library, form {form}: {start}");
    assert!(one == *left, "plain, form {form}: {start}");
    assert!(two == *left, "library, form {form}: {start}");
}

fn accepted(form: u32, source: &[u8], octets: &[u8], records: &[[u32; RECORD]]) {
    let extent = Extent {
        length: octets.len(),
        nodes: records.len(),
    };
    let left = Lent::with(octets, records);
    both(&mut Reader::new(), form, source, Ok(extent), &left);
}

fn refused(form: u32, source: &[u8], refusal: Refusal) {
    both(&mut Reader::new(), form, source, Err(refusal), &Lent::new());
}

/// The texts that are timed, beside the reference program; one reader reads
/// them all, as it does when it is timed.
#[test]
fn texts_that_are_timed() {
    let mut reader = Reader::new();
    for text in texts() {
        let mut left = Lent::new();
        let Reading::Accepted { length, nodes } = entries::read(
            text.form,
            &text.source,
            &mut left.canonical,
            &mut left.table,
        ) else {
            panic!("the reference program refuses {}", text.name);
        };
        assert!(length <= text.octets && nodes <= text.records);
        let answer = Ok(Extent { length, nodes });
        both(&mut reader, text.form, &text.source, answer, &left);
    }
}

const LIST: &[u8] = b"(3:abc[1:x]0:)";
const LIST_TABLE: [[u32; RECORD]; 3] = [
    [2, 0, 14, 3, 0, 0, 1, 13, 0],
    [0, 1, 6, 1, 0, 0, 3, 6, 0],
    [1, 6, 13, 1, 9, 10, 13, 13, 0],
];

#[test]
fn starred_and_accepted() {
    for form in [1, 2, 3, 4] {
        accepted(form, b"()", b"()", &[[2, 0, 2, 1, 0, 0, 1, 1, 0]]);
        accepted(form, b"0:", b"0:", &[[0, 0, 2, 1, 0, 0, 2, 2, 0]]);
        accepted(form, LIST, LIST, &LIST_TABLE);
    }
    accepted(3, b" ( abc [ x ] \"\" ) ", LIST, &LIST_TABLE);
    accepted(2, b"{KDM6YWJjWzE6eF0wOik=}", LIST, &LIST_TABLE);
    accepted(4, b"(abc {WzE6eF0wOg==})", LIST, &LIST_TABLE);
    accepted(4, b"{KDM6YWJjWzE6eF0wOik=}", LIST, &LIST_TABLE);
    // (3:abc[1:x]0:) in two lists, after a string
    let records = [
        [2, 0, 20, 6, 0, 0, 1, 19, 0],
        [0, 1, 3, 1, 0, 0, 3, 3, 0],
        [2, 3, 19, 4, 0, 0, 4, 18, 0],
        [2, 4, 18, 3, 0, 0, 5, 17, 2],
        [0, 5, 10, 1, 0, 0, 7, 10, 3],
        [1, 10, 17, 1, 13, 14, 17, 17, 3],
    ];
    let braced = b"(\"\"({KDM6YWJjWzE6eF0wOik=}))";
    accepted(4, braced, b"(0:((3:abc[1:x]0:)))", &records);
    accepted(3, b"\"hi\"", b"2:hi", &[[0, 0, 4, 1, 0, 0, 2, 4, 0]]);
    let corrected = b"(2:hi[1:x]0:)";
    let records = [
        [2, 0, 13, 3, 0, 0, 1, 12, 0],
        [0, 1, 5, 1, 0, 0, 3, 5, 0],
        [1, 5, 12, 1, 8, 9, 12, 12, 0],
    ];
    accepted(3, b"(\"hi\" [x]\"\")", corrected, &records);
    accepted(3, b"a3:xyz", b"6:a3:xyz", &[[0, 0, 8, 1, 0, 0, 2, 8, 0]]);
    accepted(3, b"|YWJjZA|", b"4:abcd", &[[0, 0, 6, 1, 0, 0, 2, 6, 0]]);
}

#[test]
fn starred_and_refused() {
    let texts: [&[u8]; 6] = [
        b"03:abc",
        b"3\"ab\"",
        b"#616#",
        b"(1997)",
        b"[1:x](1:a)",
        b"",
    ];
    for text in texts {
        refused(3, text, Refusal::Syntax { place: 0 });
    }
}

#[test]
fn not_starred() {
    refused(1, b"3:abc\n", Refusal::Syntax { place: 5 });
    accepted(3, b"3:abc\n", b"3:abc", &[[0, 0, 5, 1, 0, 0, 2, 5, 0]]);
    accepted(3, b"\"\\377\"", b"1:\xff", &[[0, 0, 3, 1, 0, 0, 2, 3, 0]]);
    refused(3, b"\"\\400\"", Refusal::Syntax { place: 0 });
}

#[test]
fn lists_in_lists() {
    let nested = |depth| [vec![b'('; depth], vec![b')'; depth]].concat();
    let mut records = Vec::new();
    for level in 0..128 {
        let (end, up) = (256 - level, level.max(1) - 1);
        records.push([2, level, end, 128 - level, 0, 0, level + 1, end - 1, up]);
    }
    accepted(3, &nested(128), &nested(128), &records);
    refused(3, &nested(129), Refusal::Depth);
    refused(3, &[b'('; 129], Refusal::Syntax { place: 0 });
}

#[test]
fn empty_strings() {
    let empties = |count| format!("({})", "0:".repeat(count)).into_bytes();
    let mut records = vec![[2, 0, 16_384, 8_192, 0, 0, 1, 16_383, 0]];
    for string in 0..8_191 {
        let start = 1 + 2 * string;
        records.push([0, start, start + 2, 1, 0, 0, start + 2, start + 2, 0]);
    }
    accepted(3, &empties(8_191), &empties(8_191), &records);
    // Two octets too many, in records enough.
    refused(3, &empties(8_192), Refusal::Size);
}

#[test]
fn one_long_string() {
    let verbatim = |count| format!("{count}:{}", "v".repeat(count)).into_bytes();
    let record = [0, 0, 16_384, 1, 0, 0, 6, 16_384, 0];
    accepted(3, &verbatim(16_378), &verbatim(16_378), &[record]);
    refused(3, &verbatim(16_379), Refusal::Size);
}
