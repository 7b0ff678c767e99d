//! Values with a type, and hours. Expected values are worked out from S 10
//! by hand. Every entry runs on threads with just `STACK` octets.

mod common;

use std::thread;

use common::{verbatim, Sheet};
use etglavino::{Extent, Line, NoWeek, Record, Refusal, Total, Value, Week, MAX_CANONICAL, RECORD};

/// What a thread has: enough for any of these entries, and for the thread itself.
const STACK: usize = 192 * 1024;

fn records(table: &[u32]) -> Vec<Record> {
    let nine = |numbers: &[u32]| Record::from(<[u32; RECORD]>::try_from(numbers).expect("nine"));
    table.chunks_exact(RECORD).map(nine).collect()
}

/// A node's value, the same over numbers and over records, on a thread with little stack.
fn value(octets: &[u8], node: usize) -> Result<Value, Refusal> {
    let sheet = Sheet::of(octets);
    let records = records(&sheet.table);
    tight(|| {
        let answer = etglavino::value(&sheet.canonical, &sheet.table, sheet.extent, node);
        let other = etglavino::value_records(&sheet.canonical, &records, sheet.extent, node);
        assert_eq!(answer, other);
        answer
    })
}

fn line(octets: &[u8], node: usize) -> Result<(Line, Total), Refusal> {
    let sheet = Sheet::of(octets);
    let records = records(&sheet.table);
    tight(|| {
        let answer = etglavino::line(&sheet.canonical, &sheet.table, sheet.extent, node);
        let other = etglavino::line_records(&sheet.canonical, &records, sheet.extent, node);
        assert_eq!(answer, other);
        answer
    })
}

fn week(octets: &[u8], node: usize) -> Result<Week, NoWeek> {
    let sheet = Sheet::of(octets);
    let records = records(&sheet.table);
    tight(|| {
        let answer = etglavino::week(&sheet.canonical, &sheet.table, sheet.extent, node);
        let other = etglavino::week_records(&sheet.canonical, &records, sheet.extent, node);
        assert_eq!(answer, other);
        answer
    })
}

fn put_value(value: Value, octets: &[u8], out: &mut [u8]) -> Result<usize, Refusal> {
    tight(|| etglavino::put_value(value, octets, out))
}

fn total(line: Line) -> Result<Total, Refusal> {
    tight(|| etglavino::total(line))
}

fn tight<R: Send>(call: impl FnOnce() -> R + Send) -> R {
    thread::scope(|scope| {
        let thread = thread::Builder::new()
            .stack_size(STACK)
            .spawn_scoped(scope, call);
        thread.expect("a thread").join().expect("an answer")
    })
}

fn hinted(hint: &str, data: &[u8]) -> Vec<u8> {
    let mut octets = format!("[{}:{hint}]{}:", hint.len(), data.len()).into_bytes();
    octets.extend(data);
    octets
}

fn list(items: &[Vec<u8>]) -> Vec<u8> {
    [b"(".as_slice(), &items.concat(), b")"].concat()
}

fn hours(fields: [f64; 3]) -> Vec<u8> {
    list(&fields.map(|x| hinted("f64", &x.to_be_bytes())))
}

#[test]
fn values_by_hint() {
    assert_eq!(
        value(&hinted("f32", &[0x3f, 0xc0, 0, 0]), 0),
        Ok(Value::Single(1.5))
    );
    let double = hinted("f64", &[0x3f, 0xf8, 0, 0, 0, 0, 0, 0]);
    assert_eq!(value(&double, 0), Ok(Value::Double(1.5)));
    assert_eq!(
        value(&hinted("int", &[0xff, 0x7f]), 0),
        Ok(Value::Whole(-129))
    );
    assert_eq!(value(&hinted("int", &[]), 0), Ok(Value::Whole(0)));
    assert_eq!(value(b"3:abc", 0), Ok(Value::Raw { start: 2, end: 5 }));
    assert_eq!(
        value(b"[3:F32]3:abc", 0),
        Ok(Value::Raw { start: 9, end: 12 })
    );
    assert_eq!(value(b"[0:]3:abc", 0), Ok(Value::Raw { start: 6, end: 9 }));
}

#[test]
fn values_refused() {
    for bad in [
        b"()".to_vec(),
        hinted("f32", &[0; 3]),
        hinted("f32", &[0x7f, 0x80, 0, 0]),
        hinted("f64", &[0x7f, 0xf8, 0, 0, 0, 0, 0, 1]),
        hinted("f64", &[0; 4]),
        hinted("int", &[0]),
        hinted("int", &[0xff, 0x80]),
        hinted("int", &[1; 9]),
    ] {
        assert_eq!(value(&bad, 0), Err(Refusal::NotTyped), "{bad:?}");
    }
    assert_eq!(value(b"()", 1), Err(Refusal::NoNode));
    let sheet = Sheet::of(b"3:abc");
    let long = Extent {
        length: MAX_CANONICAL + 1,
        nodes: 1,
    };
    assert_eq!(
        etglavino::value(&sheet.canonical, &sheet.table, long, 0),
        Err(Refusal::NotOwn)
    );
}

#[test]
fn values_written() {
    let mut out = [0xa5; 8];
    for (value, octets) in [
        (Value::Single(1.5), &[0x3f, 0xc0, 0, 0][..]),
        (Value::Double(-0.0), &[0x80, 0, 0, 0, 0, 0, 0, 0]),
        (Value::Whole(0), &[]),
        (Value::Whole(-129), &[0xff, 0x7f]),
        (Value::Whole(i64::MIN), &[0x80, 0, 0, 0, 0, 0, 0, 0]),
        (Value::Raw { start: 1, end: 3 }, b"bc"),
    ] {
        out.fill(0xa5);
        assert_eq!(put_value(value, b"abcd", &mut out), Ok(octets.len()));
        assert_eq!(&out[..octets.len()], octets);
        assert!(out[octets.len()..].iter().all(|octet| *octet == 0xa5));
    }
    for (value, room, refusal) in [
        (Value::Double(f64::NAN), 0, Refusal::NotTyped),
        (Value::Single(f32::NEG_INFINITY), 8, Refusal::NotTyped),
        (Value::Raw { start: 2, end: 5 }, 8, Refusal::NotOwn),
        (Value::Raw { start: 3, end: 2 }, 8, Refusal::NotOwn),
        (Value::Raw { start: 5, end: 5 }, 8, Refusal::NotOwn),
        (Value::Double(0.0), 7, Refusal::Size),
        (Value::Whole(128), 1, Refusal::Size),
    ] {
        out.fill(0xa5);
        assert_eq!(put_value(value, b"abcd", &mut out[..room]), Err(refusal));
        assert_eq!(out, [0xa5; 8]);
    }
    // More octets than a sheet can have.
    let octets = vec![b'x'; 3 * MAX_CANONICAL];
    let mut out = vec![0xa5; octets.len()];
    let (start, end) = (1, octets.len());
    let raw = Value::Raw { start, end };
    assert_eq!(put_value(raw, &octets, &mut out), Ok(end - 1));
    assert!(out[..end - 1] == octets[1..] && out[end - 1] == 0xa5);
}

#[test]
fn lines() {
    let (kept, summed) = line(&hours([7.25, 0.5, 24.0]), 0).expect("a line");
    assert_eq!(
        kept,
        Line {
            ordinary: 7.25,
            night: 0.5,
            holiday: 24.0
        }
    );
    assert_eq!(
        summed,
        Total {
            quarters: 127,
            hours: 31.75
        }
    );
    for bad in [-0.0, 24.25, 0.1, -1.0] {
        assert_eq!(
            line(&hours([0.0, bad, 0.0]), 0),
            Err(Refusal::NotLine),
            "{bad}"
        );
        let made = Line {
            holiday: bad,
            ..Line::default()
        };
        assert_eq!(total(made), Err(Refusal::NotLine), "{bad}");
    }
    assert_eq!(total(Line::default()), Ok(Total::default()));
    assert_eq!(line(b"(0:0:0:)", 0), Err(Refusal::NotLine));
    assert_eq!(line(b"()", 1), Err(Refusal::NoNode));
}

#[test]
fn weeks() {
    let day = hours([8.0, 0.25, 0.0]);
    let total = Total {
        quarters: 99,
        hours: 24.75,
    };
    assert_eq!(
        week(&list(&vec![day.clone(); 3]), 0),
        Ok(Week { lines: 3, total })
    );
    assert_eq!(week(b"()", 0), Ok(Week::default()));
    let bad = list(&[day.clone(), day.clone(), b"0:".to_vec(), day.clone()]);
    assert_eq!(
        week(&bad, 0),
        Err(NoWeek {
            refusal: Refusal::NotLine,
            node: 9
        })
    );
    assert_eq!(
        week(b"0:", 0),
        Err(NoWeek {
            refusal: Refusal::NotLine,
            node: 0
        })
    );
    assert_eq!(
        week(b"0:", 1),
        Err(NoWeek {
            refusal: Refusal::NoNode,
            node: 0
        })
    );
    // As many lines as a sheet can have, and the largest string.
    let most = week(&list(&vec![hours([24.0; 3]); 309]), 0).expect("a week");
    assert_eq!(
        (most.lines, most.total.quarters, most.total.hours),
        (309, 88_992, 22_248.0)
    );
    let string = Value::Raw {
        start: 6,
        end: MAX_CANONICAL,
    };
    assert_eq!(value(&verbatim(MAX_CANONICAL - 6), 0), Ok(string));
}

#[test]
fn refusals_have_their_numbers() {
    assert_eq!(Refusal::NotTyped.number(), 11);
    assert_eq!(Refusal::NotLine.number(), 12);
    assert_ne!(Refusal::NotTyped.sentence(), Refusal::NotLine.sentence());
}
