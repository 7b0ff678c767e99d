//! Values with a type and hours, by the library and by the reference program:
//! every node of a sheet as a value, a line and a week, over numbers and over
//! records, and every value written again.

mod sheets;

use std::fmt;

use etglavino::{Extent, Line, NoWeek, Record, Refusal, Total, Value, Week, RECORD};
use reference::corpus::rng::Rng;
use reference::limits::{MAX_CANONICAL, MAX_DEPTH, MAX_NODES};
use reference::tree::Tree;
use reference::values as second;

use crate::SHOWN;
use sheets::{fixed, patterns, quarters, random};

/// How many questions were put, and how many answers differed.
#[derive(Default)]
pub struct Tally {
    /// Questions.
    pub asked: u64,
    /// Answers that differed.
    pub different: u64,
}

impl Tally {
    fn same<T>(&mut self, what: fmt::Arguments<'_>, library: T, reference: T)
    where
        T: PartialEq + fmt::Debug,
    {
        self.asked += 1;
        if library != reference {
            self.different += 1;
            if self.different <= SHOWN {
                println!("{what}\n  the library {library:?}\n  the reference {reference:?}");
            }
        }
    }
}

/// The fixed sheets and so many random ones of the seed.
pub fn compare(seed: u64, count: u64) -> Tally {
    let mut tally = Tally::default();
    let mut rng = Rng::new(seed);
    for tree in fixed() {
        sheet(&mut tally, &tree, &mut rng);
    }
    for nodes in MAX_NODES - 2..=MAX_NODES {
        full(&mut tally, nodes);
    }
    for _ in 0..count {
        let tree = random(&mut rng);
        sheet(&mut tally, &tree, &mut rng);
    }
    made_up(&mut tally, &mut rng, count);
    tally
}

// ---- a sheet

/// Every node of a sheet, two numbers that are no node's, and what is not a sheet
/// with its table. Sheets made up must fit, so that none is passed over.
fn sheet(tally: &mut Tally, tree: &Tree, rng: &mut Rng) {
    let layout = tree.layout();
    let (length, nodes) = (layout.octets.len(), layout.records.len());
    assert!(tree.depth() <= MAX_DEPTH && nodes <= MAX_NODES && length <= MAX_CANONICAL);
    let numbers = layout.records.as_flattened().to_vec();
    let lent = second::Lent {
        canonical: &layout.octets,
        length,
        table: &numbers,
        nodes,
    };
    for node in (0..=nodes).chain([usize::MAX]) {
        ask(tally, lent, node);
    }
    for length in [length + 1, length - 1] {
        ask(tally, second::Lent { length, ..lent }, 0);
    }
    for nodes in [nodes + 1, nodes - 1] {
        ask(tally, second::Lent { nodes, ..lent }, 0);
    }
    let mut foreign = numbers.clone();
    let place = rng.below(foreign.len());
    foreign[place] ^= 1 << rng.below(32);
    let table = &foreign;
    ask(tally, second::Lent { table, ..lent }, nodes - 1);
}

/// A list of empty strings with so many nodes: the first, some in the middle and
/// the last, with its own records, one more and one fewer, which is none.
fn full(tally: &mut Tally, nodes: usize) {
    let layout = Tree::List(vec![Tree::text(b""); nodes - 1]).layout();
    let numbers = layout.records.as_flattened();
    let lent = second::Lent {
        canonical: &layout.octets,
        length: layout.octets.len(),
        table: numbers,
        nodes,
    };
    let more = [numbers, &[7; RECORD]].concat();
    let fewer = &numbers[..numbers.len() - RECORD];
    for table in [numbers, &more, fewer] {
        for node in [0, 1, nodes / 2, nodes - 1, nodes] {
            ask(tally, second::Lent { table, ..lent }, node);
        }
    }
}

/// A node as a value, a line and a week. Each buffer is a heap block of just its
/// size.
fn ask(tally: &mut Tally, lent: second::Lent<'_>, node: usize) {
    let canonical: Box<[u8]> = lent.canonical.into();
    let table: Box<[u32]> = lent.table.into();
    let records: Box<[Record]> = table
        .chunks_exact(RECORD)
        .map(|nine| Record::from(<[u32; RECORD]>::try_from(nine).expect("nine")))
        .collect();
    let extent = Extent {
        length: lent.length,
        nodes: lent.nodes,
    };
    let asked = Asked { lent, node };
    let expected = second::value(lent, node);
    for answer in [
        etglavino::value(&canonical, &table, extent, node),
        etglavino::value_records(&canonical, &records, extent, node),
    ] {
        tally.same(
            format_args!("value of {asked}"),
            spelled(answer),
            expected.map(bits_of),
        );
        if let Ok(value) = answer {
            put(tally, value, &canonical);
        }
    }
    let expected = second::line(lent, node)
        .map(|(fields, (count, hours))| (fields.map(f64::to_bits), count, hours.to_bits()));
    for answer in [
        etglavino::line(&canonical, &table, extent, node),
        etglavino::line_records(&canonical, &records, extent, node),
    ] {
        let answer = answer.map_err(Refusal::number).map(|(line, total)| {
            let fields = [line.ordinary, line.night, line.holiday];
            (
                fields.map(f64::to_bits),
                total.quarters,
                total.hours.to_bits(),
            )
        });
        tally.same(format_args!("line of {asked}"), answer, expected);
    }
    let expected =
        second::week(lent, node).map(|(lines, (count, hours))| (lines, count, hours.to_bits()));
    for answer in [
        etglavino::week(&canonical, &table, extent, node),
        etglavino::week_records(&canonical, &records, extent, node),
    ] {
        tally.same(
            format_args!("week of {asked}"),
            answer.map(week_of).map_err(no_week),
            expected,
        );
    }
}

/// What was asked, shown whole.
struct Asked<'a> {
    lent: second::Lent<'a>,
    node: usize,
}

impl fmt::Display for Asked<'_> {
    fn fmt(&self, f: &mut fmt::Formatter<'_>) -> fmt::Result {
        let (node, lent) = (self.node, self.lent);
        write!(
            f,
            "node {node} of `{}`, length {}, {} nodes, table {:?}",
            lent.canonical.escape_ascii(),
            lent.length,
            lent.nodes,
            lent.table
        )
    }
}

fn week_of(week: Week) -> (usize, u32, u64) {
    (week.lines, week.total.quarters, week.total.hours.to_bits())
}

fn no_week(no: NoWeek) -> (u32, usize) {
    (no.refusal.number(), no.node)
}

// ---- values written, and lines made up

/// A value without what a comparison of floats would lose.
type Bits = (u8, u64, usize, usize);

fn spelled(answer: Result<Value, Refusal>) -> Result<Bits, u32> {
    answer
        .map(|value| bits_of(second_of(value)))
        .map_err(Refusal::number)
}

fn bits_of(value: second::Value) -> Bits {
    match value {
        second::Value::Single(x) => (1, u64::from(x.to_bits()), 0, 0),
        second::Value::Double(x) => (2, x.to_bits(), 0, 0),
        second::Value::Whole(x) => (3, x as u64, 0, 0),
        second::Value::Raw { start, end } => (4, 0, start, end),
    }
}

fn second_of(value: Value) -> second::Value {
    match value {
        Value::Single(x) => second::Value::Single(x),
        Value::Double(x) => second::Value::Double(x),
        Value::Whole(x) => second::Value::Whole(x),
        Value::Raw { start, end } => second::Value::Raw { start, end },
    }
}

/// A value written in no room, in one octet too few, in just enough and in more.
fn put(tally: &mut Tally, value: Value, octets: &[u8]) {
    let mut most = vec![0; octets.len().max(16)];
    let needed = second::put_value(second_of(value), octets, &mut most).unwrap_or(0);
    for room in [0, needed.saturating_sub(1), needed, needed + 3] {
        let (mut one, mut other) = (vec![0xa5; room].into_boxed_slice(), vec![0xa5; room]);
        let answer = etglavino::put_value(value, octets, &mut one).map_err(Refusal::number);
        let expected = second::put_value(second_of(value), octets, &mut other);
        let what = format_args!(
            "put_value of {value:?} of `{}` to {room} octets",
            octets.escape_ascii()
        );
        tally.same(what, (answer, one.to_vec()), (expected, other));
    }
}

fn made_up(tally: &mut Tally, rng: &mut Rng, count: u64) {
    let octets: Box<[u8]> = (*b"0123456789").into();
    for pattern in patterns(32, 23) {
        put(
            tally,
            Value::Single(f32::from_bits(pattern as u32)),
            &octets,
        );
    }
    for pattern in patterns(64, 52) {
        put(tally, Value::Double(f64::from_bits(pattern)), &octets);
    }
    for bits in 0..64 {
        for near in -1..=1 {
            put(
                tally,
                Value::Whole((1i64 << bits).wrapping_add(near)),
                &octets,
            );
            put(
                tally,
                Value::Whole((-1i64 << bits).wrapping_add(near)),
                &octets,
            );
        }
    }
    for start in [0, 1, 9, 10, 11, usize::MAX] {
        for end in [0, 1, 9, 10, 11, usize::MAX] {
            put(tally, Value::Raw { start, end }, &octets);
        }
    }
    // All quarters, one too many, their neighbours, and each with each bit flipped.
    for field in 0..=97 {
        let bits = quarters(field);
        let near = [bits, bits.wrapping_add(1), bits.wrapping_sub(1)];
        for near in near.into_iter().chain((0..64).map(|bit| bits ^ 1 << bit)) {
            let hours = f64::from_bits(near);
            totalled(tally, [hours, 0.25, 24.0]);
            totalled(tally, [1.0, hours, 0.0]);
            totalled(tally, [2.0, 0.0, hours]);
        }
    }
    for pattern in patterns(64, 52) {
        totalled(tally, [0.0, f64::from_bits(pattern), 0.0]);
    }
    for _ in 0..count {
        put(
            tally,
            Value::Whole(rng.draw() as i64 >> rng.below(64)),
            &octets,
        );
        put(tally, Value::Double(f64::from_bits(rng.draw())), &octets);
        totalled(
            tally,
            [0; 3].map(|_: u8| rng.below(100) as f64 / rng.pick(&[4.0, 4.0, 8.0])),
        );
    }
}

fn totalled(tally: &mut Tally, [ordinary, night, holiday]: [f64; 3]) {
    let line = Line {
        ordinary,
        night,
        holiday,
    };
    let answer = etglavino::total(line)
        .map(|Total { quarters, hours }| (quarters, hours.to_bits()))
        .map_err(Refusal::number);
    let expected = second::total([ordinary, night, holiday])
        .map(|(quarters, hours)| (quarters, hours.to_bits()));
    tally.same(format_args!("total of {line:?}"), answer, expected);
}
