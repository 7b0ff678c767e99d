//! Runs a case and says what came of it.

use super::case::*;
use crate::entries::{self, Comparing, Reading, Writing};
use crate::limits::ACCEPTED;

/// A buffer after the entry ran.
#[derive(Clone, Debug, PartialEq, Eq)]
pub enum Buffer {
    /// A canonical form or an output.
    Octets(Vec<u8>),
    /// A node table.
    Numbers(Vec<u32>),
}

/// What an entry answered, and what it left.
#[derive(Clone, Debug, PartialEq, Eq)]
pub struct Outcome {
    /// The answer's number; for hint and data 1 if a part of the canonical
    /// form is shown.
    pub answer: u32,
    /// The entry's values.
    pub values: Vec<u64>,
    /// Every buffer lent to be written, in the order of the signature.
    pub buffers: Vec<(&'static str, Buffer)>,
}

impl Buffer {
    /// The digest over the whole room.
    pub fn digest(&self) -> u64 {
        match self {
            Buffer::Octets(octets) => digest(octets.iter().copied().map(u64::from)),
            Buffer::Numbers(numbers) => digest(numbers.iter().copied().map(u64::from)),
        }
    }
}

/// The digest of the expected file. It stays below 2^32, so no step exceeds
/// 64 bits.
pub fn digest(numbers: impl Iterator<Item = u64>) -> u64 {
    numbers.fold(0, |digest, number| {
        (digest * 65_599 + number + 1) % 4_294_967_291
    })
}

impl Outcome {
    /// The line of the expected file, line feed included.
    pub fn line(&self, number: u64, name: &str) -> String {
        let mut line = format!("{number} {name} {}", self.answer);
        let digests = self.buffers.iter().map(|(_, buffer)| buffer.digest());
        for value in self.values.iter().copied().chain(digests) {
            line += &format!(" {value}");
        }
        line + "\n"
    }
}

/// Runs the entry of a case.
pub fn run(case: &Case) -> Outcome {
    match case {
        Case::Read {
            form,
            source,
            canonical,
            table,
        } => {
            let (mut canonical, mut table) = (canonical.buffer(), table.buffer());
            let reading = entries::read(*form, source, &mut canonical, &mut table);
            outcome_of_reading(reading, canonical, table)
        }
        Case::Write {
            form,
            canonical,
            out,
        } => write(*form, canonical, out.buffer()),
        Case::Replace {
            form,
            text,
            pair,
            node,
        } => replace(*form, text, pair, *node),
        Case::Same { a, b, default_hint } => same(a, b, default_hint),
        Case::Hint {
            pair,
            node,
            default_hint,
        } => look(pair, |canonical, length, table, nodes| {
            entries::hint(canonical, length, table, nodes, count(*node), default_hint).part
        }),
        Case::Data { pair, node } => look(pair, |canonical, length, table, nodes| {
            entries::data(canonical, length, table, nodes, count(*node)).part
        }),
    }
}

fn write(form: u32, canonical: &Canonical, mut out: Vec<u8>) -> Outcome {
    let octets = canonical.lent.buffer();
    let length = count(canonical.length);
    let (answer, length) = match entries::write(form, &octets, length, &mut out) {
        Writing::Accepted { length } => (ACCEPTED, length),
        Writing::Refused(refusal) => (refusal, 0),
    };
    Outcome {
        answer,
        values: vec![length as u64],
        buffers: vec![("out", Buffer::Octets(out))],
    }
}

fn same(a: &Canonical, b: &Canonical, default_hint: &[u8]) -> Outcome {
    let (one, other) = (a.lent.buffer(), b.lent.buffer());
    let (a_length, b_length) = (count(a.length), count(b.length));
    let (answer, same) = match entries::same(&one, a_length, &other, b_length, default_hint) {
        Comparing::Accepted { same } => (ACCEPTED, same),
        Comparing::Refused(refusal) => (refusal, false),
    };
    Outcome {
        answer,
        values: vec![u64::from(same)],
        buffers: Vec::new(),
    }
}

fn replace(form: u32, text: &[u8], pair: &Pair, node: u64) -> Outcome {
    let mut canonical = pair.canonical.lent.buffer();
    let mut table = pair.table.buffer();
    let reading = entries::replace(
        form,
        text,
        &mut canonical,
        &mut table,
        count(pair.canonical.length),
        count(pair.nodes),
        count(node),
    );
    outcome_of_reading(reading, canonical, table)
}

fn outcome_of_reading(reading: Reading, canonical: Vec<u8>, table: Vec<u32>) -> Outcome {
    let (answer, length, nodes) = match reading {
        Reading::Accepted { length, nodes } => (ACCEPTED, length, nodes),
        Reading::Refused(refusal) => (refusal, 0, 0),
    };
    Outcome {
        answer,
        values: vec![length as u64, nodes as u64],
        buffers: vec![
            ("canonical", Buffer::Octets(canonical)),
            ("table", Buffer::Numbers(table)),
        ],
    }
}

fn look(
    pair: &Pair,
    entry: impl Fn(&[u8], usize, &[u32], usize) -> Option<(usize, usize)>,
) -> Outcome {
    let (canonical, table) = (pair.canonical.lent.buffer(), pair.table.buffer());
    let part = entry(
        &canonical,
        count(pair.canonical.length),
        &table,
        count(pair.nodes),
    );
    let (start, end) = part.unwrap_or((0, 0));
    Outcome {
        answer: u32::from(part.is_some()),
        values: vec![start as u64, end as u64],
        buffers: Vec::new(),
    }
}

/// Where the machine's numbers are smaller, what doesn't fit them is beyond
/// anything lent and stays so.
fn count(number: u64) -> usize {
    usize::try_from(number).unwrap_or(usize::MAX)
}
