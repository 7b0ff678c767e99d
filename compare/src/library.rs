//! A case answered by the library. Every buffer is a heap block of just its
//! size, so that a memory checker sees a step outside.

use etglavino::{Extent, Record, Refusal, RECORD};
use reference::corpus::case::{Canonical, Case, Lent, Pair};
use reference::corpus::run::{Buffer, Outcome};

/// What the library answers, by each of its ways to take the case.
pub fn answers(case: &Case) -> Vec<(&'static str, Outcome)> {
    let mut answers = vec![("flat", flat(case))];
    answers.extend(records(case).map(|answer| ("records", answer)));
    answers
}

/// With the table lent as records, where there is a table. Numbers too few for
/// a record stay behind.
fn records(case: &Case) -> Option<Outcome> {
    Some(match case {
        Case::Read {
            form,
            source,
            canonical,
            table,
        } => {
            let (mut octets, mut numbers) = (exact(canonical), exact(table));
            let mut records = as_records(&numbers);
            let answer =
                etglavino::read_records_form(*form, &boxed(source), &mut octets, &mut records);
            spell(&records, &mut numbers);
            reading(answer, octets, numbers)
        }
        Case::Replace {
            form,
            text,
            pair,
            node,
        } => {
            let (mut octets, mut numbers) = (exact(&pair.canonical.lent), exact(&pair.table));
            let mut records = as_records(&numbers);
            let answer = etglavino::replace_records_form(
                *form,
                &boxed(text),
                &mut octets,
                &mut records,
                extent(pair),
                count(*node),
            );
            spell(&records, &mut numbers);
            reading(answer, octets, numbers)
        }
        Case::Hint { pair, node, .. } => shown(etglavino::hint_records_part(
            &exact(&pair.canonical.lent),
            &as_records(&exact(&pair.table)),
            extent(pair),
            count(*node),
        )),
        Case::Data { pair, node } => shown(etglavino::data_records_part(
            &exact(&pair.canonical.lent),
            &as_records(&exact(&pair.table)),
            extent(pair),
            count(*node),
        )),
        Case::Write { .. } | Case::Same { .. } => return None,
    })
}

fn as_records(numbers: &[u32]) -> Box<[Record]> {
    let spelled = |nine| Record::from(<[u32; RECORD]>::try_from(nine).expect("nine numbers"));
    numbers.chunks_exact(RECORD).map(spelled).collect()
}

fn spell(records: &[Record], numbers: &mut [u32]) {
    for (nine, record) in numbers.chunks_exact_mut(RECORD).zip(records) {
        nine.copy_from_slice(&<[u32; RECORD]>::from(*record));
    }
}

fn flat(case: &Case) -> Outcome {
    match case {
        Case::Read {
            form,
            source,
            canonical,
            table,
        } => {
            let (mut octets, mut numbers) = (exact(canonical), exact(table));
            let answer = etglavino::read_form(*form, &boxed(source), &mut octets, &mut numbers);
            reading(answer, octets, numbers)
        }
        Case::Write {
            form,
            canonical,
            out,
        } => {
            let mut out = exact(out);
            let octets = exact(&canonical.lent);
            let answer = etglavino::write_form(*form, &octets, length(canonical), &mut out);
            Outcome {
                answer: number(&answer),
                values: vec![answer.unwrap_or(0) as u64],
                buffers: vec![("out", Buffer::Octets(out.into_vec()))],
            }
        }
        Case::Replace {
            form,
            text,
            pair,
            node,
        } => {
            let (mut octets, mut numbers) = (exact(&pair.canonical.lent), exact(&pair.table));
            let answer = etglavino::replace_form(
                *form,
                &boxed(text),
                &mut octets,
                &mut numbers,
                extent(pair),
                count(*node),
            );
            reading(answer, octets, numbers)
        }
        Case::Same { a, b, default_hint } => {
            let (one, other) = (exact(&a.lent), exact(&b.lent));
            let default_hint = boxed(default_hint);
            let answer = etglavino::same(&one, length(a), &other, length(b), &default_hint);
            Outcome {
                answer: number(&answer),
                values: vec![u64::from(answer.unwrap_or(false))],
                buffers: Vec::new(),
            }
        }
        Case::Hint { pair, node, .. } => {
            let (octets, numbers) = (exact(&pair.canonical.lent), exact(&pair.table));
            shown(etglavino::hint_part(
                &octets,
                &numbers,
                extent(pair),
                count(*node),
            ))
        }
        Case::Data { pair, node } => {
            let (octets, numbers) = (exact(&pair.canonical.lent), exact(&pair.table));
            shown(etglavino::data_part(
                &octets,
                &numbers,
                extent(pair),
                count(*node),
            ))
        }
    }
}

fn reading(answer: Result<Extent, Refusal>, canonical: Box<[u8]>, table: Box<[u32]>) -> Outcome {
    let sheet = answer.unwrap_or_default();
    Outcome {
        answer: number(&answer),
        values: vec![sheet.length as u64, sheet.nodes as u64],
        buffers: vec![
            ("canonical", Buffer::Octets(canonical.into_vec())),
            ("table", Buffer::Numbers(table.into_vec())),
        ],
    }
}

fn shown(part: Option<(usize, usize)>) -> Outcome {
    let (start, end) = part.unwrap_or((0, 0));
    Outcome {
        answer: u32::from(part.is_some()),
        values: vec![start as u64, end as u64],
        buffers: Vec::new(),
    }
}

fn number<T>(answer: &Result<T, Refusal>) -> u32 {
    answer.as_ref().err().map_or(0, |refusal| refusal.number())
}

fn exact<T: Copy + From<u8>>(lent: &Lent<T>) -> Box<[T]> {
    lent.buffer().into_boxed_slice()
}

fn boxed(octets: &[u8]) -> Box<[u8]> {
    octets.into()
}

fn extent(pair: &Pair) -> Extent {
    Extent {
        length: length(&pair.canonical),
        nodes: count(pair.nodes),
    }
}

fn length(canonical: &Canonical) -> usize {
    count(canonical.length)
}

/// Where the machine's numbers are smaller, what doesn't fit them is beyond
/// anything lent and stays so.
fn count(number: u64) -> usize {
    usize::try_from(number).unwrap_or(usize::MAX)
}
