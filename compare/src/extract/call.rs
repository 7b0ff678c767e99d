//! One call, by the reference program and by the library in each of its ways.
//! Every buffer is a heap block of just its size.

use etglavino::{Extent, Record, Refusal, RECORD};
use reference::entries::Reading;
use reference::extract;

/// What lent space holds before a call.
pub const OCTET: u8 = 0xa5;
pub const NUMBER: u32 = 0xdead_beef;

/// A call's arguments.
pub struct Call {
    pub sheet: Vec<u8>,
    pub length: usize,
    pub rows: Vec<u32>,
    pub nodes: usize,
    pub room: usize,
    pub numbers: usize,
}

/// The answer's number, the values given out, and what the foreman lent.
#[derive(Debug, PartialEq)]
pub struct Left {
    pub answer: u32,
    pub values: [usize; 2],
    pub canonical: Box<[u8]>,
    pub table: Box<[u32]>,
}

/// What the reference program leaves, without the sheet's table and with it.
pub fn expected(call: &Call) -> [Left; 2] {
    let (mut canonical, mut table) = lent(call);
    let reading = extract::extract(&call.sheet, call.length, &mut canonical, &mut table);
    let alone = left(told(reading), canonical, table);
    let (mut canonical, mut table) = lent(call);
    let reading = extract::extract_own(
        &call.sheet,
        call.length,
        &call.rows,
        call.nodes,
        &mut canonical,
        &mut table,
    );
    [alone, left(told(reading), canonical, table)]
}

fn told(reading: Reading) -> Result<Extent, u32> {
    match reading {
        Reading::Accepted { length, nodes } => Ok(Extent { length, nodes }),
        Reading::Refused(refusal) => Err(refusal),
    }
}

fn lent(call: &Call) -> (Box<[u8]>, Box<[u32]>) {
    (
        vec![OCTET; call.room].into_boxed_slice(),
        vec![NUMBER; call.numbers].into_boxed_slice(),
    )
}

fn left(answer: Result<Extent, u32>, canonical: Box<[u8]>, table: Box<[u32]>) -> Left {
    let extent = answer.unwrap_or_default();
    Left {
        answer: answer.err().unwrap_or(0),
        values: [extent.length, extent.nodes],
        canonical,
        table,
    }
}

/// What the library leaves, without the sheet's table and with it: over numbers
/// and over records.
pub fn answers(call: &Call) -> [[(&'static str, Left); 2]; 2] {
    let sheet: Box<[u8]> = call.sheet.clone().into();
    let rows: Box<[u32]> = call.rows.clone().into();
    let extent = Extent {
        length: call.length,
        nodes: call.nodes,
    };
    let (mut canonical, mut table) = lent(call);
    let answer = etglavino::extract(&sheet, call.length, &mut canonical, &mut table);
    let flat = left(answer.map_err(Refusal::number), canonical, table);

    let (mut canonical, mut table) = lent(call);
    let answer = etglavino::extract_own(&sheet, &rows, extent, &mut canonical, &mut table);
    let own = left(answer.map_err(Refusal::number), canonical, table);

    let (mut canonical, mut table) = lent(call);
    let mut records = as_records(&table);
    let answer = etglavino::extract_records(&sheet, call.length, &mut canonical, &mut records);
    spell(&records, &mut table);
    let recorded = left(answer.map_err(Refusal::number), canonical, table);

    let (mut canonical, mut table) = lent(call);
    let mut records = as_records(&table);
    let answer = etglavino::extract_own_records(
        &sheet,
        &as_records(&rows),
        extent,
        &mut canonical,
        &mut records,
    );
    spell(&records, &mut table);
    let own_recorded = left(answer.map_err(Refusal::number), canonical, table);
    [
        [("flat", flat), ("records", recorded)],
        [("flat", own), ("records", own_recorded)],
    ]
}

fn as_records(numbers: &[u32]) -> Box<[Record]> {
    let spelled = |nine| Record::from(<[u32; RECORD]>::try_from(nine).expect("nine numbers"));
    numbers.chunks_exact(RECORD).map(spelled).collect()
}

fn spell(records: &[Record], numbers: &mut [u32]) {
    for (nine, record) in numbers.chunks_exact_mut(RECORD).zip(records) {
        nine.copy_from_slice(&<[u32; RECORD]>::from(*record));
    }
}
