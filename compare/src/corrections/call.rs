//! One call, by the reference program and by the library in each of its ways.
//! Every buffer is a heap block of just its size.

use etglavino::{Extent, Record, Refusal, Slot, RECORD};
use reference::corrections;
use reference::entries::Reading;

/// What lent space past a sheet and its table holds before a call.
pub const OCTET: u8 = 0xa5;
pub const NUMBER: u32 = 0xdead_beef;

/// What is asked of a sheet.
#[derive(Clone, Copy, Debug)]
pub enum Asked {
    Insert { node: usize, k: usize },
    Remove { node: usize },
}

impl Asked {
    pub fn name(self) -> &'static str {
        match self {
            Asked::Insert { .. } => "insert",
            Asked::Remove { .. } => "remove",
        }
    }

    /// The same of another node.
    pub fn of_node(self, node: usize) -> Self {
        match self {
            Asked::Insert { k, .. } => Asked::Insert { node, k },
            Asked::Remove { .. } => Asked::Remove { node },
        }
    }

    /// The same at another place of the list, if it is an insertion.
    pub fn at(self, k: usize) -> Self {
        match self {
            Asked::Insert { node, .. } => Asked::Insert { node, k },
            Asked::Remove { .. } => self,
        }
    }
}

/// A call's arguments; a removal has no use for a text.
#[derive(Clone, Debug)]
pub struct Call {
    pub form: u32,
    pub text: Vec<u8>,
    pub canonical: Vec<u8>,
    pub table: Vec<u32>,
    pub length: usize,
    pub nodes: usize,
    pub asked: Asked,
}

impl Call {
    /// With room for so many octets and records past the sheet's.
    pub fn with_room(mut self, octets: usize, records: usize) -> Self {
        self.canonical.extend(vec![OCTET; octets]);
        self.table.extend(vec![NUMBER; RECORD * records]);
        self
    }
}

/// The answer's number, the values given out, and what was lent.
#[derive(Debug, PartialEq)]
pub struct Left {
    pub answer: u32,
    pub values: [usize; 2],
    pub canonical: Box<[u8]>,
    pub table: Box<[u32]>,
}

/// What the reference program leaves.
pub fn expected(call: &Call) -> Left {
    let (mut canonical, mut table) = lent(call);
    let (length, nodes) = (call.length, call.nodes);
    let reading = match call.asked {
        Asked::Insert { node, k } => corrections::insert(
            call.form,
            &call.text,
            &mut canonical,
            &mut table,
            length,
            nodes,
            node,
            k,
        ),
        Asked::Remove { node } => {
            corrections::remove(&mut canonical, &mut table, length, nodes, node)
        }
    };
    let answer = match reading {
        Reading::Accepted { length, nodes } => Ok(Extent { length, nodes }),
        Reading::Refused(refusal) => Err(refusal),
    };
    left(answer, canonical, table)
}

/// What the library leaves, over numbers and over records.
pub fn answers(call: &Call) -> [(&'static str, Left); 2] {
    let text: Box<[u8]> = call.text.clone().into();
    let sheet = Extent {
        length: call.length,
        nodes: call.nodes,
    };
    let (mut canonical, mut table) = lent(call);
    let answer = match call.asked {
        Asked::Insert { node, k } => {
            let slot = Slot { node, k };
            etglavino::insert_form(call.form, &text, &mut canonical, &mut table, sheet, slot)
        }
        Asked::Remove { node } => etglavino::remove(&mut canonical, &mut table, sheet, node),
    };
    let flat = left(answer.map_err(Refusal::number), canonical, table);

    let (mut canonical, mut table) = lent(call);
    let mut records = as_records(&table);
    let answer = match call.asked {
        Asked::Insert { node, k } => {
            let slot = Slot { node, k };
            etglavino::insert_records_form(
                call.form,
                &text,
                &mut canonical,
                &mut records,
                sheet,
                slot,
            )
        }
        Asked::Remove { node } => {
            etglavino::remove_records(&mut canonical, &mut records, sheet, node)
        }
    };
    spell(&records, &mut table);
    let recorded = left(answer.map_err(Refusal::number), canonical, table);
    [("flat", flat), ("records", recorded)]
}

fn lent(call: &Call) -> (Box<[u8]>, Box<[u32]>) {
    (call.canonical.clone().into(), call.table.clone().into())
}

fn left(answer: Result<Extent, u32>, canonical: Box<[u8]>, table: Box<[u32]>) -> Left {
    let extent = answer.unwrap_or_default();
    Left {
        answer: answer.err().unwrap_or(0),
        values: [extent.length, extent.nodes],
        canonical,
        table,
    }
}

fn as_records(numbers: &[u32]) -> Box<[Record]> {
    let spelled = |nine| Record::from(<[u32; RECORD]>::try_from(nine).expect("nine numbers"));
    numbers.chunks_exact(RECORD).map(spelled).collect()
}

fn spell(records: &[Record], numbers: &mut [u32]) {
    for (nine, record) in numbers.chunks_exact_mut(RECORD).zip(records) {
        nine.copy_from_slice(&<[u32; RECORD]>::from(*record));
    }
}
