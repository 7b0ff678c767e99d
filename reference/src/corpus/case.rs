//! One case: an entry with all its arguments.

use crate::limits::MAX_SOURCE;
use Argument::{Count, Form, LentNumbers, LentOctets, Octets};

/// Most octets of a case in the file, its size field not counted.
pub const MAX_CASE: usize = 200_000;
/// Most octets of a slice that is only read: one more than a source may have.
pub const MAX_SLICE: usize = MAX_SOURCE + 1;
/// Most octets lent for a canonical form.
pub const MAX_CANONICAL_ROOM: usize = 16_500;
/// Most octets lent for output.
pub const MAX_OUT_ROOM: usize = 40_000;
/// Most numbers lent for a node table.
pub const MAX_TABLE_ROOM: usize = 80_000;

/// A lent buffer: some elements are given, the rest follow from the fill.
#[derive(Clone, Debug, Default, PartialEq, Eq)]
pub struct Lent<T> {
    /// Elements lent.
    pub room: usize,
    /// What the elements not given are made from.
    pub fill: u8,
    /// The first elements; never more than the room.
    pub given: Vec<T>,
}

impl<T: Copy + From<u8>> Lent<T> {
    /// The buffer as it is before the entry runs.
    pub fn buffer(&self) -> Vec<T> {
        // Neighbours differ, so that an element written where another belongs
        // shows in the digest.
        let filled = |place: usize| T::from(((usize::from(self.fill) + place) % 251) as u8);
        let given = self.given.iter().copied();
        given
            .chain((self.given.len()..self.room).map(filled))
            .collect()
    }
}

/// A lent canonical form and the length said of it. S 1.1: a
/// sheet.
#[derive(Clone, Debug, PartialEq, Eq)]
pub struct Canonical {
    /// The lent octets.
    pub lent: Lent<u8>,
    /// The length said, true or not.
    pub length: u64,
}

/// A lent canonical form with a lent node table.
#[derive(Clone, Debug, PartialEq, Eq)]
pub struct Pair {
    /// The canonical form.
    pub canonical: Canonical,
    /// The lent numbers of the table.
    pub table: Lent<u32>,
    /// The node count said, true or not.
    pub nodes: u64,
}

/// An entry with its arguments.
#[derive(Clone, Debug, PartialEq, Eq)]
#[allow(missing_docs)] // The fields are the entries' parameters.
pub enum Case {
    Read {
        form: u32,
        source: Vec<u8>,
        canonical: Lent<u8>,
        table: Lent<u32>,
    },
    Write {
        form: u32,
        canonical: Canonical,
        out: Lent<u8>,
    },
    Replace {
        form: u32,
        text: Vec<u8>,
        pair: Pair,
        node: u64,
    },
    Same {
        a: Canonical,
        b: Canonical,
        default_hint: Vec<u8>,
    },
    Hint {
        pair: Pair,
        node: u64,
        default_hint: Vec<u8>,
    },
    Data {
        pair: Pair,
        node: u64,
    },
}

/// One argument of a case, by its type.
#[derive(Clone, Copy)]
pub enum Argument<'a> {
    /// A form.
    Form(u32),
    /// A length, count or node number.
    Count(u64),
    /// A slice that is only read.
    Octets(&'a [u8]),
    /// A lent buffer of octets.
    LentOctets(&'a Lent<u8>),
    /// A lent buffer of numbers.
    LentNumbers(&'a Lent<u32>),
}

/// An argument with its name.
pub type Named<'a> = (&'static str, Argument<'a>);

impl Case {
    /// The entry's code in the file.
    pub fn code(&self) -> u8 {
        match self {
            Case::Read { .. } => 1,
            Case::Write { .. } => 2,
            Case::Replace { .. } => 3,
            Case::Same { .. } => 4,
            Case::Hint { .. } => 5,
            Case::Data { .. } => 6,
        }
    }

    /// The entry's name.
    pub fn name(&self) -> &'static str {
        match self {
            Case::Read { .. } => "read",
            Case::Write { .. } => "write",
            Case::Replace { .. } => "replace",
            Case::Same { .. } => "same",
            Case::Hint { .. } => "hint",
            Case::Data { .. } => "data",
        }
    }

    /// The lent table, where there is one.
    pub fn table_mut(&mut self) -> Option<&mut Lent<u32>> {
        match self {
            Case::Read { table, .. } => Some(table),
            Case::Replace { pair, .. } | Case::Hint { pair, .. } | Case::Data { pair, .. } => {
                Some(&mut pair.table)
            }
            Case::Write { .. } | Case::Same { .. } => None,
        }
    }

    /// The arguments with their names, in the order of the signature.
    pub fn arguments(&self) -> Vec<Named<'_>> {
        match self {
            Case::Read {
                form,
                source,
                canonical,
                table,
            } => vec![
                ("form", Form(*form)),
                ("source", Octets(source)),
                ("canonical", LentOctets(canonical)),
                ("table", LentNumbers(table)),
            ],
            Case::Write {
                form,
                canonical,
                out,
            } => writing(*form, canonical, out),
            Case::Replace {
                form,
                text,
                pair,
                node,
            } => replacing(*form, text, pair, *node),
            Case::Same { a, b, default_hint } => comparing(a, b, default_hint),
            Case::Hint {
                pair,
                node,
                default_hint,
            } => [
                looking(pair, *node),
                vec![("default_hint", Octets(default_hint))],
            ]
            .concat(),
            Case::Data { pair, node } => looking(pair, *node),
        }
    }
}

fn writing<'a>(form: u32, canonical: &'a Canonical, out: &'a Lent<u8>) -> Vec<Named<'a>> {
    vec![
        ("form", Form(form)),
        ("canonical", LentOctets(&canonical.lent)),
        ("length", Count(canonical.length)),
        ("out", LentOctets(out)),
    ]
}

fn replacing<'a>(form: u32, text: &'a [u8], pair: &'a Pair, node: u64) -> Vec<Named<'a>> {
    vec![
        ("form", Form(form)),
        ("text", Octets(text)),
        ("canonical", LentOctets(&pair.canonical.lent)),
        ("table", LentNumbers(&pair.table)),
        ("length", Count(pair.canonical.length)),
        ("nodes", Count(pair.nodes)),
        ("node", Count(node)),
    ]
}

fn comparing<'a>(a: &'a Canonical, b: &'a Canonical, default_hint: &'a [u8]) -> Vec<Named<'a>> {
    vec![
        ("a", LentOctets(&a.lent)),
        ("a_length", Count(a.length)),
        ("b", LentOctets(&b.lent)),
        ("b_length", Count(b.length)),
        ("default_hint", Octets(default_hint)),
    ]
}

fn looking(pair: &Pair, node: u64) -> Vec<Named<'_>> {
    vec![
        ("canonical", LentOctets(&pair.canonical.lent)),
        ("length", Count(pair.canonical.length)),
        ("table", LentNumbers(&pair.table)),
        ("nodes", Count(pair.nodes)),
        ("node", Count(node)),
    ]
}
