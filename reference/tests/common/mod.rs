//! What the tests share.
#![allow(dead_code, unused_imports)] // Each test file uses a part of it.

pub use reference::corpus::fixed::sizes::{empties, nested, verbatim};
use reference::entries::{self, Reading};
use reference::limits::{MAX_CANONICAL, MAX_NODES, RECORD};
use reference::tree::Tree;

/// What a lent octet holds before an entry runs.
pub const OCTET: u8 = 0xa5;
/// What a lent number holds before an entry runs.
pub const NUMBER: u32 = 0xdead_beef;

/// The list of S 16.1.
pub const LIST: &[u8] = b"(3:abc[1:x]0:)";
/// Its records, as S 16.1 has them.
pub const LIST_RECORDS: [[u32; RECORD]; 3] = [
    [2, 0, 14, 3, 0, 0, 1, 13, 0],
    [0, 1, 6, 1, 0, 0, 3, 6, 0],
    [1, 6, 13, 1, 9, 10, 13, 13, 0],
];

/// Canonical octets and records, or a refusal's number.
pub type Laid = Result<(Vec<u8>, Vec<[u32; RECORD]>), u32>;

/// Reads with room for any tree that fits, and checks that nothing past the
/// counts changed, or nothing at all in a refusal.
pub fn read(form: u32, source: &[u8]) -> Laid {
    read_into(
        form,
        source,
        MAX_CANONICAL + 20,
        (MAX_NODES + 1) * RECORD + 5,
    )
}

/// The same in just that much room.
pub fn read_into(form: u32, source: &[u8], room: usize, numbers: usize) -> Laid {
    let mut canonical = vec![OCTET; room];
    let mut table = vec![NUMBER; numbers];
    let reading = entries::read(form, source, &mut canonical, &mut table);
    let (length, nodes) = match reading {
        Reading::Accepted { length, nodes } => (length, nodes),
        Reading::Refused(_) => (0, 0),
    };
    assert!(canonical[length..].iter().all(|octet| *octet == OCTET));
    assert!(table[nodes * RECORD..]
        .iter()
        .all(|number| *number == NUMBER));
    match reading {
        Reading::Accepted { .. } => {
            let (records, _) = table[..nodes * RECORD].as_chunks();
            Ok((canonical[..length].to_vec(), records.to_vec()))
        }
        Reading::Refused(refusal) => Err(refusal),
    }
}

/// Only the canonical octets.
pub fn canonical(form: u32, source: &[u8]) -> Result<Vec<u8>, u32> {
    read(form, source).map(|(octets, _)| octets)
}

/// A canonical form with its own table in just that much room.
pub struct Pair {
    pub canonical: Vec<u8>,
    pub table: Vec<u32>,
    pub length: usize,
    pub nodes: usize,
}

impl Pair {
    /// In room that suffices, else the test fails.
    pub fn new(octets: &[u8], room: usize, numbers: usize) -> Pair {
        let mut canonical = vec![OCTET; room];
        let mut table = vec![NUMBER; numbers];
        match entries::read(1, octets, &mut canonical, &mut table) {
            Reading::Accepted { length, nodes } => Pair {
                canonical,
                table,
                length,
                nodes,
            },
            Reading::Refused(refusal) => panic!("the canonical form was refused with {refusal}"),
        }
    }

    /// With 50 octets and 10 records and 3 numbers to spare.
    pub fn roomy(octets: &[u8]) -> Pair {
        let nodes = reference::canonical::parse(octets).unwrap().nodes();
        Pair::new(octets, octets.len() + 50, (nodes + 10) * RECORD + 3)
    }

    /// Replaces a node in place.
    pub fn replace(&mut self, form: u32, text: &[u8], node: usize) -> Reading {
        let (length, nodes) = (self.length, self.nodes);
        entries::replace(
            form,
            text,
            &mut self.canonical,
            &mut self.table,
            length,
            nodes,
            node,
        )
    }

    /// The refusal, with a check that nothing changed.
    pub fn refusal(mut self, form: u32, text: &[u8], node: usize) -> u32 {
        let before = (self.canonical.clone(), self.table.clone());
        let reading = self.replace(form, text, node);
        assert_eq!(before, (self.canonical, self.table));
        match reading {
            Reading::Refused(refusal) => refusal,
            Reading::Accepted { .. } => panic!("accepted"),
        }
    }
}

/// A text with spaces after it up to that size.
pub fn padded(text: &[u8], size: usize) -> Vec<u8> {
    [text, &vec![b' '; size - text.len()]].concat()
}

/// The tree of a canonical form.
pub fn tree(octets: &[u8]) -> Tree {
    reference::canonical::parse(octets).unwrap()
}
