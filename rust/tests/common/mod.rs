//! What the tests share. Expected values are those of docs/SPECIFICATION.md,
//! which "S 16.1" cites, or worked out from it by hand.
#![allow(dead_code)] // Each test file uses a part of it.

#[cfg(target_os = "linux")]
pub mod spools;

use etglavino::{Extent, Refusal, MAX_CANONICAL, MAX_NODES, RECORD};

/// What a lent octet holds before an entry runs.
pub const OCTET: u8 = 0xa5;
/// What a lent number holds before an entry runs.
pub const NUMBER: u32 = 0xdead_beef;

/// The list of S 16.1.
pub const LIST: &[u8] = b"(3:abc[1:x]0:)";
/// Its table, as S 16.1 has it.
pub const LIST_TABLE: [u32; 27] = [
    2, 0, 14, 3, 0, 0, 1, 13, 0, //
    0, 1, 6, 1, 0, 0, 3, 6, 0, //
    1, 6, 13, 1, 9, 10, 13, 13, 0,
];

/// Octets of a sheet and numbers of its table, or why not.
pub type Read = Result<(Vec<u8>, Vec<u32>), Refusal>;

/// Reads with room for any tree that fits.
pub fn read(form: u32, source: &[u8]) -> Read {
    read_in(form, source, MAX_CANONICAL + 9, (MAX_NODES + 2) * RECORD)
}

/// Reads in just that much room. Whatever is not the sheet's must keep what it
/// held, and in a refusal that is everything.
pub fn read_in(form: u32, source: &[u8], room: usize, numbers: usize) -> Read {
    let mut canonical = vec![OCTET; room];
    let mut table = vec![NUMBER; numbers];
    let answer = etglavino::read_form(form, source, &mut canonical, &mut table);
    let sheet = answer.unwrap_or_default();
    let (octets, past) = canonical.split_at(sheet.length);
    let (records, beyond) = table.split_at(sheet.nodes * RECORD);
    assert!(past.iter().all(|octet| *octet == OCTET));
    assert!(beyond.iter().all(|number| *number == NUMBER));
    answer.map(|_| (octets.to_vec(), records.to_vec()))
}

/// A sheet with a table in lent room.
#[derive(Clone, Debug, PartialEq)]
pub struct Sheet {
    pub canonical: Vec<u8>,
    pub table: Vec<u32>,
    pub extent: Extent,
}

impl Sheet {
    /// Exactly these octets and numbers, and nothing past them.
    pub fn exact(octets: &[u8], table: &[u32]) -> Sheet {
        Sheet {
            canonical: octets.to_vec(),
            table: table.to_vec(),
            extent: Extent {
                length: octets.len(),
                nodes: table.len() / RECORD,
            },
        }
    }

    /// The same with so many octets and numbers to spare.
    pub fn spare(mut self, octets: usize, numbers: usize) -> Sheet {
        self.canonical.extend(vec![OCTET; octets]);
        self.table.extend(vec![NUMBER; numbers]);
        self
    }

    /// The list of S 16.1 with room to spare.
    pub fn list() -> Sheet {
        Sheet::exact(LIST, &LIST_TABLE).spare(40, 43)
    }

    /// What reading this in form 1 gives, with room for any tree that fits.
    pub fn of(octets: &[u8]) -> Sheet {
        let (octets, table) = read(1, octets).expect("a fitting canonical form");
        let (room, numbers) = (
            MAX_CANONICAL - octets.len(),
            MAX_NODES * RECORD - table.len(),
        );
        Sheet::exact(&octets, &table).spare(room, numbers)
    }

    /// Replaces a node; in a refusal nothing may have changed.
    pub fn replace(&mut self, form: u32, text: &[u8], node: usize) -> Result<Extent, Refusal> {
        let before = self.clone();
        let answer = etglavino::replace_form(
            form,
            text,
            &mut self.canonical,
            &mut self.table,
            self.extent,
            node,
        );
        match answer {
            Ok(extent) => self.extent = extent,
            Err(_) => assert_eq!(*self, before),
        }
        answer
    }
}

/// That many lists, each the only element of the one around it.
pub fn nested(depth: usize) -> Vec<u8> {
    [vec![b'('; depth], vec![b')'; depth]].concat()
}

/// A list of that many empty strings.
pub fn empties(count: usize) -> Vec<u8> {
    format!("({})", "0:".repeat(count)).into_bytes()
}

/// A string of that many octets in canonical form.
pub fn verbatim(count: usize) -> Vec<u8> {
    format!("{count}:{}", "v".repeat(count)).into_bytes()
}

/// The text with spaces after it, up to that size.
pub fn padded(text: &[u8], size: usize) -> Vec<u8> {
    let mut padded = text.to_vec();
    padded.resize(size, b' ');
    padded
}
