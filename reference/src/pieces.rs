//! A canonical text that comes in pieces (S 13).
//!
//! It keeps what the buffers first held and every octet that was fed, so that
//! the cutting cannot matter; the end reads the whole in form 1.

use crate::entries::{read, Reading};
use crate::limits::*;
use crate::place::place;

/// A text on its way.
#[derive(Clone, Debug, PartialEq, Eq)]
pub struct Pieces {
    first: Vec<u8>,
    table_size: usize,
    octets: Vec<u8>,
}

/// What an end tells.
#[derive(Clone, Copy, Debug, PartialEq, Eq)]
pub struct Ended {
    /// As reading the whole tells it.
    pub reading: Reading,
    /// The place that is told with refusal 3; else 0.
    pub place: usize,
}

impl Pieces {
    /// Nothing has come yet. What the lent canonical form holds now is its
    /// first contents; the table's size is counted in numbers.
    pub fn start(canonical: &[u8], table_size: usize) -> Pieces {
        Pieces {
            first: canonical.to_vec(),
            table_size,
            octets: Vec::new(),
        }
    }

    /// Takes a piece: how many octets have been taken so far, where the count
    /// stops one past the most of a source.
    pub fn feed(
        &mut self,
        piece: &[u8],
        canonical: &mut [u8],
        table_size: usize,
    ) -> Result<usize, u32> {
        self.same_sizes(canonical.len(), table_size)?;
        self.octets.extend(piece);
        canonical.copy_from_slice(&self.sheet());
        Ok(self.octets.len().min(MAX_SOURCE + 1))
    }

    /// The lent canonical form now: the octets fed, as far as its room and the
    /// most of a canonical form go, and behind them what it first held.
    pub fn sheet(&self) -> Vec<u8> {
        let mut sheet = self.first.clone();
        let begun = self.octets.len().min(sheet.len()).min(MAX_CANONICAL);
        sheet[..begun].copy_from_slice(&self.octets[..begun]);
        sheet
    }

    /// Reads the whole in form 1 over the first contents. Accepted, that is what
    /// the canonical form and the table then hold; refused, nothing is restored,
    /// and the table has not been touched.
    pub fn end(&self, canonical: &mut [u8], table: &mut [u32]) -> Ended {
        if let Err(refusal) = self.same_sizes(canonical.len(), table.len()) {
            let reading = Reading::Refused(refusal);
            return Ended { reading, place: 0 };
        }
        let mut sheet = self.first.clone();
        let reading = read(CANONICAL, &self.octets, &mut sheet, table);
        let place = match reading {
            Reading::Accepted { .. } => {
                canonical.copy_from_slice(&sheet);
                0
            }
            Reading::Refused(NOT_IN_LANGUAGE) => place(CANONICAL, &self.octets),
            Reading::Refused(_) => 0,
        };
        Ended { reading, place }
    }

    /// Before all else: a buffer of another size than the first time.
    fn same_sizes(&self, room: usize, table_size: usize) -> Result<(), u32> {
        if room == self.first.len() && table_size == self.table_size {
            Ok(())
        } else {
            Err(NOT_OWN)
        }
    }
}
