//! A terminal whose line is slow: a canonical text comes in scraps, some empty.

use etglavino::{OwnedSheet, Pieces, Record, Refusal, MAX_CANONICAL, MAX_NODES};

use crate::rng::Rng;

/// Space that is lent for sheet after sheet, and how the line cuts them.
pub struct Terminal {
    octets: Vec<u8>,
    records: Vec<Record>,
    rng: Rng,
}

impl Terminal {
    pub fn new(seed: u64) -> Terminal {
        Terminal {
            octets: vec![0; MAX_CANONICAL],
            records: vec![Record::default(); MAX_NODES],
            rng: Rng(seed),
        }
    }

    /// The sheet of a text, fed as it comes.
    pub fn sheet(&mut self, text: &[u8]) -> Result<OwnedSheet, Refusal> {
        let mut pieces = Pieces::start(&mut self.octets[..], &mut self.records[..]);
        let mut rest = text;
        while !rest.is_empty() {
            let most = rest.len().min(120) as u64;
            let (scrap, behind) = rest.split_at(self.rng.below(most + 1) as usize);
            pieces.feed(scrap);
            rest = behind;
        }
        let sheet = pieces.end()?;
        let (octets, records) = (sheet.canonical().to_vec(), sheet.records().to_vec());
        OwnedSheet::of(octets, records, sheet.extent())
    }
}
