//! A reader as one would write it in Rust without a proof in mind: it goes
//! through the text once, pushes canonical octets and records to its own
//! vectors, which it keeps from one text to the next, and copies them to what
//! is lent when nothing can be refused any more. Its answers are the library's.

mod octets;
mod strings;

use etglavino::{Extent, Refusal, MAX_CANONICAL, MAX_DEPTH, MAX_SOURCE, RECORD};
use octets::is_whitespace;

/// A reader, with the vectors that it works in.
#[derive(Default)]
pub struct Reader {
    canonical: Vec<u8>,
    records: Vec<[u32; RECORD]>,
    /// The node numbers of lists that are open.
    open: Vec<usize>,
    deepest: usize,
    scratch: Vec<u8>,
}

impl Reader {
    /// A reader.
    pub fn new() -> Reader {
        Reader::default()
    }

    /// What `etglavino::read_form` does.
    ///
    /// # Errors
    ///
    /// Refusals 1 to 6, the first that applies.
    pub fn read(
        &mut self,
        form: u32,
        source: &[u8],
        canonical: &mut [u8],
        table: &mut [u32],
    ) -> Result<Extent, Refusal> {
        if !(1..=4).contains(&form) {
            return Err(Refusal::Form);
        }
        if source.len() > MAX_SOURCE {
            return Err(Refusal::SourceSize);
        }
        self.clear();
        let found = match (form, source.first()) {
            (2, Some(b'{')) => self.braced(source),
            (3, _) => self.advanced(source, false),
            (4, _) => self.advanced(source, true),
            _ => self.canonical(source),
        };
        found.ok_or(Refusal::Syntax { place: 0 })?;
        self.hand_out(canonical, table)
    }

    fn clear(&mut self) {
        self.canonical.clear();
        self.records.clear();
        self.open.clear();
        self.deepest = 0;
    }

    /// Copies to what is lent, if everything fits.
    fn hand_out(&self, canonical: &mut [u8], table: &mut [u32]) -> Result<Extent, Refusal> {
        let (length, nodes) = (self.canonical.len(), self.records.len());
        if self.deepest > MAX_DEPTH {
            return Err(Refusal::Depth);
        }
        if nodes > table.len() / RECORD {
            return Err(Refusal::Nodes);
        }
        if length > MAX_CANONICAL.min(canonical.len()) {
            return Err(Refusal::Size);
        }
        canonical[..length].copy_from_slice(&self.canonical);
        table[..nodes * RECORD].copy_from_slice(self.records.as_flattened());
        Ok(Extent { length, nodes })
    }

    fn braced(&mut self, source: &[u8]) -> Option<()> {
        let mut decoded = std::mem::take(&mut self.scratch);
        decoded.clear();
        let whole = strings::base64(source, 1, b'}', &mut decoded) == Some(source.len());
        let found = if whole {
            self.canonical(&decoded)
        } else {
            None
        };
        self.scratch = decoded;
        found
    }

    /// One value in advanced form, and whitespace; perhaps with trees in braces.
    fn advanced(&mut self, source: &[u8], braces: bool) -> Option<()> {
        let mut at = 0;
        loop {
            at = spaces(source, at);
            if self.complete() {
                return (at == source.len()).then_some(());
            }
            at = match *source.get(at)? {
                b'(' => self.open(at),
                b')' => self.close(at)?,
                b'[' => self.hinted(source, at)?,
                b'{' if braces => self.inner(source, at)?,
                _ => self.string(source, at)?,
            };
        }
    }

    /// A tree in braces; the place after them. It is read by itself, and its
    /// records are moved to where its octets and its nodes go.
    fn inner(&mut self, source: &[u8], at: usize) -> Option<usize> {
        let mut decoded = Vec::new();
        let next = strings::base64(source, at + 1, b'}', &mut decoded)?;
        let mut tree = Reader::new();
        tree.canonical(&decoded)?;
        let from = self.canonical.len() as u32;
        let (around, first) = (self.around() as u32, self.records.len() as u32);
        self.deepest = self.deepest.max(self.open.len() + tree.deepest);
        self.canonical.append(&mut tree.canonical);
        for (node, mut record) in tree.records.into_iter().enumerate() {
            // A hint's places are 0 where there is none.
            let moved = if record[0] == 1 { 4..8 } else { 6..8 };
            for place in (1..3).chain(moved) {
                record[place] += from;
            }
            record[8] = if node == 0 { around } else { first + record[8] };
            self.records.push(record);
        }
        Some(next)
    }

    fn string(&mut self, source: &[u8], at: usize) -> Option<usize> {
        let start = self.canonical.len();
        let (next, data) = strings::simple(source, at, &mut self.scratch, &mut self.canonical)?;
        self.record(0, start, (0, 0), data);
        Some(next)
    }

    fn hinted(&mut self, source: &[u8], at: usize) -> Option<usize> {
        let start = self.canonical.len();
        self.canonical.push(b'[');
        let at = spaces(source, at + 1);
        let (next, from) = strings::simple(source, at, &mut self.scratch, &mut self.canonical)?;
        let hint = (from, self.canonical.len());
        let at = spaces(source, next);
        if *source.get(at)? != b']' {
            return None;
        }
        self.canonical.push(b']');
        let at = spaces(source, at + 1);
        let (next, data) = strings::simple(source, at, &mut self.scratch, &mut self.canonical)?;
        self.record(1, start, hint, data);
        Some(next)
    }

    /// One value in canonical form. Its octets are known to be the source's, so
    /// that only the table has to be made on the way.
    fn canonical(&mut self, source: &[u8]) -> Option<()> {
        self.canonical.extend_from_slice(source);
        let mut at = 0;
        while !self.complete() {
            at = match *source.get(at)? {
                b'(' => self.opened(at),
                b')' => self.closed(at)?,
                b'[' => {
                    let hint = verbatim(source, at + 1)?;
                    if *source.get(hint.1)? != b']' {
                        return None;
                    }
                    let data = verbatim(source, hint.1 + 1)?;
                    self.records.push(row(1, at, hint, data, self.around()));
                    data.1
                }
                _ => {
                    let data = verbatim(source, at)?;
                    self.records.push(row(0, at, (0, 0), data, self.around()));
                    data.1
                }
            };
        }
        (at == source.len()).then_some(())
    }

    fn complete(&self) -> bool {
        self.open.is_empty() && !self.records.is_empty()
    }

    fn open(&mut self, at: usize) -> usize {
        self.opened(self.canonical.len());
        self.canonical.push(b'(');
        at + 1
    }

    fn close(&mut self, at: usize) -> Option<usize> {
        self.closed(self.canonical.len())?;
        self.canonical.push(b')');
        Some(at + 1)
    }

    /// A list begins at this place of the canonical octets.
    fn opened(&mut self, at: usize) -> usize {
        let around = self.around();
        self.open.push(self.records.len());
        self.deepest = self.deepest.max(self.open.len());
        self.records
            .push(row(2, at, (0, 0), (at + 1, at + 1), around));
        at + 1
    }

    /// The list opened last has its closing parenthesis at this place.
    fn closed(&mut self, at: usize) -> Option<usize> {
        let node = self.open.pop()?;
        let nodes = self.records.len() - node;
        let record = &mut self.records[node];
        record[2] = at as u32 + 1;
        record[3] = nodes as u32;
        record[7] = at as u32;
        Some(at + 1)
    }

    /// The string that was just written up to the end.
    fn record(&mut self, kind: u32, start: usize, hint: (usize, usize), data: usize) {
        let data = (data, self.canonical.len());
        self.records
            .push(row(kind, start, hint, data, self.around()));
    }

    /// The list that is open, 0 where none is.
    fn around(&self) -> usize {
        self.open.last().copied().unwrap_or(0)
    }
}

/// The record of a string or of a list just opened: it ends where its data does.
fn row(
    kind: u32,
    start: usize,
    hint: (usize, usize),
    data: (usize, usize),
    around: usize,
) -> [u32; RECORD] {
    // A source has at most 32,768 octets, three times which fit.
    let [start, from, to, begin, end, around] =
        [start, hint.0, hint.1, data.0, data.1, around].map(|n| n as u32);
    [kind, start, end, 1, from, to, begin, end, around]
}

/// The place after whitespace.
fn spaces(source: &[u8], at: usize) -> usize {
    let rest = &source[at..];
    let solid = rest.iter().position(|octet| !is_whitespace(*octet));
    at + solid.unwrap_or(rest.len())
}

/// Where the octets of a verbatim string stand.
fn verbatim(source: &[u8], at: usize) -> Option<(usize, usize)> {
    source.get(at).filter(|octet| octet.is_ascii_digit())?;
    let (length, colon) = strings::decimal(source, at)?;
    let start = colon + 1;
    let end = start.checked_add(length)?;
    (source.get(colon) == Some(&b':') && end <= source.len()).then_some((start, end))
}
