//! Cases as octets of the cases file, and back.

use super::case::*;

/// A case with its size in front.
///
/// # Panics
///
/// If the case is larger than a consumer is promised.
pub fn encode(case: &Case) -> Vec<u8> {
    let mut rest = vec![case.code()];
    for (name, argument) in case.arguments() {
        match argument {
            Argument::Form(form) => rest.extend(form.to_le_bytes()),
            Argument::Count(count) => rest.extend(count.to_le_bytes()),
            Argument::Octets(octets) => {
                assert!(octets.len() <= MAX_SLICE, "a slice is too large");
                rest.extend(size(octets.len()));
                rest.extend(octets);
            }
            Argument::LentOctets(lent) => {
                let most = if name == "out" {
                    MAX_OUT_ROOM
                } else {
                    MAX_CANONICAL_ROOM
                };
                rest.extend(lent_head(lent, most));
                rest.extend(&lent.given);
            }
            Argument::LentNumbers(lent) => {
                rest.extend(lent_head(lent, MAX_TABLE_ROOM));
                rest.extend(lent.given.iter().flat_map(|number| number.to_le_bytes()));
            }
        }
    }
    assert!(rest.len() < MAX_CASE, "a case is too large");
    [&size(rest.len())[..], &rest].concat()
}

fn size(count: usize) -> [u8; 4] {
    u32::try_from(count)
        .expect("sizes in a corpus are small")
        .to_le_bytes()
}

fn lent_head<T>(lent: &Lent<T>, most: usize) -> Vec<u8> {
    assert!(
        lent.room <= most && lent.given.len() <= lent.room,
        "a lent buffer is too large"
    );
    [&size(lent.room)[..], &[lent.fill], &size(lent.given.len())].concat()
}

/// All cases of a file; the error says what is wrong with it.
pub fn decode_all(mut file: &[u8]) -> Result<Vec<Case>, String> {
    let mut cases = Vec::new();
    while !file.is_empty() {
        let mut reader = Reader { rest: file };
        let case = reader
            .size()
            .and_then(|count| reader.take(count))
            .and_then(decode)
            .ok_or_else(|| format!("case {} is not well formed", cases.len()))?;
        cases.push(case);
        file = reader.rest;
    }
    Ok(cases)
}

/// One case, without its size; `None` if the octets are not exactly one.
pub fn decode(rest: &[u8]) -> Option<Case> {
    let mut reader = Reader { rest };
    let case = reader.case()?;
    reader.rest.is_empty().then_some(case)
}

struct Reader<'a> {
    rest: &'a [u8],
}

impl<'a> Reader<'a> {
    fn take(&mut self, count: usize) -> Option<&'a [u8]> {
        let (taken, rest) = self.rest.split_at_checked(count)?;
        self.rest = rest;
        Some(taken)
    }

    fn form(&mut self) -> Option<u32> {
        Some(u32::from_le_bytes(self.take(4)?.try_into().ok()?))
    }

    fn count(&mut self) -> Option<u64> {
        Some(u64::from_le_bytes(self.take(8)?.try_into().ok()?))
    }

    fn size(&mut self) -> Option<usize> {
        usize::try_from(self.form()?).ok()
    }

    fn octets(&mut self) -> Option<Vec<u8>> {
        let count = self.size()?;
        Some(self.take(count)?.to_vec())
    }

    /// Room, fill and count of a lent buffer. The room is bounded, so that a
    /// file that is no corpus cannot make the program take all memory.
    fn lent_head(&mut self, most: usize) -> Option<(usize, u8, usize)> {
        let room = self.size()?;
        let fill = self.take(1)?[0];
        let count = self.size()?;
        (room <= most && count <= room).then_some((room, fill, count))
    }

    fn lent_octets(&mut self, most: usize) -> Option<Lent<u8>> {
        let (room, fill, count) = self.lent_head(most)?;
        let given = self.take(count)?.to_vec();
        Some(Lent { room, fill, given })
    }

    fn lent_canonical(&mut self) -> Option<Lent<u8>> {
        self.lent_octets(MAX_CANONICAL_ROOM)
    }

    fn table(&mut self) -> Option<Lent<u32>> {
        let (room, fill, count) = self.lent_head(MAX_TABLE_ROOM)?;
        let given = (0..count).map(|_| self.form()).collect::<Option<_>>()?;
        Some(Lent { room, fill, given })
    }

    fn canonical(&mut self) -> Option<Canonical> {
        let lent = self.lent_canonical()?;
        let length = self.count()?;
        Some(Canonical { lent, length })
    }

    fn pair(&mut self) -> Option<Pair> {
        let canonical = self.canonical()?;
        let table = self.table()?;
        let nodes = self.count()?;
        Some(Pair {
            canonical,
            table,
            nodes,
        })
    }

    fn case(&mut self) -> Option<Case> {
        Some(match self.take(1)?[0] {
            1 => Case::Read {
                form: self.form()?,
                source: self.octets()?,
                canonical: self.lent_canonical()?,
                table: self.table()?,
            },
            2 => Case::Write {
                form: self.form()?,
                canonical: self.canonical()?,
                out: self.lent_octets(MAX_OUT_ROOM)?,
            },
            3 => self.replace()?,
            4 => Case::Same {
                a: self.canonical()?,
                b: self.canonical()?,
                default_hint: self.octets()?,
            },
            5 => Case::Hint {
                pair: self.pair()?,
                node: self.count()?,
                default_hint: self.octets()?,
            },
            6 => Case::Data {
                pair: self.pair()?,
                node: self.count()?,
            },
            _ => return None,
        })
    }

    /// Replace takes both buffers before their counts.
    fn replace(&mut self) -> Option<Case> {
        let form = self.form()?;
        let text = self.octets()?;
        let lent = self.lent_canonical()?;
        let table = self.table()?;
        let length = self.count()?;
        let nodes = self.count()?;
        let node = self.count()?;
        let canonical = Canonical { lent, length };
        let pair = Pair {
            canonical,
            table,
            nodes,
        };
        Some(Case::Replace {
            form,
            text,
            pair,
            node,
        })
    }
}
