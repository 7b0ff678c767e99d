//! Sheets written back to back: where the first of them ends, and all of them
//! one after another.

extern "C" {
    fn etg_split(run: *const u8, run_len: usize) -> usize;
}

/// How many octets of a run of sheets are its first one; nothing where none
/// begins. The run may have any length, and the sheet any size and depth:
/// whether it fits the limits is for whoever reads it to say. Only the first
/// sheet is gone through.
///
/// ```
/// assert_eq!(etglavino::split(b"(1:a)0:"), Some(5));
/// assert_eq!(etglavino::split(b"(1:a"), None);
/// ```
pub fn split(run: &[u8]) -> Option<usize> {
    // SAFETY: the pointer comes with its slice's own length, and nothing is
    // written.
    match unsafe { etg_split(run.as_ptr(), run.len()) } {
        0 => None,
        octets => Some(octets),
    }
}

/// The sheets of a run, one after another. What is left where none begins is
/// told by [`Run::rest`]: nothing, if the run is whole.
///
/// ```
/// let mut run = etglavino::run(b"(1:a)0:2:x");
/// assert_eq!(run.next(), Some(&b"(1:a)"[..]));
/// assert_eq!(run.next(), Some(&b"0:"[..]));
/// assert_eq!(run.next(), None);
/// assert_eq!(run.rest(), b"2:x");
/// ```
pub fn run(octets: &[u8]) -> Run<'_> {
    Run { rest: octets }
}

/// What is still to come of a run of sheets.
#[derive(Clone, Debug)]
pub struct Run<'a> {
    rest: &'a [u8],
}

impl<'a> Run<'a> {
    /// The octets that no sheet has been taken from.
    pub fn rest(&self) -> &'a [u8] {
        self.rest
    }
}

impl<'a> Iterator for Run<'a> {
    type Item = &'a [u8];

    fn next(&mut self) -> Option<&'a [u8]> {
        let (sheet, rest) = self.rest.split_at(split(self.rest)?);
        self.rest = rest;
        Some(sheet)
    }
}

impl core::iter::FusedIterator for Run<'_> {}
