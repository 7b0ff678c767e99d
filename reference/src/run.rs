//! Sheets written back to back (S 12.2, 12.3).

use crate::canonical;

/// How many octets of a run are its first sheet, a canonical form of any size;
/// 0 where none begins. No canonical form begins another, so the shortest front
/// that is one is the only one.
pub fn split(run: &[u8]) -> usize {
    let is_sheet = |length: &usize| canonical::parse(&run[..*length]).is_some();
    (1..=run.len()).find(is_sheet).unwrap_or(0)
}

/// The sheets of a run, one after another, and what is left where none begins.
pub fn sheets(run: &[u8]) -> (Vec<&[u8]>, &[u8]) {
    let (mut sheets, mut rest) = (Vec::new(), run);
    loop {
        let (sheet, behind) = rest.split_at(split(rest));
        if sheet.is_empty() {
            return (sheets, rest);
        }
        sheets.push(sheet);
        rest = behind;
    }
}
