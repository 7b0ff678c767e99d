//! A spool: sheets that wait in a lent area (S 9).
//!
//! An area is taken apart into its entries, and an addition puts it together
//! again as a whole. The order of the stores is the library's own choice, so
//! nothing here speaks of it.

use crate::entries::tree_of_canonical;
use crate::limits::*;

/// An area without damage.
#[derive(Clone, Debug, Default, PartialEq, Eq)]
pub struct Spool {
    /// Where each sheet starts and ends, in order.
    pub parts: Vec<(usize, usize)>,
    /// Where the entries end.
    pub end: usize,
}

/// What opening an area answers.
#[derive(Clone, Copy, Debug, PartialEq, Eq)]
pub struct Opening {
    /// 0, or the refusal's number.
    pub answer: u32,
    /// How many entries there are.
    pub count: usize,
    /// Start and end of the sheet asked for; equal if there is none such.
    pub part: (usize, usize),
}

/// The entries of an area, or `None` if it is damaged.
pub fn parse(area: &[u8]) -> Option<Spool> {
    let mut spool = Spool::default();
    while area.get(spool.end).is_some_and(|&octet| octet != 0) {
        let (length, groups) = length(&area[spool.end..])?;
        let start = spool.end + groups;
        let sheet = area[start..].get(..length)?;
        tree_of_canonical(sheet, length).ok()?;
        spool.parts.push((start, start + length));
        spool.end = start + length;
    }
    Some(spool)
}

/// The length at the front and how many groups it has: seven bits each, lowest
/// first, top bit set on all but the last. A last group of 0 after others is
/// needless. A length too large for the type stays at the type's largest, which
/// is past any area.
fn length(octets: &[u8]) -> Option<(usize, usize)> {
    let last = octets.iter().position(|&octet| octet < 128)?;
    if last > 0 && octets[last] == 0 {
        return None;
    }
    let value = octets[..=last].iter().rev().fold(0_usize, |value, &octet| {
        value
            .saturating_mul(128)
            .saturating_add(usize::from(octet % 128))
    });
    Some((value, last + 1))
}

/// The groups of a length.
fn groups(mut length: usize) -> Vec<u8> {
    let mut groups = Vec::new();
    while length >= 128 {
        groups.push((length % 128) as u8 + 128);
        length /= 128;
    }
    groups.push(length as u8);
    groups
}

/// A sheet's entry.
pub fn entry(sheet: &[u8]) -> Vec<u8> {
    [groups(sheet.len()), sheet.to_vec()].concat()
}

/// Opens an area at the sheet of a number.
pub fn open(area: &[u8], number: usize) -> Opening {
    match parse(area) {
        Some(spool) => Opening {
            answer: ACCEPTED,
            count: spool.parts.len(),
            part: spool.parts.get(number).copied().unwrap_or((0, 0)),
        },
        None => Opening {
            answer: DAMAGED,
            count: 0,
            part: (0, 0),
        },
    }
}

/// The area with the sheet in the first `length` octets added: the octet behind
/// the new entry becomes 0, if there is one, and those past it stay.
pub fn added(area: &[u8], sheet: &[u8], length: usize) -> Result<Vec<u8>, u32> {
    let end = parse(area).ok_or(DAMAGED)?.end;
    tree_of_canonical(sheet, length)?;
    let entry = entry(&sheet[..length]);
    let mut after = area.to_vec();
    after
        .get_mut(end..end + entry.len())
        .ok_or(TOO_LARGE)?
        .copy_from_slice(&entry);
    if let Some(behind) = after.get_mut(end + entry.len()) {
        *behind = 0;
    }
    Ok(after)
}
