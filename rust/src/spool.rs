//! A spool: sheets that wait in a lent area, which stands a power cut after
//! any octet that is stored.

use crate::{ffi, Refusal};

/// What opening an area tells.
#[derive(Clone, Copy, Debug, Default, PartialEq, Eq, Hash)]
pub struct Opened {
    /// How many entries there are.
    pub count: usize,
    /// Where the sheet asked for starts in the area.
    pub start: usize,
    /// Where it ends; it is empty, and both are 0, if there is none such.
    pub end: usize,
}

/// Opens an area at the sheet of a number from 0. An octet 0 where a length
/// would start, or the area's end, ends the spool; an area of zeros is empty.
///
/// # Errors
///
/// [`Refusal::Damaged`].
pub fn spool_open(area: &[u8], number: usize) -> Result<Opened, Refusal> {
    let mut opened = Opened::default();
    // SAFETY: the pointer comes with its slice's own length.
    let refusal = unsafe {
        ffi::etg_spool_open(
            area.as_ptr(),
            area.len(),
            number,
            &mut opened.count,
            &mut opened.start,
            &mut opened.end,
        )
    };
    Refusal::check(refusal, opened)
}

/// The sheet of a number: the part of the area that holds it, and an empty part
/// if the area is damaged or there is none such.
pub fn spool_shown(area: &[u8], number: usize) -> &[u8] {
    let opened = spool_open(area, number).unwrap_or_default();
    &area[opened.start..opened.end]
}

/// All sheets of an area, in order. The area is opened once, which judges every
/// entry; what is left is to go from one to the next.
///
/// # Errors
///
/// [`Refusal::Damaged`].
pub fn spool_sheets(area: &[u8]) -> Result<Sheets<'_>, Refusal> {
    let left = spool_open(area, 0)?.count;
    Ok(Sheets { area, left })
}

/// The sheets of an area that are still to come.
#[derive(Clone, Debug)]
pub struct Sheets<'a> {
    area: &'a [u8],
    left: usize,
}

impl<'a> Iterator for Sheets<'a> {
    type Item = &'a [u8];

    fn next(&mut self) -> Option<&'a [u8]> {
        self.left = self.left.checked_sub(1)?;
        let last = self.area.iter().position(|octet| *octet < 128)?;
        let (groups, rest) = self.area.split_at(last + 1);
        let length = groups
            .iter()
            .rev()
            .fold(0, |length, group| length * 128 + usize::from(group % 128));
        let (sheet, rest) = rest.split_at(length);
        self.area = rest;
        Some(sheet)
    }

    fn size_hint(&self) -> (usize, Option<usize>) {
        (self.left, Some(self.left))
    }
}

impl ExactSizeIterator for Sheets<'_> {}

/// Adds the sheet in the first `length` octets of `sheet`: all stores of an
/// [`Adding`] in one call, for an area that nobody sees meanwhile. One that has
/// to stand a cut is added to by an [`Adding`]'s steps. The octet behind the new
/// entry becomes 0, if the area has one; those past it stay.
///
/// # Errors
///
/// [`Refusal`]s 10, 7 and 6, the first that applies; the area then holds what it
/// held.
pub fn spool_add(area: &mut [u8], sheet: &[u8], length: usize) -> Result<(), Refusal> {
    // SAFETY: each pointer comes with its slice's own length; the area is
    // borrowed mutably, so nothing overlaps.
    let refusal = unsafe {
        ffi::etg_spool_add(
            area.as_mut_ptr(),
            area.len(),
            sheet.as_ptr(),
            sheet.len(),
            length,
        )
    };
    Refusal::check(refusal, ())
}

/// An addition under way, one octet store at a time. Whichever store a cut comes
/// behind, opening shows the old entries alone or with the new one behind them.
///
/// Any numbers may stand in it, and area and sheet may be others than those of
/// the start: a step then stores nothing, or one octet inside the area.
#[derive(Clone, Copy, Debug, PartialEq, Eq, Hash)]
pub struct Adding([u64; 4]);

impl Adding {
    /// Starts to add the sheet in the first `length` octets of `sheet`. Only
    /// the checks are made.
    ///
    /// # Errors
    ///
    /// [`Refusal`]s 10, 7 and 6, the first that applies.
    pub fn start(area: &[u8], sheet: &[u8], length: usize) -> Result<Adding, Refusal> {
        let mut state = Adding([0; 4]);
        // SAFETY: as in `spool_add`.
        let refusal = unsafe {
            ffi::etg_spool_add_start(
                area.as_ptr(),
                area.len(),
                sheet.as_ptr(),
                sheet.len(),
                length,
                &mut state.0,
            )
        };
        Refusal::check(refusal, state)
    }

    /// The numbers of a state, which are the library's own business.
    pub fn numbers(self) -> [u64; 4] {
        self.0
    }

    /// The state of these numbers, whatever they are.
    pub fn from_numbers(numbers: [u64; 4]) -> Adding {
        Adding(numbers)
    }

    /// Stores one octet. Whether the addition is done, which is told with its
    /// last store; a state that is done stores nothing.
    #[inline] // a step is then one call
    pub fn step(&mut self, area: &mut [u8], sheet: &[u8]) -> bool {
        // SAFETY: as in `spool_add`.
        let done = unsafe {
            ffi::etg_spool_add_step(
                &mut self.0,
                area.as_mut_ptr(),
                area.len(),
                sheet.as_ptr(),
                sheet.len(),
            )
        };
        done == 1
    }

    /// Whether the next step makes the last store, which shows the entry. An
    /// area that lies on a disk is synced before it and after it; the stores
    /// before it may reach the disk in any order.
    pub fn commits(&self, area: &[u8], sheet: &[u8]) -> bool {
        // SAFETY: as in `spool_add`.
        let last = unsafe {
            ffi::etg_spool_add_commits(
                &self.0,
                area.as_ptr(),
                area.len(),
                sheet.as_ptr(),
                sheet.len(),
            )
        };
        last == 1
    }
}

#[cfg(test)]
mod tests {
    use super::*;

    /// "a refused start's, stores nothing": the state is not given out above.
    #[test]
    fn a_refused_start_stores_nothing() {
        for (area, sheet) in [
            (&b"\x82\0()"[..], &b"()"[..]),
            (b"\0\0\0\0", b"("),
            (b"\0\0", b"()"),
        ] {
            let mut state = [7; 4];
            let refusal = unsafe {
                ffi::etg_spool_add_start(
                    area.as_ptr(),
                    area.len(),
                    sheet.as_ptr(),
                    sheet.len(),
                    sheet.len(),
                    &mut state,
                )
            };
            assert_ne!(refusal, 0);
            let (mut adding, mut after) = (Adding(state), area.to_vec());
            assert!(!adding.commits(&after, sheet));
            assert!(adding.step(&mut after, sheet));
            assert_eq!(after, area);
        }
    }
}
