//! The calls that take a node table, whichever way it is lent.

use crate::{ffi, Extent, Refusal};

pub fn read<T>(
    call: ffi::Read<T>,
    form: u32,
    source: &[u8],
    canonical: &mut [u8],
    table: &mut [T],
) -> Result<Extent, Refusal> {
    let (mut extent, mut place) = (Extent::default(), 0);
    // SAFETY: each pointer comes with its slice's own length; what is written
    // to is borrowed mutably, so nothing overlaps.
    let number = unsafe {
        call(
            form,
            source.as_ptr(),
            source.len(),
            canonical.as_mut_ptr(),
            canonical.len(),
            table.as_mut_ptr(),
            table.len(),
            &mut extent.length,
            &mut extent.nodes,
            &mut place,
        )
    };
    Refusal::check_at(number, place, extent)
}

pub fn replace<T>(
    call: ffi::Replace<T>,
    form: u32,
    text: &[u8],
    canonical: &mut [u8],
    table: &mut [T],
    sheet: Extent,
    node: usize,
) -> Result<Extent, Refusal> {
    let (mut extent, mut place) = (Extent::default(), 0);
    // SAFETY: as in `read`.
    let number = unsafe {
        call(
            form,
            text.as_ptr(),
            text.len(),
            canonical.as_mut_ptr(),
            canonical.len(),
            table.as_mut_ptr(),
            table.len(),
            sheet.length,
            sheet.nodes,
            node,
            &mut extent.length,
            &mut extent.nodes,
            &mut place,
        )
    };
    Refusal::check_at(number, place, extent)
}

pub fn part<T>(
    look: ffi::Look<T>,
    canonical: &[u8],
    table: &[T],
    sheet: Extent,
    node: usize,
) -> Option<(usize, usize)> {
    let (mut start, mut end) = (0, 0);
    // SAFETY: as in `read`.
    let found = unsafe {
        look(
            canonical.as_ptr(),
            canonical.len(),
            sheet.length,
            table.as_ptr(),
            table.len(),
            sheet.nodes,
            node,
            &mut start,
            &mut end,
        )
    };
    (found == 1).then_some((start, end))
}
