//! S-expressions (RFC 9804) read, written, corrected and compared by a library
//! whose every answer is proved.
//!
//! Texts come in in four [forms](Form) and go out in three. A tree's canonical
//! octets in lent space, with their length, are a *sheet*; its node table has nine
//! numbers to a node, lent flat or as [`Record`]s. Everything goes into slices
//! that the caller lends; nothing is allocated. After an `Err` every lent slice
//! holds what it held, but for the octets of [`Pieces`].
//!
//! ```
//! use etglavino::Form;
//!
//! let (mut canonical, mut table) = ([0; 64], [0; 64]);
//! let sheet = etglavino::read(Form::Advanced, b"(abc [x]\"\")", &mut canonical, &mut table)?;
//! assert_eq!(&canonical[..sheet.length], b"(3:abc[1:x]0:)");
//!
//! let sheet = etglavino::replace(Form::Advanced, b"\"hi\"", &mut canonical, &mut table, sheet, 1)?;
//! let mut out = [0; 64];
//! let written = etglavino::write(Form::Advanced, &canonical, sheet.length, &mut out)?;
//! assert_eq!(&out[..written], b"(hi [x]\"\")");
//! # Ok::<(), etglavino::Refusal>(())
//! ```
//!
//! A [`Sheet`] keeps octets, records and counts together, in lent space or in
//! vectors, and has iterators over its nodes. [`Pieces`] make one of a canonical
//! text that comes in scraps. Without the feature `std`, which
//! is on by default, the crate needs no standard library: what is owned, and
//! the spool in a file, are missing then.
#![cfg_attr(not(feature = "std"), no_std)]

mod corrections;
mod extract;
mod ffi;
mod form;
mod node;
mod pieces;
mod records;
mod refusal;
mod room;
mod run;
mod sheet;
mod spool;
#[cfg(all(feature = "std", target_os = "linux"))]
mod spool_file;
#[cfg(all(feature = "std", target_os = "linux"))]
mod spool_map;
mod table;
mod value;

pub use corrections::{
    insert, insert_form, insert_records, insert_records_form, remove, remove_records, Slot,
};
pub use extract::{extract, extract_own, extract_own_records, extract_records};
pub use form::Form;
pub use node::{Ancestors, Children, Kind, Node, Nodes};
#[cfg(feature = "std")]
pub use pieces::OwnedPieces;
pub use pieces::{LentPieces, Pieces, PiecesState};
pub use records::{
    data_records, data_records_part, hint_records, hint_records_part, read_records,
    read_records_form, replace_records, replace_records_form, Record,
};
pub use refusal::Refusal;
pub use room::Room;
pub use run::{run, split, Run};
#[cfg(feature = "std")]
pub use sheet::OwnedSheet;
pub use sheet::{LentSheet, Sheet};
pub use spool::{spool_add, spool_open, spool_sheets, spool_shown, Adding, Opened, Sheets};
#[cfg(all(feature = "std", target_os = "linux"))]
pub use spool_file::{SpoolError, SpoolFile};
pub use value::{
    line, line_records, put_value, total, value, value_records, week, week_records, Line, NoWeek,
    Total, Value, Week,
};

/// Most octets of a source.
pub const MAX_SOURCE: usize = 32_768;
/// Most octets of a canonical form.
pub const MAX_CANONICAL: usize = 16_384;
/// Most nodes that a sheet can have: each takes two octets or more. There is no
/// limit of its own, so that a table of as many records is enough for any sheet.
pub const MAX_NODES: usize = MAX_CANONICAL / 2;
/// How deep lists may nest; an outermost list is 1.
pub const MAX_DEPTH: usize = 128;
/// Numbers to a record of the flat table.
pub const RECORD: usize = 9;

/// How much of the lent octets and of the lent table is a sheet's.
#[derive(Clone, Copy, Debug, Default, PartialEq, Eq, Hash)]
pub struct Extent {
    /// Octets of the canonical form.
    pub length: usize,
    /// Records of the table.
    pub nodes: usize,
}

/// Reads `source` into canonical octets and their node table, nine numbers to
/// a node. What lies past both stays.
///
/// # Errors
///
/// [`Refusal`]s 2 to 6, the first that applies.
pub fn read(
    form: Form,
    source: &[u8],
    canonical: &mut [u8],
    table: &mut [u32],
) -> Result<Extent, Refusal> {
    read_form(form as u32, source, canonical, table)
}

/// [`read`] with the form as a number.
///
/// # Errors
///
/// [`Refusal`]s 1 to 6, the first that applies.
pub fn read_form(
    form: u32,
    source: &[u8],
    canonical: &mut [u8],
    table: &mut [u32],
) -> Result<Extent, Refusal> {
    table::read(ffi::etg_read, form, source, canonical, table)
}

/// Writes the sheet in the first `length` octets; how many octets went out.
/// What lies past them stays. Twice the length and two octets more are room
/// enough, whatever the form.
///
/// # Errors
///
/// [`Refusal::Form`] of [`Form::Terminal1997`], which is read only;
/// [`Refusal::NotOwn`] and [`Refusal::Size`].
pub fn write(
    form: Form,
    canonical: &[u8],
    length: usize,
    out: &mut [u8],
) -> Result<usize, Refusal> {
    write_form(form as u32, canonical, length, out)
}

/// [`write()`] with the form as a number.
///
/// # Errors
///
/// [`Refusal`]s 1, 7 and 6, the first that applies.
pub fn write_form(
    form: u32,
    canonical: &[u8],
    length: usize,
    out: &mut [u8],
) -> Result<usize, Refusal> {
    let mut written = 0;
    // SAFETY: as in `table::read`.
    let number = unsafe {
        ffi::etg_write(
            form,
            canonical.as_ptr(),
            canonical.len(),
            length,
            out.as_mut_ptr(),
            out.len(),
            &mut written,
        )
    };
    Refusal::check(number, written)
}

/// Replaces a node of a sheet with its own table by the tree of `text`, in
/// place: the result is what reading the corrected sheet afresh gives. Node 0
/// is the whole. Octets and records between the new end and a larger old one
/// become 0; past both nothing changes.
///
/// # Errors
///
/// [`Refusal`]s 2, 3, 7, 8, 4, 5 and 6, the first that applies; 4 to 6 speak
/// of the tree with the node replaced.
pub fn replace(
    form: Form,
    text: &[u8],
    canonical: &mut [u8],
    table: &mut [u32],
    sheet: Extent,
    node: usize,
) -> Result<Extent, Refusal> {
    replace_form(form as u32, text, canonical, table, sheet, node)
}

/// [`replace`] with the form as a number.
///
/// # Errors
///
/// [`Refusal`]s 1, 2, 3, 7, 8, 4, 5 and 6, the first that applies.
pub fn replace_form(
    form: u32,
    text: &[u8],
    canonical: &mut [u8],
    table: &mut [u32],
    sheet: Extent,
    node: usize,
) -> Result<Extent, Refusal> {
    table::replace(ffi::etg_replace, form, text, canonical, table, sheet, node)
}

/// Whether two sheets, each in the first octets of a slice, have the same
/// shape and at each string the same data and hint. A missing hint counts as
/// `default_hint`; an empty hint is not a missing one.
///
/// # Errors
///
/// [`Refusal::NotOwn`].
pub fn same(
    a: &[u8],
    a_length: usize,
    b: &[u8],
    b_length: usize,
    default_hint: &[u8],
) -> Result<bool, Refusal> {
    let mut same = 0;
    // SAFETY: as in `table::read`.
    let number = unsafe {
        ffi::etg_same(
            a.as_ptr(),
            a.len(),
            a_length,
            b.as_ptr(),
            b.len(),
            b_length,
            default_hint.as_ptr(),
            default_hint.len(),
            &mut same,
        )
    };
    Refusal::check(number, same == 1)
}

/// The hint of a string that has one, as the part of the sheet where it stands;
/// for all else, a bad sheet or table too, the default that was lent.
pub fn hint<'a>(
    canonical: &'a [u8],
    table: &[u32],
    sheet: Extent,
    node: usize,
    default_hint: &'a [u8],
) -> &'a [u8] {
    match hint_part(canonical, table, sheet, node) {
        Some((start, end)) => &canonical[start..end],
        None => default_hint,
    }
}

/// Where a node's hint stands, if it is a string with a hint.
pub fn hint_part(
    canonical: &[u8],
    table: &[u32],
    sheet: Extent,
    node: usize,
) -> Option<(usize, usize)> {
    table::part(ffi::etg_hint, canonical, table, sheet, node)
}

/// A node's data: a string's octets, or what stands between a list's
/// parentheses. Nothing where the sheet or the table is bad or the node is
/// missing.
pub fn data<'a>(canonical: &'a [u8], table: &[u32], sheet: Extent, node: usize) -> &'a [u8] {
    match data_part(canonical, table, sheet, node) {
        Some((start, end)) => &canonical[start..end],
        None => &[],
    }
}

/// Where a node's data stands.
pub fn data_part(
    canonical: &[u8],
    table: &[u32],
    sheet: Extent,
    node: usize,
) -> Option<(usize, usize)> {
    table::part(ffi::etg_data, canonical, table, sheet, node)
}
