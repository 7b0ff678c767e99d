//! The node table lent as records. Each function answers as the flat one of its
//! name does.

use crate::{ffi, table, Extent, Form, Refusal, RECORD};

/// A node's record. What starts and ends are places in the sheet.
#[derive(Clone, Copy, Debug, Default, PartialEq, Eq, Hash)]
#[repr(C)]
pub struct Record {
    /// 0 a string, 1 a string with a hint, 2 a list.
    pub kind: u32,
    /// Where the node starts.
    pub start: u32,
    /// One past its end.
    pub end: u32,
    /// How many nodes are in it, itself counted.
    pub nodes: u32,
    /// Where its hint starts; 0 without a hint.
    pub hint_start: u32,
    /// One past the hint's end; 0 without a hint.
    pub hint_end: u32,
    /// Where its data starts: a string's octets, or what stands between a
    /// list's parentheses.
    pub data_start: u32,
    /// One past the data's end.
    pub data_end: u32,
    /// The number of the list directly around it; 0 for node 0, which is in none.
    pub parent: u32,
}

impl From<[u32; RECORD]> for Record {
    fn from(numbers: [u32; RECORD]) -> Record {
        let [kind, start, end, nodes, hint_start, hint_end, data_start, data_end, parent] = numbers;
        Record {
            kind,
            start,
            end,
            nodes,
            hint_start,
            hint_end,
            data_start,
            data_end,
            parent,
        }
    }
}

impl From<Record> for [u32; RECORD] {
    fn from(r: Record) -> [u32; RECORD] {
        [
            r.kind,
            r.start,
            r.end,
            r.nodes,
            r.hint_start,
            r.hint_end,
            r.data_start,
            r.data_end,
            r.parent,
        ]
    }
}

/// [`read`](crate::read) with the table lent as records.
///
/// ```
/// use etglavino::{Form, Record};
///
/// let (mut canonical, mut records) = ([0; 64], [Record::default(); 8]);
/// let sheet = etglavino::read_records(Form::Advanced, b"(a [x]bc)", &mut canonical, &mut records)?;
/// assert_eq!((records[0].kind, records[0].nodes), (2, 3));
/// assert_eq!(etglavino::hint_records(&canonical, &records, sheet, 2, b"text"), b"x");
///
/// let sheet = etglavino::replace_records(Form::Advanced, b"()", &mut canonical, &mut records, sheet, 2)?;
/// assert_eq!(etglavino::data_records(&canonical, &records, sheet, 0), b"1:a()");
/// # Ok::<(), etglavino::Refusal>(())
/// ```
///
/// # Errors
///
/// [`Refusal`]s 2 to 6, the first that applies.
pub fn read_records(
    form: Form,
    source: &[u8],
    canonical: &mut [u8],
    records: &mut [Record],
) -> Result<Extent, Refusal> {
    read_records_form(form as u32, source, canonical, records)
}

/// [`read_records`] with the form as a number.
///
/// # Errors
///
/// [`Refusal`]s 1 to 6, the first that applies.
pub fn read_records_form(
    form: u32,
    source: &[u8],
    canonical: &mut [u8],
    records: &mut [Record],
) -> Result<Extent, Refusal> {
    table::read(ffi::etg_read_records, form, source, canonical, records)
}

/// [`replace`](crate::replace) with the table lent as records.
///
/// # Errors
///
/// [`Refusal`]s 2, 3, 7, 8, 4, 5 and 6, the first that applies; 4 to 6 speak
/// of the tree with the node replaced.
pub fn replace_records(
    form: Form,
    text: &[u8],
    canonical: &mut [u8],
    records: &mut [Record],
    sheet: Extent,
    node: usize,
) -> Result<Extent, Refusal> {
    replace_records_form(form as u32, text, canonical, records, sheet, node)
}

/// [`replace_records`] with the form as a number.
///
/// # Errors
///
/// [`Refusal`]s 1, 2, 3, 7, 8, 4, 5 and 6, the first that applies.
pub fn replace_records_form(
    form: u32,
    text: &[u8],
    canonical: &mut [u8],
    records: &mut [Record],
    sheet: Extent,
    node: usize,
) -> Result<Extent, Refusal> {
    table::replace(
        ffi::etg_replace_records,
        form,
        text,
        canonical,
        records,
        sheet,
        node,
    )
}

/// [`hint`](crate::hint) with the table lent as records.
pub fn hint_records<'a>(
    canonical: &'a [u8],
    records: &[Record],
    sheet: Extent,
    node: usize,
    default_hint: &'a [u8],
) -> &'a [u8] {
    match hint_records_part(canonical, records, sheet, node) {
        Some((start, end)) => &canonical[start..end],
        None => default_hint,
    }
}

/// [`hint_part`](crate::hint_part) with the table lent as records.
pub fn hint_records_part(
    canonical: &[u8],
    records: &[Record],
    sheet: Extent,
    node: usize,
) -> Option<(usize, usize)> {
    table::part(ffi::etg_hint_records, canonical, records, sheet, node)
}

/// [`data`](crate::data) with the table lent as records.
pub fn data_records<'a>(
    canonical: &'a [u8],
    records: &[Record],
    sheet: Extent,
    node: usize,
) -> &'a [u8] {
    match data_records_part(canonical, records, sheet, node) {
        Some((start, end)) => &canonical[start..end],
        None => &[],
    }
}

/// [`data_part`](crate::data_part) with the table lent as records.
pub fn data_records_part(
    canonical: &[u8],
    records: &[Record],
    sheet: Extent,
    node: usize,
) -> Option<(usize, usize)> {
    table::part(ffi::etg_data_records, canonical, records, sheet, node)
}
