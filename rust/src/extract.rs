//! Extracts for foremen, with the foreman's table lent flat or as records.

use crate::{Extent, Record, Refusal};

/// What `etg_extract` is, over a table of `T`.
type Extract<T> = unsafe extern "C" fn(
    sheet: *const u8,
    sheet_room: usize,
    length: usize,
    canonical: *mut u8,
    canonical_room: usize,
    table: *mut T,
    table_room: usize,
    new_length: *mut usize,
    new_nodes: *mut usize,
) -> u32;

/// What `etg_extract_own` is, over tables of `T`.
type ExtractOwn<T> = unsafe extern "C" fn(
    sheet: *const u8,
    sheet_room: usize,
    length: usize,
    rows: *const T,
    rows_room: usize,
    nodes: usize,
    canonical: *mut u8,
    canonical_room: usize,
    table: *mut T,
    table_room: usize,
    new_length: *mut usize,
    new_nodes: *mut usize,
) -> u32;

extern "C" {
    fn etg_extract(
        sheet: *const u8,
        sheet_room: usize,
        length: usize,
        canonical: *mut u8,
        canonical_room: usize,
        table: *mut u32,
        table_room: usize,
        new_length: *mut usize,
        new_nodes: *mut usize,
    ) -> u32;

    fn etg_extract_records(
        sheet: *const u8,
        sheet_room: usize,
        length: usize,
        canonical: *mut u8,
        canonical_room: usize,
        records: *mut Record,
        record_room: usize,
        new_length: *mut usize,
        new_nodes: *mut usize,
    ) -> u32;

    fn etg_extract_own(
        sheet: *const u8,
        sheet_room: usize,
        length: usize,
        rows: *const u32,
        rows_room: usize,
        nodes: usize,
        canonical: *mut u8,
        canonical_room: usize,
        table: *mut u32,
        table_room: usize,
        new_length: *mut usize,
        new_nodes: *mut usize,
    ) -> u32;

    fn etg_extract_own_records(
        sheet: *const u8,
        sheet_room: usize,
        length: usize,
        rows: *const Record,
        rows_room: usize,
        nodes: usize,
        canonical: *mut u8,
        canonical_room: usize,
        records: *mut Record,
        record_room: usize,
        new_length: *mut usize,
        new_nodes: *mut usize,
    ) -> u32;
}

/// The extract of the sheet in the first `length` octets, into the foreman's
/// canonical octets and table, as reading it in form 1 would leave them: every
/// list whose first element is the unhinted string `private` has become `()`.
/// Neither ever holds an octet that is hidden.
///
/// ```
/// let (mut canonical, mut table) = ([0; 64], [0; 64]);
/// let sheet = b"(5:shift(7:private4:sick))";
/// let extract = etglavino::extract(sheet, sheet.len(), &mut canonical, &mut table)?;
/// assert_eq!(&canonical[..extract.length], b"(5:shift())");
/// # Ok::<(), etglavino::Refusal>(())
/// ```
///
/// # Errors
///
/// [`Refusal`]s 7, 5 and 6, the first that applies; 5 and 6 speak of the
/// extract and of the room lent for it.
pub fn extract(
    sheet: &[u8],
    length: usize,
    canonical: &mut [u8],
    table: &mut [u32],
) -> Result<Extent, Refusal> {
    given(etg_extract, sheet, length, canonical, table)
}

/// [`extract`] with the table lent as records.
///
/// # Errors
///
/// As [`extract`].
pub fn extract_records(
    sheet: &[u8],
    length: usize,
    canonical: &mut [u8],
    records: &mut [Record],
) -> Result<Extent, Refusal> {
    given(etg_extract_records, sheet, length, canonical, records)
}

/// [`extract`] of a sheet with its own table, which `rows` begins with.
///
/// # Errors
///
/// As [`extract`]; 7 also where the table is not the sheet's own.
pub fn extract_own(
    sheet: &[u8],
    rows: &[u32],
    extent: Extent,
    canonical: &mut [u8],
    table: &mut [u32],
) -> Result<Extent, Refusal> {
    given_own(etg_extract_own, sheet, rows, extent, canonical, table)
}

/// [`extract_own`] with both tables lent as records.
///
/// # Errors
///
/// As [`extract_own`].
pub fn extract_own_records(
    sheet: &[u8],
    rows: &[Record],
    extent: Extent,
    canonical: &mut [u8],
    records: &mut [Record],
) -> Result<Extent, Refusal> {
    given_own(
        etg_extract_own_records,
        sheet,
        rows,
        extent,
        canonical,
        records,
    )
}

fn given<T>(
    call: Extract<T>,
    sheet: &[u8],
    length: usize,
    canonical: &mut [u8],
    table: &mut [T],
) -> Result<Extent, Refusal> {
    let mut new = Extent::default();
    // SAFETY: as in `table::read`.
    let number = unsafe {
        call(
            sheet.as_ptr(),
            sheet.len(),
            length,
            canonical.as_mut_ptr(),
            canonical.len(),
            table.as_mut_ptr(),
            table.len(),
            &mut new.length,
            &mut new.nodes,
        )
    };
    Refusal::check(number, new)
}

fn given_own<T>(
    call: ExtractOwn<T>,
    sheet: &[u8],
    rows: &[T],
    extent: Extent,
    canonical: &mut [u8],
    table: &mut [T],
) -> Result<Extent, Refusal> {
    let mut new = Extent::default();
    // SAFETY: as in `table::read`.
    let number = unsafe {
        call(
            sheet.as_ptr(),
            sheet.len(),
            extent.length,
            rows.as_ptr(),
            rows.len(),
            extent.nodes,
            canonical.as_mut_ptr(),
            canonical.len(),
            table.as_mut_ptr(),
            table.len(),
            &mut new.length,
            &mut new.nodes,
        )
    };
    Refusal::check(number, new)
}
