//! Elements put into lists and nodes removed, with the table lent flat or as
//! records.

use crate::{Extent, Form, Record, Refusal};

/// What `etg_insert` is, over a table of `T`.
type Insert<T> = unsafe extern "C" fn(
    form: u32,
    text: *const u8,
    text_len: usize,
    canonical: *mut u8,
    canonical_room: usize,
    table: *mut T,
    table_room: usize,
    length: usize,
    nodes: usize,
    node: usize,
    k: usize,
    new_length: *mut usize,
    new_nodes: *mut usize,
    place: *mut usize,
) -> u32;

/// What `etg_remove` is, over a table of `T`.
type Remove<T> = unsafe extern "C" fn(
    canonical: *mut u8,
    canonical_room: usize,
    table: *mut T,
    table_room: usize,
    length: usize,
    nodes: usize,
    node: usize,
    new_length: *mut usize,
    new_nodes: *mut usize,
) -> u32;

extern "C" {
    fn etg_insert(
        form: u32,
        text: *const u8,
        text_len: usize,
        canonical: *mut u8,
        canonical_room: usize,
        table: *mut u32,
        table_room: usize,
        length: usize,
        nodes: usize,
        node: usize,
        k: usize,
        new_length: *mut usize,
        new_nodes: *mut usize,
        place: *mut usize,
    ) -> u32;

    fn etg_remove(
        canonical: *mut u8,
        canonical_room: usize,
        table: *mut u32,
        table_room: usize,
        length: usize,
        nodes: usize,
        node: usize,
        new_length: *mut usize,
        new_nodes: *mut usize,
    ) -> u32;

    fn etg_insert_records(
        form: u32,
        text: *const u8,
        text_len: usize,
        canonical: *mut u8,
        canonical_room: usize,
        records: *mut Record,
        record_room: usize,
        length: usize,
        nodes: usize,
        node: usize,
        k: usize,
        new_length: *mut usize,
        new_nodes: *mut usize,
        place: *mut usize,
    ) -> u32;

    fn etg_remove_records(
        canonical: *mut u8,
        canonical_room: usize,
        records: *mut Record,
        record_room: usize,
        length: usize,
        nodes: usize,
        node: usize,
        new_length: *mut usize,
        new_nodes: *mut usize,
    ) -> u32;
}

/// Where an element is to come: element `k`, counted from 0, of the list that
/// `node` is. The list's element count itself puts it at the end.
#[derive(Clone, Copy, Debug, PartialEq, Eq, Hash)]
pub struct Slot {
    /// The list's node number.
    pub node: usize,
    /// The number of the element that comes.
    pub k: usize,
}

/// Puts the tree of `text` into a list of a sheet with its own table, in place:
/// the result is what reading the changed sheet afresh gives.
///
/// ```
/// use etglavino::{Form, Slot};
///
/// let (mut canonical, mut table) = ([0; 64], [0; 72]);
/// let week = etglavino::read(Form::Advanced, b"(week (mon early))", &mut canonical, &mut table)?;
/// let slot = Slot { node: 0, k: 2 };
/// let more = etglavino::insert(Form::Advanced, b"(tue late)", &mut canonical, &mut table, week, slot)?;
/// assert_eq!(&canonical[..more.length], b"(4:week(3:mon5:early)(3:tue4:late))");
///
/// let again = etglavino::remove(&mut canonical, &mut table, more, 5)?;
/// assert_eq!(again, week);
/// # Ok::<(), etglavino::Refusal>(())
/// ```
///
/// # Errors
///
/// [`Refusal`]s 2, 3, 7, 8, 9, 4, 5 and 6, the first that applies; 4 to 6 speak
/// of the tree with the element in it.
pub fn insert(
    form: Form,
    text: &[u8],
    canonical: &mut [u8],
    table: &mut [u32],
    sheet: Extent,
    slot: Slot,
) -> Result<Extent, Refusal> {
    insert_form(form as u32, text, canonical, table, sheet, slot)
}

/// [`insert`] with the form as a number.
///
/// # Errors
///
/// [`Refusal`]s 1, 2, 3, 7, 8, 9, 4, 5 and 6, the first that applies.
pub fn insert_form(
    form: u32,
    text: &[u8],
    canonical: &mut [u8],
    table: &mut [u32],
    sheet: Extent,
    slot: Slot,
) -> Result<Extent, Refusal> {
    inserted(etg_insert, form, text, canonical, table, sheet, slot)
}

/// [`insert`] with the table lent as records.
///
/// # Errors
///
/// [`Refusal`]s 2, 3, 7, 8, 9, 4, 5 and 6, the first that applies.
pub fn insert_records(
    form: Form,
    text: &[u8],
    canonical: &mut [u8],
    records: &mut [Record],
    sheet: Extent,
    slot: Slot,
) -> Result<Extent, Refusal> {
    insert_records_form(form as u32, text, canonical, records, sheet, slot)
}

/// [`insert_records`] with the form as a number.
///
/// # Errors
///
/// [`Refusal`]s 1, 2, 3, 7, 8, 9, 4, 5 and 6, the first that applies.
pub fn insert_records_form(
    form: u32,
    text: &[u8],
    canonical: &mut [u8],
    records: &mut [Record],
    sheet: Extent,
    slot: Slot,
) -> Result<Extent, Refusal> {
    inserted(
        etg_insert_records,
        form,
        text,
        canonical,
        records,
        sheet,
        slot,
    )
}

/// Removes a node of a sheet with its own table, in place, with all that is in
/// it. What it leaves free becomes 0, and the next insertion may use it.
///
/// # Errors
///
/// [`Refusal`]s 7, 8 and 9, the first that applies; 9 is for node 0.
pub fn remove(
    canonical: &mut [u8],
    table: &mut [u32],
    sheet: Extent,
    node: usize,
) -> Result<Extent, Refusal> {
    removed(etg_remove, canonical, table, sheet, node)
}

/// [`remove`] with the table lent as records.
///
/// # Errors
///
/// [`Refusal`]s 7, 8 and 9, the first that applies.
pub fn remove_records(
    canonical: &mut [u8],
    records: &mut [Record],
    sheet: Extent,
    node: usize,
) -> Result<Extent, Refusal> {
    removed(etg_remove_records, canonical, records, sheet, node)
}

fn inserted<T>(
    call: Insert<T>,
    form: u32,
    text: &[u8],
    canonical: &mut [u8],
    table: &mut [T],
    sheet: Extent,
    slot: Slot,
) -> Result<Extent, Refusal> {
    let (mut extent, mut place) = (Extent::default(), 0);
    // SAFETY: as in `table::read`.
    let number = unsafe {
        call(
            form,
            text.as_ptr(),
            text.len(),
            canonical.as_mut_ptr(),
            canonical.len(),
            table.as_mut_ptr(),
            table.len(),
            sheet.length,
            sheet.nodes,
            slot.node,
            slot.k,
            &mut extent.length,
            &mut extent.nodes,
            &mut place,
        )
    };
    Refusal::check_at(number, place, extent)
}

fn removed<T>(
    call: Remove<T>,
    canonical: &mut [u8],
    table: &mut [T],
    sheet: Extent,
    node: usize,
) -> Result<Extent, Refusal> {
    let mut extent = Extent::default();
    // SAFETY: as in `table::read`.
    let number = unsafe {
        call(
            canonical.as_mut_ptr(),
            canonical.len(),
            table.as_mut_ptr(),
            table.len(),
            sheet.length,
            sheet.nodes,
            node,
            &mut extent.length,
            &mut extent.nodes,
        )
    };
    Refusal::check(number, extent)
}
