//! The C entries that tell a place, called as a C program calls them, so that the
//! place is seen as it is handed out, whatever the number. It holds another value
//! before the call.
#![allow(unsafe_code)]

use super::Entry;

/// What no place is.
const BEFORE: usize = 0xa5a5_a5a5;

macro_rules! over {
    ($kind:ident, $table:ty, $read:ident, $replace:ident, $insert:ident) => {
        extern "C" {
            fn $read(
                form: u32,
                source: *const u8,
                source_len: usize,
                canonical: *mut u8,
                canonical_room: usize,
                table: *mut $table,
                table_room: usize,
                length: *mut usize,
                nodes: *mut usize,
                place: *mut usize,
            ) -> u32;

            fn $replace(
                form: u32,
                text: *const u8,
                text_len: usize,
                canonical: *mut u8,
                canonical_room: usize,
                table: *mut $table,
                table_room: usize,
                length: usize,
                nodes: usize,
                node: usize,
                new_length: *mut usize,
                new_nodes: *mut usize,
                place: *mut usize,
            ) -> u32;

            fn $insert(
                form: u32,
                text: *const u8,
                text_len: usize,
                canonical: *mut u8,
                canonical_room: usize,
                table: *mut $table,
                table_room: usize,
                length: usize,
                nodes: usize,
                node: usize,
                k: usize,
                new_length: *mut usize,
                new_nodes: *mut usize,
                place: *mut usize,
            ) -> u32;
        }

        /// The number and the place that an entry answers; `sheet` is the length and
        /// the number of nodes of what is lent.
        pub fn $kind(
            entry: Entry,
            form: u32,
            text: &[u8],
            canonical: &mut [u8],
            table: &mut [$table],
            sheet: (usize, usize),
        ) -> (u32, usize) {
            let (mut length, mut nodes, mut place) = (BEFORE, BEFORE, BEFORE);
            let (source, octets, records) =
                (text.as_ptr(), canonical.as_mut_ptr(), table.as_mut_ptr());
            let (size, room, rows) = (text.len(), canonical.len(), table.len());
            // SAFETY: each pointer comes with its slice's own length; what is written
            // to is borrowed mutably, so nothing overlaps.
            let number = unsafe {
                match entry {
                    Entry::Read => $read(
                        form,
                        source,
                        size,
                        octets,
                        room,
                        records,
                        rows,
                        &mut length,
                        &mut nodes,
                        &mut place,
                    ),
                    Entry::Replace(node) => $replace(
                        form,
                        source,
                        size,
                        octets,
                        room,
                        records,
                        rows,
                        sheet.0,
                        sheet.1,
                        node,
                        &mut length,
                        &mut nodes,
                        &mut place,
                    ),
                    Entry::Insert(node, k) => $insert(
                        form,
                        source,
                        size,
                        octets,
                        room,
                        records,
                        rows,
                        sheet.0,
                        sheet.1,
                        node,
                        k,
                        &mut length,
                        &mut nodes,
                        &mut place,
                    ),
                }
            };
            (number, place)
        }
    };
}

over!(numbers, u32, etg_read, etg_replace, etg_insert);
over!(
    records,
    etglavino::Record,
    etg_read_records,
    etg_replace_records,
    etg_insert_records
);
