//! The C interface, as `include/etglavino.h` declares it; that of extracts is in
//! `extract.rs`, that of runs in `run.rs`.

use crate::Record;

/// What `etg_read` is, over a table of `T`.
pub type Read<T> = unsafe extern "C" fn(
    form: u32,
    source: *const u8,
    source_len: usize,
    canonical: *mut u8,
    canonical_room: usize,
    table: *mut T,
    table_room: usize,
    length: *mut usize,
    nodes: *mut usize,
    place: *mut usize,
) -> u32;

/// What `etg_replace` is, over a table of `T`.
pub type Replace<T> = unsafe extern "C" fn(
    form: u32,
    text: *const u8,
    text_len: usize,
    canonical: *mut u8,
    canonical_room: usize,
    table: *mut T,
    table_room: usize,
    length: usize,
    nodes: usize,
    node: usize,
    new_length: *mut usize,
    new_nodes: *mut usize,
    place: *mut usize,
) -> u32;

/// What `etg_hint` and `etg_data` are, over a table of `T`.
pub type Look<T> = unsafe extern "C" fn(
    canonical: *const u8,
    canonical_room: usize,
    length: usize,
    table: *const T,
    table_room: usize,
    nodes: usize,
    node: usize,
    start: *mut usize,
    end: *mut usize,
) -> u32;

/// What `etg_pieces_end` is, over a table of `T`.
pub type PiecesEnd<T> = unsafe extern "C" fn(
    state: *const [u64; 10],
    canonical: *const u8,
    canonical_size: usize,
    table: *mut T,
    table_size: usize,
    length: *mut usize,
    nodes: *mut usize,
    place: *mut usize,
) -> u32;

extern "C" {
    pub fn etg_read(
        form: u32,
        source: *const u8,
        source_len: usize,
        canonical: *mut u8,
        canonical_room: usize,
        table: *mut u32,
        table_room: usize,
        length: *mut usize,
        nodes: *mut usize,
        place: *mut usize,
    ) -> u32;

    pub fn etg_write(
        form: u32,
        canonical: *const u8,
        canonical_room: usize,
        length: usize,
        out: *mut u8,
        out_room: usize,
        written: *mut usize,
    ) -> u32;

    pub fn etg_replace(
        form: u32,
        text: *const u8,
        text_len: usize,
        canonical: *mut u8,
        canonical_room: usize,
        table: *mut u32,
        table_room: usize,
        length: usize,
        nodes: usize,
        node: usize,
        new_length: *mut usize,
        new_nodes: *mut usize,
        place: *mut usize,
    ) -> u32;

    pub fn etg_same(
        a: *const u8,
        a_room: usize,
        a_length: usize,
        b: *const u8,
        b_room: usize,
        b_length: usize,
        default_hint: *const u8,
        default_len: usize,
        same: *mut u32,
    ) -> u32;

    pub fn etg_hint(
        canonical: *const u8,
        canonical_room: usize,
        length: usize,
        table: *const u32,
        table_room: usize,
        nodes: usize,
        node: usize,
        start: *mut usize,
        end: *mut usize,
    ) -> u32;

    pub fn etg_data(
        canonical: *const u8,
        canonical_room: usize,
        length: usize,
        table: *const u32,
        table_room: usize,
        nodes: usize,
        node: usize,
        start: *mut usize,
        end: *mut usize,
    ) -> u32;

    pub fn etg_read_records(
        form: u32,
        source: *const u8,
        source_len: usize,
        canonical: *mut u8,
        canonical_room: usize,
        records: *mut Record,
        record_room: usize,
        length: *mut usize,
        nodes: *mut usize,
        place: *mut usize,
    ) -> u32;

    pub fn etg_replace_records(
        form: u32,
        text: *const u8,
        text_len: usize,
        canonical: *mut u8,
        canonical_room: usize,
        records: *mut Record,
        record_room: usize,
        length: usize,
        nodes: usize,
        node: usize,
        new_length: *mut usize,
        new_nodes: *mut usize,
        place: *mut usize,
    ) -> u32;

    pub fn etg_hint_records(
        canonical: *const u8,
        canonical_room: usize,
        length: usize,
        records: *const Record,
        record_room: usize,
        nodes: usize,
        node: usize,
        start: *mut usize,
        end: *mut usize,
    ) -> u32;

    pub fn etg_data_records(
        canonical: *const u8,
        canonical_room: usize,
        length: usize,
        records: *const Record,
        record_room: usize,
        nodes: usize,
        node: usize,
        start: *mut usize,
        end: *mut usize,
    ) -> u32;

    pub fn etg_spool_open(
        area: *const u8,
        area_size: usize,
        number: usize,
        count: *mut usize,
        start: *mut usize,
        end: *mut usize,
    ) -> u32;

    pub fn etg_spool_add_start(
        area: *const u8,
        area_size: usize,
        sheet: *const u8,
        sheet_size: usize,
        length: usize,
        state: *mut [u64; 4],
    ) -> u32;

    pub fn etg_spool_add_step(
        state: *mut [u64; 4],
        area: *mut u8,
        area_size: usize,
        sheet: *const u8,
        sheet_size: usize,
    ) -> u32;

    pub fn etg_spool_add_commits(
        state: *const [u64; 4],
        area: *const u8,
        area_size: usize,
        sheet: *const u8,
        sheet_size: usize,
    ) -> u32;

    pub fn etg_spool_add(
        area: *mut u8,
        area_size: usize,
        sheet: *const u8,
        sheet_size: usize,
        length: usize,
    ) -> u32;

    pub fn etg_pieces_start(state: *mut [u64; 10], canonical_size: usize, table_size: usize);

    pub fn etg_pieces_feed(
        state: *mut [u64; 10],
        piece: *const u8,
        piece_size: usize,
        canonical: *mut u8,
        canonical_size: usize,
        table_size: usize,
        taken: *mut usize,
    ) -> u32;

    pub fn etg_pieces_end(
        state: *const [u64; 10],
        canonical: *const u8,
        canonical_size: usize,
        table: *mut u32,
        table_size: usize,
        length: *mut usize,
        nodes: *mut usize,
        place: *mut usize,
    ) -> u32;

    pub fn etg_pieces_end_records(
        state: *const [u64; 10],
        canonical: *const u8,
        canonical_size: usize,
        records: *mut Record,
        record_count: usize,
        length: *mut usize,
        nodes: *mut usize,
        place: *mut usize,
    ) -> u32;
}
