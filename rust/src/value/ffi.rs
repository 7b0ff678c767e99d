//! The C interface for values and hours, as `include/etglavino.h` declares it.

use crate::Record;

/// What `etg_value` is, over a table of `T`.
pub type Values<T> = unsafe extern "C" fn(
    *const u8,
    usize,
    usize,
    *const T,
    usize,
    usize,
    usize,
    *mut u32,
    *mut f32,
    *mut f64,
    *mut i64,
    *mut usize,
    *mut usize,
) -> u32;

/// What `etg_line` is.
pub type Lines<T> = unsafe extern "C" fn(
    *const u8,
    usize,
    usize,
    *const T,
    usize,
    usize,
    usize,
    *mut f64,
    *mut f64,
    *mut f64,
    *mut u32,
    *mut f64,
) -> u32;

/// What `etg_week` is.
pub type Weeks<T> = unsafe extern "C" fn(
    *const u8,
    usize,
    usize,
    *const T,
    usize,
    usize,
    usize,
    *mut usize,
    *mut u32,
    *mut f64,
    *mut usize,
) -> u32;

extern "C" {
    pub fn etg_value(
        canonical: *const u8,
        room: usize,
        length: usize,
        table: *const u32,
        table_room: usize,
        nodes: usize,
        node: usize,
        kind: *mut u32,
        single: *mut f32,
        double: *mut f64,
        whole: *mut i64,
        start: *mut usize,
        end: *mut usize,
    ) -> u32;
    pub fn etg_value_records(
        canonical: *const u8,
        room: usize,
        length: usize,
        table: *const Record,
        table_room: usize,
        nodes: usize,
        node: usize,
        kind: *mut u32,
        single: *mut f32,
        double: *mut f64,
        whole: *mut i64,
        start: *mut usize,
        end: *mut usize,
    ) -> u32;
    pub fn etg_put_value(
        kind: u32,
        single: f32,
        double: f64,
        whole: i64,
        start: usize,
        end: usize,
        octets: *const u8,
        octets_len: usize,
        out: *mut u8,
        out_room: usize,
        written: *mut usize,
    ) -> u32;
    pub fn etg_line(
        canonical: *const u8,
        room: usize,
        length: usize,
        table: *const u32,
        table_room: usize,
        nodes: usize,
        node: usize,
        ordinary: *mut f64,
        night: *mut f64,
        holiday: *mut f64,
        quarters: *mut u32,
        hours: *mut f64,
    ) -> u32;
    pub fn etg_line_records(
        canonical: *const u8,
        room: usize,
        length: usize,
        table: *const Record,
        table_room: usize,
        nodes: usize,
        node: usize,
        ordinary: *mut f64,
        night: *mut f64,
        holiday: *mut f64,
        quarters: *mut u32,
        hours: *mut f64,
    ) -> u32;
    pub fn etg_total(
        ordinary: f64,
        night: f64,
        holiday: f64,
        quarters: *mut u32,
        hours: *mut f64,
    ) -> u32;
    pub fn etg_week(
        canonical: *const u8,
        room: usize,
        length: usize,
        table: *const u32,
        table_room: usize,
        nodes: usize,
        node: usize,
        lines: *mut usize,
        quarters: *mut u32,
        hours: *mut f64,
        bad: *mut usize,
    ) -> u32;
    pub fn etg_week_records(
        canonical: *const u8,
        room: usize,
        length: usize,
        table: *const Record,
        table_room: usize,
        nodes: usize,
        node: usize,
        lines: *mut usize,
        quarters: *mut u32,
        hours: *mut f64,
        bad: *mut usize,
    ) -> u32;
}
