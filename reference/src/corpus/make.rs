//! Cases put together from texts and trees, with room to spare.

use super::case::*;
use crate::limits::{MAX_CANONICAL, RECORD};
use crate::tree::Layout;

/// A read with room for whatever a source of that length can give, as far as
/// a corpus may lend it.
pub fn read(form: u32, source: &[u8]) -> Case {
    let room = (3 * source.len() + 10).min(MAX_CANONICAL_ROOM);
    // Two octets make a node, and three numbers are left over.
    let numbers = (RECORD * (room / 2 + 2) + 3).min(MAX_TABLE_ROOM);
    read_into(form, source, room, numbers)
}

/// A read with just that many octets and numbers lent.
pub fn read_into(form: u32, source: &[u8], room: usize, numbers: usize) -> Case {
    let fill = (source.len() % 256) as u8;
    Case::Read {
        form,
        source: source.to_vec(),
        canonical: blank(room, fill),
        table: blank(numbers, fill.wrapping_add(100)),
    }
}

/// A buffer of which nothing is given.
pub fn blank<T>(room: usize, fill: u8) -> Lent<T> {
    Lent {
        room,
        fill,
        given: Vec::new(),
    }
}

/// Canonical octets, with some room past them where there may be.
pub fn canonical(octets: &[u8]) -> Canonical {
    let room = (octets.len() + 12).min(MAX_CANONICAL.max(octets.len()));
    Canonical {
        lent: Lent {
            room,
            fill: 60,
            given: octets.to_vec(),
        },
        length: octets.len() as u64,
    }
}

/// A layout, with some room past the octets and two records and five numbers
/// past the table.
pub fn pair(layout: &Layout) -> Pair {
    let numbers = layout.records.as_flattened().to_vec();
    Pair {
        canonical: canonical(&layout.octets),
        table: Lent {
            room: numbers.len() + 2 * RECORD + 5,
            fill: 90,
            given: numbers,
        },
        nodes: layout.records.len() as u64,
    }
}

/// The same with just that many octets and numbers lent.
pub fn pair_in(layout: &Layout, room: usize, numbers: usize) -> Pair {
    let mut pair = pair(layout);
    pair.canonical.lent.room = room;
    pair.table.room = numbers;
    pair
}

/// A write with that much room.
pub fn write(form: u32, octets: &[u8], room: usize) -> Case {
    Case::Write {
        form,
        canonical: canonical(octets),
        out: blank(room, 33),
    }
}

/// A replacement of one node.
pub fn replace(form: u32, text: &[u8], pair: Pair, node: u64) -> Case {
    Case::Replace {
        form,
        text: text.to_vec(),
        pair,
        node,
    }
}
