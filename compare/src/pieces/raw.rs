//! The C entries for pieces, called as a C program calls them. What they hand out
//! holds another value before each call.
#![allow(unsafe_code)]

use etglavino::{Record, RECORD};

/// What no answer is.
const BEFORE: usize = 0xa5a5_a5a5;

/// The numbers of a state.
pub type State = [u64; 10];

extern "C" {
    fn etg_pieces_start(state: *mut State, canonical_size: usize, table_size: usize);

    fn etg_pieces_feed(
        state: *mut State,
        piece: *const u8,
        piece_size: usize,
        canonical: *mut u8,
        canonical_size: usize,
        table_size: usize,
        taken: *mut usize,
    ) -> u32;

    fn etg_pieces_end(
        state: *const State,
        canonical: *const u8,
        canonical_size: usize,
        table: *mut u32,
        table_size: usize,
        length: *mut usize,
        nodes: *mut usize,
        place: *mut usize,
    ) -> u32;

    fn etg_pieces_end_records(
        state: *const State,
        canonical: *const u8,
        canonical_size: usize,
        records: *mut Record,
        record_count: usize,
        length: *mut usize,
        nodes: *mut usize,
        place: *mut usize,
    ) -> u32;
}

/// A lent table, in a heap block of just its size.
#[derive(Clone, Debug, PartialEq)]
pub enum Table {
    Numbers(Box<[u32]>),
    Records(Box<[Record]>),
}

impl Table {
    /// As the library counts it.
    pub fn size(&self) -> usize {
        match self {
            Table::Numbers(numbers) => numbers.len(),
            Table::Records(records) => records.len(),
        }
    }

    /// One of another size, lent the same way.
    pub fn sized(&self, size: usize) -> Table {
        match self {
            Table::Numbers(_) => Table::numbers(size),
            Table::Records(_) => Table::records(size),
        }
    }

    /// A flat one of so many numbers.
    pub fn numbers(size: usize) -> Table {
        Table::Numbers((0..size).map(filler).collect())
    }

    /// One of so many records.
    pub fn records(size: usize) -> Table {
        let record = |at| Record::from(std::array::from_fn(|number| filler(at * RECORD + number)));
        Table::Records((0..size).map(record).collect())
    }

    /// Its numbers.
    pub fn flat(&self) -> Vec<u32> {
        match self {
            Table::Numbers(numbers) => numbers.to_vec(),
            Table::Records(records) => {
                let numbers = records.iter().map(|record| <[u32; RECORD]>::from(*record));
                numbers.flatten().collect()
            }
        }
    }
}

/// What a table first holds, a number for each place.
fn filler(place: usize) -> u32 {
    0xdead_0000 ^ place as u32
}

/// What an end hands out: its number, and the length, nodes and place.
#[derive(Clone, Copy, Debug, PartialEq, Eq)]
pub struct Answer {
    pub number: u32,
    pub told: [usize; 3],
}

/// The answer to another size.
pub const RESIZED: Answer = Answer {
    number: 7,
    told: [0; 3],
};

pub fn start(room: usize, table_size: usize) -> State {
    let mut state = [BEFORE as u64; 10];
    // SAFETY: the state is borrowed mutably.
    unsafe { etg_pieces_start(&mut state, room, table_size) };
    state
}

/// The number, and how many octets have been taken.
pub fn feed(
    state: &mut State,
    piece: &[u8],
    canonical: &mut [u8],
    table_size: usize,
) -> (u32, usize) {
    let mut taken = BEFORE;
    // SAFETY: each pointer comes with its slice's own length; what is written to is
    // borrowed mutably, so nothing overlaps.
    let number = unsafe {
        etg_pieces_feed(
            state,
            piece.as_ptr(),
            piece.len(),
            canonical.as_mut_ptr(),
            canonical.len(),
            table_size,
            &mut taken,
        )
    };
    (number, taken)
}

pub fn end(state: &State, canonical: &[u8], table: &mut Table) -> Answer {
    match table {
        Table::Numbers(numbers) => end_numbers(state, canonical, numbers),
        Table::Records(records) => end_records(state, canonical, records),
    }
}

pub fn end_numbers(state: &State, canonical: &[u8], numbers: &mut [u32]) -> Answer {
    let [mut length, mut nodes, mut place] = [BEFORE; 3];
    // SAFETY: as in `feed`.
    let number = unsafe {
        etg_pieces_end(
            state,
            canonical.as_ptr(),
            canonical.len(),
            numbers.as_mut_ptr(),
            numbers.len(),
            &mut length,
            &mut nodes,
            &mut place,
        )
    };
    let told = [length, nodes, place];
    Answer { number, told }
}

pub fn end_records(state: &State, canonical: &[u8], records: &mut [Record]) -> Answer {
    let [mut length, mut nodes, mut place] = [BEFORE; 3];
    // SAFETY: as in `feed`.
    let number = unsafe {
        etg_pieces_end_records(
            state,
            canonical.as_ptr(),
            canonical.len(),
            records.as_mut_ptr(),
            records.len(),
            &mut length,
            &mut nodes,
            &mut place,
        )
    };
    let told = [length, nodes, place];
    Answer { number, told }
}
