//! A canonical text that comes in pieces, some of them empty: what is read of it
//! is what reading the whole gives, wherever it was cut.

use crate::room::Room;
use crate::sheet::make_room;
use crate::{ffi, Extent, Record, Refusal, Sheet, MAX_CANONICAL};

/// A text on its way, with the space that its sheet is to lie in, lent or owned
/// as a [`Sheet`]'s is.
///
/// ```
/// use etglavino::{Pieces, Record};
///
/// let (mut octets, mut records) = ([0; 64], [Record::default(); 8]);
/// let mut pieces = Pieces::start(&mut octets[..], &mut records[..]);
/// assert_eq!(pieces.feed(b"(5:sh"), 5);
/// assert_eq!(pieces.feed(b""), 5);
/// assert_eq!(pieces.feed(b"ift3:ann)"), 14);
/// let sheet = pieces.end()?;
/// assert_eq!(sheet.root().child(1).unwrap().data(), b"ann");
/// # Ok::<(), etglavino::Refusal>(())
/// ```
#[derive(Clone, Debug)]
pub struct Pieces<O, R> {
    state: PiecesState,
    octets: O,
    records: R,
    taken: usize,
}

/// Pieces of a text whose sheet is to lie in lent space.
pub type LentPieces<'a> = Pieces<&'a mut [u8], &'a mut [Record]>;

/// Pieces of a text whose sheet is to lie in vectors of its own.
///
/// ```
/// use std::io::Write;
///
/// let mut pieces = etglavino::OwnedPieces::new();
/// for scrap in ["(5:sh", "", "ift3:ann)"] {
///     pieces.write_all(scrap.as_bytes())?;
/// }
/// assert_eq!(pieces.end()?.canonical(), b"(5:shift3:ann)");
/// # Ok::<(), Box<dyn std::error::Error>>(())
/// ```
#[cfg(feature = "std")]
pub type OwnedPieces = Pieces<Vec<u8>, Vec<Record>>;

impl<O: Room<u8>, R: Room<Record>> Pieces<O, R> {
    /// Nothing has come yet. What is owned grows to room for any sheet.
    pub fn start(mut octets: O, mut records: R) -> Pieces<O, R> {
        make_room(&mut octets, &mut records, MAX_CANONICAL);
        Pieces {
            state: PiecesState::start(octets.as_ref().len(), records.as_ref().len()),
            octets,
            records,
            taken: 0,
        }
    }

    /// Takes a piece; how many octets have been taken so far. The count stops at
    /// 32,769, and then the end refuses with 2, whatever else comes.
    pub fn feed(&mut self, piece: &[u8]) -> usize {
        let lent = self.records.as_ref().len();
        // The space is the one of the start, so its size is.
        let taken = self.state.feed(piece, self.octets.as_mut(), lent);
        self.taken = taken.unwrap_or(self.taken);
        self.taken
    }

    /// How many octets have been taken so far; the count stops at 32,769.
    pub fn taken(&self) -> usize {
        self.taken
    }

    /// The octets taken so far, as far as the space and 16,384 go. Nothing has
    /// been said yet of whether they begin a sheet.
    pub fn octets(&self) -> &[u8] {
        let octets = self.octets.as_ref();
        &octets[..self.taken.min(octets.len()).min(MAX_CANONICAL)]
    }

    /// The sheet of the whole. A refusal leaves the octets in the space that was
    /// lent, as they came, and no record changed.
    ///
    /// # Errors
    ///
    /// [`Refusal`]s 2 to 6, the first that applies, as reading the whole in form
    /// 1 gives them; and 7 where the space is of a type of your own that has
    /// another size now than at the start.
    pub fn end(mut self) -> Result<Sheet<O, R>, Refusal> {
        let (octets, records) = (self.octets.as_ref(), self.records.as_mut());
        let extent = self.state.end_records(octets, records)?;
        Ok(Sheet::settled(self.octets, self.records, extent))
    }
}

impl<O: Room<u8>, R: Room<Record>, P: AsRef<[u8]>> Extend<P> for Pieces<O, R> {
    fn extend<I: IntoIterator<Item = P>>(&mut self, pieces: I) {
        for piece in pieces {
            self.feed(piece.as_ref());
        }
    }
}

#[cfg(feature = "std")]
mod owned {
    use std::io::{self, ErrorKind, Read, Write};

    use super::{OwnedPieces, Pieces, Room};
    use crate::{OwnedSheet, Record, Refusal, MAX_SOURCE};

    impl OwnedPieces {
        /// Nothing has come yet.
        pub fn new() -> OwnedPieces {
            Pieces::start(Vec::new(), Vec::new())
        }
    }

    impl Default for OwnedPieces {
        fn default() -> OwnedPieces {
            OwnedPieces::new()
        }
    }

    /// Every octet is taken, and nothing fails: what is wrong shows at the end.
    impl<O: Room<u8>, R: Room<Record>> Write for Pieces<O, R> {
        fn write(&mut self, piece: &[u8]) -> io::Result<usize> {
            self.feed(piece);
            Ok(piece.len())
        }

        fn flush(&mut self) -> io::Result<()> {
            Ok(())
        }
    }

    impl OwnedSheet {
        /// The sheet of a canonical text in pieces.
        ///
        /// ```
        /// let sheet = etglavino::OwnedSheet::of_pieces(["(1:", "a)"])?;
        /// assert_eq!(sheet.canonical(), b"(1:a)");
        /// # Ok::<(), etglavino::Refusal>(())
        /// ```
        ///
        /// # Errors
        ///
        /// [`Refusal`]s 2 to 6, the first that applies.
        pub fn of_pieces<P: AsRef<[u8]>>(
            pieces: impl IntoIterator<Item = P>,
        ) -> Result<OwnedSheet, Refusal> {
            let mut taken = OwnedPieces::new();
            taken.extend(pieces);
            taken.end()
        }

        /// The sheet of a canonical text that is read to its end, or until it is
        /// longer than any source.
        ///
        /// # Errors
        ///
        /// Those of the reader; and [`ErrorKind::InvalidData`] with the
        /// [`Refusal`] in it, 2 to 6, the first that applies.
        pub fn of_reader(mut reader: impl Read) -> io::Result<OwnedSheet> {
            let (mut pieces, mut piece) = (OwnedPieces::new(), [0; 4_096]);
            while pieces.taken() <= MAX_SOURCE {
                match reader.read(&mut piece) {
                    Ok(0) => break,
                    Ok(octets) => pieces.feed(&piece[..octets]),
                    Err(error) if error.kind() == ErrorKind::Interrupted => continue,
                    Err(error) => return Err(error),
                };
            }
            let refused = |refusal| io::Error::new(ErrorKind::InvalidData, refusal);
            pieces.end().map_err(refused)
        }
    }
}

/// The running state of a text in pieces, for callers that keep the space
/// themselves. The same space is lent to each call and left alone between; the
/// table is only written by an end that accepts, so pieces are told its size.
///
/// Any numbers may stand in it, and the space may be another: a call then still
/// ends, keeps inside what is lent, and refuses another size.
///
/// ```
/// use etglavino::PiecesState;
///
/// let (mut canonical, mut table) = ([0; 64], [0; 64]);
/// let mut state = PiecesState::start(64, 64);
/// assert_eq!(state.feed(b"(1:", &mut canonical, 64)?, 3);
/// assert_eq!(state.feed(b"a)", &mut canonical, 64)?, 5);
/// assert_eq!(state.end(&canonical, &mut table)?.nodes, 2);
/// assert!(state.feed(b"", &mut canonical[..63], 64).is_err());
/// # Ok::<(), etglavino::Refusal>(())
/// ```
#[derive(Clone, Copy, Debug, PartialEq, Eq, Hash)]
pub struct PiecesState([u64; 10]);

impl PiecesState {
    /// Nothing has come yet. The sizes are those of the octets and of the table
    /// that every later call is lent: numbers of a flat table, else records.
    pub fn start(canonical_size: usize, table_size: usize) -> PiecesState {
        let mut state = PiecesState([0; 10]);
        // SAFETY: the state is borrowed mutably and has ten numbers.
        unsafe { ffi::etg_pieces_start(&mut state.0, canonical_size, table_size) };
        state
    }

    /// The numbers of a state, which are the library's own business.
    pub fn numbers(self) -> [u64; 10] {
        self.0
    }

    /// The state of these numbers, whatever they are.
    pub fn from_numbers(numbers: [u64; 10]) -> PiecesState {
        PiecesState(numbers)
    }

    /// Takes a piece; how many octets have been taken so far, where the count
    /// stops at 32,769. The canonical octets then begin with them, as far as their
    /// room and 16,384 go.
    ///
    /// # Errors
    ///
    /// [`Refusal::NotOwn`] where a size is not the start's; nothing changes then.
    pub fn feed(
        &mut self,
        piece: &[u8],
        canonical: &mut [u8],
        table_size: usize,
    ) -> Result<usize, Refusal> {
        let mut taken = 0;
        // SAFETY: each pointer comes with its slice's own length; what is written
        // to is borrowed mutably, so nothing overlaps.
        let number = unsafe {
            ffi::etg_pieces_feed(
                &mut self.0,
                piece.as_ptr(),
                piece.len(),
                canonical.as_mut_ptr(),
                canonical.len(),
                table_size,
                &mut taken,
            )
        };
        Refusal::check(number, taken)
    }

    /// What reading all that was fed in form 1 gives, and its table.
    ///
    /// # Errors
    ///
    /// [`Refusal`]s 7, where a size is not the start's, and 2 to 6, the first
    /// that applies. The canonical octets stay as the pieces left them, and the
    /// table as it was.
    pub fn end(&self, canonical: &[u8], table: &mut [u32]) -> Result<Extent, Refusal> {
        self.ended(ffi::etg_pieces_end, canonical, table)
    }

    /// [`end`](PiecesState::end) with the table lent as records.
    ///
    /// # Errors
    ///
    /// As [`end`](PiecesState::end).
    pub fn end_records(&self, canonical: &[u8], records: &mut [Record]) -> Result<Extent, Refusal> {
        self.ended(ffi::etg_pieces_end_records, canonical, records)
    }

    fn ended<T>(
        &self,
        call: ffi::PiecesEnd<T>,
        canonical: &[u8],
        table: &mut [T],
    ) -> Result<Extent, Refusal> {
        let (mut extent, mut place) = (Extent::default(), 0);
        // SAFETY: as in `feed`.
        let number = unsafe {
            call(
                &self.0,
                canonical.as_ptr(),
                canonical.len(),
                table.as_mut_ptr(),
                table.len(),
                &mut extent.length,
                &mut extent.nodes,
                &mut place,
            )
        };
        Refusal::check_at(number, place, extent)
    }
}
