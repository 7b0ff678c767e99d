//! A sheet: octets, records and extent kept together, so that none of them can
//! be another's.

use core::ops::Range;

use crate::node::{Node, Nodes};
use crate::room::Room;
use crate::{Extent, Form, Record, Refusal, Slot, MAX_CANONICAL, MAX_NODES};

/// A tree's canonical octets with their own table, in space that is lent or
/// owned: anything that is [`Room`], as `&mut [u8]` and `&mut [Record]`, or
/// vectors, which grow as they have to.
///
/// ```
/// use etglavino::{Form, Kind, Record, Sheet};
///
/// let (mut octets, mut records) = ([0; 64], [Record::default(); 8]);
/// let mut sheet = Sheet::read(Form::Advanced, b"(abc [x]\"\")", &mut octets[..], &mut records[..])?;
/// assert_eq!(sheet.canonical(), b"(3:abc[1:x]0:)");
///
/// let hinted = sheet.root().child(1).unwrap();
/// assert_eq!((hinted.number(), hinted.kind(), hinted.hint()), (2, Kind::Hinted, Some(&b"x"[..])));
///
/// sheet.replace(Form::Advanced, b"\"hi\"", 1)?;
/// assert_eq!(sheet.node(1).unwrap().data(), b"hi");
/// # Ok::<(), etglavino::Refusal>(())
/// ```
#[derive(Clone, Debug)]
pub struct Sheet<O, R> {
    octets: O,
    records: R,
    extent: Extent,
}

/// A sheet in lent space.
pub type LentSheet<'a> = Sheet<&'a mut [u8], &'a mut [Record]>;

/// A sheet in vectors of its own.
///
/// ```
/// use etglavino::{Form, OwnedSheet};
///
/// let sheet = OwnedSheet::of_text(Form::Advanced, b"(shift ann (from \"22:00\"))")?;
/// let words: Vec<_> = sheet.root().children().map(|node| node.data()).collect();
/// assert_eq!(words, [&b"shift"[..], b"ann", b"4:from5:22:00"]);
/// assert_eq!(sheet.text(Form::Advanced)?, b"(shift ann (from \"22:00\"))");
/// # Ok::<(), etglavino::Refusal>(())
/// ```
#[cfg(feature = "std")]
pub type OwnedSheet = Sheet<Vec<u8>, Vec<Record>>;

impl<O: AsRef<[u8]>, R: AsRef<[Record]>> Sheet<O, R> {
    /// The sheet of octets and records that are there already.
    ///
    /// # Errors
    ///
    /// [`Refusal::NotOwn`] where they are not one.
    pub fn of(octets: O, records: R, extent: Extent) -> Result<Sheet<O, R>, Refusal> {
        // Node 0 may well be no value; only 7 speaks of sheet and table.
        match crate::value_records(octets.as_ref(), records.as_ref(), extent, 0) {
            Err(Refusal::NotOwn) => Err(Refusal::NotOwn),
            _ => Ok(Sheet {
                octets,
                records,
                extent,
            }),
        }
    }

    /// The canonical octets.
    pub fn canonical(&self) -> &[u8] {
        &self.octets.as_ref()[..self.extent.length]
    }

    /// The records of the nodes, in the order in which nodes begin.
    pub fn records(&self) -> &[Record] {
        &self.records.as_ref()[..self.extent.nodes]
    }

    /// How many octets and nodes there are.
    pub fn extent(&self) -> Extent {
        self.extent
    }

    /// The space again, with how much of it is the sheet's.
    pub fn into_parts(self) -> (O, R, Extent) {
        (self.octets, self.records, self.extent)
    }

    /// The whole, node 0.
    pub fn root(&self) -> Node<'_> {
        Node::of(self.canonical(), self.records(), 0)
    }

    /// The node of a number.
    pub fn node(&self, number: usize) -> Option<Node<'_>> {
        (number < self.extent.nodes).then(|| Node::of(self.canonical(), self.records(), number))
    }

    /// All nodes, in the order in which they begin.
    pub fn nodes(&self) -> Nodes<'_> {
        Nodes::of(self.canonical(), self.records())
    }

    /// Writes the sheet; how many octets went out.
    ///
    /// # Errors
    ///
    /// [`Refusal::Form`] of [`Form::Terminal1997`]; [`Refusal::Size`] where the
    /// room is too small; see [`crate::write`].
    pub fn write(&self, form: Form, out: &mut [u8]) -> Result<usize, Refusal> {
        crate::write(form, self.octets.as_ref(), self.extent.length, out)
    }

    /// The sheet's text.
    ///
    /// # Errors
    ///
    /// [`Refusal::Form`] of [`Form::Terminal1997`]; [`Refusal::NotOwn`], only of a
    /// sheet whose space changed under its hands.
    #[cfg(feature = "std")]
    pub fn text(&self, form: Form) -> Result<Vec<u8>, Refusal> {
        let mut out = vec![0; 2 * self.extent.length + 2];
        let written = self.write(form, &mut out)?;
        out.truncate(written);
        Ok(out)
    }

    /// Whether both have the same shape, and at each string the same data and
    /// hint; see [`crate::same`].
    ///
    /// # Errors
    ///
    /// [`Refusal::NotOwn`], only of a sheet whose space changed under its hands.
    pub fn same<P, S>(&self, other: &Sheet<P, S>, default_hint: &[u8]) -> Result<bool, Refusal>
    where
        P: AsRef<[u8]>,
        S: AsRef<[Record]>,
    {
        let (a, b) = (self.canonical(), other.canonical());
        crate::same(a, a.len(), b, b.len(), default_hint)
    }

    /// What a foreman may see of the sheet, in other space; see
    /// [`crate::extract`].
    ///
    /// # Errors
    ///
    /// [`Refusal`]s 5 and 6, of the extract and the room for it.
    pub fn extract<P, S>(&self, mut octets: P, mut records: S) -> Result<Sheet<P, S>, Refusal>
    where
        P: Room<u8>,
        S: Room<Record>,
    {
        make_room(&mut octets, &mut records, self.extent.length);
        let extent = crate::extract_own_records(
            self.octets.as_ref(),
            self.records.as_ref(),
            self.extent,
            octets.as_mut(),
            records.as_mut(),
        )?;
        Ok(Sheet::settled(octets, records, extent))
    }
}

impl<O: Room<u8>, R: Room<Record>> Sheet<O, R> {
    /// Reads a text into space.
    ///
    /// # Errors
    ///
    /// [`Refusal`]s 2 to 6, the first that applies.
    pub fn read(
        form: Form,
        source: &[u8],
        mut octets: O,
        mut records: R,
    ) -> Result<Sheet<O, R>, Refusal> {
        make_room(&mut octets, &mut records, source.len().saturating_mul(3));
        let (to, table) = (octets.as_mut(), records.as_mut());
        let extent = crate::read_records(form, source, to, table)?;
        Ok(Sheet::settled(octets, records, extent))
    }

    /// Replaces a node by the tree of a text; see [`crate::replace`]. A refusal
    /// leaves the sheet as it was.
    ///
    /// # Errors
    ///
    /// [`Refusal`]s 2, 3, 8, 4, 5 and 6, the first that applies.
    pub fn replace(&mut self, form: Form, text: &[u8], node: usize) -> Result<(), Refusal> {
        self.edited(text.len().saturating_mul(3), |octets, records, extent| {
            crate::replace_records(form, text, octets, records, extent, node)
        })
    }

    /// Puts the tree of a text into a list; see [`crate::insert`]. A refusal
    /// leaves the sheet as it was.
    ///
    /// # Errors
    ///
    /// [`Refusal`]s 2, 3, 8, 9, 4, 5 and 6, the first that applies.
    pub fn insert(&mut self, form: Form, text: &[u8], slot: Slot) -> Result<(), Refusal> {
        self.edited(text.len().saturating_mul(3), |octets, records, extent| {
            crate::insert_records(form, text, octets, records, extent, slot)
        })
    }

    /// Removes a node; see [`crate::remove`]. A refusal leaves the sheet as it
    /// was.
    ///
    /// # Errors
    ///
    /// [`Refusal`]s 8 and 9, the first that applies.
    pub fn remove(&mut self, node: usize) -> Result<(), Refusal> {
        self.edited(0, |octets, records, extent| {
            crate::remove_records(octets, records, extent, node)
        })
    }

    /// An edit in place that makes the sheet longer by at most so many octets.
    fn edited(
        &mut self,
        more: usize,
        edit: impl FnOnce(&mut [u8], &mut [Record], Extent) -> Result<Extent, Refusal>,
    ) -> Result<(), Refusal> {
        let most = self.extent.length.saturating_add(more);
        make_room(&mut self.octets, &mut self.records, most);
        let edited = edit(self.octets.as_mut(), self.records.as_mut(), self.extent);
        self.extent = edited.unwrap_or(self.extent);
        self.octets.settle(self.extent.length);
        self.records.settle(self.extent.nodes);
        edited.map(drop)
    }

    pub(crate) fn settled(mut octets: O, mut records: R, extent: Extent) -> Sheet<O, R> {
        octets.settle(extent.length);
        records.settle(extent.nodes);
        Sheet {
            octets,
            records,
            extent,
        }
    }
}

#[cfg(feature = "std")]
impl OwnedSheet {
    /// The sheet of a text.
    ///
    /// # Errors
    ///
    /// [`Refusal`]s 2 to 6, the first that applies.
    pub fn of_text(form: Form, source: &[u8]) -> Result<OwnedSheet, Refusal> {
        Sheet::read(form, source, Vec::new(), Vec::new())
    }
}

impl<'a, O: AsRef<[u8]>, R: AsRef<[Record]>> IntoIterator for &'a Sheet<O, R> {
    type Item = Node<'a>;
    type IntoIter = Nodes<'a>;

    fn into_iter(self) -> Nodes<'a> {
        self.nodes()
    }
}

/// Two sheets are equal if their octets are, wherever they lie.
impl<O, R, P, S> PartialEq<Sheet<P, S>> for Sheet<O, R>
where
    O: AsRef<[u8]>,
    R: AsRef<[Record]>,
    P: AsRef<[u8]>,
    S: AsRef<[Record]>,
{
    fn eq(&self, other: &Sheet<P, S>) -> bool {
        self.canonical() == other.canonical()
    }
}

/// Room for any tree that fits and takes at most so many octets, two of which
/// make a node at most.
pub(crate) fn make_room(octets: &mut impl Room<u8>, records: &mut impl Room<Record>, most: usize) {
    let fitting = most.min(MAX_CANONICAL);
    octets.make(fitting);
    records.make((fitting / 2).min(MAX_NODES));
}

/// A place in a sheet, as a record has it.
pub(crate) fn place(start: u32, end: u32) -> Range<usize> {
    start as usize..end as usize
}
