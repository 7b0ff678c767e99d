//! The nodes of a sheet, and ways through them.

use core::fmt;
use core::iter::FusedIterator;
use core::ops::Range;

use crate::sheet::place;
use crate::{Extent, Line, NoWeek, Record, Refusal, Total, Value, Week};

/// What a node is.
#[derive(Clone, Copy, Debug, PartialEq, Eq, Hash)]
pub enum Kind {
    /// A string without a hint.
    String,
    /// A string with a hint, which may be empty.
    Hinted,
    /// A list.
    List,
}

/// A node of a sheet.
#[derive(Clone, Copy)]
pub struct Node<'a> {
    canonical: &'a [u8],
    records: &'a [Record],
    number: usize,
}

impl<'a> Node<'a> {
    /// A node of a sheet that has it.
    pub(crate) fn of(canonical: &'a [u8], records: &'a [Record], number: usize) -> Node<'a> {
        Node {
            canonical,
            records,
            number,
        }
    }

    /// Its number; 0 is the whole.
    pub fn number(self) -> usize {
        self.number
    }

    /// Its record.
    pub fn record(self) -> &'a Record {
        &self.records[self.number]
    }

    /// What it is.
    pub fn kind(self) -> Kind {
        match self.record().kind {
            0 => Kind::String,
            1 => Kind::Hinted,
            _ => Kind::List,
        }
    }

    /// Where it stands in the sheet.
    pub fn range(self) -> Range<usize> {
        place(self.record().start, self.record().end)
    }

    /// Where its hint stands, if it is a string with a hint.
    pub fn hint_range(self) -> Option<Range<usize>> {
        let record = self.record();
        (self.kind() == Kind::Hinted).then(|| place(record.hint_start, record.hint_end))
    }

    /// Where its data stand: a string's octets, or what is between a list's
    /// parentheses.
    pub fn data_range(self) -> Range<usize> {
        place(self.record().data_start, self.record().data_end)
    }

    /// Its canonical octets, which are a sheet of their own.
    pub fn canonical(self) -> &'a [u8] {
        &self.canonical[self.range()]
    }

    /// Its hint, if it is a string with a hint.
    pub fn hint(self) -> Option<&'a [u8]> {
        self.hint_range().map(|range| &self.canonical[range])
    }

    /// Its data.
    pub fn data(self) -> &'a [u8] {
        &self.canonical[self.data_range()]
    }

    /// The numbers of the nodes in it, its own first.
    pub fn numbers(self) -> Range<usize> {
        self.number..self.number + self.record().nodes as usize
    }

    /// The elements of a list, in order; a string has none.
    pub fn children(self) -> Children<'a> {
        let left = Range {
            start: self.number + 1,
            end: self.numbers().end,
        };
        Children { of: self, left }
    }

    /// The element of a list at a place from 0.
    pub fn child(self, place: usize) -> Option<Node<'a>> {
        self.children().nth(place)
    }

    /// The list directly around it, if it is not the whole.
    pub fn parent(self) -> Option<Node<'a>> {
        let number = self.record().parent as usize;
        (self.number > 0).then_some(Node { number, ..self })
    }

    /// The lists around it, from the innermost to the whole.
    ///
    /// ```
    /// let week = etglavino::OwnedSheet::of_text(etglavino::Form::Advanced, b"(week (mon (from a)))")?;
    /// let from = week.node(5).expect("a node");
    /// let around: Vec<_> = from.ancestors().map(|list| list.number()).collect();
    /// assert_eq!((from.data(), around), (&b"from"[..], vec![4, 2, 0]));
    /// # Ok::<(), etglavino::Refusal>(())
    /// ```
    pub fn ancestors(self) -> Ancestors<'a> {
        Ancestors { of: self }
    }

    /// Its value, by its hint; see [`crate::value`]. A raw value's place is one
    /// in the sheet.
    ///
    /// # Errors
    ///
    /// [`Refusal::NotTyped`].
    pub fn value(self) -> Result<Value, Refusal> {
        crate::value_records(self.canonical, self.records, self.extent(), self.number)
    }

    /// The shift line that it is, with its total; see [`crate::line`].
    ///
    /// # Errors
    ///
    /// [`Refusal::NotLine`].
    pub fn line(self) -> Result<(Line, Total), Refusal> {
        crate::line_records(self.canonical, self.records, self.extent(), self.number)
    }

    /// The sum of the lines that it is a list of; see [`crate::week`].
    ///
    /// # Errors
    ///
    /// [`Refusal::NotLine`], with the first node that is no line.
    pub fn week(self) -> Result<Week, NoWeek> {
        crate::week_records(self.canonical, self.records, self.extent(), self.number)
    }

    fn extent(self) -> Extent {
        Extent {
            length: self.canonical.len(),
            nodes: self.records.len(),
        }
    }
}

impl fmt::Debug for Node<'_> {
    fn fmt(&self, f: &mut fmt::Formatter<'_>) -> fmt::Result {
        f.debug_struct("Node")
            .field("number", &self.number)
            .field("record", self.record())
            .finish()
    }
}

/// The lists around a node that are still to come, the innermost first.
#[derive(Clone, Debug)]
pub struct Ancestors<'a> {
    of: Node<'a>,
}

impl<'a> Iterator for Ancestors<'a> {
    type Item = Node<'a>;

    fn next(&mut self) -> Option<Node<'a>> {
        self.of = self.of.parent()?;
        Some(self.of)
    }
}

impl FusedIterator for Ancestors<'_> {}

/// All nodes of a sheet, in the order in which they begin.
#[derive(Clone, Debug)]
pub struct Nodes<'a> {
    canonical: &'a [u8],
    records: &'a [Record],
    left: Range<usize>,
}

impl<'a> Nodes<'a> {
    pub(crate) fn of(canonical: &'a [u8], records: &'a [Record]) -> Nodes<'a> {
        Nodes {
            canonical,
            records,
            left: 0..records.len(),
        }
    }
}

impl<'a> Iterator for Nodes<'a> {
    type Item = Node<'a>;

    fn next(&mut self) -> Option<Node<'a>> {
        let number = self.left.next()?;
        Some(Node::of(self.canonical, self.records, number))
    }

    fn size_hint(&self) -> (usize, Option<usize>) {
        self.left.size_hint()
    }
}

impl ExactSizeIterator for Nodes<'_> {}
impl FusedIterator for Nodes<'_> {}

/// The elements of a list that are still to come.
#[derive(Clone, Debug)]
pub struct Children<'a> {
    of: Node<'a>,
    left: Range<usize>,
}

impl<'a> Iterator for Children<'a> {
    type Item = Node<'a>;

    fn next(&mut self) -> Option<Node<'a>> {
        if self.left.is_empty() {
            return None;
        }
        let number = self.left.start;
        let child = Node { number, ..self.of };
        self.left.start = child.numbers().end;
        Some(child)
    }
}

impl FusedIterator for Children<'_> {}
