//! Why something was refused.

use core::fmt;

/// Why something was refused, by the number that every interface of the
/// library gives it.
#[derive(Clone, Copy, Debug, PartialEq, Eq, Hash)]
#[non_exhaustive]
pub enum Refusal {
    /// 1: the form is not 1 to 4, or in writing not 1 to 3.
    Form,
    /// 2: the source has over 32,768 octets.
    SourceSize,
    /// 3: the source is not in the form's language.
    Syntax {
        /// How many octets of the text begin some canonical form, of any size: the
        /// octet there is the first that is wrong, or the text is cut short. It is
        /// told of form 1, and of form 2 where the text does not begin with `{`;
        /// else it is 0.
        place: usize,
    },
    /// 4: lists nest over 128 deep.
    Depth,
    /// 5: more nodes than records are lent.
    Nodes,
    /// 6: over 16,384 canonical octets, or a result over the lent room.
    Size,
    /// 7: the octets are not one tree's canonical form that fits, or the table
    /// is not their own, or a length or count is beyond what is lent; a raw value
    /// to be written whose place is no part of the octets lent.
    NotOwn,
    /// 8: there is no node of that number.
    NoNode,
    /// 9: the node isn't a list, the list has no such place, or node 0 is to be
    /// removed.
    NoPlace,
    /// 10: the area of a spool is damaged.
    Damaged,
    /// 11: the node is no value of its type: a list, octets of a wrong length,
    /// an `int` that is not the shortest, NaN or infinity; NaN or infinity to be
    /// written.
    NotTyped,
    /// 12: not a list of exactly three `f64` strings, each 0 to 24 hours in
    /// whole quarters with the sign clear.
    NotLine,
}

impl Refusal {
    /// The number.
    pub const fn number(self) -> u32 {
        match self {
            Refusal::Form => 1,
            Refusal::SourceSize => 2,
            Refusal::Syntax { .. } => 3,
            Refusal::Depth => 4,
            Refusal::Nodes => 5,
            Refusal::Size => 6,
            Refusal::NotOwn => 7,
            Refusal::NoNode => 8,
            Refusal::NoPlace => 9,
            Refusal::Damaged => 10,
            Refusal::NotTyped => 11,
            Refusal::NotLine => 12,
        }
    }

    /// Where the text went wrong, with refusal 3; else 0.
    pub const fn place(self) -> usize {
        match self {
            Refusal::Syntax { place } => place,
            _ => 0,
        }
    }

    /// What is wrong, in a sentence without capital and full stop.
    pub const fn sentence(self) -> &'static str {
        match self {
            Refusal::Form => "the form is not 1 to 4, or in writing not 1 to 3",
            Refusal::SourceSize => "the source has over 32,768 octets",
            Refusal::Syntax { .. } => "the source is not in the form's language",
            Refusal::Depth => "lists nest over 128 deep",
            Refusal::Nodes => "more nodes than records are lent",
            Refusal::Size => "over 16,384 canonical octets, or a result over the lent room",
            Refusal::NotOwn => {
                "not one tree's canonical form with its own table, or a place outside what is lent"
            }
            Refusal::NoNode => "there is no node of that number",
            Refusal::NoPlace => "not a list, no such place in it, or node 0 to be removed",
            Refusal::Damaged => "the area of the spool is damaged",
            Refusal::NotTyped => "not a value of its type, or not finite",
            Refusal::NotLine => "not a line of three hours in whole quarters",
        }
    }

    /// Of a call that tells no place.
    pub(crate) fn check<T>(number: u32, answer: T) -> Result<T, Refusal> {
        Refusal::check_at(number, 0, answer)
    }

    pub(crate) fn check_at<T>(number: u32, place: usize, answer: T) -> Result<T, Refusal> {
        Err(match number {
            0 => return Ok(answer),
            1 => Refusal::Form,
            2 => Refusal::SourceSize,
            3 => Refusal::Syntax { place },
            4 => Refusal::Depth,
            5 => Refusal::Nodes,
            6 => Refusal::Size,
            7 => Refusal::NotOwn,
            8 => Refusal::NoNode,
            9 => Refusal::NoPlace,
            10 => Refusal::Damaged,
            11 => Refusal::NotTyped,
            12 => Refusal::NotLine,
            _ => unreachable!("the library gives no other number"),
        })
    }
}

impl fmt::Display for Refusal {
    fn fmt(&self, f: &mut fmt::Formatter<'_>) -> fmt::Result {
        write!(f, "refused {}: {}", self.number(), self.sentence())
    }
}

impl core::error::Error for Refusal {}
