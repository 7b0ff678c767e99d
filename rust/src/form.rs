//! The forms of a text.

use crate::Refusal;

/// How a text is spelled.
#[derive(Clone, Copy, Debug, PartialEq, Eq, Hash)]
#[repr(u32)]
pub enum Form {
    /// Lengths and octets, one way for each tree.
    Canonical = 1,
    /// Canonical, or base-64 of it in braces.
    Basic = 2,
    /// What people write.
    Advanced = 3,
    /// What the terminals of 1997 send: advanced, with base-64 of one
    /// tree's canonical form in braces wherever a value may stand. It is read and never written.
    Terminal1997 = 4,
}

impl TryFrom<u32> for Form {
    type Error = Refusal;

    /// The form of a number from 1 to 4.
    fn try_from(number: u32) -> Result<Form, Refusal> {
        match number {
            1 => Ok(Form::Canonical),
            2 => Ok(Form::Basic),
            3 => Ok(Form::Advanced),
            4 => Ok(Form::Terminal1997),
            _ => Err(Refusal::Form),
        }
    }
}
