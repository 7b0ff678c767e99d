//! Every limit, form number and refusal number, each in this one place.

/// Most octets of a source or of a replacement text.
pub const MAX_SOURCE: usize = 32_768;
/// Deepest nesting of lists; an outermost list has depth 1.
pub const MAX_DEPTH: usize = 128;
/// Most octets of a canonical form.
pub const MAX_CANONICAL: usize = 16_384;
/// Nodes that so many octets hold at most, since each takes two or more. It is
/// no limit, and only sizes buffers and cases.
pub const MAX_NODES: usize = MAX_CANONICAL / 2;

/// Numbers in one record of a node table.
pub const RECORD: usize = 9;

/// Form number: canonical.
pub const CANONICAL: u32 = 1;
/// Form number: basic, that is canonical or base-64 of it in braces.
pub const BASIC: u32 = 2;
/// Form number: advanced.
pub const ADVANCED: u32 = 3;
/// Form number: advanced, with base-64 in braces wherever a value may stand.
/// It is only read.
pub const TERMINAL: u32 = 4;

/// Answer: accepted.
pub const ACCEPTED: u32 = 0;
/// Refusal: the form number names no form.
pub const BAD_FORM: u32 = 1;
/// Refusal: the source is longer than [`MAX_SOURCE`].
pub const SOURCE_TOO_LONG: u32 = 2;
/// Refusal: the source is not in the form's language.
pub const NOT_IN_LANGUAGE: u32 = 3;
/// Refusal: lists nest deeper than [`MAX_DEPTH`].
pub const TOO_DEEP: u32 = 4;
/// Refusal: more nodes than records lent.
pub const TOO_MANY_NODES: u32 = 5;
/// Refusal: more octets than [`MAX_CANONICAL`] or than the room lent.
pub const TOO_LARGE: u32 = 6;
/// Refusal: not one fitting canonical form, or the table is not its own.
pub const NOT_OWN: u32 = 7;
/// Refusal: the node number names no node.
pub const NO_SUCH_NODE: u32 = 8;
/// Refusal: the node is no list, the list has no such place, or node 0 is to go.
pub const NO_PLACE: u32 = 9;
/// Refusal: the area of a spool is damaged.
pub const DAMAGED: u32 = 10;
/// Refusal: the node is no value of its type.
pub const NOT_TYPED: u32 = 11;
/// Refusal: the node is no line of three hours in whole quarters.
pub const NOT_LINE: u32 = 12;
