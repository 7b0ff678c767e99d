//! Values with a type, and hours (S 10), over trees.

use crate::entries::tree_of_pair;
use crate::limits::{NOT_LINE, NOT_OWN, NOT_TYPED, NO_SUCH_NODE, TOO_LARGE};
use crate::tree::{Layout, Tree};

/// A value, told by its hint.
#[derive(Clone, Copy, Debug, PartialEq)]
pub enum Value {
    /// `f32`.
    Single(f32),
    /// `f64`.
    Double(f64),
    /// `int`.
    Whole(i64),
    /// Any other hint, or none: the place of the octets.
    Raw {
        /// Where they start.
        start: usize,
        /// One past their end.
        end: usize,
    },
}

/// Ordinary, night and holiday hours.
pub type Line = [f64; 3];

/// Quarters, and hours.
pub type Total = (u32, f64);

/// A lent sheet with its table: octets, length, numbers and node count.
#[derive(Clone, Copy, Debug)]
pub struct Lent<'a> {
    /// The octets lent.
    pub canonical: &'a [u8],
    /// How many of them are said to be the sheet.
    pub length: usize,
    /// The numbers lent.
    pub table: &'a [u32],
    /// How many records are said to be the table.
    pub nodes: usize,
}

impl Lent<'_> {
    /// Rows 7 and 8: the tree of a node, and where its data stands.
    fn node(&self, node: usize) -> Result<(Tree, (usize, usize)), u32> {
        let (mut tree, layout): (Tree, Layout) =
            tree_of_pair(self.canonical, self.length, self.table, self.nodes)?;
        let record = layout.records.get(node).ok_or(NO_SUCH_NODE)?;
        let place = (record[6] as usize, record[7] as usize);
        let found = tree.node_mut(node).ok_or(NO_SUCH_NODE)?;
        Ok((found.clone(), place))
    }
}

/// A node's value: 7, 8, 11.
pub fn value(lent: Lent, node: usize) -> Result<Value, u32> {
    let (tree, (start, end)) = lent.node(node)?;
    match &tree {
        Tree::List(_) => Err(NOT_TYPED),
        Tree::Text { hint, data } => match hint.as_deref() {
            Some(b"f32") => single(data).map(Value::Single).ok_or(NOT_TYPED),
            Some(b"f64") => double(data).map(Value::Double).ok_or(NOT_TYPED),
            Some(b"int") => whole(data).map(Value::Whole).ok_or(NOT_TYPED),
            _ => Ok(Value::Raw { start, end }),
        },
    }
}

fn single(data: &[u8]) -> Option<f32> {
    let value = f32::from_be_bytes(data.try_into().ok()?);
    value.is_finite().then_some(value)
}

fn double(data: &[u8]) -> Option<f64> {
    let value = f64::from_be_bytes(data.try_into().ok()?);
    value.is_finite().then_some(value)
}

/// The number that octets are in two's complement, if no fewer say the same.
fn whole(data: &[u8]) -> Option<i64> {
    if data.len() > 8 {
        return None;
    }
    let sign = data.first().is_some_and(|octet| octet & 0x80 != 0);
    let mut octets = [if sign { 0xff } else { 0 }; 8];
    octets[8 - data.len()..].copy_from_slice(data);
    let value = i64::from_be_bytes(octets);
    (shortest(value) == data).then_some(value)
}

/// The fewest octets that are the number: none for zero, else as many as bring
/// its sign back.
fn shortest(value: i64) -> Vec<u8> {
    if value == 0 {
        return Vec::new();
    }
    let octets = value.to_be_bytes();
    let fits = |count: &usize| {
        let bits = 8 * *count as u32;
        bits == 64 || (-(1i128 << (bits - 1))..1i128 << (bits - 1)).contains(&i128::from(value))
    };
    let count = (1..=8).find(fits).expect("eight octets will do");
    octets[8 - count..].to_vec()
}

/// Writes a value's octets: 7, 11, 6.
pub fn put_value(value: Value, octets: &[u8], out: &mut [u8]) -> Result<usize, u32> {
    let data = match value {
        Value::Single(x) if x.is_finite() => x.to_be_bytes().to_vec(),
        Value::Double(x) if x.is_finite() => x.to_be_bytes().to_vec(),
        Value::Single(_) | Value::Double(_) => return Err(NOT_TYPED),
        Value::Whole(x) => shortest(x),
        Value::Raw { start, end } => octets.get(start..end).ok_or(NOT_OWN)?.to_vec(),
    };
    let room = out.get_mut(..data.len()).ok_or(TOO_LARGE)?;
    room.copy_from_slice(&data);
    Ok(data.len())
}

/// The total of hours, each 0 to 24 in whole quarters: 12. Quarters up to 288
/// and a quarter of them are exact in a double.
pub fn total(line: Line) -> Result<Total, u32> {
    let mut quarters = 0;
    for hours in line {
        let count = hours * 4.0;
        let fair = hours.is_sign_positive() && hours <= 24.0 && count.fract() == 0.0;
        if !fair {
            return Err(NOT_LINE);
        }
        quarters += count as u32;
    }
    Ok((quarters, f64::from(quarters) / 4.0))
}

fn line_of(tree: &Tree) -> Result<(Line, Total), u32> {
    let Tree::List(items) = tree else {
        return Err(NOT_LINE);
    };
    let hours: Option<Vec<f64>> = items.iter().map(hours_of).collect();
    let line: Line = hours.ok_or(NOT_LINE)?.try_into().map_err(|_| NOT_LINE)?;
    Ok((line, total(line)?))
}

fn hours_of(tree: &Tree) -> Option<f64> {
    match tree {
        Tree::Text {
            hint: Some(hint),
            data,
        } if hint == b"f64" => double(data),
        _ => None,
    }
}

/// A node's line, with its total: 7, 8, 12.
pub fn line(lent: Lent, node: usize) -> Result<(Line, Total), u32> {
    line_of(&lent.node(node)?.0)
}

/// A list of lines: how many, and their total; or the number, with 12 the
/// first node that is no line.
pub fn week(lent: Lent, node: usize) -> Result<(usize, Total), (u32, usize)> {
    let (tree, _) = lent.node(node).map_err(|number| (number, 0))?;
    let Tree::List(items) = &tree else {
        return Err((NOT_LINE, node));
    };
    let (mut at, mut quarters) = (node + 1, 0);
    for item in items {
        let (_, (count, _)) = line_of(item).map_err(|number| (number, at))?;
        quarters += count;
        at += item.layout().records.len();
    }
    Ok((items.len(), (quarters, f64::from(quarters) / 4.0)))
}

#[cfg(test)]
mod tests {
    use super::*;

    #[test]
    fn whole_numbers() {
        for (octets, number) in [
            (&b""[..], Some(0)),
            (b"\x00", None),
            (b"\x7f", Some(127)),
            (b"\x00\x7f", None),
            (b"\x00\x80", Some(128)),
            (b"\xff", Some(-1)),
            (b"\xff\xff", None),
            (b"\xff\x7f", Some(-129)),
            (b"\xff\x80", None),
            (b"\x80\0\0\0\0\0\0\0", Some(i64::MIN)),
            (b"\x7f\xff\xff\xff\xff\xff\xff\xff", Some(i64::MAX)),
            (b"\x00\x80\0\0\0\0\0\0\0", None),
        ] {
            assert_eq!(whole(octets), number, "{octets:?}");
        }
    }

    #[test]
    fn totals() {
        assert_eq!(total([24.0; 3]), Ok((288, 72.0)));
        assert_eq!(total([0.25, 0.0, 7.5]), Ok((31, 7.75)));
        for bad in [-0.0, 24.25, 0.1, -1.0, f64::NAN, f64::INFINITY] {
            assert_eq!(total([0.0, bad, 0.0]), Err(NOT_LINE), "{bad}");
        }
    }
}
