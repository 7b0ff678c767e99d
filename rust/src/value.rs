//! Values with a type, and hours.

mod ffi;

use core::fmt;

use crate::{Extent, Record, Refusal};

/// A node's value, told by its hint.
#[derive(Clone, Copy, Debug, PartialEq)]
pub enum Value {
    /// Hint `f32`: four octets, IEEE 754 big-endian.
    Single(f32),
    /// Hint `f64`: eight octets, IEEE 754 big-endian.
    Double(f64),
    /// Hint `int`: two's complement, big-endian, in as few octets as say it and
    /// in eight at most; zero has none.
    Whole(i64),
    /// Any other hint, or none: the octets from `start` to `end`.
    Raw {
        /// Where they start.
        start: usize,
        /// One past their end.
        end: usize,
    },
}

/// A shift line: hours, each 0 to 24 in whole quarters.
#[derive(Clone, Copy, Debug, Default, PartialEq)]
pub struct Line {
    /// Ordinary hours.
    pub ordinary: f64,
    /// Night hours.
    pub night: f64,
    /// Holiday hours.
    pub holiday: f64,
}

/// A sum of hours, exact.
#[derive(Clone, Copy, Debug, Default, PartialEq)]
pub struct Total {
    /// Quarters of an hour.
    pub quarters: u32,
    /// The double that is exactly a quarter of them.
    pub hours: f64,
}

/// The sum of a list of lines.
#[derive(Clone, Copy, Debug, Default, PartialEq)]
pub struct Week {
    /// How many lines there are.
    pub lines: usize,
    /// The sum of their totals.
    pub total: Total,
}

/// Why there is no sum of a list of lines.
#[derive(Clone, Copy, Debug, PartialEq, Eq)]
pub struct NoWeek {
    /// The refusal.
    pub refusal: Refusal,
    /// With [`Refusal::NotLine`] the first element that is no line, or the node
    /// itself where it is a string; else 0.
    pub node: usize,
}

impl fmt::Display for NoWeek {
    fn fmt(&self, f: &mut fmt::Formatter<'_>) -> fmt::Result {
        write!(f, "{} (node {})", self.refusal, self.node)
    }
}

impl core::error::Error for NoWeek {}

/// A node's value.
///
/// ```
/// use etglavino::{Form, Value};
///
/// let (mut canonical, mut table) = ([0; 64], [0; 64]);
/// let sheet = etglavino::read(Form::Advanced, b"([int]#ff7f# x)", &mut canonical, &mut table)?;
/// assert_eq!(etglavino::value(&canonical, &table, sheet, 1)?, Value::Whole(-129));
/// # Ok::<(), etglavino::Refusal>(())
/// ```
///
/// # Errors
///
/// [`Refusal`]s 7, 8 and 11, the first that applies.
pub fn value(
    canonical: &[u8],
    table: &[u32],
    sheet: Extent,
    node: usize,
) -> Result<Value, Refusal> {
    value_by(ffi::etg_value, canonical, table, sheet, node)
}

/// [`value`] with the table lent as records.
///
/// # Errors
///
/// As [`value`].
pub fn value_records(
    canonical: &[u8],
    records: &[Record],
    sheet: Extent,
    node: usize,
) -> Result<Value, Refusal> {
    value_by(ffi::etg_value_records, canonical, records, sheet, node)
}

fn value_by<T>(
    call: ffi::Values<T>,
    canonical: &[u8],
    table: &[T],
    sheet: Extent,
    node: usize,
) -> Result<Value, Refusal> {
    let (mut kind, mut single, mut double, mut whole, mut start, mut end) = (0, 0.0, 0.0, 0, 0, 0);
    // SAFETY: each pointer comes with its slice's own length, or is to a local.
    let number = unsafe {
        call(
            canonical.as_ptr(),
            canonical.len(),
            sheet.length,
            table.as_ptr(),
            table.len(),
            sheet.nodes,
            node,
            &mut kind,
            &mut single,
            &mut double,
            &mut whole,
            &mut start,
            &mut end,
        )
    };
    let value = match kind {
        1 => Value::Single(single),
        2 => Value::Double(double),
        3 => Value::Whole(whole),
        _ => Value::Raw { start, end },
    };
    Refusal::check(number, value)
}

/// Writes the data octets of a value to `out`, a raw one's from `octets`; how
/// many went out. What lies past them stays.
///
/// # Errors
///
/// [`Refusal::NotOwn`] where a raw place is not a part of `octets`,
/// [`Refusal::NotTyped`] for NaN and infinity, [`Refusal::Size`].
pub fn put_value(value: Value, octets: &[u8], out: &mut [u8]) -> Result<usize, Refusal> {
    let (kind, single, double, whole, start, end) = match value {
        Value::Single(x) => (1, x, 0.0, 0, 0, 0),
        Value::Double(x) => (2, 0.0, x, 0, 0, 0),
        Value::Whole(x) => (3, 0.0, 0.0, x, 0, 0),
        Value::Raw { start, end } => (4, 0.0, 0.0, 0, start, end),
    };
    let mut written = 0;
    // SAFETY: as in `value_by`.
    let number = unsafe {
        ffi::etg_put_value(
            kind,
            single,
            double,
            whole,
            start,
            end,
            octets.as_ptr(),
            octets.len(),
            out.as_mut_ptr(),
            out.len(),
            &mut written,
        )
    };
    Refusal::check(number, written)
}

/// A node's shift line, with its total.
///
/// # Errors
///
/// [`Refusal`]s 7, 8 and 12, the first that applies.
pub fn line(
    canonical: &[u8],
    table: &[u32],
    sheet: Extent,
    node: usize,
) -> Result<(Line, Total), Refusal> {
    line_by(ffi::etg_line, canonical, table, sheet, node)
}

/// [`line`] with the table lent as records.
///
/// # Errors
///
/// As [`line`].
pub fn line_records(
    canonical: &[u8],
    records: &[Record],
    sheet: Extent,
    node: usize,
) -> Result<(Line, Total), Refusal> {
    line_by(ffi::etg_line_records, canonical, records, sheet, node)
}

fn line_by<T>(
    call: ffi::Lines<T>,
    canonical: &[u8],
    table: &[T],
    sheet: Extent,
    node: usize,
) -> Result<(Line, Total), Refusal> {
    let (mut line, mut total) = (Line::default(), Total::default());
    // SAFETY: as in `value_by`.
    let number = unsafe {
        call(
            canonical.as_ptr(),
            canonical.len(),
            sheet.length,
            table.as_ptr(),
            table.len(),
            sheet.nodes,
            node,
            &mut line.ordinary,
            &mut line.night,
            &mut line.holiday,
            &mut total.quarters,
            &mut total.hours,
        )
    };
    Refusal::check(number, (line, total))
}

/// The total of a line.
///
/// ```
/// use etglavino::{Line, Refusal};
///
/// let line = Line { ordinary: 7.25, night: 0.5, holiday: 0.0 };
/// assert_eq!(etglavino::total(line)?.quarters, 31);
/// let long = Line { ordinary: 24.25, ..line };
/// assert_eq!(etglavino::total(long), Err(Refusal::NotLine));
/// # Ok::<(), Refusal>(())
/// ```
///
/// # Errors
///
/// [`Refusal::NotLine`].
pub fn total(line: Line) -> Result<Total, Refusal> {
    let mut total = Total::default();
    // SAFETY: both pointers are to a local.
    let number = unsafe {
        ffi::etg_total(
            line.ordinary,
            line.night,
            line.holiday,
            &mut total.quarters,
            &mut total.hours,
        )
    };
    Refusal::check(number, total)
}

/// The sum of a list of lines.
///
/// # Errors
///
/// [`Refusal`]s 7, 8 and 12, the first that applies.
pub fn week(canonical: &[u8], table: &[u32], sheet: Extent, node: usize) -> Result<Week, NoWeek> {
    week_by(ffi::etg_week, canonical, table, sheet, node)
}

/// [`week`] with the table lent as records.
///
/// # Errors
///
/// As [`week`].
pub fn week_records(
    canonical: &[u8],
    records: &[Record],
    sheet: Extent,
    node: usize,
) -> Result<Week, NoWeek> {
    week_by(ffi::etg_week_records, canonical, records, sheet, node)
}

fn week_by<T>(
    call: ffi::Weeks<T>,
    canonical: &[u8],
    table: &[T],
    sheet: Extent,
    node: usize,
) -> Result<Week, NoWeek> {
    let (mut week, mut bad) = (Week::default(), 0);
    // SAFETY: as in `value_by`.
    let number = unsafe {
        call(
            canonical.as_ptr(),
            canonical.len(),
            sheet.length,
            table.as_ptr(),
            table.len(),
            sheet.nodes,
            node,
            &mut week.lines,
            &mut week.total.quarters,
            &mut week.total.hours,
            &mut bad,
        )
    };
    Refusal::check(number, week).map_err(|refusal| NoWeek { refusal, node: bad })
}
