//! Lines and weeks, as a table or as CSV.

use etglavino::{Kind, Line, Node, OwnedSheet, Refusal, Total};

use super::convert::deliver;
use super::show::spelled;
use crate::args::{Command, Flag, Given, FROM, OUTPUT};
use crate::problem::Problem;
use crate::{files, nodes};

pub const COMMAND: Command = Command {
    name: "hours",
    takes: "[FILE]",
    plain: (0, 1),
    about: "total shift lines and weeks, as a table or as CSV",
    details: "\
A line is a list of three f64 strings: ordinary, night and holiday hours. A week is a
list of lines, named by the string that stands directly before it. A list that has an
f64 string in it is meant as a line, and one of lists, some of them lines, as a week:
whatever is meant so and isn't is refused with 12, and so is an f64 string that is the
whole. So no f64 string is left out in silence.",
    flags: &[
        FROM,
        Flag {
            name: "--csv",
            value: None,
            about: "commas between, for a spreadsheet",
        },
        OUTPUT,
    ],
    run,
};

const HEAD: [&str; 9] = [
    "node", "path", "what", "name", "ordinary", "night", "holiday", "hours", "quarters",
];

type Row = [String; HEAD.len()];

fn run(given: &Given) -> Result<(), Problem> {
    files::apart(given, given.at(0))?;
    let sheet = files::take(given, given.at(0))?.sheet;
    let rows = rows(&sheet).map_err(|node| {
        let name = format!("{}, node {node}", files::name(given.at(0)));
        Problem::Refused(name, Refusal::NotLine)
    })?;
    let out = if given.has("--csv") {
        csv(&rows)
    } else {
        table(&rows)
    };
    deliver(given, out.as_bytes())
}

/// A row for each line and for each week, the sum of all lines last; or a node
/// that is meant as a line and is none.
fn rows(sheet: &OwnedSheet) -> Result<Vec<Row>, usize> {
    let (mut rows, mut all, mut before) = (vec![HEAD.map(String::from)], Line::default(), None);
    let mut quarters = 0;
    for node in sheet.nodes() {
        if let Some((line, total)) = line(node)? {
            all = sum(all, line);
            quarters += total.quarters;
            rows.push(row(node, "line", String::new(), line, total));
        } else if let Some(total) = week(node)? {
            let lines = node.children().filter_map(|child| child.line().ok());
            let parts = lines.fold(Line::default(), |parts, (line, _)| sum(parts, line));
            rows.push(row(node, "week", named(node, before), parts, total));
        }
        before = Some(node);
    }
    let hours = f64::from(quarters) / 4.0;
    let mut last = row(
        sheet.root(),
        "all",
        String::new(),
        all,
        Total { quarters, hours },
    );
    (last[0], last[1]) = (String::new(), String::new());
    rows.push(last);
    Ok(rows)
}

/// The line that a node is. A list that has an `f64` string in it has to be one,
/// and an `f64` string in no list is none.
fn line(node: Node<'_>) -> Result<Option<(Line, Total)>, usize> {
    let double = |node: Node<'_>| node.hint() == Some(b"f64");
    let alone = node.parent().is_none() && double(node);
    if !alone && !node.children().any(double) {
        return Ok(None);
    }
    node.line().map(Some).map_err(|_| node.number())
}

/// The sum of the lines of a node. A list of lists, one of them a line, has to
/// be a week.
fn week(node: Node<'_>) -> Result<Option<Total>, usize> {
    let lists = node.children().all(|child| child.kind() == Kind::List);
    if !lists || !node.children().any(|child| child.line().is_ok()) {
        return Ok(None);
    }
    let week = node.week().map_err(|why| why.node)?;
    Ok(Some(week.total))
}

/// Sums of quarters, which doubles hold exactly.
fn sum(a: Line, b: Line) -> Line {
    Line {
        ordinary: a.ordinary + b.ordinary,
        night: a.night + b.night,
        holiday: a.holiday + b.holiday,
    }
}

/// The string directly before a node in the same list.
fn named(node: Node<'_>, before: Option<Node<'_>>) -> String {
    let beside = before.filter(|string| string.kind() != Kind::List);
    let around = node.parent().map(|list| list.number());
    match beside {
        Some(string) if string.parent().map(|list| list.number()) == around => spelled(string),
        _ => String::new(),
    }
}

fn row(node: Node<'_>, what: &str, name: String, parts: Line, total: Total) -> Row {
    let hours = |hours: f64| format!("{hours:.2}");
    [
        node.number().to_string(),
        nodes::path(node),
        what.into(),
        name,
        hours(parts.ordinary),
        hours(parts.night),
        hours(parts.holiday),
        hours(total.hours),
        total.quarters.to_string(),
    ]
}

/// Words to the left, numbers to the right, two spaces between.
fn table(rows: &[Row]) -> String {
    let width = |column: usize| rows.iter().map(|row| row[column].len()).max().unwrap_or(0);
    let widths: [usize; HEAD.len()] = std::array::from_fn(width);
    let mut out = String::new();
    for row in rows {
        let cells =
            row.iter()
                .zip(widths)
                .enumerate()
                .map(|(column, (cell, width))| match column {
                    1..=3 => format!("{cell:<width$}"),
                    _ => format!("{cell:>width$}"),
                });
        out += cells.collect::<Vec<_>>().join("  ").trim_end();
        out += "\n";
    }
    out
}

/// RFC 4180: what has a comma, a quote or a line's end in it stands in quotes. A
/// token that a spreadsheet would compute is spelled as a quoted string, which is
/// the same string.
fn csv(rows: &[Row]) -> String {
    let mut out = String::new();
    for row in rows {
        let spelled = |cell: &String| match cell.starts_with(['=', '+', '-', '@']) {
            true => format!("\"{cell}\""),
            false => cell.clone(),
        };
        let cells =
            row.iter()
                .map(spelled)
                .map(|cell| match cell.contains([',', '"', '\r', '\n']) {
                    true => format!("\"{}\"", cell.replace('"', "\"\"")),
                    false => cell,
                });
        out += &cells.collect::<Vec<_>>().join(",");
        out += "\r\n";
    }
    out
}
