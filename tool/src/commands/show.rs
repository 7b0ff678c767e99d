//! The tree, a node a line.

use etglavino::{Form, Kind, Node, OwnedSheet, Refusal, Value};

use super::convert::deliver;
use crate::args::{Command, Flag, Given, FROM, OUTPUT};
use crate::files::{self, Source};
use crate::problem::Problem;
use crate::{html, nodes};

pub const COMMAND: Command = Command {
    name: "show",
    takes: "[FILE]",
    plain: (0, 1),
    about: "print the tree, a node a line: its number, its kind, and what it is",
    details: "\
A string is shown in its advanced spelling, the hint before it; behind it stands its
value if the hint is f32, f64 or int. A shift line is shown with its hours, a list of
lines with their sum. A page needs no network; pointing at a node marks its octets,
and the other way round. With --html and --output a refused text has a page too: what
is wrong, and the text with the place marked.",
    flags: &[
        FROM,
        Flag {
            name: "--paths",
            value: None,
            about: "print each node's path too",
        },
        Flag {
            name: "--html",
            value: None,
            about: "write a page in place of lines: tree and octets side by side",
        },
        OUTPUT,
    ],
    run,
};

fn run(given: &Given) -> Result<(), Problem> {
    files::apart(given, given.at(0))?;
    let source = Source::of(given, given.at(0))?;
    let html = given.has("--html");
    let out = match source.sheet() {
        Ok(sheet) if html => html::page(&sheet, &source.name),
        Ok(sheet) => tree(&sheet, given.has("--paths")),
        Err(why) if html => return refused(given, &source, why),
        Err(why) => return Err(source.refused(why)),
    };
    deliver(given, out.as_bytes())
}

/// The page of a refused text goes to the file of `--output`, and never to
/// standard output. What is said and the status are those of every refusal, but
/// where the file can't be written.
fn refused(given: &Given, source: &Source, why: Refusal) -> Result<(), Problem> {
    let told = source.refused(why);
    match given.value("--output") {
        Some(path) if path != "-" => {
            told.tell();
            files::replace(path, html::refused(source, why).as_bytes(), None)?;
            Err(Problem::Told(told.status()))
        }
        _ => Err(told),
    }
}

fn tree(sheet: &OwnedSheet, paths: bool) -> String {
    let width = (sheet.extent().nodes - 1).to_string().len();
    let mut out = String::new();
    for node in sheet.nodes() {
        let path = nodes::path(node);
        let indent = "  ".repeat(path.matches('/').count());
        let kind = kind(node);
        let (what, also) = (spelled(node), meaning(node));
        out += &format!("{:>width$}  {kind:<6}  {indent}{what}{also}", node.number());
        if paths {
            out += &format!("  at {path}");
        }
        out += "\n";
    }
    out
}

/// A word for what a node is.
pub fn kind(node: Node<'_>) -> &'static str {
    match node.kind() {
        Kind::String => "string",
        Kind::Hinted => "hinted",
        Kind::List => "list",
    }
}

/// A string in its advanced spelling, which has printable octets only; of a list
/// how many elements it has.
pub fn spelled(node: Node<'_>) -> String {
    if node.kind() == Kind::List {
        return match node.children().count() {
            0 => "no elements".into(),
            1 => "1 element".into(),
            count => format!("{count} elements"),
        };
    }
    let octets = node.canonical();
    let mut out = vec![0; 2 * octets.len() + 2];
    match etglavino::write(Form::Advanced, octets, octets.len(), &mut out) {
        Ok(written) => String::from_utf8_lossy(&out[..written]).into_owned(),
        Err(refusal) => refusal.to_string(),
    }
}

/// What a typed string, a line or a list of lines stands for.
pub fn meaning(node: Node<'_>) -> String {
    match node.kind() {
        Kind::List => hours(node),
        Kind::Hinted => value(node),
        Kind::String => String::new(),
    }
}

fn hours(node: Node<'_>) -> String {
    match (node.line(), node.week()) {
        (Ok((line, total)), _) => format!(
            " = {:.2} ordinary, {:.2} night, {:.2} holiday: {:.2} hours",
            line.ordinary, line.night, line.holiday, total.hours
        ),
        (_, Ok(week)) if week.lines > 0 => {
            format!(" = {} lines: {:.2} hours", week.lines, week.total.hours)
        }
        _ => String::new(),
    }
}

fn value(node: Node<'_>) -> String {
    match node.value() {
        Ok(Value::Raw { .. }) => String::new(),
        Ok(Value::Single(number)) => format!(" = {number:?}"),
        Ok(Value::Double(number)) => format!(" = {number:?}"),
        Ok(Value::Whole(number)) => format!(" = {number}"),
        Err(refusal) => format!(" = {refusal}"),
    }
}
