//! Sheets in a spool file: added, listed, taken out and checked.

use std::ffi::{OsStr, OsString};
use std::fs;
use std::path::Path;

use etglavino::{Form, OwnedSheet, Refusal, SpoolFile, MAX_CANONICAL};

use super::convert::deliver;
use crate::args::{once, Command, Flag, Given, FROM, OUTPUT, THREADS};
use crate::problem::{usage, word, Problem};
use crate::{files, many, nodes};

/// Octets of a spool file that is made, where nothing else is said.
const SIZE: usize = 1 << 20;
/// Octets of a length before an entry: seven bits each.
const LENGTH: usize = 3;
/// Columns of a sheet's text in a list.
const COLUMNS: usize = 60;

pub const ADD: Command = Command {
    name: "spool add",
    takes: "SPOOL FILE...",
    plain: (2, usize::MAX),
    about: "add sheets to a spool file, which is made where it is missing",
    details: "\
If a file is refused, or there is no room for one (6), none is added; several have a
line for each that is refused. A larger --size makes room. When the command is done
the sheets are on the disk; after a power cut the spool has the old sheets, or those
and the first of the new ones.",
    flags: &[
        FROM,
        Flag {
            name: "--size",
            value: Some("N"),
            about: "octets that the spool file has at least (1048576 for a new one)",
        },
    ],
    run: add,
};

pub const LIST: Command = Command {
    name: "spool list",
    takes: "SPOOL",
    plain: (1, 1),
    about: "print the sheets of a spool file: number, octets, beginning",
    details: "",
    flags: &[],
    run: list,
};

pub const GET: Command = Command {
    name: "spool get",
    takes: "SPOOL N",
    plain: (2, 2),
    about: "write a sheet of a spool file, by its number from 0",
    details: "",
    flags: &[
        Flag {
            name: "--to",
            value: Some("FORM"),
            about: "the form of what is written: canonical, basic or advanced (the default)",
        },
        OUTPUT,
    ],
    run: get,
};

pub const CHECK: Command = Command {
    name: "spool check",
    takes: "SPOOL...",
    plain: (1, usize::MAX),
    about: "say which spool files are damaged",
    details: "Nothing is said of good ones.",
    flags: &[THREADS],
    run: check,
};

fn add(given: &Given) -> Result<(), Problem> {
    let size = given.count("--size")?;
    let (path, new) = (&given.plain[0], &given.plain[1..]);
    given.form_of("--from", b"")?;
    once(new)?;
    let sheets = many::take(new, None, |file| Ok(files::take(given, Some(file))?.sheet))?;
    let name = word(path);
    let failed = |error| Problem::spool(&name, error);
    let refused = |(file, refusal): (&OsString, Refusal)| {
        let adding = format!("{name}, adding {}", files::name(Some(file)));
        Problem::Refused(adding, refusal)
    };
    // The file is made, or grows, only when nothing can be refused any more.
    let mut spool = if Path::new(path).exists() {
        let mut spool = SpoolFile::open(path).map_err(failed)?;
        let damaged = |why| Problem::Refused(name.to_string(), why);
        let used = used(spool.area()).map_err(damaged)?;
        let size = size.unwrap_or(0).max(spool.area().len());
        rehearsed(size - used, new, &sheets).map_err(refused)?;
        spool.grow(size).map_err(failed)?;
        spool
    } else {
        let size = size.unwrap_or(SIZE);
        rehearsed(size, new, &sheets).map_err(refused)?;
        SpoolFile::create(path, size).map_err(failed)?
    };
    let mut bar = many::Bar::of(sheets.len());
    for (number, sheet) in sheets.iter().enumerate() {
        spool.add(sheet.canonical()).map_err(failed)?;
        bar.show(number + 1);
    }
    bar.end();
    Ok(())
}

/// How many octets the entries of an area have.
fn used(area: &[u8]) -> Result<usize, Refusal> {
    let count = etglavino::spool_open(area, 0)?.count;
    match count.checked_sub(1) {
        None => Ok(0),
        Some(last) => Ok(etglavino::spool_open(area, last)?.end),
    }
}

/// Whether that many octets behind a spool's entries have room for all sheets:
/// none is added to the file if one of them is refused. What stands behind the
/// entries is a spool of its own, an empty one, so each sheet is added to an empty
/// area that has the room left, or as much of it as any sheet may take.
fn rehearsed<'a>(
    mut left: usize,
    files: &'a [OsString],
    sheets: &[OwnedSheet],
) -> Result<(), (&'a OsString, Refusal)> {
    for (file, sheet) in files.iter().zip(sheets) {
        let octets = sheet.canonical();
        let mut area = vec![0; left.min(MAX_CANONICAL + LENGTH)];
        let added = etglavino::spool_add(&mut area, octets, octets.len())
            .and_then(|()| etglavino::spool_open(&area, 0));
        left -= added.map_err(|why| (file, why))?.end;
    }
    Ok(())
}

/// The octets of a spool file. No lock is taken: whoever reads from the front
/// while a sheet is added sees the old sheets, or those and the new one.
fn area(path: &OsStr) -> Result<Vec<u8>, Problem> {
    fs::read(path).map_err(|error| Problem::File(word(path), error))
}

/// What opening an area gives, or why not.
fn opened<'a>(path: &OsStr, area: &'a [u8]) -> Result<etglavino::Sheets<'a>, Problem> {
    etglavino::spool_sheets(area).map_err(|refusal| Problem::Refused(word(path), refusal))
}

fn list(given: &Given) -> Result<(), Problem> {
    let path = &given.plain[0];
    let area = area(path)?;
    let mut out = String::new();
    for (number, sheet) in opened(path, &area)?.enumerate() {
        let text = String::from_utf8_lossy(&text(path, sheet, Form::Advanced)?).into_owned();
        let text = text.trim_end();
        let beginning = match text.get(..COLUMNS) {
            Some(beginning) if text.len() > COLUMNS => format!("{beginning}..."),
            _ => text.into(),
        };
        out += &format!("{number:>4}  {:>5}  {beginning}\n", sheet.len());
    }
    files::put(out.as_bytes())
}

fn get(given: &Given) -> Result<(), Problem> {
    let path = &given.plain[0];
    let shown = word(&given.plain[1]);
    let form = given.form(&["--to"], Form::Advanced)?;
    let Some(number) = nodes::number(&given.plain[1]) else {
        return usage(format!("spool get: {shown} is no number"));
    };
    files::apart(given, Some(path))?;
    let area = area(path)?;
    let mut sheets = opened(path, &area)?;
    let count = sheets.len();
    match sheets.nth(number) {
        Some(sheet) => deliver(given, &text(path, sheet, form)?),
        None => usage(format!(
            "{}: there is no sheet {shown}, there are {count} from 0",
            word(path)
        )),
    }
}

fn check(given: &Given) -> Result<(), Problem> {
    many::each(&given.plain, given.count("--threads")?, |path| {
        opened(path, &area(path)?).map(drop)
    })
}

/// A spooled sheet as a text.
fn text(path: &OsStr, sheet: &[u8], form: Form) -> Result<Vec<u8>, Problem> {
    let name = word(path);
    let sheet = OwnedSheet::of_text(Form::Canonical, sheet);
    let sheet = sheet.map_err(|refusal| Problem::Refused(name.clone(), refusal))?;
    files::text(&name, &sheet, form)
}
