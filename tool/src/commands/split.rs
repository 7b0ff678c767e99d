//! Sheets written back to back, one by one.

use etglavino::{Form, OwnedSheet, Refusal, MAX_SOURCE};

use super::convert::deliver;
use crate::args::{Command, Flag, Given, OUTPUT};
use crate::files;
use crate::problem::Problem;

pub const COMMAND: Command = Command {
    name: "split",
    takes: "[FILE]",
    plain: (0, 1),
    about: "write canonical sheets that stand back to back one by one, a line each",
    details: "\
The file may have any length. If a sheet in it is refused, nothing is written. With
--to canonical nothing stands between the sheets. Where one goes wrong is counted from
its own beginning.",
    flags: &[
        Flag {
            name: "--to",
            value: Some("FORM"),
            about: "the form of what is written: canonical, basic or advanced (the default)",
        },
        OUTPUT,
    ],
    run,
};

fn run(given: &Given) -> Result<(), Problem> {
    let to = given.form(&["--to"], Form::Advanced)?;
    let octets = files::read_whole(given.at(0))?;
    let (mut run, mut out) = (etglavino::run(&octets), Vec::new());
    for number in 0.. {
        let name = format!("{}, sheet {number}", files::name(given.at(0)));
        // What begins no sheet is refused as what it is.
        let Some(sheet) = run
            .next()
            .or(Some(run.rest()).filter(|rest| !rest.is_empty()))
        else {
            break;
        };
        let sheet = read(sheet).map_err(|(refusal, text)| {
            Problem::text(name.clone(), refusal, Form::Canonical, text)
        })?;
        out.extend(files::text(&name, &sheet, to)?);
        if to == Form::Basic {
            out.push(b'\n');
        }
    }
    deliver(given, &out)
}

/// Reads a sheet, or what is none, however much stands behind it: it is too long
/// only if it goes on right as far as a text may go.
fn read(text: &[u8]) -> Result<OwnedSheet, (Refusal, &[u8])> {
    let front = &text[..text.len().min(MAX_SOURCE)];
    match OwnedSheet::of_text(Form::Canonical, front) {
        Err(Refusal::Syntax { place }) if place == front.len() => {
            OwnedSheet::of_text(Form::Canonical, text).map_err(|why| (why, text))
        }
        answer => answer.map_err(|why| (why, front)),
    }
}
