//! Two sheets compared.

use std::os::unix::ffi::OsStrExt;

use crate::args::{Command, Flag, Given, FROM};
use crate::files;
use crate::problem::{usage, Problem};

pub const COMMAND: Command = Command {
    name: "same",
    takes: "A B",
    plain: (2, 2),
    about: "say whether two files have the same tree",
    details: "\
The same means: the same shape, and at each string the same data and the same hint.
Says `same`, with status 0, or `different`, with status 1.",
    flags: &[
        FROM,
        Flag {
            name: "--hint",
            value: Some("HINT"),
            about: "what a missing hint counts as (default: the empty hint)",
        },
    ],
    run,
};

fn run(given: &Given) -> Result<(), Problem> {
    let hint = given.value("--hint").unwrap_or_default();
    if given.plain.iter().all(|file| file == "-") {
        return usage("same: standard input can be one of the two");
    }
    let a = files::take(given, given.at(0))?.sheet;
    let b = files::take(given, given.at(1))?.sheet;
    let same = a.same(&b, hint.as_bytes());
    match same.map_err(|refusal| Problem::Refused(files::name(given.at(0)), refusal))? {
        true => files::put(b"same\n"),
        false => files::put(b"different\n").and(Err(Problem::Told(1))),
    }
}
