//! What a foreman may see.

use super::convert::deliver;
use super::edit::TO;
use crate::args::{Command, Given, FROM, OUTPUT};
use crate::files;
use crate::problem::Problem;

pub const COMMAND: Command = Command {
    name: "extract",
    takes: "[FILE]",
    plain: (0, 1),
    about: "write what a foreman may see of a sheet",
    details: "\
Every list, at any depth, whose first element is the unhinted string `private`
becomes ().",
    flags: &[FROM, TO, OUTPUT],
    run,
};

fn run(given: &Given) -> Result<(), Problem> {
    let taken = files::take(given, given.at(0))?;
    let to = given.form(&["--to"], taken.source.form)?;
    let extract = taken.sheet.extract(Vec::new(), Vec::new());
    let extract = extract.map_err(|why| Problem::Refused(taken.source.name.clone(), why))?;
    deliver(given, &files::text(&taken.source.name, &extract, to)?)
}
