//! Whether files are S-expressions.

use crate::args::{once, Command, Given, FROM, THREADS};
use crate::problem::Problem;
use crate::{files, many};

pub const COMMAND: Command = Command {
    name: "check",
    takes: "FILE...",
    plain: (1, usize::MAX),
    about: "say which files are refused, and why",
    details: "\
Nothing is said of good files. Several are read in parallel, with a line for each that
is refused and a summary at the end. The status is 1 if one is refused, and 2 if one
can't be read.",
    flags: &[FROM, THREADS],
    run,
};

fn run(given: &Given) -> Result<(), Problem> {
    given.form_of("--from", b"")?;
    once(&given.plain)?;
    let threads = given.count("--threads")?;
    many::each(&given.plain, threads, |file| {
        files::take(given, Some(file)).map(drop)
    })
}
