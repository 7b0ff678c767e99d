//! From one form to another.

use etglavino::Form;

use crate::args::{Command, Flag, Given, FROM, OUTPUT};
use crate::files;
use crate::problem::Problem;

pub const COMMAND: Command = Command {
    name: "convert",
    takes: "[FILE]",
    plain: (0, 1),
    about: "write an S-expression in another form",
    details: "\
Without --from the form is seen: what begins with a brace is basic, and all else
advanced, as canonical text is too. Advanced text that is written ends with a line
feed; in the other forms nothing stands behind the tree.",
    flags: &[
        FROM,
        Flag {
            name: "--to",
            value: Some("FORM"),
            about: "the form of what is written: canonical (the default), basic or advanced",
        },
        Flag {
            name: "--syntax",
            value: Some("FORM"),
            about: "the same, as sexp-conv has it; the last of them is heeded",
        },
        Flag {
            name: "-s",
            value: Some("FORM"),
            about: "the same, in short",
        },
        OUTPUT,
    ],
    run,
};

fn run(given: &Given) -> Result<(), Problem> {
    let to = given.form(&["--to", "--syntax", "-s"], Form::Canonical)?;
    let taken = files::take(given, given.at(0))?;
    deliver(given, &files::text(&taken.source.name, &taken.sheet, to)?)
}

/// Octets to the file of `--output`, or to standard output.
pub fn deliver(given: &Given, octets: &[u8]) -> Result<(), Problem> {
    match given.value("--output") {
        Some(path) if path != "-" => files::replace(path, octets, None),
        _ => files::put(octets),
    }
}
