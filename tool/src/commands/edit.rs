//! What every correction of a file has in common.

use std::ffi::OsStr;

use etglavino::{Form, OwnedSheet, Refusal};

use super::convert::deliver;
use crate::args::{Flag, Given};
use crate::files;
use crate::problem::Problem;

pub const TO: Flag = Flag {
    name: "--to",
    value: Some("FORM"),
    about: "the form of what is written (default: the form that was read; of terminal, advanced)",
};
pub const TEXT: Flag = Flag {
    name: "--text",
    value: Some("FORM"),
    about: "the form of TEXT: canonical, basic, advanced, terminal, or any (the default)",
};
pub const DETAILS: &str = "\
A FILE is replaced as a whole, after a power cut it is the old one or the new one.
Without a FILE, or with --output -, the corrected sheet goes to standard output.";

/// Reads the sheet of a file, has it changed by a text, and puts it back. The
/// text is called by its name where that is what is refused.
pub fn edit(
    given: &Given,
    file: Option<&OsStr>,
    text: (Form, &[u8]),
    change: impl FnOnce(&mut OwnedSheet) -> Result<(), Refusal>,
) -> Result<(), Problem> {
    let mut taken = files::take(given, file)?;
    let to = given.form(&["--to"], taken.source.form)?;
    change(&mut taken.sheet).map_err(|why| match why.number() {
        2 | 3 => Problem::text("TEXT".into(), why, text.0, text.1),
        _ => Problem::Refused(taken.source.name.clone(), why),
    })?;
    let text = files::text(&taken.source.name, &taken.sheet, to)?;
    match file {
        Some(path) if path != "-" && !given.has("--output") => {
            files::replace(path, &text, Some(&taken.source.octets))
        }
        _ => deliver(given, &text),
    }
}
