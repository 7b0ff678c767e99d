//! A node replaced by a text's tree.

use std::os::unix::ffi::OsStrExt;

use super::edit::{edit, DETAILS, TEXT, TO};
use crate::args::{Command, Given, FROM, OUTPUT};
use crate::nodes::Named;
use crate::problem::Problem;

pub const COMMAND: Command = Command {
    name: "replace",
    takes: "NODE TEXT [FILE]",
    plain: (2, 3),
    about: "replace a node by the tree of a text",
    details: DETAILS,
    flags: &[FROM, TO, TEXT, OUTPUT],
    run,
};

fn run(given: &Given) -> Result<(), Problem> {
    let node = Named::of(&given.plain[0])?;
    let text = given.plain[1].as_bytes();
    let form = given.form_of("--text", text)?;
    edit(given, given.at(2), (form, text), |sheet| {
        sheet.replace(form, text, node.number(sheet))
    })
}
