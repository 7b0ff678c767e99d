//! An element put into a list.

use std::os::unix::ffi::OsStrExt;

use etglavino::Slot;

use super::edit::{edit, DETAILS, TEXT, TO};
use crate::args::{Command, Given, FROM, OUTPUT};
use crate::nodes::{self, Named};
use crate::problem::{usage, word, Problem};

pub const COMMAND: Command = Command {
    name: "insert",
    takes: "NODE K TEXT [FILE]",
    plain: (3, 4),
    about: "put the tree of a text into a list, as its element K from 0",
    details: DETAILS,
    flags: &[FROM, TO, TEXT, OUTPUT],
    run,
};

fn run(given: &Given) -> Result<(), Problem> {
    let node = Named::of(&given.plain[0])?;
    let place = &given.plain[1];
    let Some(k) = nodes::number(place) else {
        return usage(format!("insert: {} is no number", word(place)));
    };
    let text = given.plain[2].as_bytes();
    let form = given.form_of("--text", text)?;
    edit(given, given.at(3), (form, text), |sheet| {
        let node = node.number(sheet);
        sheet.insert(form, text, Slot { node, k })
    })
}
