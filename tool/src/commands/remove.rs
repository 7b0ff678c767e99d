//! A node removed.

use etglavino::Form;

use super::edit::{edit, DETAILS, TO};
use crate::args::{Command, Given, FROM, OUTPUT};
use crate::nodes::Named;
use crate::problem::Problem;

pub const COMMAND: Command = Command {
    name: "remove",
    takes: "NODE [FILE]",
    plain: (1, 2),
    about: "remove a node",
    details: DETAILS,
    flags: &[FROM, TO, OUTPUT],
    run,
};

fn run(given: &Given) -> Result<(), Problem> {
    let node = Named::of(&given.plain[0])?;
    let none = (Form::Canonical, &b""[..]);
    edit(given, given.at(1), none, |sheet| {
        sheet.remove(node.number(sheet))
    })
}
