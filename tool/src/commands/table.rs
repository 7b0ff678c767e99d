//! The node table, as numbers.

use etglavino::RECORD;

use crate::args::{Command, Given, FROM};
use crate::files;
use crate::problem::Problem;

pub const COMMAND: Command = Command {
    name: "table",
    takes: "[FILE]",
    plain: (0, 1),
    about: "print the node table, a node a line",
    details: "\
The numbers are: kind (0 string, 1 string with a hint, 2 list), start, end (one
past), nodes in it with itself, hint start and end, data start and end, and the
number of the list directly around it, 0 for node 0. Places are those in the
canonical form.",
    flags: &[FROM],
    run,
};

fn run(given: &Given) -> Result<(), Problem> {
    let sheet = files::take(given, given.at(0))?.sheet;
    let mut out = String::new();
    for record in sheet.records() {
        let numbers = <[u32; RECORD]>::from(*record).map(|number| number.to_string());
        out += &numbers.join(" ");
        out += "\n";
    }
    files::put(out.as_bytes())
}
