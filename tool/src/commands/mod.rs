//! The commands, one to a file, and which of them is meant.

mod check;
mod convert;
mod edit;
mod extract;
mod hours;
mod insert;
mod remove;
mod replace;
mod same;
pub mod show;
mod split;
mod spool;
mod table;

use std::ffi::OsString;

use crate::args::Command;
use crate::files;
use crate::problem::{usage, word, Problem};

/// All commands, in the order in which help has them.
const ALL: &[&Command] = &[
    &convert::COMMAND,
    &check::COMMAND,
    &show::COMMAND,
    &table::COMMAND,
    &replace::COMMAND,
    &insert::COMMAND,
    &remove::COMMAND,
    &same::COMMAND,
    &extract::COMMAND,
    &split::COMMAND,
    &hours::COMMAND,
    &spool::ADD,
    &spool::LIST,
    &spool::GET,
    &spool::CHECK,
];

const STATUS: &str = "\
Without a FILE, and for -, standard input is read. A NODE is a number, as `show`
tells it, or a path: 0/3/1 is the second element of the fourth element of the
whole, elements being counted from 0. `--` ends the flags: what follows may begin
with a hyphen.

exit status: 0 done; 1 refused, with a number and a sentence on standard error and
nothing on standard output, or the answer `different` of `same`; 2 wrong use, or a
file that can't be read or written";

const VERSION: &str = concat!("etglavino ", env!("CARGO_PKG_VERSION"), "\n");

/// Runs what is asked for.
pub fn run(given: Vec<OsString>) -> Result<(), Problem> {
    let words: Vec<String> = given.iter().map(|given| word(given)).collect();
    let words: Vec<&str> = words.iter().map(String::as_str).collect();
    match words[..] {
        [] => return usage("a command is missing; see `etglavino --help`"),
        ["--help" | "-h" | "help", ..] => return files::put(help("").as_bytes()),
        ["--version", ..] => return files::put(VERSION.as_bytes()),
        _ => (),
    }
    for command in ALL {
        let name: Vec<&str> = command.name.split(' ').collect();
        if words.starts_with(&name) {
            return run_one(command, &given[name.len()..]);
        }
    }
    let within = format!("{} ", words[0]);
    let group = ALL.iter().any(|command| command.name.starts_with(&within));
    match words[..] {
        [_, "--help" | "-h", ..] if group => files::put(help(&within).as_bytes()),
        [first, other, ..] if group => usage(format!("there is no command {first} {other}")),
        [first, ..] if group => usage(format!("{first}: which? See `etglavino {first} --help`")),
        [first, ..] => usage(format!(
            "there is no command {first}; see `etglavino --help`"
        )),
        [] => unreachable!("a word is there"),
    }
}

/// Runs a command, or gives its help.
fn run_one(command: &Command, given: &[OsString]) -> Result<(), Problem> {
    let mut flags = given.iter().take_while(|word| *word != "--");
    if flags.any(|word| word == "--help" || word == "-h") {
        return files::put(command.help().as_bytes());
    }
    (command.run)(&command.sort(given)?)
}

/// The commands whose names begin so, a line each.
fn help(beginning: &str) -> String {
    let mut text = String::from("usage: etglavino COMMAND [FLAGS] ...\n\n");
    for command in ALL
        .iter()
        .filter(|command| command.name.starts_with(beginning))
    {
        text += &format!("  {:<12}  {}\n", command.name, command.about);
    }
    text + &format!(
        "\n`etglavino COMMAND --help` says more, `etglavino --version` which it is.\n\n{STATUS}\n"
    )
}
