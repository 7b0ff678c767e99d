//! What goes wrong: how it is said, and with which exit status.

use std::ffi::OsStr;
use std::fmt;
use std::io::{self, ErrorKind, Write};
use std::os::unix::ffi::OsStrExt;

use etglavino::{Form, Refusal, SpoolError};

use crate::place;

/// Why a command did not do what it was asked for.
#[derive(Debug)]
pub enum Problem {
    /// Wrong use, with what is wrong about it.
    Usage(String),
    /// A file, by its name, that can't be read or written.
    File(String, io::Error),
    /// Standard output can't be written.
    Output(io::Error),
    /// The library refused something, by its name.
    Refused(String, Refusal),
    /// The library refused a text, by its name, and this is where: in words, and
    /// the line with a caret.
    Syntax(String, Refusal, [String; 2]),
    /// All has been told already, and this is the status.
    Told(u8),
}

impl Problem {
    /// 1 for a refusal, 2 for wrong use and files.
    pub fn status(&self) -> u8 {
        match self {
            Problem::Refused(..) | Problem::Syntax(..) => 1,
            Problem::Told(status) => *status,
            Problem::Usage(_) | Problem::File(..) | Problem::Output(_) => 2,
        }
    }

    /// Says it on standard error, with the line of a place. Who closes the pipe
    /// knows that it is closed.
    pub fn tell(&self) {
        match self {
            Problem::Told(_) => (),
            Problem::Output(error) if error.kind() == ErrorKind::BrokenPipe => (),
            Problem::Syntax(_, _, [_, shown]) => say(&format!("etglavino: {self}\n{shown}")),
            _ => say(&format!("etglavino: {self}")),
        }
    }

    /// Says it in one line.
    pub fn tell_in_a_line(&self) {
        say(&format!("etglavino: {self}"));
    }

    /// A text that was refused, with its place where that is told.
    pub fn text(name: String, refusal: Refusal, form: Form, text: &[u8]) -> Problem {
        match place::of(refusal, form, text) {
            Some(place) => {
                let told = [place::words(text, place), place::shown(text, place)];
                Problem::Syntax(name, refusal, told)
            }
            None => Problem::Refused(name, refusal),
        }
    }

    /// A problem with a spool file.
    pub fn spool(name: &str, error: SpoolError) -> Problem {
        match error {
            SpoolError::Refused(refusal) => Problem::Refused(name.into(), refusal),
            SpoolError::File(error) => Problem::File(name.into(), error),
            SpoolError::InUse => Problem::File(name.into(), io::Error::other("it is in use")),
        }
    }
}

impl fmt::Display for Problem {
    fn fmt(&self, f: &mut fmt::Formatter<'_>) -> fmt::Result {
        match self {
            Problem::Usage(what) => write!(f, "{what}"),
            Problem::File(name, error) => write!(f, "{name}: {error}"),
            Problem::Output(error) => write!(f, "standard output: {error}"),
            Problem::Refused(name, refusal) => write!(f, "{name}: {refusal}"),
            Problem::Syntax(name, refusal, [words, _]) => write!(f, "{name}: {refusal}, {words}"),
            Problem::Told(status) => write!(f, "status {status}"),
        }
    }
}

/// A file's name, or another word that was given, for a sentence: octets that
/// can't be printed, or that turn the writing round, are spelled.
pub fn word(given: &OsStr) -> String {
    let turns = |letter| matches!(letter, '\u{2028}'..='\u{202e}' | '\u{2066}'..='\u{2069}');
    let mut out = String::new();
    for chunk in given.as_bytes().utf8_chunks() {
        for letter in chunk.valid().chars() {
            match letter.is_control() || turns(letter) {
                true => out += &place::spelled(letter.to_string().as_bytes()),
                false => out.push(letter),
            }
        }
        out += &place::spelled(chunk.invalid());
    }
    out
}

/// A line on standard error, if anybody listens there.
pub fn say(line: &str) {
    let _ = writeln!(io::stderr(), "{line}");
}

/// Wrong use.
pub fn usage<T>(what: impl Into<String>) -> Result<T, Problem> {
    Err(Problem::Usage(what.into()))
}

#[cfg(test)]
mod tests {
    use super::*;

    #[test]
    fn words_are_one_line_that_can_be_printed() {
        let shown = |octets: &[u8]| word(OsStr::from_bytes(octets));
        assert_eq!(shown("Köln \\ '1'".as_bytes()), "Köln \\ '1'");
        assert_eq!(shown(b"a\nb\x1b[2J\x7f"), "a\\x0ab\\x1b[2J\\x7f");
        assert_eq!(shown(b"\xffa\xc3"), "\\xffa\\xc3");
        assert_eq!(
            shown("\u{85}\u{202e}\u{2028}".as_bytes()),
            "\\xc2\\x85\\xe2\\x80\\xae\\xe2\\x80\\xa8"
        );
        assert_eq!(shown(b""), "");
    }
}
