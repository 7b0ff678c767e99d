//! Commands as data, and what is given to one: flags and plain arguments.

use std::ffi::{OsStr, OsString};
use std::os::unix::ffi::OsStrExt;

use etglavino::Form;

use crate::nodes;
use crate::problem::{usage, word, Problem};

/// A command, from which dispatch and help are made.
pub struct Command {
    /// One word or two, as `spool add`.
    pub name: &'static str,
    /// What stands behind the flags.
    pub takes: &'static str,
    /// How many plain arguments there may be.
    pub plain: (usize, usize),
    /// One line.
    pub about: &'static str,
    /// What is not obvious, in whole lines.
    pub details: &'static str,
    pub flags: &'static [Flag],
    pub run: fn(&Given) -> Result<(), Problem>,
}

/// A flag, with a value or without.
pub struct Flag {
    pub name: &'static str,
    /// What its value is called, if it has one.
    pub value: Option<&'static str>,
    pub about: &'static str,
}

pub const FROM: Flag = Flag {
    name: "--from",
    value: Some("FORM"),
    about: "the form of what is read: canonical, basic, advanced, terminal, or any (the default)",
};
pub const OUTPUT: Flag = Flag {
    name: "--output",
    value: Some("FILE"),
    about: "replace this file, as a whole, in place of writing to standard output",
};
pub const THREADS: Flag = Flag {
    name: "--threads",
    value: Some("N"),
    about: "how many files are read at a time (default: as many as there are processors)",
};

/// What is given to a command.
pub struct Given {
    flags: Vec<(&'static str, OsString)>,
    pub plain: Vec<OsString>,
}

impl Command {
    /// Sorts arguments into flags and others. A flag's value stands behind it or
    /// after `=`; `--` ends the flags, and `-` is no flag.
    pub fn sort(&self, given: &[OsString]) -> Result<Given, Problem> {
        let (mut flags, mut plain) = (Vec::new(), Vec::new());
        let mut rest = given.iter();
        while let Some(argument) = rest.next() {
            let octets = argument.as_bytes();
            if octets == b"--" {
                plain.extend(rest.by_ref().cloned());
            } else if octets.len() < 2 || octets[0] != b'-' {
                plain.push(argument.clone());
            } else {
                flags.push(self.flag(octets, &mut rest)?);
            }
        }
        if plain.len() < self.plain.0 {
            return self.wrong("something is missing");
        }
        if plain.len() > self.plain.1 {
            let more = word(&plain[self.plain.1]);
            return self.wrong(&format!("{more} is more than it takes"));
        }
        Ok(Given { flags, plain })
    }

    fn flag<'a>(
        &self,
        octets: &[u8],
        rest: &mut impl Iterator<Item = &'a OsString>,
    ) -> Result<(&'static str, OsString), Problem> {
        let sign = octets.iter().position(|octet| *octet == b'=');
        let (name, joined) = octets.split_at(sign.unwrap_or(octets.len()));
        let shown = word(OsStr::from_bytes(name));
        let known = self.flags.iter().find(|flag| flag.name.as_bytes() == name);
        let Some(flag) = known else {
            return self.wrong(&format!("there is no {shown}"));
        };
        let value = match (flag.value, sign) {
            (None, None) => OsString::new(),
            (None, Some(_)) => return self.wrong(&format!("{shown} takes no value")),
            (Some(_), Some(_)) => OsStr::from_bytes(&joined[1..]).into(),
            (Some(what), None) => match rest.next() {
                Some(value) => value.clone(),
                None => return self.wrong(&format!("{shown} takes a {what}")),
            },
        };
        Ok((flag.name, value))
    }

    /// Wrong use of this command.
    pub fn wrong<T>(&self, what: &str) -> Result<T, Problem> {
        let name = self.name;
        usage(format!("{name}: {what}; see `etglavino {name} --help`"))
    }

    /// What `--help` prints.
    pub fn help(&self) -> String {
        let flags = if self.flags.is_empty() {
            ""
        } else {
            " [FLAGS]"
        };
        let mut text = format!("usage: etglavino {}{flags} {}\n\n", self.name, self.takes);
        let (first, rest) = self.about.split_at(1);
        text += &format!("{}{rest}.\n", first.to_uppercase());
        if !self.details.is_empty() {
            text += &format!("\n{}\n", self.details);
        }
        text += "\nflags:\n";
        for flag in self.flags {
            let name = format!("{} {}", flag.name, flag.value.unwrap_or(""));
            text += &format!("  {name:<16}  {}\n", flag.about);
        }
        text + &format!("  {:<16}  this help\n", "--help")
    }
}

impl Given {
    /// The last value of a flag.
    pub fn value(&self, name: &str) -> Option<&OsStr> {
        Some(self.last(&[name])?.1)
    }

    /// Which of some flags was given last, and its value.
    fn last(&self, names: &[&str]) -> Option<(&'static str, &OsStr)> {
        let mut last = self.flags.iter().rev();
        let found = last.find(|flag| names.contains(&flag.0))?;
        Some((found.0, &found.1))
    }

    pub fn has(&self, name: &str) -> bool {
        self.value(name).is_some()
    }

    /// The form of what is written, by the last of some flags, or another. What
    /// terminals send is never written: advanced text takes its place.
    pub fn form(&self, names: &[&str], otherwise: Form) -> Result<Form, Problem> {
        match self.last(names) {
            None if otherwise == Form::Terminal1997 => Ok(Form::Advanced),
            None => Ok(otherwise),
            Some((name, value)) => named(value)
                .map_or_else(|| none_of(name, value, "canonical, basic and advanced"), Ok),
        }
    }

    /// The form of a text that is read, by a flag. Where none is named, or any, a
    /// text that begins with a brace is basic, which no advanced text does, and
    /// every other is advanced, which all canonical text is.
    pub fn form_of(&self, name: &str, text: &[u8]) -> Result<Form, Problem> {
        let seen = match text.first() {
            Some(b'{') => Form::Basic,
            _ => Form::Advanced,
        };
        match self.value(name) {
            None => Ok(seen),
            Some(value) if value == "any" => Ok(seen),
            Some(value) if value == "terminal" || value == "4" => Ok(Form::Terminal1997),
            Some(value) => named(value).map_or_else(
                || none_of(name, value, "canonical, basic, advanced and terminal"),
                Ok,
            ),
        }
    }

    /// A flag's number, at least 1.
    pub fn count(&self, name: &str) -> Result<Option<usize>, Problem> {
        let Some(value) = self.value(name) else {
            return Ok(None);
        };
        match nodes::number(value) {
            Some(0) | None => usage(format!("{name}: {} is no number from 1", word(value))),
            count => Ok(count),
        }
    }

    /// The plain argument at a place.
    pub fn at(&self, place: usize) -> Option<&OsStr> {
        self.plain.get(place).map(OsString::as_os_str)
    }
}

/// Wrong use where standard input is named more than once: there is one to read.
pub fn once(files: &[OsString]) -> Result<(), Problem> {
    match files.iter().filter(|file| *file == "-").count() {
        0 | 1 => Ok(()),
        _ => usage("standard input can be one of the files, and not several"),
    }
}

/// A form that is read and written, by its name or its number.
fn named(value: &OsStr) -> Option<Form> {
    match value.as_bytes() {
        b"canonical" | b"1" => Some(Form::Canonical),
        b"basic" | b"transport" | b"2" => Some(Form::Basic),
        b"advanced" | b"3" => Some(Form::Advanced),
        _ => None,
    }
}

fn none_of(name: &str, value: &OsStr, forms: &str) -> Result<Form, Problem> {
    let value = word(value);
    usage(format!("{name}: {value} is none of {forms}"))
}
