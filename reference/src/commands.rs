//! What each command does.

use std::ffi::{OsStr, OsString};
use std::fs::{self, File};
use std::io::{self, Read, Write};
use std::path::Path;
use std::str::FromStr;

use reference::corpus::{explain, files, wire};
use reference::entries::{self, Comparing, Reading, Writing};
use reference::limits::*;

/// What a command prints.
pub enum Answer {
    /// These octets and nothing else.
    Output(Vec<u8>),
    /// The number of a refusal.
    Refused(u32),
}

type Outcome = Result<Answer, String>;

const HELP: &str = "\
reference read FORM                 text on standard input, canonical form out
reference table FORM                text on standard input, one record a line out
reference write FORM                canonical form on standard input, written in FORM out
reference replace FORM NODE FILE    canonical form on standard input, text in FILE;
                                    corrected canonical form out
reference same FILE FILE DEFAULT    canonical forms in the files; yes or no out
reference hint NODE DEFAULT         canonical form on standard input, the node's hint out
reference data NODE                 canonical form on standard input, the node's data out
reference corpus SEED COUNT DIRECTORY
                                    writes the files cases and expected
reference vectors DIRECTORY         writes the corpus of crates/vectors, the files stdin and stdout
reference explain FILE N            shows case N of a cases file
reference help                      this page

FORM is 1 (canonical), 2 (basic), 3 (advanced) or 4 (advanced with trees in
braces, which is only read). Nodes are counted from 0.
Status 0: done. Status 1: refused, and `refused N` is printed. Status 2: the
command was wrong or a file could not be used; standard error says why.
";

/// Runs the command that the arguments name; the error is one line.
pub fn run(arguments: &[OsString]) -> Outcome {
    let Some((command, rest)) = arguments.split_first() else {
        return Err("no command given; try `reference help`".to_string());
    };
    match (command.to_str(), rest) {
        (Some("read"), [form]) => read(form),
        (Some("table"), [form]) => table(form),
        (Some("write"), [form]) => write(form),
        (Some("replace"), [form, node, file]) => replace(form, node, file),
        (Some("same"), [one, other, default]) => same(one, other, default),
        (Some("hint"), [node, default]) => hint(node, default),
        (Some("data"), [node]) => data(node),
        (Some("corpus"), [seed, count, directory]) => corpus(seed, count, directory),
        (Some("vectors"), [directory]) => vectors(directory),
        (Some("explain"), [file, number]) => explain(file, number),
        (Some("help"), []) => Ok(Answer::Output(HELP.into())),
        _ => Err(format!(
            "unknown command or wrong number of arguments: {}; try `reference help`",
            command.to_string_lossy()
        )),
    }
}

fn number<T: FromStr>(argument: &OsStr, what: &str) -> Result<T, String> {
    argument
        .to_str()
        .and_then(|digits| digits.parse().ok())
        .ok_or_else(|| {
            format!(
                "{what} is not a number in range: {}",
                argument.to_string_lossy()
            )
        })
}

/// Whatever is longer than a source may be is refused alike, so no more than
/// one octet past that is taken in.
fn limited(input: impl Read, name: &str) -> Result<Vec<u8>, String> {
    let mut octets = Vec::new();
    input
        .take(MAX_SOURCE as u64 + 1)
        .read_to_end(&mut octets)
        .map_err(|error| format!("cannot read {name}: {error}"))?;
    Ok(octets)
}

fn standard_input() -> Result<Vec<u8>, String> {
    limited(io::stdin().lock(), "standard input")
}

fn file(path: &OsStr) -> Result<Vec<u8>, String> {
    let name = path.to_string_lossy();
    let file = File::open(path).map_err(|error| format!("cannot open {name}: {error}"))?;
    limited(file, &name)
}

/// Room for any tree that fits.
fn room() -> (Vec<u8>, Vec<u32>) {
    (vec![0; MAX_CANONICAL], vec![0; MAX_NODES * RECORD])
}

fn read(form: &OsStr) -> Outcome {
    let form = number(form, "FORM")?;
    let (mut canonical, mut table) = room();
    Ok(
        match entries::read(form, &standard_input()?, &mut canonical, &mut table) {
            Reading::Accepted { length, .. } => Answer::Output(canonical[..length].to_vec()),
            Reading::Refused(refusal) => Answer::Refused(refusal),
        },
    )
}

fn table(form: &OsStr) -> Outcome {
    let form = number(form, "FORM")?;
    let (mut canonical, mut table) = room();
    Ok(
        match entries::read(form, &standard_input()?, &mut canonical, &mut table) {
            Reading::Accepted { nodes, .. } => {
                let line = |record: &[u32]| {
                    let numbers: Vec<String> = record.iter().map(u32::to_string).collect();
                    numbers.join(" ") + "\n"
                };
                let lines: String = table.chunks(RECORD).take(nodes).map(line).collect();
                Answer::Output(lines.into_bytes())
            }
            Reading::Refused(refusal) => Answer::Refused(refusal),
        },
    )
}

fn write(form: &OsStr) -> Outcome {
    let form = number(form, "FORM")?;
    let canonical = standard_input()?;
    // A fitting form's output is never longer than a source may be.
    let mut out = vec![0; MAX_SOURCE];
    Ok(
        match entries::write(form, &canonical, canonical.len(), &mut out) {
            Writing::Accepted { length } => Answer::Output(out[..length].to_vec()),
            Writing::Refused(refusal) => Answer::Refused(refusal),
        },
    )
}

/// A canonical form from standard input in room for any, with its own table
/// if it is one.
fn canonical_with_table() -> Result<(Vec<u8>, usize, Vec<u32>, usize), String> {
    let input = standard_input()?;
    let (mut canonical, mut table) = room();
    let nodes = match entries::read(CANONICAL, &input, &mut canonical, &mut table) {
        Reading::Accepted { nodes, .. } => nodes,
        Reading::Refused(_) => 0,
    };
    let length = input.len();
    canonical = input;
    canonical.resize(length.max(MAX_CANONICAL), 0);
    Ok((canonical, length, table, nodes))
}

fn replace(form: &OsStr, node: &OsStr, text: &OsStr) -> Outcome {
    let form = number(form, "FORM")?;
    let node = number(node, "NODE")?;
    let text = file(text)?;
    let (mut canonical, length, mut table, nodes) = canonical_with_table()?;
    let reading = entries::replace(form, &text, &mut canonical, &mut table, length, nodes, node);
    Ok(match reading {
        Reading::Accepted { length, .. } => Answer::Output(canonical[..length].to_vec()),
        Reading::Refused(refusal) => Answer::Refused(refusal),
    })
}

fn same(one: &OsStr, other: &OsStr, default: &OsStr) -> Outcome {
    let (one, other) = (file(one)?, file(other)?);
    let default = default.as_encoded_bytes();
    Ok(
        match entries::same(&one, one.len(), &other, other.len(), default) {
            Comparing::Accepted { same: true } => Answer::Output(b"yes\n".to_vec()),
            Comparing::Accepted { same: false } => Answer::Output(b"no\n".to_vec()),
            Comparing::Refused(refusal) => Answer::Refused(refusal),
        },
    )
}

fn hint(node: &OsStr, default: &OsStr) -> Outcome {
    let node = number(node, "NODE")?;
    let (canonical, length, table, nodes) = canonical_with_table()?;
    let default = default.as_encoded_bytes();
    let shown = entries::hint(&canonical, length, &table, nodes, node, default);
    Ok(Answer::Output(shown.octets.to_vec()))
}

fn data(node: &OsStr) -> Outcome {
    let node = number(node, "NODE")?;
    let (canonical, length, table, nodes) = canonical_with_table()?;
    let shown = entries::data(&canonical, length, &table, nodes, node);
    Ok(Answer::Output(shown.octets.to_vec()))
}

fn corpus(seed: &OsStr, count: &OsStr, directory: &OsStr) -> Outcome {
    let seed = number(seed, "SEED")?;
    let count = number(count, "COUNT")?;
    written(
        directory,
        files::write_to(seed, count, Path::new(directory)),
    )
}

fn vectors(directory: &OsStr) -> Outcome {
    written(directory, files::write_vectors(Path::new(directory)))
}

fn written(directory: &OsStr, summary: io::Result<files::Summary>) -> Outcome {
    let summary = summary
        .map_err(|error| format!("cannot write to {}: {error}", directory.to_string_lossy()))?;
    let mut lines = String::new();
    for ((entry, answer), count) in summary {
        lines += &format!("{entry} {answer}: {count}\n");
    }
    // The files are what counts; the summary may be lost.
    let _ = io::stderr().write_all(lines.as_bytes());
    Ok(Answer::Output(Vec::new()))
}

fn explain(path: &OsStr, wanted: &OsStr) -> Outcome {
    let wanted: u64 = number(wanted, "N")?;
    let name = path.to_string_lossy();
    let octets = fs::read(path).map_err(|error| format!("cannot read {name}: {error}"))?;
    let cases = wire::decode_all(&octets).map_err(|error| format!("{name}: {error}"))?;
    let case = usize::try_from(wanted)
        .ok()
        .and_then(|place| cases.get(place))
        .ok_or_else(|| format!("{name} has {} cases, none numbered {wanted}", cases.len()))?;
    Ok(Answer::Output(explain::explain(wanted, case).into_bytes()))
}
