//! Writes the two files of a corpus.

use std::collections::BTreeMap;
use std::fs::File;
use std::io::{self, BufWriter, Write};
use std::path::Path;

use super::case::Case;
use super::run::run;
use super::{fixed, random, wire};

/// The seed of the corpus that is committed.
pub const SEED: u64 = 9_804;
/// How many random cases it has.
pub const COUNT: u64 = 5_000;

/// How many cases of each entry gave each answer. A comparison's answer is
/// counted with its yes or no.
pub type Summary = BTreeMap<(&'static str, String), u64>;

/// The fixed cases, then that many random ones of the seed.
pub fn cases(seed: u64, count: u64) -> impl Iterator<Item = Case> {
    let random = (0..count).zip(random::Cases::new(seed));
    fixed::cases()
        .into_iter()
        .chain(random.map(|(_, case)| case))
}

/// Writes a corpus to two writers: cases, and what is expected of them.
pub fn write(
    seed: u64,
    count: u64,
    cases_file: &mut impl Write,
    expected_file: &mut impl Write,
) -> io::Result<Summary> {
    let mut summary = Summary::new();
    for (number, case) in (0..).zip(cases(seed, count)) {
        let outcome = run(&case);
        cases_file.write_all(&wire::encode(&case))?;
        expected_file.write_all(outcome.line(number, case.name()).as_bytes())?;
        let answer = answer(&case, outcome.answer, outcome.values[0]);
        *summary.entry((case.name(), answer)).or_default() += 1;
    }
    Ok(summary)
}

fn answer(case: &Case, answer: u32, value: u64) -> String {
    match (case, answer, value) {
        (Case::Same { .. }, 0, 1) => "0 yes".to_string(),
        (Case::Same { .. }, 0, _) => "0 no".to_string(),
        _ => answer.to_string(),
    }
}

/// Writes a corpus into a directory, which is made if it is not there.
pub fn write_to(seed: u64, count: u64, directory: &Path) -> io::Result<Summary> {
    write_as(seed, count, directory, ["cases", "expected"])
}

/// Writes the corpus that the proved library is tested with into the directory
/// of its test program, as that program's input and the output it must have.
pub fn write_vectors(directory: &Path) -> io::Result<Summary> {
    write_as(SEED, COUNT, directory, ["stdin", "stdout"])
}

fn write_as(seed: u64, count: u64, directory: &Path, names: [&str; 2]) -> io::Result<Summary> {
    std::fs::create_dir_all(directory)?;
    let [mut cases, mut expected] = [
        BufWriter::new(File::create(directory.join(names[0]))?),
        BufWriter::new(File::create(directory.join(names[1]))?),
    ];
    let summary = write(seed, count, &mut cases, &mut expected)?;
    cases.flush()?;
    expected.flush()?;
    Ok(summary)
}
