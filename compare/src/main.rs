//! `compare SEED COUNT`: the fixed cases, COUNT random ones of the seed and the
//! largest sheets, each answered by the library and by the reference program; then
//! elements put into lists and nodes removed, and extracts, about as many random
//! ones again of each; then the places of texts that are refused; then texts in
//! pieces, a tenth as many random ones; then spools; then runs of sheets and pairs of
//! corrections in either order, a tenth as many each; then the fixed sheets of values
//! and hours, and a tenth as many random ones, node by node. Answers and all lent
//! buffers must be the same. Of what differs the first five of each part are shown,
//! the rest counted; the exit status is 1 where anything does.

mod clerks;
mod corrections;
mod extract;
mod larger;
mod library;
mod pieces;
mod place;
mod runs;
mod spool;
mod values;

use std::collections::BTreeMap;
use std::env;
use std::process::ExitCode;

use reference::corpus::case::Case;
use reference::corpus::explain::explain;
use reference::corpus::files::cases;
use reference::corpus::run::{run, Outcome};

/// Differences shown whole; the rest are only counted.
const SHOWN: u64 = 5;

fn main() -> ExitCode {
    let arguments: Vec<String> = env::args().skip(1).collect();
    let numbers: Option<Vec<u64>> = arguments.iter().map(|word| word.parse().ok()).collect();
    match numbers.as_deref() {
        Some([seed, count]) => compare(*seed, *count),
        _ => {
            eprintln!("usage: compare SEED COUNT");
            ExitCode::from(2)
        }
    }
}

fn compare(seed: u64, count: u64) -> ExitCode {
    let mut tally: BTreeMap<(&'static str, u32), u64> = BTreeMap::new();
    let mut differences = 0;
    for (number, case) in (0..).zip(cases(seed, count).chain(larger::cases())) {
        let expected = run(&case);
        *tally.entry((case.name(), expected.answer)).or_default() += 1;
        for (way, answered) in library::answers(&case) {
            if answered != expected {
                differences += 1;
                if differences <= SHOWN {
                    show(number, &case, way, &answered);
                }
            }
        }
    }
    let mut corrections = corrections::compare(seed, count);
    tally.append(&mut corrections.cases);
    differences += corrections.differences;
    let mut extracts = extract::compare(seed, count);
    tally.append(&mut extracts.cases);
    differences += extracts.differences;
    for ((entry, answer), cases) in &tally {
        println!("{entry} {answer}: {cases} cases");
    }
    println!("{} pairs of alike sheets that differ", extracts.pairs);
    println!(
        "{} cases, {differences} differences",
        tally.values().sum::<u64>()
    );
    differences += place::compare();
    differences += pieces::compare(seed, count.div_ceil(10));
    differences += spool::compare(seed, count);
    differences += runs::compare(seed, count.div_ceil(10));
    differences += clerks::compare(seed, count.div_ceil(10));
    let typed = values::compare(seed, count.div_ceil(10));
    println!(
        "{} questions on values and hours, {} differences",
        typed.asked, typed.different
    );
    ExitCode::from(u8::from(differences + typed.different > 0))
}

fn show(number: u64, case: &Case, way: &str, answered: &Outcome) {
    print!("{}", explain(number, case));
    print!(
        "the library, {way}\n  {}",
        answered.line(number, case.name())
    );
}
