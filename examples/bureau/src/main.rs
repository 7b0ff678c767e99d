//! A Thursday night at a wages bureau, end to end: nineteen factories' week is
//! made from a seed, taken in, spooled to files, opened again, one entry
//! corrected, shown to foremen and totalled.
//!
//!     bureau [FACTORIES [SHEETS [SEED [FOLDER]]]]
//!
//! Whoever makes the week knows what is in it, without the library: refusals,
//! extracts and totals are compared with that, and the program ends with 1 where
//! anything differs. Files are left in FOLDER if one is named.

mod made;
mod night;
mod rng;
mod spell;
mod terminal;

use std::path::PathBuf;
use std::process::ExitCode;
use std::{env, fs, process};

use night::Night;

fn main() -> ExitCode {
    let given: Vec<String> = env::args().skip(1).collect();
    let number = |place: usize, otherwise: usize| match given.get(place) {
        None => Some(otherwise),
        Some(text) => text.parse().ok(),
    };
    let (Some(factories), Some(sheets), Some(seed)) =
        (number(0, 19), number(1, 500), number(2, 1997))
    else {
        eprintln!("usage: bureau [FACTORIES [SHEETS [SEED [FOLDER]]]]");
        return ExitCode::from(2);
    };
    let aside = env::temp_dir().join(format!("bureau-{}", process::id()));
    let folder = given.get(3).map_or(aside.clone(), PathBuf::from);
    let done = fs::create_dir_all(&folder)
        .map_err(|error| format!("{}: {error}", folder.display()))
        .and_then(|()| Night::of(factories, sheets, seed as u64, &folder).pass());
    if given.len() < 4 {
        let _ = fs::remove_dir_all(&aside);
    }
    match done {
        Ok(()) => ExitCode::SUCCESS,
        Err(wrong) => {
            eprintln!("bureau: {wrong}");
            ExitCode::FAILURE
        }
    }
}
