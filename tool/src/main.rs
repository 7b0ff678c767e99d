//! `etglavino`: S-expressions converted, checked, shown and corrected from a
//! command line. Files, threads and tables are made here; what a text means and
//! what becomes of it are the library's answers.

mod args;
mod closed;
mod commands;
mod files;
mod html;
mod many;
mod nodes;
mod place;
mod problem;

use std::env;
use std::ffi::OsString;
use std::process::ExitCode;

fn main() -> ExitCode {
    let given: Vec<OsString> = env::args_os().skip(1).collect();
    match commands::run(given) {
        Ok(()) => ExitCode::SUCCESS,
        Err(problem) => {
            problem.tell();
            ExitCode::from(problem.status())
        }
    }
}
