//! The command line. `reference help` lists the commands.

mod commands;

use std::env;
use std::ffi::OsString;
use std::io::{self, Write};
use std::process::ExitCode;

use commands::Answer;

const STATUS_REFUSED: u8 = 1;
const STATUS_FAILED: u8 = 2;

fn main() -> ExitCode {
    let arguments: Vec<OsString> = env::args_os().skip(1).collect();
    match commands::run(&arguments).and_then(print) {
        Ok(status) => status,
        Err(message) => {
            // Nobody is left to tell if this fails too.
            let _ = writeln!(io::stderr(), "reference: {message}");
            ExitCode::from(STATUS_FAILED)
        }
    }
}

fn print(answer: Answer) -> Result<ExitCode, String> {
    let (octets, status) = match answer {
        Answer::Output(octets) => (octets, ExitCode::SUCCESS),
        Answer::Refused(number) => (
            format!("refused {number}\n").into_bytes(),
            ExitCode::from(STATUS_REFUSED),
        ),
    };
    let mut out = io::stdout().lock();
    out.write_all(&octets)
        .and_then(|()| out.flush())
        .map_err(|error| format!("cannot write the answer: {error}"))?;
    Ok(status)
}
