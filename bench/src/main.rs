//! Times the library's entries and prints tables: nanoseconds an octet, the best
//! and the median of many rounds.
//!
//! `bench READER TEXT TIMES` only reads, for a profiler: READER is `library` or
//! `plain`, TEXT a name of the first table. `bench beside OBJECT` times reading
//! beside another build's shared object, `bench lengths` two ways to write a
//! length, `bench records` only the entries over records, `bench runs` only the
//! splitting of runs, `bench pieces` only texts in pieces, and `bench spool` only
//! the spool.

mod beside;
mod entries;
mod lengths;
mod pieces;
mod readers;
mod records;
mod runs;
mod spool;

use std::env;
use std::process::ExitCode;

use bench::clock::ROUNDS;
use bench::gcrypt::Gcrypt;

fn main() -> ExitCode {
    let arguments: Vec<String> = env::args().skip(1).collect();
    let done = match &arguments[..] {
        [] => {
            tables();
            true
        }
        [word] if word == "lengths" => {
            lengths::table();
            true
        }
        [word] if word == "runs" => {
            runs::table();
            true
        }
        [word] if word == "pieces" => {
            pieces::table();
            true
        }
        [word] if word == "records" => {
            records::table();
            true
        }
        [word] if word == "spool" => {
            spool::table();
            true
        }
        [word, object] if word == "beside" => beside::table(object).is_some(),
        [reader, text, times] => readers::repeat(reader, text, times).is_some(),
        _ => false,
    };
    if !done {
        eprintln!(
            "usage: bench [library|plain TEXT TIMES | beside OBJECT | lengths | pieces | records | runs | spool]"
        );
    }
    ExitCode::from(if done { 0 } else { 2 })
}

fn tables() {
    let gcrypt = Gcrypt::find();
    println!("Nanoseconds an octet, best / median of {ROUNDS} rounds. Lent buffers are as the");
    println!("call before left them, except where it says that they are cleared first.");
    match &gcrypt {
        Some(found) => println!("libgcrypt is {}.", found.version),
        None => println!("libgcrypt is not installed."),
    }
    readers::table(gcrypt.as_ref());
    entries::table();
    records::table();
    pieces::table();
    spool::table();
    runs::table();
}
