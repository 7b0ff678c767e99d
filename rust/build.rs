//! Finds the library's archive and links it. In the repository `rt` builds it
//! where it is missing, or older than what it is made of.

use std::env;
use std::fs::{self, File, OpenOptions};
use std::io::{self, BufRead, BufReader, Write};
use std::path::{Path, PathBuf};
use std::process::{Command, ExitStatus};
use std::time::SystemTime;

const ARCHIVE: &str = "libetglavino_c.a";

fn main() {
    println!("cargo:rerun-if-env-changed=ETGLAVINO_LIB");
    let folder = match env::var_os("ETGLAVINO_LIB") {
        Some(named) => PathBuf::from(named),
        None => built(),
    };
    let archive = folder.join(ARCHIVE);
    if !archive.is_file() {
        fail(&format!("there is no {}", archive.display()));
    }
    println!("cargo:rerun-if-changed={}", archive.display());
    println!("cargo:rustc-link-search=native={}", folder.display());
    println!("cargo:rustc-link-lib=static=etglavino_c");
}

/// The folder of the archive, which is built anew if this is the repository and
/// it is not up to date.
fn built() -> PathBuf {
    let package = PathBuf::from(env::var_os("CARGO_MANIFEST_DIR").expect("cargo sets it"));
    let root = package.parent().expect("the package is in a folder");
    let (crates, list) = (root.join("crates"), root.join("crates.txt"));
    let made_in = crates.join("etglavino_c");
    let folder = made_in.join("out");
    let archive = folder.join(ARCHIVE);
    if made_in.is_dir() {
        for part in made_of(&crates) {
            println!("cargo:rerun-if-changed={}", part.display());
        }
        println!("cargo:rerun-if-changed={}", list.display());
        match modified(&archive) {
            None => build(&made_in, "there is no archive yet"),
            Some(made) if newest(&crates).max(modified(&list)) > Some(made) => {
                build(&made_in, "the archive is older than the crates")
            }
            Some(_) => (),
        }
    }
    folder
}

fn modified(path: &Path) -> Option<SystemTime> {
    fs::metadata(path).and_then(|file| file.modified()).ok()
}

/// What is in a folder, but for `out`, where `rt` keeps what it makes.
fn within(folder: &Path) -> impl Iterator<Item = PathBuf> {
    let entries = fs::read_dir(folder).into_iter().flatten().flatten();
    let paths = entries.map(|entry| entry.path());
    paths.filter(|path| path.file_name().is_some_and(|name| name != "out"))
}

/// The folders of the crates with their code and proofs.
fn made_of(crates: &Path) -> impl Iterator<Item = PathBuf> {
    within(crates).flat_map(|folder| within(&folder).collect::<Vec<_>>())
}

/// When the last of the files of code and proofs in a folder was changed.
fn newest(folder: &Path) -> Option<SystemTime> {
    let times = within(folder).map(|path| {
        let made_of = path
            .extension()
            .is_some_and(|end| end == "rt" || end == "antt");
        match path.is_dir() {
            true => newest(&path),
            false => modified(&path).filter(|_| made_of),
        }
    });
    times.max().flatten()
}

fn build(made_in: &Path, why: &str) {
    let mut terminal = OpenOptions::new().write(true).open("/dev/tty").ok();
    let rt = "rt lib";
    let shown = format!("cd crates/etglavino_c && {rt}");
    show(
        &mut terminal,
        &format!("etglavino: {why}: `{shown}` builds it"),
    );
    match run(made_in, rt, &mut terminal) {
        Ok(status) if status.success() => (),
        Ok(_) => fail(&format!("`{shown}` failed")),
        Err(error) => fail(&format!("cannot run `rt`: {error}")),
    }
}

/// Runs a command, which may take minutes, and shows each line as it comes.
fn run(folder: &Path, command: &str, terminal: &mut Option<File>) -> io::Result<ExitStatus> {
    let (lines, end) = io::pipe()?;
    let mut words = command.split(' ');
    let mut started = Command::new(words.next().unwrap_or_default())
        .args(words)
        .current_dir(folder)
        .stdout(end.try_clone()?)
        .stderr(end)
        .spawn()?;
    for line in BufReader::new(lines).split(b'\n') {
        show(terminal, &String::from_utf8_lossy(&line?));
    }
    started.wait()
}

/// Cargo shows what a build script says only where it fails, so that the terminal
/// is told too, over the line on which cargo draws.
fn show(terminal: &mut Option<File>, line: &str) {
    eprintln!("{line}");
    if let Some(terminal) = terminal {
        let _ = writeln!(terminal, "\r\x1b[K{line}");
    }
}

fn fail(why: &str) -> ! {
    eprintln!("etglavino: {why}");
    eprintln!("etglavino: install the Rattle kit, so that `rt` is found, or set ETGLAVINO_LIB to the folder that has {ARCHIVE}");
    std::process::exit(1);
}
