//! What the tests of a spool in a file share.

use std::path::PathBuf;
use std::process::{Command, Stdio};
use std::sync::{Mutex, MutexGuard};
use std::{env, fs, process};

use etglavino::SpoolFile;

/// A path that no other test has.
pub fn path(name: &str) -> PathBuf {
    let path = env::temp_dir().join(format!("etglavino-{}-{name}", process::id()));
    let _ = fs::remove_file(&path);
    path
}

/// One test at a time: a process that another test starts has this one's files,
/// and so its locks, until it runs its own program.
pub fn alone() -> MutexGuard<'static, ()> {
    static ONE: Mutex<()> = Mutex::new(());
    ONE.lock().unwrap_or_else(|failed| failed.into_inner())
}

pub fn sheets(file: &SpoolFile) -> Vec<Vec<u8>> {
    let sheets: Vec<Vec<u8>> = file.sheets().expect("no damage").map(Vec::from).collect();
    assert_eq!(file.count(), Ok(sheets.len()));
    let last = sheets.len().saturating_sub(1);
    assert_eq!(
        file.sheet(last),
        sheets.last().map_or(&b""[..], |sheet| sheet)
    );
    sheets
}

pub const CHILD: &str = "ETGLAVINO_SPOOL_CHILD";

/// This test, in a process of its own, with that in its environment.
pub fn child(test: &str, told: &str) -> Command {
    let mut child = Command::new(env::current_exe().expect("a path"));
    child
        .args([test, "--exact", "--nocapture"])
        .env(CHILD, told);
    child.stdout(Stdio::null()).stderr(Stdio::null());
    child
}

pub fn told() -> Option<String> {
    env::var(CHILD).ok()
}
