//! A spool in a file: kept, locked, and on a full disk.
#![cfg(target_os = "linux")]

mod common;

use std::fs;
use std::io::{self, ErrorKind, Write};
use std::path::Path;
use std::process::Command;

use common::spools::{alone, child, path, sheets, told, CHILD};
use etglavino::{Refusal, SpoolError, SpoolFile};

#[test]
fn entries_stay() {
    let _alone = alone();
    let path = path("stay");
    let mut file = SpoolFile::create(&path, 12).expect("a file");
    assert_eq!(file.count(), Ok(0));
    file.add(b"()").expect("room");
    file.add(b"1:a").expect("room");
    let full = file.add(b"(1:b)").expect_err("no room");
    assert!(matches!(full, SpoolError::Refused(Refusal::Size)), "{full}");
    let bad = file.add(b"(").expect_err("no sheet");
    assert!(matches!(bad, SpoolError::Refused(Refusal::NotOwn)), "{bad}");
    drop(file);
    assert_eq!(fs::read(&path).expect("octets"), b"\x02()\x031:a\0\0\0\0\0");
    let mut file = SpoolFile::open(&path).expect("the file");
    file.grow(14).expect("a larger file");
    file.grow(13).expect("nothing to do");
    file.add(b"(1:b)").expect("room now");
    let all: [&[u8]; 3] = [b"()", b"1:a", b"(1:b)"];
    assert_eq!(sheets(&file), all);
    drop(file);
    let octets = fs::read(&path).expect("octets");
    assert_eq!(octets, b"\x02()\x031:a\x05(1:b)\0");
    assert_eq!(sheets(&SpoolFile::open(&path).expect("the file")), all);
    fs::remove_file(path).expect("removed");
}

#[test]
fn one_writer_at_a_time() {
    let _alone = alone();
    let path = path("lock");
    let file = SpoolFile::create(&path, 64).expect("a file");
    let second = SpoolFile::open(&path).expect_err("in use");
    assert!(matches!(second, SpoolError::InUse), "{second}");
    let again = SpoolFile::create(&path, 64).expect_err("there");
    assert!(matches!(again, SpoolError::File(_)), "{again}");
    drop(file);
    assert!(SpoolFile::open(&path).is_ok());
    fs::remove_file(path).expect("removed");
}

#[test]
fn a_damaged_file() {
    let _alone = alone();
    let path = path("damage");
    fs::write(&path, b"\x82\0()").expect("a file");
    let mut file = SpoolFile::open(&path).expect("the file");
    assert_eq!(file.count(), Err(Refusal::Damaged));
    let refused = file.add(b"()").expect_err("damaged");
    assert!(matches!(refused, SpoolError::Refused(Refusal::Damaged)));
    assert_eq!(file.area(), b"\x82\0()");
    drop(file);
    fs::write(&path, b"").expect("a file");
    let mut file = SpoolFile::open(&path).expect("no octets");
    assert_eq!(file.count(), Ok(0));
    assert!(file.add(b"()").is_err());
    drop(file);
    fs::remove_file(path).expect("removed");
}

/// A disk that is full: a small one of its own where the system lets us have
/// it, and else files that may not grow.
#[test]
fn a_full_disk() {
    if let Some(folder) = told() {
        return fill(Path::new(&folder));
    }
    let _alone = alone();
    let folder = path("disk");
    fs::create_dir(&folder).expect("a folder");
    let own = child("a_full_disk", &folder.display().to_string());
    let filled = |script: &str| {
        let mut shell = Command::new("unshare");
        if !script.contains("mount") {
            shell = Command::new("sh");
        } else {
            shell.args(["-rm", "sh"]);
        }
        shell.args(["-c", script]).arg(own.get_program());
        shell.args(own.get_args()).arg(&folder);
        let done = shell.env(CHILD, &folder).output().expect("a child");
        let (out, said) = (
            String::from_utf8_lossy(&done.stdout),
            String::from_utf8_lossy(&done.stderr),
        );
        assert!(done.status.success(), "{script}: {said}");
        assert!(out.contains(FILLED), "{script}: {out}");
    };
    filled("trap '' XFSZ; ulimit -f 64; exec \"$0\" \"$1\" \"$2\" \"$3\"");
    let mount = ["-rm", "mount", "-t", "tmpfs", "tmpfs"];
    let possible = Command::new("unshare").args(mount).arg(&folder).output();
    if possible.is_ok_and(|done| done.status.success()) {
        filled("mount -t tmpfs -o size=64k tmpfs \"$4\" && exec \"$0\" \"$1\" \"$2\" \"$3\"");
    } else {
        // Past what the harness keeps to itself.
        let _ = writeln!(io::stderr(), "a_full_disk: no small disk can be had");
    }
    fs::remove_dir_all(folder).expect("removed");
}

/// What a child says that has gone through `fill`.
const FILLED: &str = "the disk was filled";

fn fill(folder: &Path) {
    let path = folder.join("spool");
    let mut file = SpoolFile::create(&path, 16_000).expect("a file");
    file.add(b"1:a").expect("room");
    for size in [1 << 20, 1 << 30] {
        no_space(file.grow(size).expect_err("no space"));
        assert_eq!(sheets(&file), [b"1:a"]);
        no_space(SpoolFile::create(folder.join("other"), size).expect_err("no space"));
        assert!(!folder.join("other").exists());
    }
    file.add(b"1:b").expect("room for it is kept");
    drop(file);
    let mut file = SpoolFile::open(&path).expect("the file");
    assert_eq!(sheets(&file), [b"1:a", b"1:b"]);
    file.add(b"1:c").expect("room");
    drop(file);
    // A file with holes that the disk has no room for.
    let sparse = fs::File::create(folder.join("sparse")).expect("a file");
    if sparse.set_len(1 << 20).is_ok() {
        no_space(SpoolFile::open(folder.join("sparse")).expect_err("no space"));
    }
    fs::remove_file(folder.join("sparse")).expect("removed");
    fs::remove_file(path).expect("removed");
    println!("{FILLED}");
}

fn no_space(error: SpoolError) {
    let SpoolError::File(error) = error else {
        panic!("{error}");
    };
    let kinds = [ErrorKind::StorageFull, ErrorKind::FileTooLarge];
    assert!(kinds.contains(&error.kind()), "{error}");
}
