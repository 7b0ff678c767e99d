//! The command line.

mod common;

use std::fs;
use std::io::Write;
use std::path::PathBuf;
use std::process::{Command, Output, Stdio};

use common::{nested, LIST};

/// Runs the program with that on its standard input.
fn run(arguments: &[&str], input: &[u8]) -> Output {
    let mut child = Command::new(env!("CARGO_BIN_EXE_reference"))
        .args(arguments)
        .stdin(Stdio::piped())
        .stdout(Stdio::piped())
        .stderr(Stdio::piped())
        .spawn()
        .unwrap();
    // A program that takes no input may have ended already.
    let _ = child.stdin.take().unwrap().write_all(input);
    child.wait_with_output().unwrap()
}

fn prints(arguments: &[&str], input: &[u8], expected: &[u8]) {
    let output = run(arguments, input);
    let shown = String::from_utf8_lossy(&output.stdout);
    assert_eq!(output.stdout, expected, "{arguments:?}: {shown}");
    assert_eq!(output.status.code(), Some(0), "{arguments:?}");
    assert!(output.stderr.is_empty());
}

fn refuses(arguments: &[&str], input: &[u8], number: u32) {
    let output = run(arguments, input);
    assert_eq!(
        output.stdout,
        format!("refused {number}\n").into_bytes(),
        "{arguments:?}"
    );
    assert_eq!(output.status.code(), Some(1), "{arguments:?}");
}

/// A directory of the test's own.
fn directory(name: &str) -> PathBuf {
    let path = PathBuf::from(env!("CARGO_TARGET_TMPDIR")).join(name);
    fs::create_dir_all(&path).unwrap();
    path
}

#[test]
fn read_and_table() {
    prints(&["read", "3"], b" ( abc [ x ] \"\" ) ", LIST);
    prints(&["read", "2"], b"{KCk=}", b"()");
    refuses(&["read", "1"], b"3:abc\n", 3);
    refuses(&["read", "9"], b"", 1);
    refuses(&["read", "3"], &vec![b' '; 100_000], 2);
    refuses(&["read", "3"], &nested(16_384), 4);
    prints(
        &["table", "1"],
        LIST,
        b"2 0 14 3 0 0 1 13 0\n0 1 6 1 0 0 3 6 0\n1 6 13 1 9 10 13 13 0\n",
    );
    refuses(&["table", "3"], b"(", 3);
}

#[test]
fn write() {
    prints(&["write", "1"], LIST, LIST);
    prints(&["write", "2"], b"()", b"{KCk=}");
    prints(&["write", "3"], LIST, b"(abc [x]\"\")");
    refuses(&["write", "3"], b"abc", 7);
    refuses(&["write", "4"], b"abc", 1);
}

#[test]
fn replace() {
    let text = directory("replace").join("text");
    let text = text.to_str().unwrap();
    fs::write(text, b"\"hi\"").unwrap();
    prints(&["replace", "3", "1", text], LIST, b"(2:hi[1:x]0:)");
    prints(&["replace", "3", "0", text], LIST, b"2:hi");
    refuses(&["replace", "3", "3", text], LIST, 8);
    refuses(&["replace", "3", "18446744073709551615", text], LIST, 8);
    refuses(&["replace", "3", "1", text], b"(3:abc", 7);
    refuses(&["replace", "3", "1", text], &vec![b'('; 40_000], 7);
    refuses(&["replace", "1", "1", text], LIST, 3);
    refuses(&["replace", "0", "1", text], LIST, 1);
}

#[test]
fn same() {
    let directory = directory("same");
    let paths = ["one", "other", "bad"].map(|name| directory.join(name));
    let [one, other, bad] = paths.each_ref().map(|path| path.to_str().unwrap());
    fs::write(one, b"1:a").unwrap();
    fs::write(other, b"[1:d]1:a").unwrap();
    fs::write(bad, b"a").unwrap();
    prints(&["same", one, other, "d"], b"", b"yes\n");
    prints(&["same", one, other, ""], b"", b"no\n");
    refuses(&["same", one, bad, ""], b"", 7);
}

#[test]
fn hint_and_data() {
    prints(&["hint", "2", "none"], LIST, b"x");
    prints(&["hint", "1", "none"], LIST, b"none");
    prints(&["hint", "3", "none"], LIST, b"none");
    prints(&["hint", "0", "none"], b"bad", b"none");
    prints(&["hint", "0", "none"], b"[0:]0:", b"");
    prints(&["data", "1"], LIST, b"abc");
    prints(&["data", "0"], LIST, b"3:abc[1:x]0:");
    prints(&["data", "9"], LIST, b"");
    prints(&["data", "0"], b"bad", b"");
}

#[test]
fn corpus_and_explain() {
    let directory = directory("corpus").join("new").join("place");
    let place = directory.to_str().unwrap();
    let output = run(&["corpus", "1", "20", place], b"");
    assert_eq!(output.status.code(), Some(0));
    assert!(output.stdout.is_empty());
    let summary = String::from_utf8(output.stderr).unwrap();
    assert!(summary.contains("read 0: ") && summary.contains("replace 8: "));
    let expected = fs::read_to_string(directory.join("expected")).unwrap();
    let cases = directory.join("cases");
    let cases = cases.to_str().unwrap();
    let number = |line: &str| line.split(' ').next().unwrap().parse::<usize>().unwrap();
    let last = number(expected.lines().last().unwrap());
    for case in [0, 1_000, last] {
        let output = run(&["explain", cases, &case.to_string()], b"");
        assert_eq!(output.status.code(), Some(0));
        let page = String::from_utf8(output.stdout).unwrap();
        let of_case = expected.lines().filter(|line| number(line) == case);
        let lines: String = of_case.map(|line| format!("  {line}\n")).collect();
        assert!(page.contains(&format!("expected\n{lines}")), "{page}");
    }
    fails(&["explain", cases, &(last + 1).to_string()]);
    fails(&["explain", directory.join("expected").to_str().unwrap(), "0"]);
}

#[test]
fn help() {
    let output = run(&["help"], b"");
    assert_eq!(output.status.code(), Some(0));
    let page = String::from_utf8(output.stdout).unwrap();
    let commands = [
        "read", "table", "write", "replace", "same", "hint", "data", "corpus", "vectors",
        "explain", "help",
    ];
    for command in commands {
        assert!(page.contains(&format!("reference {command}")), "{command}");
    }
}

/// One line on standard error, nothing on standard output, status 2.
fn fails(arguments: &[&str]) {
    let output = run(arguments, b"");
    assert_eq!(output.status.code(), Some(2), "{arguments:?}");
    assert!(output.stdout.is_empty());
    let message = String::from_utf8(output.stderr).unwrap();
    assert!(message.starts_with("reference: "), "{message}");
    assert!(
        message.ends_with('\n') && message.lines().count() == 1,
        "{message}"
    );
}

#[test]
fn bad_usage() {
    let wrong: &[&[&str]] = &[
        &[],
        &["reed", "3"],
        &["read"],
        &["read", "3", "3"],
        &["read", "three"],
        &["read", "-1"],
        &["read", "4294967296"],
        &["table", ""],
        &["write"],
        &["replace", "3", "1"],
        &["replace", "3", "one", "/dev/null"],
        &["replace", "3", "1", "no/such/file"],
        &["same", "no/such/file", "no/such/file", ""],
        &["same", "a", "b"],
        &["hint", "0"],
        &["hint", "18446744073709551616", ""],
        &["data"],
        &["data", "1", "2"],
        &["corpus", "1", "2"],
        &["vectors"],
        &["corpus", "x", "2", "nowhere"],
        &["corpus", "1", "2", "/dev/null/directory"],
        &["explain", "no/such/file", "0"],
        &["explain", "/dev/null", "0"],
        &["help", "me"],
    ];
    for arguments in wrong {
        fails(arguments);
    }
}
