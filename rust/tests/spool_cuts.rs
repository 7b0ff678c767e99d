//! A spool in a file, cut: a child process adds sheets and is killed, hundreds of
//! times; each time the file is opened again.
#![cfg(target_os = "linux")]

mod common;

use std::io::{self, BufRead, BufReader, Write};
use std::os::unix::process::ExitStatusExt;
use std::process::Stdio;
use std::time::Duration;
use std::{fs, process, thread};

use common::spools::{alone, child, path, sheets, told};
use common::verbatim;
use etglavino::SpoolFile;

/// Numbers that look random, the same in parent and child.
struct Random(u64);

impl Random {
    fn below(&mut self, most: usize) -> usize {
        self.0 = self
            .0
            .wrapping_mul(6_364_136_223_846_793_005)
            .wrapping_add(1);
        (self.0 >> 33) as usize % most
    }

    /// A sheet whose length has one group or two.
    fn sheet(&mut self) -> Vec<u8> {
        verbatim(self.below(180))
    }
}

/// Stores that adding the sheet takes; there is always an octet behind.
fn stores(sheet: &[u8]) -> usize {
    sheet.len() + if sheet.len() < 128 { 1 } else { 2 } + 1
}

const SIZE: usize = 4_096;

extern "C" {
    fn kill(process: i32, signal: i32) -> i32;
}
const KILLED: i32 = 9;

/// Adds sheets of a seed until so many stores are made, and is killed there.
fn adds(told: &str) {
    let words: Vec<&str> = told.splitn(3, ' ').collect();
    let (seed, most) = (
        words[0].parse().expect("a number"),
        words[1].parse::<usize>(),
    );
    let mut left = most.expect("a number");
    let mut file = SpoolFile::open(words[2]).expect("the file");
    let mut random = Random(seed);
    loop {
        let watched = file.add_watched(&random.sheet(), |_| {
            left -= 1;
            if left == 0 {
                // SAFETY: ends this process, which has nothing to put in order.
                unsafe { kill(process::id() as i32, KILLED) };
            }
        });
        watched.expect("room");
        // The harness's own words may stand before.
        let mut out = io::stdout().lock();
        out.write_all(b"\nadded\n").expect("told");
        out.flush().expect("told");
    }
}

/// A child is killed after a store, three hundred times.
#[test]
fn killed_at_a_store() {
    if let Some(told) = told() {
        return adds(&told);
    }
    let _alone = alone();
    let path = path("killed");
    let mut random = Random(20_261_116);
    let mut shown: Vec<Vec<u8>> = Vec::new();
    drop(SpoolFile::create(&path, SIZE).expect("a file"));
    for cut in 0..300 {
        let (seed, most) = (random.below(1 << 20) as u64, 1 + random.below(300));
        let told = format!("{seed} {most} {}", path.display());
        let status = child("killed_at_a_store", &told).status().expect("a child");
        assert_eq!(status.signal(), Some(KILLED), "cut {cut}: {status}");
        // What the child did whole, and nothing of the rest.
        let (mut child, mut left) = (Random(seed), most);
        loop {
            let sheet = child.sheet();
            if stores(&sheet) > left {
                break;
            }
            left -= stores(&sheet);
            shown.push(sheet);
        }
        let file = SpoolFile::open(&path).expect("the file");
        assert!(sheets(&file) == shown, "cut {cut}");
        drop(file);
        if shown.iter().map(|sheet| stores(sheet)).sum::<usize>() > SIZE - 1_000 {
            // An emptied file, with the old octets behind its end.
            let mut octets = fs::read(&path).expect("octets");
            octets[0] = 0;
            fs::write(&path, octets).expect("written");
            shown.clear();
        }
    }
    fs::remove_file(path).expect("removed");
}

/// A child is killed from outside, at any moment after it told of so many
/// entries, a hundred times: those it told of are there, and at most one more.
#[test]
fn killed_at_any_moment() {
    if let Some(told) = told() {
        return adds(&told);
    }
    let _alone = alone();
    let path = path("moment");
    let mut random = Random(7);
    for cut in 0..100 {
        fs::write(&path, vec![0; 1 << 16]).expect("a file");
        let seed = random.below(1 << 20) as u64;
        let told = format!("{seed} 60000 {}", path.display());
        let mut running = child("killed_at_any_moment", &told)
            .stdout(Stdio::piped())
            .spawn()
            .expect("a child");
        let out = BufReader::new(running.stdout.take().expect("a pipe"));
        let mut added = out
            .lines()
            .filter(|line| line.as_ref().is_ok_and(|line| line == "added"));
        let wanted = random.below(6);
        let told = added.by_ref().take(wanted).count();
        assert_eq!(told, wanted, "cut {cut}");
        thread::sleep(Duration::from_micros(random.below(6_000) as u64));
        running.kill().expect("killed");
        running.wait().expect("ended");
        let told = told + added.count();
        let file = SpoolFile::open(&path).expect("the file");
        let (mut child, shown) = (Random(seed), sheets(&file));
        let count = shown.len();
        assert!(
            count == told || count == told + 1,
            "cut {cut}: {told}, {count}"
        );
        for (number, sheet) in shown.into_iter().enumerate() {
            assert!(sheet == child.sheet(), "cut {cut}, sheet {number}");
        }
    }
    fs::remove_file(&path).expect("removed");
}
