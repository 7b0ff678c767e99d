//! Sheets written back to back, split by the library and by the reference
//! program: whole runs, whose sheets are known, and damaged ones. Every run is a
//! heap block of just its size.

use reference::corpus::damage::{damaged, soup, with_odd_length};
use reference::corpus::rng::Rng;
use reference::corpus::trees;
use reference::run;

/// Runs that a tired splitter would get wrong.
const FIXED: &[&[u8]] = &[
    b"",
    b"0:",
    b"()",
    b"(())()",
    b"(1:a)1:b",
    b"[1:h]0:[0:]0:",
    b"[1:h]",
    b"[1:h]()",
    b"(()",
    b")",
    b"())",
    b"3:ab",
    b"3:abc3:ab",
    b"00:",
    b"01:a",
    b"1:",
    b"1",
    b"9223372036854775807:a",
    b"9223372036854775809:a",
    b"18446744073709551617:a",
    b"100000000000000000000000000000000000001:a",
    b"(18446744073709551616:)",
];

/// What was tried, and what differed.
#[derive(Default)]
struct Tally {
    runs: u64,
    sheets: u64,
    left: u64,
    differences: u64,
}

/// Compares on the fixed runs and on `count` random ones, each whole and
/// damaged; how many differences there are.
pub fn compare(seed: u64, count: u64) -> u64 {
    let mut tally = Tally::default();
    let mut rng = Rng::new(seed ^ 14);
    for octets in FIXED {
        tally.check(octets);
    }
    for _ in 0..count {
        let sheets: Vec<Vec<u8>> = (0..rng.below(6))
            .map(|_| trees::small(&mut rng).layout().octets)
            .collect();
        let mut octets = sheets.concat();
        let found = tally.check(&octets);
        tally.hold(found == sheets, "not the sheets put in", &octets);
        tally.check(&damaged(&mut rng, &octets));
        let tail = if rng.once_in(2) {
            let data = trees::octets(&mut rng);
            with_odd_length(&mut rng, &data)
        } else {
            soup(&mut rng)
        };
        octets.extend(tail);
        tally.check(&octets);
    }
    println!(
        "{} runs with {} sheets, {} with octets left, {} differences",
        tally.runs, tally.sheets, tally.left, tally.differences
    );
    tally.differences
}

impl Tally {
    fn hold(&mut self, holds: bool, what: &str, octets: &[u8]) {
        if !holds {
            self.differences += 1;
            if self.differences <= crate::SHOWN {
                println!("{what}\n  run {}", octets.escape_ascii());
            }
        }
    }

    /// A run split by both; the sheets that the library found.
    fn check(&mut self, octets: &[u8]) -> Vec<Vec<u8>> {
        let octets: Box<[u8]> = octets.into();
        let first = etglavino::split(&octets).unwrap_or(0);
        self.hold(first == run::split(&octets), "the first sheet", &octets);
        let mut sheets = etglavino::run(&octets);
        let found: Vec<&[u8]> = sheets.by_ref().collect();
        let (wanted, rest) = run::sheets(&octets);
        self.hold(found == wanted, "the sheets", &octets);
        self.hold(sheets.rest() == rest, "what is left", &octets);
        self.runs += 1;
        self.sheets += found.len() as u64;
        self.left += u64::from(!rest.is_empty());
        found.into_iter().map(<[u8]>::to_vec).collect()
    }
}
