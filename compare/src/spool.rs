//! Spools: areas opened and added to by the library and by the reference
//! program. Both must give the same answers and areas; and whatever the order of
//! the library's stores is, after each of them the reference program must find
//! the old sheets, or with the last store those and the new one.

mod areas;
mod states;

use std::collections::BTreeMap;

use etglavino::{spool_add, spool_open, spool_sheets, spool_shown, Adding, Opened, Refusal};
use reference::spool::{added, entry, open, parse, Opening};

/// Differences shown whole; the rest are only counted.
const SHOWN: u64 = 5;

/// What was tried, and what differed.
#[derive(Default)]
struct Tally {
    opened: BTreeMap<u32, u64>,
    added: BTreeMap<u32, u64>,
    stores: u64,
    states: u64,
    differences: u64,
}

/// Compares on the fixed areas and on `count` random ones; how many differences
/// there are.
pub fn compare(seed: u64, count: u64) -> u64 {
    let mut tally = Tally::default();
    areas::around_every_end(&mut tally);
    areas::damage_at_each_octet(&mut tally);
    areas::lengths(&mut tally);
    states::others_between(&mut tally);
    areas::random(&mut tally, seed, count);
    for (answer, cases) in &tally.opened {
        println!("spool opened {answer}: {cases} cases");
    }
    for (answer, cases) in &tally.added {
        println!("spool added {answer}: {cases} cases");
    }
    println!(
        "{} stores and {} other states, {} differences",
        tally.stores, tally.states, tally.differences
    );
    tally.differences
}

impl Tally {
    fn hold(&mut self, holds: bool, what: &str, area: &[u8], sheet: &[u8]) {
        if !holds {
            self.differences += 1;
            if self.differences <= SHOWN {
                println!("{what}\n  area {area:02x?}\n  sheet {sheet:02x?}");
            }
        }
    }

    /// Opens an area at each number that it has, and past them.
    fn open(&mut self, area: &[u8]) {
        let area: Box<[u8]> = area.into();
        let expected = open(&area, 0);
        *self.opened.entry(expected.answer).or_default() += 1;
        let all = spool_sheets(&area).map(|all| all.map(Vec::from).collect());
        let same = all.ok() == sheets(&area);
        self.hold(same, "all sheets", &area, b"");
        for number in (0..expected.count + 2).chain([usize::MAX]) {
            let Opening {
                answer,
                count,
                part: (start, end),
            } = open(&area, number);
            let opened = Opened { count, start, end };
            let answered = spool_open(&area, number);
            let same = match answered {
                Ok(told) => answer == 0 && told == opened,
                Err(refusal) => answer == refusal.number(),
            };
            self.hold(
                same,
                &format!("opened at {number}: {answered:?}"),
                &area,
                b"",
            );
            let shown = spool_shown(&area, number);
            self.hold(shown == &area[start..end], "shown", &area, shown);
        }
    }

    /// Adds a sheet, whole and step by step.
    fn add(&mut self, area: &[u8], sheet: &[u8], length: usize) {
        let (area, sheet): (Box<[u8]>, Box<[u8]>) = (area.into(), sheet.into());
        let expected = added(&area, &sheet, length);
        let answer = expected.as_ref().err().copied().unwrap_or(0);
        *self.added.entry(answer).or_default() += 1;
        let mut whole = area.clone();
        let number = number(spool_add(&mut whole, &sheet, length));
        let after = expected.unwrap_or_else(|_| area.to_vec());
        let same = number == answer && *whole == after[..];
        self.hold(
            same,
            &format!("added: {number}, not {answer}"),
            &area,
            &sheet,
        );
        match Adding::start(&area, &sheet, length) {
            Ok(adding) if answer == 0 => self.steps(adding, &area, &sheet, length, &after),
            started => self.hold(
                started.err().map(Refusal::number) == Some(answer),
                "started",
                &area,
                &sheet,
            ),
        }
    }

    /// All steps of an addition that the reference program accepts.
    fn steps(
        &mut self,
        mut adding: Adding,
        area: &[u8],
        sheet: &[u8],
        length: usize,
        after: &[u8],
    ) {
        let old = sheets(area).expect("accepted");
        let new = [old.clone(), vec![sheet[..length].to_vec()]].concat();
        let most = entry(&sheet[..length]).len() + 2;
        let mut now: Box<[u8]> = area.into();
        for store in 1.. {
            self.stores += 1;
            let (before, last) = (now.clone(), adding.commits(&now, sheet));
            let done = adding.step(&mut now, sheet);
            let changed = before.iter().zip(&now).filter(|(a, b)| a != b).count();
            self.hold(changed <= 1, "more than one octet", area, sheet);
            let shown = sheets(&now);
            let wanted = if done { &new } else { &old };
            self.hold(
                shown.as_ref() == Some(wanted),
                &format!("after store {store}: {shown:?}"),
                area,
                sheet,
            );
            self.hold(
                last == done,
                "the last store was not told before",
                area,
                sheet,
            );
            if done || store == most {
                self.hold(done, "too many stores", area, sheet);
                break;
            }
        }
        self.hold(now[..] == *after, "the area when done", area, sheet);
        let (state, octets) = (adding, now.clone());
        let done = adding.step(&mut now, sheet);
        self.hold(
            done && adding == state && now == octets,
            "a done state",
            area,
            sheet,
        );
    }
}

fn number(answer: Result<(), Refusal>) -> u32 {
    answer.err().map_or(0, Refusal::number)
}

/// The sheets of an area, by the reference program.
fn sheets(area: &[u8]) -> Option<Vec<Vec<u8>>> {
    let parts = parse(area)?.parts;
    Some(
        parts
            .iter()
            .map(|&(start, end)| area[start..end].to_vec())
            .collect(),
    )
}

impl Tally {
    /// An addition without its steps, which take long with a large sheet.
    fn whole(&mut self, area: &[u8], sheet: &[u8]) {
        let expected = added(area, sheet, sheet.len());
        let mut after: Box<[u8]> = area.into();
        let answer = number(spool_add(&mut after, sheet, sheet.len()));
        *self.added.entry(answer).or_default() += 1;
        let same = match expected {
            Ok(octets) => answer == 0 && *after == octets[..],
            Err(refusal) => answer == refusal && *after == *area,
        };
        self.hold(same, "a large sheet", area, sheet);
    }
}
