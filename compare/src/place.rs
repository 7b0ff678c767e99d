//! Where a text goes wrong: the number and the place that the library's C entries
//! tell, over numbers and over records, in reading, in replacing and in inserting,
//! beside the number that the reference program gives and, with 3, the place that it
//! finds by trying. In the other cases the place is 0.

mod raw;
mod texts;

use std::collections::BTreeMap;

use etglavino::{Record, RECORD};
use reference::corrections::insert;
use reference::entries::{read, replace, Reading};
use reference::place::place;

/// Differences shown whole; the rest are only counted.
const SHOWN: u64 = 5;

/// An entry that tells a place: a reading, a replacement of a node, or an insertion
/// into a node's list as its k-th element.
#[derive(Clone, Copy, Debug)]
enum Entry {
    Read,
    Replace(usize),
    Insert(usize, usize),
}

/// What is lent, with the length and the number of nodes of its sheet.
#[derive(Clone)]
struct Lent {
    octets: Vec<u8>,
    table: Vec<u32>,
    sheet: (usize, usize),
}

/// What was asked, by the number wanted, and what differed.
#[derive(Default)]
struct Tally {
    asked: BTreeMap<u32, u64>,
    differences: u64,
}

/// Compares; how many differences there are, and numbers that no case has.
pub fn compare() -> u64 {
    let mut tally = Tally::default();
    let own = Lent::own();
    for (text, told) in texts::EXAMPLES {
        tally.wrong(text, told);
    }
    for text in texts::cut_short() {
        tally.wrong(&text, text.len());
    }
    for text in texts::wrong_at_the_end() {
        tally.wrong(&text, text.len() - 1);
    }
    for text in [[b'('; 32_769], [b'7'; 32_769]] {
        tally.each(&text, &own, |_| Some((2, 0)));
    }
    for text in texts::around().iter().chain(&texts::lengths()) {
        tally.each(text, &own, |_| None);
    }
    for text in texts::good() {
        for lent in [own.clone(), own.foreign(), own.outside()] {
            tally.each(&text, &lent, |_| None);
            tally.elsewhere(&text, &lent, |_| None);
        }
    }
    let missing = (0..=9).filter(|number| !tally.asked.contains_key(number));
    let missing: Vec<u32> = missing.collect();
    println!(
        "places: numbers and how often {:?}, {} differences; numbers without a case: {missing:?}",
        tally.asked, tally.differences
    );
    tally.differences + missing.len() as u64
}

impl Lent {
    /// A sheet with its own table, in more room than it takes.
    fn own() -> Lent {
        let (mut octets, mut table) = (vec![0; 256], vec![0; 32 * RECORD]);
        let sheet = match read(1, b"(1:a)", &mut octets, &mut table) {
            Reading::Accepted { length, nodes } => (length, nodes),
            Reading::Refused(number) => panic!("refused with {number}"),
        };
        Lent {
            octets,
            table,
            sheet,
        }
    }

    /// With a table that is not its own.
    fn foreign(&self) -> Lent {
        let mut lent = self.clone();
        lent.table[2] += 1;
        lent
    }

    /// With a length past what is lent.
    fn outside(&self) -> Lent {
        let mut lent = self.clone();
        lent.sheet.0 = usize::MAX;
        lent
    }

    /// The number that the reference program gives.
    fn number(&self, entry: Entry, form: u32, text: &[u8]) -> u32 {
        let (mut octets, mut table) = (self.octets.clone(), self.table.clone());
        let (octets, table) = (&mut octets[..], &mut table[..]);
        let (length, nodes) = self.sheet;
        let answer = match entry {
            Entry::Read => read(form, text, octets, table),
            Entry::Replace(node) => replace(form, text, octets, table, length, nodes, node),
            Entry::Insert(node, k) => insert(form, text, octets, table, length, nodes, node, k),
        };
        match answer {
            Reading::Accepted { .. } => 0,
            Reading::Refused(number) => number,
        }
    }

    /// What the library tells, over numbers and over records.
    fn told(&self, entry: Entry, form: u32, text: &[u8]) -> [(u32, usize); 2] {
        let (mut octets, mut table) = (self.octets.clone(), self.table.clone());
        let numbers = raw::numbers(entry, form, text, &mut octets, &mut table, self.sheet);
        let mut octets = self.octets.clone();
        let nine = |row: &[u32]| Record::from(<[u32; RECORD]>::try_from(row).expect("a row"));
        let mut table: Vec<Record> = self.table.chunks_exact(RECORD).map(nine).collect();
        let records = raw::records(entry, form, text, &mut octets, &mut table, self.sheet);
        [numbers, records]
    }
}

impl Tally {
    /// A text that is wrong at a place, by its literal number, whatever else is wrong
    /// too.
    fn wrong(&mut self, text: &[u8], at: usize) {
        let literal = |form| (form == 1 || form == 2).then_some((3, at));
        let own = Lent::own();
        for lent in [own.clone(), own.foreign(), own.outside()] {
            self.each(text, &lent, literal);
            self.elsewhere(text, &lent, literal);
        }
    }

    /// Every entry and form; `literal` says of a form what is wanted, where that is
    /// known beforehand.
    fn each(
        &mut self,
        text: &[u8],
        lent: &Lent,
        literal: impl Fn(u32) -> Option<(u32, usize)> + Copy,
    ) {
        for form in 1..=3 {
            for entry in [Entry::Read, Entry::Replace(1), Entry::Insert(0, 1)] {
                self.ask(entry, form, text, lent, literal(form));
            }
        }
    }

    /// A node that does not exist, a list that has no such place, and a string; forms
    /// that are none, too.
    fn elsewhere(
        &mut self,
        text: &[u8],
        lent: &Lent,
        literal: impl Fn(u32) -> Option<(u32, usize)> + Copy,
    ) {
        let entries = [
            Entry::Read,
            Entry::Replace(2),
            Entry::Replace(usize::MAX),
            Entry::Insert(2, 0),
            Entry::Insert(0, 2),
            Entry::Insert(0, usize::MAX),
            Entry::Insert(1, 0),
        ];
        for form in 0..=5 {
            for entry in entries {
                self.ask(entry, form, text, lent, literal(form));
            }
        }
    }

    fn ask(
        &mut self,
        entry: Entry,
        form: u32,
        text: &[u8],
        lent: &Lent,
        literal: Option<(u32, usize)>,
    ) {
        let number = lent.number(entry, form, text);
        let found = (number, if number == 3 { place(form, text) } else { 0 });
        *self.asked.entry(number).or_default() += 1;
        let told = lent.told(entry, form, text);
        if told != [found; 2] || literal.is_some_and(|wanted| wanted != found) {
            self.differences += 1;
            if self.differences <= SHOWN {
                let start = &text[..text.len().min(40)];
                println!("{entry:?}, form {form}, {} octets {start:02x?}", text.len());
                println!("  told {told:?}, the reference program {found:?}, wanted {literal:?}");
            }
        }
    }
}
