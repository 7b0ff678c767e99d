//! Texts in pieces: the library's C entries beside the reference program, which
//! keeps all octets and reads them at the end. Numbers, counts, places, canonical
//! octets and tables must be the same after every piece and every end; and the
//! library's states must be the same wherever the same octets were cut.

mod cuttings;
mod raw;
mod states;
mod texts;

use std::collections::BTreeMap;

use reference::entries::Reading;
use reference::pieces::{Ended, Pieces};

use crate::SHOWN;
use raw::{Answer, State, Table, RESIZED};

/// What was tried, and what differed.
#[derive(Default)]
struct Tally {
    cuttings: u64,
    pieces: u64,
    ends: BTreeMap<u32, u64>,
    resized: u64,
    states: u64,
    differences: u64,
}

/// Compares on the fixed texts and on `count` random ones; how many differences
/// there are, and numbers that no end had.
pub fn compare(seed: u64, count: u64) -> u64 {
    let mut tally = Tally::default();
    cuttings::short(&mut tally);
    cuttings::fixed(&mut tally);
    cuttings::around_the_limits(&mut tally);
    cuttings::random(&mut tally, seed, count);
    states::others(&mut tally, seed, count);
    let missing = [0, 2, 3, 4, 5, 6, 7];
    let missing = missing
        .iter()
        .filter(|number| !tally.ends.contains_key(number));
    let missing: Vec<_> = missing.collect();
    println!(
        "{} cuttings into {} pieces, numbers and how often {:?}; {} calls of another size, {} other \
         states, {} differences; numbers without a case: {missing:?}",
        tally.cuttings,
        tally.pieces,
        tally.ends,
        tally.resized,
        tally.states,
        tally.differences
    );
    tally.differences + missing.len() as u64
}

/// A text and what is lent for it, with what the reference program leaves at its
/// end: worked out once for all cuttings.
struct Question<'a> {
    text: &'a [u8],
    first: Box<[u8]>,
    table: Table,
    answer: Answer,
    canonical_after: Vec<u8>,
    table_after: Vec<u32>,
    /// The library's state after so many octets, by the cutting that came first.
    states: BTreeMap<usize, State>,
}

impl Question<'_> {
    fn new(text: &[u8], room: usize, table: Table) -> Question<'_> {
        let first: Box<[u8]> = (0..room).map(|at| 0xa5 ^ at as u8).collect();
        let mut numbers = table.flat();
        let mut canonical = first.to_vec();
        let mut pieces = Pieces::start(&first, numbers.len());
        let fed = pieces.feed(text, &mut canonical, numbers.len());
        fed.expect("the sizes of the start");
        let Ended { reading, place } = pieces.end(&mut canonical, &mut numbers);
        let (number, length, nodes) = match reading {
            Reading::Accepted { length, nodes } => (0, length, nodes),
            Reading::Refused(number) => (number, 0, 0),
        };
        let told = [length, nodes, place];
        Question {
            text,
            first,
            table,
            answer: Answer { number, told },
            canonical_after: canonical,
            table_after: numbers,
            states: BTreeMap::new(),
        }
    }

    /// The pieces of a cutting: its places in order, where equal ones leave an
    /// empty piece between.
    fn cut<'b>(&'b self, cuts: &'b [usize]) -> impl Iterator<Item = &'b [u8]> {
        let starts = [0].into_iter().chain(cuts.iter().copied());
        let ends = cuts.iter().copied().chain([self.text.len()]);
        starts.zip(ends).map(|(start, end)| &self.text[start..end])
    }
}

impl Tally {
    fn hold(&mut self, holds: bool, question: &Question, cuts: &[usize], what: &str) {
        if !holds {
            self.differences += 1;
            if self.differences <= SHOWN {
                let start = &question.text[..question.text.len().min(60)];
                let (room, table) = (question.first.len(), question.table.size());
                let way = match question.table {
                    Table::Numbers(_) => "numbers",
                    Table::Records(_) => "records",
                };
                let cuts = &cuts[..cuts.len().min(20)];
                println!(
                    "pieces: {what}\n  {} octets {}\n  room {room}, {table} {way}, cut at {cuts:?}",
                    question.text.len(),
                    start.escape_ascii()
                );
            }
        }
    }

    /// One cutting, from the start to the end.
    fn follow(&mut self, question: &mut Question, cuts: &[usize]) {
        self.cuttings += 1;
        let mut now = question.first.clone();
        let mut wrong = None;
        let after = self.fed(question, cuts, &mut now, &mut wrong);
        let (mut state, mut table) = (
            raw::start(now.len(), question.table.size()),
            question.table.clone(),
        );
        for (fed, handed) in after {
            state = handed;
            let known = *question.states.entry(fed).or_insert(state);
            if known != state {
                wrong.get_or_insert(format!("after {fed} octets: {state:?}, not {known:?}"));
            }
        }
        let before = state;
        let answer = raw::end(&state, &now, &mut table);
        *self.ends.entry(question.answer.number).or_default() += 1;
        if answer != question.answer {
            wrong.get_or_insert(format!("the end: {answer:?}, not {:?}", question.answer));
        }
        if now[..] != question.canonical_after[..] || table.flat() != question.table_after {
            wrong.get_or_insert("what the end leaves".into());
        }
        if state != before {
            wrong.get_or_insert("the end changes the state".into());
        }
        let what = wrong.as_deref().unwrap_or_default();
        self.hold(wrong.is_none(), question, cuts, what);
    }

    /// Feeds the pieces of a cutting to both: the library's state after each, by the
    /// octets fed.
    fn fed(
        &mut self,
        question: &Question,
        cuts: &[usize],
        now: &mut [u8],
        wrong: &mut Option<String>,
    ) -> Vec<(usize, State)> {
        let (size, numbers) = (question.table.size(), question.table_after.len());
        let mut expected = Pieces::start(&question.first, numbers);
        let mut expected_now = question.first.to_vec();
        let (mut state, mut fed) = (raw::start(now.len(), size), 0);
        let mut after = Vec::new();
        for piece in question.cut(cuts) {
            self.pieces += 1;
            // A heap block of just its size, too.
            let piece: Box<[u8]> = piece.into();
            fed += piece.len();
            let told = raw::feed(&mut state, &piece, now, size);
            let taken = expected.feed(&piece, &mut expected_now, numbers);
            if Ok(told.1) != taken || told.0 != 0 || now[..] != expected_now[..] {
                wrong.get_or_insert(format!("after {fed} octets: told {told:?}, not {taken:?}"));
            }
            after.push((fed, state));
        }
        after
    }

    /// One cutting, with pieces and ends of other sizes before each piece and before
    /// the end: they get 7, and change nothing.
    fn follow_resized(&mut self, question: &mut Question, cuts: &[usize]) {
        let (room, size) = (question.first.len(), question.table.size());
        let mut now = question.first.clone();
        let mut state = raw::start(room, size);
        for piece in question.cut(cuts) {
            self.resize(question, cuts, state, &now);
            raw::feed(&mut state, piece, &mut now, size);
        }
        self.resize(question, cuts, state, &now);
        let answer = raw::end(&state, &now, &mut question.table.clone());
        let same = answer == question.answer && now[..] == question.canonical_after[..];
        self.hold(same, question, cuts, "the end after other sizes");
    }

    /// Calls of other sizes than the state's.
    fn resize(&mut self, question: &Question, cuts: &[usize], state: State, now: &[u8]) {
        let (room, size) = (now.len(), question.table.size());
        let rooms = [0, room.wrapping_sub(1), room, room + 1, room + 16_384];
        let sizes = [0, size.wrapping_sub(1), size, size + 1, size + 8];
        let rooms = rooms.into_iter().filter(|other| *other <= room + 16_384);
        for other_room in rooms {
            // As much of what is there as it has room for.
            let mut octets: Box<[u8]> = (0..other_room)
                .map(|at| now.get(at).copied().unwrap_or(0x5a))
                .collect();
            let before = octets.clone();
            for other in sizes.into_iter().filter(|other| *other <= size + 8) {
                if (other_room, other) == (room, size) {
                    continue;
                }
                self.resized += 3;
                *self.ends.entry(RESIZED.number).or_default() += 1;
                let mut after = state;
                let mut same = true;
                for piece in [&b""[..], b"(1:a)"] {
                    same &= raw::feed(&mut after, piece, &mut octets, other) == (7, 0);
                }
                let mut table = question.table.sized(other);
                same &= raw::end(&after, &octets, &mut table) == RESIZED;
                same &= after == state && octets == before;
                same &= table == question.table.sized(other);
                let what = "another size";
                self.hold(same, question, cuts, what);
            }
            if other_room == room {
                for far in [usize::MAX, usize::MAX / 2 + 1, size ^ (1 << 32)] {
                    self.resized += 1;
                    let mut after = state;
                    let told = raw::feed(&mut after, b"x", &mut octets, far);
                    let same = told == (7, 0) && after == state && octets == before;
                    self.hold(same, question, cuts, "a size far off");
                }
            }
        }
    }
}
