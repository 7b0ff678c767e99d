//! Extracts, by the library in each of its ways and by the reference program:
//! sheets worked out to be telling, random ones, and pairs that differ only
//! inside private lists, which must leave the same behind.

mod call;
mod sheets;

use std::collections::BTreeMap;

use etglavino::RECORD;
use reference::canonical;
use reference::corpus::damage::damaged;
use reference::corpus::rng::Rng;
use reference::tree::Tree;

use call::{answers, expected, Call, Left, NUMBER, OCTET};

const ENTRIES: [&str; 2] = ["extract", "extract_own"];

/// Cases that a random sheet makes: nine calls, each of two entries.
const TO_A_SHEET: u64 = 18;

/// Cases by entry and answer, answers that differ, and pairs of alike sheets
/// that are not the same sheet.
#[derive(Default)]
pub struct Tally {
    pub cases: BTreeMap<(&'static str, u32), u64>,
    pub differences: u64,
    pub pairs: u64,
}

/// The fixed sheets and pairs, and about `count` cases of random sheets.
pub fn compare(seed: u64, count: u64) -> Tally {
    let mut tally = Tally::default();
    let mut rng = Rng::new(seed ^ 12);
    for sheet in sheets::FIXED {
        let tree = canonical::parse(sheet).expect("a canonical form");
        calls(&mut rng, &tree, sheet, &mut tally);
    }
    for tree in sheets::full() {
        calls(&mut rng, &tree, &tree.layout().octets, &mut tally);
    }
    for pair in sheets::pairs_at_limits() {
        alike(&pair, &[(0, 0), (1, 0), (0, 1)], &mut tally);
    }
    for _ in 0..count / TO_A_SHEET {
        let tree = sheets::private(&mut rng);
        let octets = tree.layout().octets;
        calls(&mut rng, &tree, &octets, &mut tally);
        let other = sheets::refilled(&mut rng, &tree);
        let less = (rng.below(2), rng.below(2));
        alike(&[tree.clone(), other], &[less], &mut tally);
        let bad = damaged(&mut rng, &octets);
        check(&drawn(&mut rng, &tree, &bad), &mut tally);
    }
    tally
}

/// A sheet with its own table, in so much room.
fn own(tree: &Tree, room: usize, numbers: usize) -> Call {
    let layout = tree.layout();
    Call {
        length: layout.octets.len(),
        nodes: layout.records.len(),
        rows: layout.records.as_flattened().to_vec(),
        sheet: layout.octets,
        room,
        numbers,
    }
}

/// A sheet in all the room it takes, by one too little, and with tables and
/// lengths that are not its own.
fn calls(rng: &mut Rng, tree: &Tree, sheet: &[u8], tally: &mut Tally) {
    let shown = tree.extract().layout();
    let (octets, numbers) = (shown.octets.len(), RECORD * shown.records.len());
    check(&own(tree, octets, numbers), tally);
    check(&own(tree, octets - 1, numbers), tally);
    check(&own(tree, octets, numbers - 1), tally);
    check(&own(tree, octets - 1, numbers - 1), tally);
    check(&own(tree, octets + 9, numbers + 13), tally);
    check(&drawn(rng, tree, sheet), tally);
}

/// A call in which anything may be wrong.
fn drawn(rng: &mut Rng, tree: &Tree, sheet: &[u8]) -> Call {
    let layout = tree.layout();
    let mut rows = layout.records.as_flattened().to_vec();
    if rng.once_in(3) {
        let place = rng.below(rows.len());
        rows[place] ^= 1 << rng.below(32);
    }
    rows.extend(vec![NUMBER; rng.below(12)]);
    let mut lent = sheet.to_vec();
    lent.extend(vec![OCTET; rng.below(3)]);
    Call {
        length: match rng.below(6) {
            0 => sheet.len() + rng.below(4),
            1 => sheet.len().saturating_sub(1),
            2 if rng.once_in(4) => usize::MAX,
            _ => sheet.len(),
        },
        nodes: match rng.below(6) {
            0 => layout.records.len() + rng.below(3),
            1 => layout.records.len() - 1,
            2 if rng.once_in(4) => usize::MAX,
            _ => layout.records.len(),
        },
        sheet: lent,
        rows,
        room: rng.below(sheet.len() + 4),
        numbers: rng.below(RECORD * layout.records.len() + 9),
    }
}

/// Two alike sheets, each with its own table, in the same rooms: what their
/// extract takes, less so many octets and numbers.
fn alike(pair: &[Tree; 2], less: &[(usize, usize)], tally: &mut Tally) {
    tally.pairs += u64::from(pair[0].layout().octets != pair[1].layout().octets);
    let shown = pair[0].extract().layout();
    for (octets, numbers) in less {
        let room = shown.octets.len() - octets;
        let numbers = RECORD * shown.records.len() - numbers;
        let [one, other] = pair.each_ref().map(|tree| own(tree, room, numbers));
        let (left, right) = (check(&one, tally), check(&other, tally));
        for (a, b) in left.as_flattened().iter().zip(right.as_flattened()) {
            if a.1 != b.1 {
                differs(&one, "an alike sheet", &a.1, &b.1, tally);
            }
        }
    }
}

/// Both entries; what the library left.
fn check(call: &Call, tally: &mut Tally) -> [[(&'static str, Left); 2]; 2] {
    let answered = answers(call);
    for ((entry, wanted), ways) in ENTRIES.into_iter().zip(expected(call)).zip(&answered) {
        *tally.cases.entry((entry, wanted.answer)).or_default() += 1;
        for (way, left) in ways {
            if *left != wanted {
                differs(call, &format!("{entry}, {way}"), left, &wanted, tally);
            }
        }
    }
    answered
}

fn differs(call: &Call, what: &str, left: &Left, wanted: &Left, tally: &mut Tally) {
    tally.differences += 1;
    if tally.differences <= crate::SHOWN {
        println!(
            "{what}, of {} octets of {} in {} octets and {} numbers: {left:?}, not {wanted:?}",
            call.length,
            call.sheet.escape_ascii(),
            call.room,
            call.numbers
        );
    }
}
