//! Elements put into lists and nodes removed, by the library over numbers and
//! over records and by the reference program: at every place of every list of
//! random sheets, with room just enough and one short, at each limit and one past
//! it, and with two reasons to refuse at once.

mod call;
mod limits;

use std::collections::BTreeMap;

use reference::corpus::damage::damaged;
use reference::corpus::rng::Rng;
use reference::corpus::spell;
use reference::corpus::trees::{small, tree};
use reference::limits::{ADVANCED, BASIC, CANONICAL, MAX_DEPTH, MAX_SOURCE, RECORD, TERMINAL};
use reference::tree::{Layout, Tree, KIND_LIST};

use call::{answers, expected, Asked, Call};

/// Differences shown whole; the rest are only counted.
const SHOWN: u64 = 5;

/// Cases that a random sheet makes, about.
const TO_A_SHEET: u64 = 100;

/// Reasons to refuse, in no order.
const FAULTS: usize = 10;

/// Cases by entry and answer, and answers that differ.
#[derive(Default)]
pub struct Tally {
    pub cases: BTreeMap<(&'static str, u32), u64>,
    pub differences: u64,
}

/// Fixed sheets, and about `count` cases of random ones.
pub fn compare(seed: u64, count: u64) -> Tally {
    let mut tally = Tally::default();
    let mut rng = Rng::new(seed ^ 5);
    for nodes in [1, 2, 40, 300] {
        let sheet = tree(&mut rng, nodes, 6);
        everywhere(&mut rng, &sheet, &mut tally);
    }
    for call in limits::calls() {
        check(&call, &mut tally);
    }
    in_pairs(&mut rng, &mut tally);
    for _ in 0..count / TO_A_SHEET {
        let sheet = small(&mut rng);
        everywhere(&mut rng, &sheet, &mut tally);
        for _ in 0..8 {
            let call = drawn(&mut rng, &sheet);
            check(&call, &mut tally);
        }
        in_pairs(&mut rng, &mut tally);
    }
    tally
}

/// Every place of every list, one past the last, and every node.
fn everywhere(rng: &mut Rng, sheet: &Tree, tally: &mut Tally) {
    let layout = sheet.layout();
    let places = elements(&layout);
    for (node, elements) in places.iter().enumerate() {
        for k in 0..elements.map_or(1, |elements| elements + 2) {
            let (element, form, text) = text(rng);
            let more = element.layout();
            let call = Call {
                form,
                text,
                ..own(&layout, Asked::Insert { node, k })
            };
            let (octets, records) = (more.octets.len(), more.records.len());
            check(&call.clone().with_room(octets, records), tally);
            check(&call.clone().with_room(octets - 1, records), tally);
            check(&call.with_room(octets, records - 1), tally);
        }
    }
    for node in 0..places.len() + 1 {
        check(&own(&layout, Asked::Remove { node }), tally);
        check(&own(&layout, Asked::Remove { node }).with_room(3, 2), tally);
    }
}

/// How many elements each node has; a string has none to count.
fn elements(layout: &Layout) -> Vec<Option<usize>> {
    let count = |node: usize| {
        let record = layout.records[node];
        (record[0] == KIND_LIST).then(|| {
            let end = node + record[3] as usize;
            let mut child = node + 1;
            let mut elements = 0;
            while child < end {
                child += layout.records[child][3] as usize;
                elements += 1;
            }
            elements
        })
    };
    (0..layout.records.len()).map(count).collect()
}

/// A small tree, and a text of it in some form.
fn text(rng: &mut Rng) -> (Tree, u32, Vec<u8>) {
    let element = small(rng);
    let octets = element.layout().octets;
    match rng.below(4) {
        0 => (element, CANONICAL, octets),
        1 => {
            let text = spell::basic(rng, &octets);
            (element, BASIC, text)
        }
        2 => {
            let text = spell::terminal(rng, &element);
            (element, TERMINAL, text)
        }
        _ => {
            let text = spell::advanced(rng, &element);
            (element, ADVANCED, text)
        }
    }
}

/// A sheet with its own table and no more room.
fn own(layout: &Layout, asked: Asked) -> Call {
    Call {
        form: CANONICAL,
        text: b"0:".to_vec(),
        canonical: layout.octets.clone(),
        table: layout.records.as_flattened().to_vec(),
        length: layout.octets.len(),
        nodes: layout.records.len(),
        asked,
    }
}

/// A call in which anything may be wrong.
fn drawn(rng: &mut Rng, sheet: &Tree) -> Call {
    let layout = sheet.layout();
    let count = layout.records.len();
    let node = match rng.below(8) {
        0 => usize::MAX,
        1 => count + rng.below(2),
        _ => rng.below(count),
    };
    let k = match rng.below(8) {
        0 => usize::MAX,
        _ => rng.below(4),
    };
    let asked = if rng.once_in(3) {
        Asked::Remove { node }
    } else {
        Asked::Insert { node, k }
    };
    let (_, form, text) = text(rng);
    let mut call = Call {
        form,
        text,
        ..own(&layout, asked)
    }
    .with_room(rng.below(30), rng.below(6));
    if rng.once_in(4) {
        call.text = damaged(rng, &call.text);
    }
    if rng.once_in(6) {
        call.form = rng.pick(&[0, 5, u32::MAX]);
    }
    if rng.once_in(5) {
        let place = rng.below(call.table.len());
        call.table[place] ^= 1 << rng.below(32);
    }
    if rng.once_in(6) {
        call.length = rng.pick(&[0, call.length - 1, call.length + 1, usize::MAX]);
    }
    if rng.once_in(6) {
        call.nodes = rng.pick(&[0, call.nodes - 1, call.nodes + 1, usize::MAX]);
    }
    call
}

/// Every one and every two of the reasons to refuse, of an insertion into a list
/// in a list and of a removal. Without them the room is just enough.
fn in_pairs(rng: &mut Rng, tally: &mut Tally) {
    let sheet = Tree::List(vec![small(rng), Tree::List(vec![small(rng)]), small(rng)]);
    let layout = sheet.layout();
    let list = 1 + layout.records[1][3] as usize;
    for one in 0..FAULTS {
        for other in one..FAULTS {
            let (element, form, text) = if one == DEEP {
                deep_text(rng)
            } else {
                text(rng)
            };
            let more = element.layout();
            let asked = Asked::Insert { node: list, k: 1 };
            let mut call = Call {
                form,
                text,
                ..own(&layout, asked)
            }
            .with_room(more.octets.len(), more.records.len());
            fault(one, &mut call);
            fault(other, &mut call);
            check(&call, tally);
            let mut call = own(&layout, Asked::Remove { node: list });
            fault(one, &mut call);
            fault(other, &mut call);
            check(&call, tally);
        }
    }
}

/// A tree that fits alone, and not in two lists; and a text of it.
fn deep_text(rng: &mut Rng) -> (Tree, u32, Vec<u8>) {
    let depth = MAX_DEPTH - rng.below(2);
    let tree = (1..depth).fold(Tree::List(vec![]), |tree, _| Tree::List(vec![tree]));
    let octets = tree.layout().octets;
    (tree, CANONICAL, octets)
}

/// The fault that the text has from the start: in the list it is too deep.
const DEEP: usize = 0;

/// One reason to refuse: the depth, the form, the text's length, the text, the
/// records, the room, the table, the place, in two ways, and the node. None takes
/// another away: what a fault changes, a later one leaves or makes worse.
fn fault(which: usize, call: &mut Call) {
    match which {
        DEEP => {}
        1 => call.form = 0,
        2 => call.text.resize(MAX_SOURCE + 1, b' '),
        3 => call.text.push(b')'),
        4 => call.table.truncate(call.table.len() - RECORD),
        5 => call.canonical.truncate(call.canonical.len() - 1),
        6 => call.table[3] ^= 1,
        7 => call.asked = call.asked.of_node(0).at(4),
        8 => call.asked = call.asked.of_node(call.nodes - 1).at(9),
        _ => call.asked = call.asked.of_node(call.nodes),
    }
}

fn check(call: &Call, tally: &mut Tally) {
    let expected = expected(call);
    *tally
        .cases
        .entry((call.asked.name(), expected.answer))
        .or_default() += 1;
    for (way, answered) in answers(call) {
        if answered != expected {
            tally.differences += 1;
            if tally.differences <= SHOWN {
                println!("{call:?}\n  expected {expected:?}\n  {way} {answered:?}");
            }
        }
    }
}
