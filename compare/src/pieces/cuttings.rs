//! Ways to cut texts, and room to put them.

use etglavino::RECORD;
use reference::canonical;
use reference::corpus::damage::{damaged, soup};
use reference::corpus::rng::Rng;
use reference::corpus::trees;

use super::raw::Table;
use super::{texts, Question, Tally};

/// Octets and nodes that a text takes where it is a canonical form; else about as
/// many as it might.
fn needed(text: &[u8]) -> (usize, usize) {
    match canonical::parse(text) {
        // Nodes are counted list in list, and some texts here nest thousands.
        Some(tree) if tree.depth() <= 200 => (text.len(), tree.nodes()),
        _ => (text.len(), text.len() / 2),
    }
}

/// Every text, in each of its rooms, asked in both ways.
fn rooms(text: &[u8]) -> Vec<Question<'_>> {
    let (octets, nodes) = needed(text);
    let mut questions = Vec::new();
    for (room, records) in [
        (octets, nodes),
        (octets + 3, nodes + 2),
        (octets.saturating_sub(1), nodes),
        (0, nodes),
        (octets, nodes.saturating_sub(1)),
        (octets / 2, 0),
    ] {
        let numbers = Table::numbers(records * RECORD + room % RECORD);
        questions.push(Question::new(text, room, numbers));
        questions.push(Question::new(text, room, Table::records(records)));
    }
    questions
}

/// Every way to cut each short text, also with an empty piece at each cut.
pub fn short(tally: &mut Tally) {
    let mut all = vec![Vec::new()];
    for octets in 0..4 {
        let longest: Vec<Vec<u8>> = all
            .iter()
            .filter(|text| text.len() == octets)
            .cloned()
            .collect();
        for text in longest {
            all.extend(
                texts::ALPHABET
                    .iter()
                    .map(|octet| [&text[..], &[*octet]].concat()),
            );
        }
    }
    all.extend(texts::SHORT.iter().map(|text| text.to_vec()));
    for text in &all {
        for question in &mut rooms(text) {
            for places in 0_usize..1 << text.len().saturating_sub(1) {
                let cuts: Vec<usize> = (1..text.len())
                    .filter(|place| places >> (place - 1) & 1 == 1)
                    .collect();
                tally.follow(question, &cuts);
            }
            let doubled: Vec<usize> = (0..=text.len()).flat_map(|place| [place; 2]).collect();
            tally.follow(question, &doubled);
        }
    }
}

/// Every single and double cut of the fixed texts, and calls of other sizes between.
pub fn fixed(tally: &mut Tally) {
    for text in &texts::fixed() {
        for question in &mut rooms(text) {
            for first in 0..=text.len() {
                tally.follow(question, &[first]);
                for second in first..=text.len() {
                    tally.follow(question, &[first, second]);
                }
                tally.follow_resized(question, &[first]);
            }
            let each: Vec<usize> = (1..text.len()).collect();
            tally.follow_resized(question, &each);
        }
    }
}

/// Texts around the limits, in rooms around the limits, cut there and between.
pub fn around_the_limits(tally: &mut Tally) {
    for text in &texts::around_the_limits() {
        let (octets, nodes) = needed(text);
        for room in [
            0,
            5,
            octets - 1,
            octets,
            16_383,
            16_384,
            16_385,
            20_000,
            33_000,
        ] {
            for records in [nodes.saturating_sub(1), nodes.min(16_400)] {
                for table in [
                    Table::numbers(records * RECORD + 5),
                    Table::records(records),
                ] {
                    let question = &mut Question::new(text, room, table);
                    for cuts in edges(text.len(), room) {
                        tally.follow(question, &cuts);
                    }
                }
            }
        }
        let question = &mut Question::new(text, 16_384, Table::records(nodes.min(8_192)));
        let each: Vec<usize> = (1..text.len()).collect();
        tally.follow(question, &each);
        tally.follow_resized(question, &[16_384.min(text.len()), 32_768.min(text.len())]);
    }
}

/// Cuts at and around the edges that a text of that length has.
fn edges(length: usize, room: usize) -> Vec<Vec<usize>> {
    let places = [
        0, 1, room, 16_383, 16_384, 16_385, 32_767, 32_768, 32_769, length,
    ];
    let mut places: Vec<usize> = places
        .into_iter()
        .filter(|place| *place <= length)
        .collect();
    places.sort_unstable();
    let whole = Vec::new();
    let steps = |size: usize| {
        (1..length.div_ceil(size))
            .map(|piece| piece * size)
            .collect()
    };
    vec![whole, places, steps(1_000), steps(509)]
}

/// Random texts, good and bad, in random room, each cut at random places.
pub fn random(tally: &mut Tally, seed: u64, count: u64) {
    let mut rng = Rng::new(seed ^ 1);
    for _ in 0..count {
        let text = &text(&mut rng);
        let (octets, nodes) = needed(text);
        let room = match rng.below(8) {
            0 => octets.saturating_sub(1),
            1 => rng.below(octets + 1),
            2 => octets + rng.below(99),
            3 => rng.pick(&[0, 16_383, 16_384, 16_385]),
            _ => octets,
        };
        let records = match rng.below(8) {
            0 => nodes.saturating_sub(1),
            1 => rng.below(nodes + 1),
            2 | 3 => nodes + rng.below(9),
            _ => nodes,
        };
        let table = match rng.below(2) {
            0 => Table::numbers(records * RECORD + rng.below(RECORD)),
            _ => Table::records(records),
        };
        let question = &mut Question::new(text, room, table);
        tally.follow(question, &[]);
        for _ in 0..3 {
            let cuts = cutting(&mut rng, text.len());
            tally.follow(question, &cuts);
        }
        if rng.once_in(8) {
            let cuts = cutting(&mut rng, text.len());
            tally.follow_resized(question, &cuts[..cuts.len().min(6)]);
        }
    }
}

/// A canonical form, small or large, one in two of them damaged; or a soup.
fn text(rng: &mut Rng) -> Vec<u8> {
    let tree = match rng.below(4) {
        0 => {
            let nodes = 1 + rng.below(3_000);
            trees::tree(rng, nodes, 12)
        }
        1 => {
            let depth = rng.pick(&[20, 127, 128, 129, 140]);
            let tree = trees::small(rng);
            trees::deepened(rng, tree, depth)
        }
        _ => trees::small(rng),
    };
    let octets = tree.layout().octets;
    match rng.below(8) {
        0..=3 => octets,
        4 => [octets, soup(rng)].concat(),
        _ => damaged(rng, &octets),
    }
}

/// Places in order; one cutting in four has an empty piece at each.
fn cutting(rng: &mut Rng, length: usize) -> Vec<usize> {
    let most = rng.pick(&[2, 5, 30, 200]);
    let count = rng.below(most);
    let mut cuts: Vec<usize> = (0..count).map(|_| rng.below(length + 1)).collect();
    if rng.once_in(4) {
        cuts = cuts.into_iter().flat_map(|place| [place; 2]).collect();
    }
    cuts.sort_unstable();
    cuts
}
