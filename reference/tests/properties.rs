//! What holds of every tree, tried on random ones and on all short texts.

mod common;

use common::*;
use reference::corpus::rng::Rng;
use reference::corpus::{damage, spell, trees};
use reference::entries::{self, Reading};
use reference::limits::RECORD;
use reference::output;
use reference::tree::Tree;

const ROUNDS: usize = 400;

fn random_tree(rng: &mut Rng) -> Tree {
    let nodes = 1 + rng.below(24);
    trees::tree(rng, nodes, 6)
}

#[test]
fn what_is_written_reads_back() {
    let mut rng = Rng::new(1);
    for _ in 0..ROUNDS {
        let tree = random_tree(&mut rng);
        let layout = tree.layout();
        let size = layout.octets.len();
        assert!(2 * layout.records.len() <= size);
        assert!(output::advanced(&tree).len() <= 2 * size);
        let expected = Ok((layout.octets.clone(), layout.records));
        let texts = [
            (1, output::canonical(&tree)),
            (2, output::canonical(&tree)),
            (3, output::canonical(&tree)),
            (2, output::basic(&tree)),
            (3, output::advanced(&tree)),
            (2, spell::basic(&mut rng, &layout.octets)),
            (3, spell::advanced(&mut rng, &tree)),
            (3, spell::advanced(&mut rng, &tree)),
        ];
        for (form, text) in texts {
            let shown = String::from_utf8_lossy(&text);
            assert_eq!(
                read_into(form, &text, 2_000, 1_000),
                expected,
                "form {form}: {shown}"
            );
            assert!(size <= 3 * text.len());
        }
    }
}

#[test]
fn no_canonical_form_begins_another() {
    let mut rng = Rng::new(2);
    for _ in 0..ROUNDS {
        let octets = output::canonical(&random_tree(&mut rng));
        for end in 0..octets.len() {
            assert!(reference::canonical::parse(&octets[..end]).is_none());
        }
        let longer = [&octets[..], &[rng.octet()]].concat();
        assert!(reference::canonical::parse(&longer).is_none());
    }
}

/// Where a text is accepted at all, its canonical form reads to itself in
/// every form, and whatever form 1 accepts the others accept alike.
fn check_forms(text: &[u8]) {
    for form in [1, 2, 3] {
        let result = read_into(form, text, 400, 400);
        if let Ok((octets, records)) = &result {
            assert!(octets.len() <= 3 * text.len());
            assert!(2 * records.len() <= octets.len());
            assert_eq!(read_into(1, octets, 400, 400), result);
            let tree = tree(octets);
            assert_eq!(read_into(3, &output::advanced(&tree), 400, 400), result);
            if form == 1 {
                assert_eq!(octets, text);
                assert_eq!(read_into(2, text, 400, 400), result);
                assert_eq!(read_into(3, text, 400, 400), result);
            }
        }
    }
}

#[test]
fn all_short_texts() {
    const ALPHABET: &[u8] = b"()[]{}01:a\"#|\\ ";
    for size in 0..=4 {
        for number in 0..ALPHABET.len().pow(size) {
            let mut rest = number;
            let mut text = Vec::new();
            for _ in 0..size {
                text.push(ALPHABET[rest % ALPHABET.len()]);
                rest /= ALPHABET.len();
            }
            check_forms(&text);
        }
    }
}

#[test]
fn damaged_texts() {
    let mut rng = Rng::new(3);
    for _ in 0..4 * ROUNDS {
        let tree = trees::small(&mut rng);
        let text = match rng.below(3) {
            0 => spell::advanced(&mut rng, &tree),
            1 => spell::basic(&mut rng, &output::canonical(&tree)),
            _ => damage::soup(&mut rng),
        };
        if text.len() < 130 {
            check_forms(&damage::damaged(&mut rng, &text));
        }
    }
}

/// Each node of a tree replaced, and the result held against reading the
/// octets put together by hand.
#[test]
fn replacing_equals_reading_afresh() {
    let mut rng = Rng::new(4);
    for _ in 0..ROUNDS {
        let old = trees::small(&mut rng).layout();
        for node in 0..old.records.len() {
            let new = trees::small(&mut rng);
            let text = spell::advanced(&mut rng, &new);
            let mut pair = Pair::new(&old.octets, 3_000, 403);
            let reading = pair.replace(3, &text, node);

            let (start, end) = (old.records[node][1] as usize, old.records[node][2] as usize);
            let middle = output::canonical(&new);
            let together = [&old.octets[..start], &middle[..], &old.octets[end..]].concat();
            let afresh = Pair::new(&together, 3_000, 403);
            let (length, nodes) = (afresh.length, afresh.nodes);
            assert_eq!(reading, Reading::Accepted { length, nodes });
            assert_eq!(pair.canonical[..length], afresh.canonical[..length]);
            assert_eq!(pair.table[..nodes * RECORD], afresh.table[..nodes * RECORD]);
            check_rest(&pair, (length, nodes));
            check_earlier(&old.records, pair.table.as_chunks().0, node);
        }
    }
}

/// Zero between the new and a larger old count, untouched past both.
fn check_rest(pair: &Pair, (length, nodes): (usize, usize)) {
    let used = length.max(pair.length);
    assert!(pair.canonical[length..used].iter().all(|octet| *octet == 0));
    assert!(pair.canonical[used..].iter().all(|octet| *octet == OCTET));
    let used = nodes.max(pair.nodes) * RECORD;
    assert!(pair.table[nodes * RECORD..used]
        .iter()
        .all(|number| *number == 0));
    assert!(pair.table[used..].iter().all(|number| *number == NUMBER));
}

/// Of the records before the node, only those of the lists around it change,
/// and only in end, node count and data end.
fn check_earlier(old: &[[u32; RECORD]], new: &[[u32; RECORD]], node: usize) {
    for earlier in 0..node {
        let (before, after) = (old[earlier], new[earlier]);
        if before[2] >= old[node][2] {
            let same = [0, 1, 4, 5, 6];
            assert!(same.iter().all(|column| before[*column] == after[*column]));
        } else {
            assert_eq!(before, after);
        }
    }
}

#[test]
fn same_is_equality_once_the_default_is_filled_in() {
    fn filled(tree: &Tree, default: &[u8]) -> Tree {
        match tree {
            Tree::Text { hint, data } => Tree::hinted(hint.as_deref().unwrap_or(default), data),
            Tree::List(items) => {
                Tree::List(items.iter().map(|item| filled(item, default)).collect())
            }
        }
    }
    let mut rng = Rng::new(5);
    for _ in 0..ROUNDS {
        let (one, other) = (trees::tree(&mut rng, 2, 1), trees::tree(&mut rng, 2, 1));
        for default in [&b""[..], b"d"] {
            let full = filled(&one, default);
            assert!(one.same(&full, default));
            assert_eq!(one.same(&other, default), full == filled(&other, default));
        }
    }
}

#[test]
fn shown_parts_are_the_tree_s_own() {
    let mut rng = Rng::new(6);
    for _ in 0..ROUNDS {
        let mut tree = trees::small(&mut rng);
        let pair = Pair::roomy(&output::canonical(&tree));
        let Pair {
            canonical,
            table,
            length,
            nodes,
        } = &pair;
        for node in 0..*nodes {
            let hint = entries::hint(canonical, *length, table, *nodes, node, b"none").octets;
            let data = entries::data(canonical, *length, table, *nodes, node).octets;
            match tree.node_mut(node).unwrap() {
                Tree::Text {
                    hint: own,
                    data: octets,
                } => {
                    assert_eq!(hint, own.as_deref().unwrap_or(b"none"));
                    assert_eq!(data, octets);
                }
                Tree::List(items) => {
                    let inside: Vec<u8> = items.iter().flat_map(output::canonical).collect();
                    assert_eq!(hint, b"none");
                    assert_eq!(data, inside);
                }
            }
        }
    }
}
