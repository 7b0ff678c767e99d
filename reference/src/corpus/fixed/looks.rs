//! Comparisons, hints and data.

use super::layout;
use super::replacements::FORMS;
use crate::corpus::case::Case;
use crate::corpus::make;

/// The cases.
pub fn cases() -> Vec<Case> {
    [comparisons(), parts()].concat()
}

/// A missing hint against the default, the empty hint and another; other data;
/// another shape; and two missing ones, which are equal under any default.
fn comparisons() -> Vec<Case> {
    const COMPARED: &[&[u8]] = &[
        b"1:a",
        b"[0:]1:a",
        b"[1:d]1:a",
        b"1:A",
        b"(1:a)",
        b"([1:d]1:a)",
        b"(1:a())",
        b"(()1:a)",
        b"0:",
        b"[0:]0:",
        b"(1:a", // not canonical, nor is the last
        b"",
    ];
    let defaults: [&[u8]; 2] = [b"", b"d"];
    let mut cases = Vec::new();
    for a in COMPARED {
        for b in COMPARED {
            for default_hint in defaults {
                cases.push(Case::Same {
                    a: make::canonical(a),
                    b: make::canonical(b),
                    default_hint: default_hint.to_vec(),
                });
            }
        }
    }
    cases
}

/// Hint and data of every node and of the first that is not there.
fn parts() -> Vec<Case> {
    let mut cases = Vec::new();
    for octets in FORMS {
        let layout = layout(octets);
        for node in 0..=layout.records.len() as u64 {
            let pair = make::pair(&layout);
            cases.push(Case::Hint {
                pair: pair.clone(),
                node,
                default_hint: b"text/plain".to_vec(),
            });
            cases.push(Case::Data { pair, node });
        }
    }
    cases
}
