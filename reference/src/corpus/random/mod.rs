//! Random cases.

pub mod large;
pub mod looks;
pub mod replacements;
pub mod spoil;
pub mod texts;
pub mod writes;

use super::case::Case;
use super::rng::Rng;

/// One in so many cases is a large one, and the kinds of them take turns: the
/// file stays small, and each limit is met again and again.
const LARGE_EVERY: u64 = 250;

/// The random cases of a seed, without end.
pub struct Cases {
    rng: Rng,
    number: u64,
    /// The rest of a batch, last first.
    waiting: Vec<Case>,
}

impl Cases {
    /// Those of that seed.
    pub fn new(seed: u64) -> Self {
        Cases {
            rng: Rng::new(seed),
            number: 0,
            waiting: Vec::new(),
        }
    }
}

impl Iterator for Cases {
    type Item = Case;

    fn next(&mut self) -> Option<Case> {
        self.number += 1;
        if self.number.is_multiple_of(LARGE_EVERY) {
            return Some(large::case(&mut self.rng, self.number / LARGE_EVERY));
        }
        while self.waiting.is_empty() {
            self.waiting = batch(&mut self.rng);
            self.waiting.reverse();
        }
        self.waiting.pop()
    }
}

/// Some cases: one, or all that belong to one tree.
fn batch(rng: &mut Rng) -> Vec<Case> {
    match rng.below(1000) {
        0..=579 => vec![texts::case(rng)],
        580..=749 => vec![writes::case(rng)],
        750..=829 => replacements::every_node(rng),
        830..=919 => vec![replacements::case(rng)],
        920..=979 => vec![looks::comparison(rng)],
        _ => looks::every_node(rng),
    }
}
