//! A factory's week, made from a seed, and what is known of it.

use etglavino::Form;

use crate::rng::Rng;
use crate::spell::{advanced, basic, canonical, terminal, Tree};

const NAMES: [&str; 12] = [
    "ann", "bob", "cyn", "dov", "eva", "finn", "gus", "hana", "ivo", "jun", "kay", "lee",
];

/// What becomes of a sheet.
#[derive(Clone, Copy, Debug, PartialEq)]
pub enum Fate {
    Good,
    /// Refused when it is read, with this number.
    Refused(u32),
    /// Read, and no hours: a line has 24.25 of them.
    TooLong,
}

/// A worker's lines in a sheet, in quarters of an hour.
pub struct Worker {
    pub name: &'static str,
    pub lines: Vec<[u32; 3]>,
}

/// A sheet as it comes from a terminal.
pub struct Made {
    pub form: Form,
    pub text: Vec<u8>,
    pub fate: Fate,
    pub workers: Vec<Worker>,
    /// What no foreman may see.
    pub secret: String,
}

/// The sheet of a number. Two in a hundred are damaged on the way, and one has
/// a line that is too long.
pub fn made(factory: usize, number: usize, rng: &mut Rng) -> Made {
    let secret = format!("sick-{:016x}", rng.next());
    let mut workers: Vec<_> = (0..3 + rng.below(4)).map(|_| worker(rng)).collect();
    let fate = match rng.below(100) {
        0 => Fate::TooLong,
        1 => Fate::Refused(3),
        2 => Fate::Refused(rng.one_of(&[2, 3, 4])),
        _ => Fate::Good,
    };
    if fate == Fate::TooLong {
        workers[0].lines[0][0] = 97;
    }
    let tree = tree(factory, number, &workers, &secret, fate == Fate::Refused(4));
    let form = match fate {
        // Only spaces make a text so long.
        Fate::Refused(2) => Form::Advanced,
        _ => rng.one_of(&[
            Form::Canonical,
            Form::Basic,
            Form::Advanced,
            Form::Terminal1997,
        ]),
    };
    let mut text = Vec::new();
    match form {
        Form::Canonical => canonical(&tree, &mut text),
        Form::Basic => basic(&tree, &mut text),
        Form::Advanced => advanced(&tree, rng, &mut text),
        Form::Terminal1997 => terminal(&tree, rng, &mut text),
    }
    match fate {
        Fate::Refused(2) => text.resize(32_769, b' '),
        // The line went dead before the end, which closes the list.
        Fate::Refused(3) => text.truncate(text.len() - 1 - rng.below(9) as usize),
        _ => (),
    }
    Made {
        form,
        text,
        fate,
        workers,
        secret,
    }
}

fn worker(rng: &mut Rng) -> Worker {
    let line =
        |rng: &mut Rng| [rng.below(33), rng.below(17), rng.below(9)].map(|count| count as u32);
    Worker {
        name: rng.one_of(&NAMES),
        lines: (0..1 + rng.below(7)).map(|_| line(rng)).collect(),
    }
}

fn tree(factory: usize, number: usize, workers: &[Worker], secret: &str, deep: bool) -> Tree {
    let whole = |count: usize| Tree::Word(Some("int"), shortest(count));
    let mut elements = vec![Tree::word("sheet"), whole(factory), whole(number)];
    for worker in workers {
        let lines = worker.lines.iter().map(line).collect();
        elements.push(Tree::List(vec![Tree::word(worker.name), Tree::List(lines)]));
    }
    elements.push(Tree::List(vec![Tree::word("private"), Tree::word(secret)]));
    if deep {
        let nested = (0..200).fold(Tree::List(vec![]), |inner, _| Tree::List(vec![inner]));
        elements.push(nested);
    }
    Tree::List(elements)
}

/// Three doubles, big-endian.
pub fn line(quarters: &[u32; 3]) -> Tree {
    let double = |count: &u32| (f64::from(*count) / 4.0).to_be_bytes().to_vec();
    let field = |count| Tree::Word(Some("f64"), double(count));
    Tree::List(quarters.iter().map(field).collect())
}

/// A count below 2^15 in the fewest octets of two's complement.
fn shortest(count: usize) -> Vec<u8> {
    match count {
        0 => vec![],
        1..=127 => vec![count as u8],
        _ => vec![(count >> 8) as u8, count as u8],
    }
}
