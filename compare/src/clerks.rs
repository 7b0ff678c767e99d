//! Two clerks, one sheet: two nodes of a random sheet, neither inside the other,
//! corrected in either order by the library and by the reference program. Each
//! step must leave the same with both; and where all four steps are accepted,
//! the two orders must end in the same octets and records.

use etglavino::{Extent, Record, RECORD};
use reference::corpus::rng::Rng;
use reference::corpus::{spell, trees};
use reference::entries::{self, Reading};
use reference::output;
use reference::tree::Tree;

/// What lent space holds past the sheet and its table.
const OCTET: u8 = 0xa5;
const NUMBER: u32 = 0xdead_beef;

/// A correction: the form, the text, the node.
struct Correction {
    form: u32,
    text: Vec<u8>,
    node: usize,
}

/// Lent space, and how much of it is the sheet's.
#[derive(Clone, Debug, PartialEq)]
struct Lent {
    canonical: Box<[u8]>,
    table: Box<[u32]>,
    sheet: Extent,
}

/// What was tried, and what differed.
#[derive(Default)]
struct Tally {
    pairs: u64,
    agreed: u64,
    rests: u64,
    differences: u64,
}

/// Compares on `count` pairs; how many differences there are.
pub fn compare(seed: u64, count: u64) -> u64 {
    let mut tally = Tally::default();
    let mut rng = Rng::new(seed ^ 1414);
    for _ in 0..count {
        tally.pair(&mut rng);
    }
    println!(
        "{} pairs of corrections, {} accepted in either order, {} of them with another rest, {} differences",
        tally.pairs, tally.agreed, tally.rests, tally.differences
    );
    tally.differences
}

/// Two nodes of a sheet, the second past the first and outside it.
fn apart(rng: &mut Rng, tree: &Tree) -> Option<(usize, usize)> {
    let records = tree.layout().records;
    let a = rng.below(records.len());
    let past = a + records[a][3] as usize;
    let left = records.len() - past;
    (left > 0).then(|| (a, past + rng.below(left)))
}

/// A tree spelled in some form.
fn spelled(rng: &mut Rng, tree: &Tree) -> (u32, Vec<u8>) {
    match rng.below(4) {
        0 => (1, output::canonical(tree)),
        1 => (2, output::basic(tree)),
        2 => (4, spell::terminal(rng, tree)),
        _ => (3, output::advanced(tree)),
    }
}

/// Room for the largest of these trees, at times a little more or less.
fn room(rng: &mut Rng, sizes: &[usize], held: usize) -> usize {
    let largest = sizes.iter().copied().max().unwrap_or(0);
    let drawn = match rng.below(4) {
        0 => largest + rng.below(9),
        1 => largest - rng.below(2),
        _ => largest,
    };
    drawn.max(held)
}

impl Tally {
    fn hold(&mut self, holds: bool, what: &str, octets: &[u8]) {
        if !holds {
            self.differences += 1;
            if self.differences <= crate::SHOWN {
                println!("{what}\n  sheet {}", octets.escape_ascii());
            }
        }
    }

    fn pair(&mut self, rng: &mut Rng) {
        let (tree, (a, b)) = loop {
            let nodes = 2 + rng.below(24);
            let tree = trees::tree(rng, nodes, 5);
            if let Some(found) = apart(rng, &tree) {
                break (tree, found);
            }
        };
        self.pairs += 1;
        let new = [trees::small(rng), trees::small(rng)];
        let corrected = |changes: &[(usize, &Tree)]| {
            let mut tree = tree.clone();
            for (node, to) in changes {
                *tree.node_mut(*node).expect("a node") = (*to).clone();
            }
            tree
        };
        // Where both are changed, the later goes first and no number moves.
        let trees = [
            corrected(&[(a, &new[0])]),
            corrected(&[(b, &new[1])]),
            corrected(&[(b, &new[1]), (a, &new[0])]),
        ];
        let lent = self.lent(rng, &tree, &trees);
        let moved = b + trees[0].nodes() - tree.nodes();
        let [first, second] = new.each_ref().map(|tree| spelled(rng, tree));
        let step = |(form, text): &(u32, Vec<u8>), node| Correction {
            form: *form,
            text: text.clone(),
            node,
        };
        let one = self.steps(&lent, &[step(&first, a), step(&second, moved)]);
        let other = self.steps(&lent, &[step(&second, b), step(&first, a)]);
        if let (Some(one), Some(other)) = (one, other) {
            let wanted = output::canonical(&trees[2]);
            self.agreed += 1;
            self.hold(
                one.front() == other.front(),
                "the two orders",
                &lent.canonical,
            );
            self.hold(
                one.front().0 == wanted.as_slice(),
                "the corrected sheet",
                &lent.canonical,
            );
            self.rests += u64::from(one != other);
        }
    }

    /// A sheet with its table in room that is tight for what becomes of it.
    fn lent(&self, rng: &mut Rng, tree: &Tree, later: &[Tree]) -> Lent {
        let layout = tree.layout();
        let octets: Vec<usize> = later.iter().map(|t| t.layout().octets.len()).collect();
        let records: Vec<usize> = later.iter().map(|t| RECORD * t.nodes()).collect();
        let flat = layout.records.as_flattened();
        let mut canonical = vec![OCTET; room(rng, &octets, layout.octets.len())];
        let mut table = vec![NUMBER; room(rng, &records, flat.len())];
        canonical[..layout.octets.len()].copy_from_slice(&layout.octets);
        table[..flat.len()].copy_from_slice(flat);
        Lent {
            canonical: canonical.into(),
            table: table.into(),
            sheet: Extent {
                length: layout.octets.len(),
                nodes: layout.records.len(),
            },
        }
    }

    /// The corrections one after another, by both programs and in both ways;
    /// what they leave, if all are accepted.
    fn steps(&mut self, lent: &Lent, corrections: &[Correction]) -> Option<Lent> {
        let mut lent = lent.clone();
        for correction in corrections {
            let wanted = lent.clone().by_reference(correction);
            let flat = lent.clone().by_numbers(correction);
            let records = lent.clone().by_records(correction);
            self.hold(flat == wanted, "by numbers", &lent.canonical);
            self.hold(records == wanted, "by records", &lent.canonical);
            lent = flat.ok()?;
        }
        Some(lent)
    }
}

impl Lent {
    /// The sheet, and the numbers of its records.
    fn front(&self) -> (&[u8], &[u32]) {
        let numbers = RECORD * self.sheet.nodes;
        (&self.canonical[..self.sheet.length], &self.table[..numbers])
    }

    /// An accepted correction leaves itself; a refused one its number, and what
    /// was lent.
    fn left(mut self, answer: Result<Extent, u32>) -> Result<Lent, (u32, Lent)> {
        match answer {
            Ok(sheet) => {
                self.sheet = sheet;
                Ok(self)
            }
            Err(number) => Err((number, self)),
        }
    }

    fn by_reference(mut self, by: &Correction) -> Result<Lent, (u32, Lent)> {
        let Extent { length, nodes } = self.sheet;
        let (canonical, table) = (&mut self.canonical, &mut self.table);
        let answer = entries::replace(by.form, &by.text, canonical, table, length, nodes, by.node);
        self.left(match answer {
            Reading::Accepted { length, nodes } => Ok(Extent { length, nodes }),
            Reading::Refused(number) => Err(number),
        })
    }

    fn by_numbers(mut self, by: &Correction) -> Result<Lent, (u32, Lent)> {
        let (canonical, table) = (&mut self.canonical, &mut self.table);
        let answer =
            etglavino::replace_form(by.form, &by.text, canonical, table, self.sheet, by.node);
        self.left(answer.map_err(|refusal| refusal.number()))
    }

    fn by_records(mut self, by: &Correction) -> Result<Lent, (u32, Lent)> {
        let mut records: Vec<Record> = self
            .table
            .chunks_exact(RECORD)
            .map(|nine| Record::from(<[u32; RECORD]>::try_from(nine).expect("nine numbers")))
            .collect();
        let answer = etglavino::replace_records_form(
            by.form,
            &by.text,
            &mut self.canonical,
            &mut records,
            self.sheet,
            by.node,
        );
        for (nine, record) in self.table.chunks_exact_mut(RECORD).zip(&records) {
            nine.copy_from_slice(&<[u32; RECORD]>::from(*record));
        }
        self.left(answer.map_err(|refusal| refusal.number()))
    }
}
