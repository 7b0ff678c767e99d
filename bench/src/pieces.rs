//! A table: a canonical text fed in pieces, with its end, beside reading it whole
//! in form 1.

use std::hint::black_box;

use bench::clock::race;
use bench::report::{head, row, Cell};
use bench::texts::{canonical_of, texts};
use etglavino::{PiecesState, MAX_CANONICAL, MAX_NODES, RECORD};

/// Prints the table.
pub fn table() {
    head(&[
        "pieces",
        "octets",
        "copy",
        "read in form 1",
        "one piece",
        "pieces of 512",
        "octet by octet",
        "one piece / read",
    ]);
    for name in ["tokens", "quoted", "one quoted"] {
        let texts = texts();
        let text = texts.iter().find(|text| text.name == name);
        let octets = canonical_of(&text.expect("a text of that name").source);
        feeding(name, &octets);
    }
}

/// Octets and a table, with room for any sheet.
struct Lent {
    canonical: Vec<u8>,
    table: Vec<u32>,
}

impl Lent {
    fn new() -> Lent {
        Lent {
            canonical: vec![0; MAX_CANONICAL],
            table: vec![0; MAX_NODES * RECORD],
        }
    }

    fn read(&mut self, text: &[u8]) {
        let answer = etglavino::read_form(1, text, &mut self.canonical, &mut self.table);
        assert!(black_box(answer).is_ok());
    }

    /// From the start to the end.
    fn fed(&mut self, text: &[u8], size: usize) {
        let numbers = self.table.len();
        let mut state = PiecesState::start(self.canonical.len(), numbers);
        for piece in text.chunks(size) {
            let taken = state.feed(piece, &mut self.canonical, numbers);
            assert!(black_box(taken).is_ok());
        }
        let answer = state.end(&self.canonical, &mut self.table);
        assert!(black_box(answer).is_ok());
    }
}

fn feeding(name: &str, octets: &[u8]) {
    let mut copied = octets.to_vec();
    let [mut read, mut one, mut some, mut each] = [(); 4].map(|()| Lent::new());
    let figures = race(&mut [
        &mut || copied.copy_from_slice(black_box(octets)),
        &mut || read.read(black_box(octets)),
        &mut || one.fed(black_box(octets), octets.len()),
        &mut || some.fed(black_box(octets), 512),
        &mut || each.fed(black_box(octets), 1),
    ]);
    let (whole, piece) = (figures[1], figures[2]);
    let mut cells: Vec<Cell> = figures.into_iter().map(Cell::Time).collect();
    cells.push(Cell::Ratio(piece, whole));
    row(name, octets.len(), &cells);
}
