//! Sheets with values and hours, made up: at every edge, and at random.

use reference::corpus::rng::Rng;
use reference::corpus::trees;
use reference::tree::Tree;

fn text(hint: &[u8], data: &[u8]) -> Tree {
    Tree::hinted(hint, data)
}

fn hours(bits: u64) -> Tree {
    text(b"f64", &bits.to_be_bytes())
}

fn line(fields: [u64; 3]) -> Tree {
    Tree::List(fields.map(hours).to_vec())
}

/// Hints that tell a type, and some that nearly do.
const HINTS: [&[u8]; 13] = [
    b"f32", b"f64", b"int", b"", b"F32", b"f3", b"f6", b"in", b"f320", b"f64 ", b"Int", b"int\0",
    b"f16",
];

/// Patterns at each edge of a format: zero, subnormals, the largest, infinity
/// and NaN, with each sign.
pub fn patterns(bits: u32, digits: u32) -> Vec<u64> {
    let ones = ((1u64 << (bits - 1 - digits)) - 1) << digits;
    let mut all = Vec::new();
    for sign in [0, 1u64 << (bits - 1)] {
        for low in [
            0,
            1,
            (1 << digits) - 1,
            1 << digits,
            ones - 1,
            ones,
            ones + 1,
            ones | 1 << (digits - 1),
            ones | ((1 << digits) - 1),
        ] {
            all.push(sign | low);
        }
    }
    all
}

/// Octets of whole numbers at each length's edges, with neighbours that are
/// not the shortest.
fn wholes() -> Vec<Vec<u8>> {
    let mut all = vec![
        Vec::new(),
        vec![0],
        vec![0xff, 0x7f],
        vec![0; 9],
        vec![1; 9],
    ];
    for count in 1..=9usize {
        for first in [0, 1, 0x7f, 0x80, 0xff] {
            for second in [0, 0x7f, 0x80, 0xff] {
                let mut octets = vec![second; count];
                octets[0] = first;
                all.push(octets);
            }
        }
    }
    all
}

/// The bits of so many quarters of an hour.
pub fn quarters(count: u64) -> u64 {
    (count as f64 / 4.0).to_bits()
}

/// The sheets that every run asks.
pub fn fixed() -> Vec<Tree> {
    let mut strings = Vec::new();
    for pattern in patterns(32, 23) {
        strings.push(text(b"f32", &(pattern as u32).to_be_bytes()));
    }
    for pattern in patterns(64, 52) {
        strings.push(hours(pattern));
    }
    strings.extend(wholes().iter().map(|octets| text(b"int", octets)));
    for count in 0..10 {
        for hint in HINTS {
            strings.push(text(hint, &vec![0x40; count]));
        }
        strings.push(Tree::text(&vec![0x40; count]));
    }
    let mut trees: Vec<Tree> = strings
        .chunks(60)
        .map(|some| Tree::List(some.to_vec()))
        .collect();
    trees.extend([Tree::text(b"f64"), Tree::List(Vec::new()), hours(0)]);
    // All quarters and their neighbours by one bit, in each place of a line.
    for count in 0..=97 {
        let bits = quarters(count);
        let mut lines = Vec::new();
        for near in [bits, bits + 1, bits.wrapping_sub(1), bits | 1 << 63] {
            for place in 0..3 {
                let mut fields = [quarters(96); 3];
                fields[place] = near;
                lines.push(line(fields));
            }
        }
        trees.push(Tree::List(lines));
    }
    for pattern in patterns(64, 52) {
        trees.push(line([quarters(3), pattern, quarters(5)]));
    }
    // Lines of a wrong shape, and weeks with one of them.
    let good = line([quarters(30), quarters(2), 0]);
    let single = text(b"f32", &[0; 4]);
    let shapes = [
        Tree::List(vec![hours(0); 2]),
        Tree::List(vec![hours(0); 4]),
        Tree::List(vec![hours(0), hours(0), Tree::text(&[0; 8])]),
        Tree::List(vec![hours(0), hours(0), single]),
        Tree::List(vec![hours(0), hours(0), text(b"f64", &[0; 7])]),
        Tree::List(vec![hours(0), Tree::List(vec![hours(0)])]),
        Tree::List(vec![hours(0), hours(0), Tree::List(Vec::new())]),
        hours(0),
        Tree::List(Vec::new()),
    ];
    for shape in shapes {
        trees.push(Tree::List(vec![good.clone(), shape.clone(), good.clone()]));
        trees.push(shape);
    }
    // As many lines as a sheet can have.
    trees.push(Tree::List(vec![line([quarters(96); 3]); 309]));
    trees
}

/// A sheet at random.
pub fn random(rng: &mut Rng) -> Tree {
    match rng.below(6) {
        0 => trees::small(rng),
        1 | 2 => Tree::List((0..rng.below(6)).map(|_| entry(rng)).collect()),
        _ => Tree::List((0..rng.below(5)).map(|_| random_line(rng)).collect()),
    }
}

fn entry(rng: &mut Rng) -> Tree {
    let hint = rng.pick(&HINTS);
    let count = rng.pick(&[0, 1, 2, 3, 4, 4, 5, 6, 7, 8, 8, 8, 9]);
    let data: Vec<u8> = (0..count)
        .map(|_| {
            if rng.once_in(2) {
                rng.octet()
            } else {
                rng.pick(&[0, 0x7f, 0x80, 0xff])
            }
        })
        .collect();
    text(hint, &data)
}

fn random_line(rng: &mut Rng) -> Tree {
    let mut fields = [0; 3];
    for field in &mut fields {
        *field = quarters(rng.below(98) as u64);
        if rng.once_in(12) {
            *field ^= 1 << rng.below(64);
        }
    }
    if rng.once_in(15) {
        return entry(rng);
    }
    line(fields)
}
