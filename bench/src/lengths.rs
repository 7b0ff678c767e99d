//! A length written in decimal: by comparing and subtracting, as crate decimal
//! does, and by dividing, as was done before request 4. Both are transcribed from
//! Rattle and kept out of line; inside the library the short cases are in line.

use std::hint::black_box;

use bench::clock::race;
use bench::report::{head, row, Cell};
use reference::corpus::rng::Rng;

/// How many lengths are written in a call.
const MANY: usize = 1000;

/// Prints the table, nanoseconds a length.
pub fn table() {
    head(&[
        "writing lengths",
        "lengths",
        "comparing",
        "dividing",
        "comparing / dividing",
    ]);
    let mut rng = Rng::new(9804);
    let mut made = |name, length: fn(&mut Rng) -> usize| {
        let lengths: Vec<usize> = (0..MANY).map(|_| length(&mut rng)).collect();
        measure(name, &lengths);
    };
    made("as tokens have them", |rng| 3 + rng.below(8));
    made("as sheets have them", |rng| match rng.below(100) {
        0..=69 => 1 + rng.below(9),
        70..=96 => 10 + rng.below(90),
        _ => 100 + rng.below(900),
    });
    made("two digits", |rng| 10 + rng.below(90));
    made("three digits", |rng| 100 + rng.below(900));
    made("five digits", |rng| 10_000 + rng.below(6_385));
}

fn measure(name: &str, lengths: &[usize]) {
    let (mut one, mut two) = ([0; 8], [0; 8]);
    for length in 0..=etglavino::MAX_SOURCE {
        assert_eq!(
            comparing(length, &mut one, 1),
            dividing(length, &mut two, 1)
        );
        assert_eq!(one, two);
    }
    let figures = race(&mut [
        &mut || {
            for length in lengths {
                black_box(comparing(black_box(*length), &mut one, 1));
            }
        },
        &mut || {
            for length in lengths {
                black_box(dividing(black_box(*length), &mut two, 1));
            }
        },
    ]);
    let cells = [
        Cell::Time(figures[0]),
        Cell::Time(figures[1]),
        Cell::Ratio(figures[0], figures[1]),
    ];
    row(name, lengths.len(), &cells);
}

#[inline(never)]
fn comparing(n: usize, out: &mut [u8], pos: usize) -> usize {
    if n < 10 {
        out[pos] = 48 + n as u8;
        return pos + 1;
    }
    if n < 100 {
        return put_two(n, out, pos);
    }
    put_more(n, out, pos)
}

fn put_more(n: usize, out: &mut [u8], pos: usize) -> usize {
    let powers = [10, 100, 1000, 10_000];
    let mut k = width(n) - 1;
    let (mut left, mut i) = (n, pos);
    while k > 0 {
        k -= 1;
        left = put_digit(left, powers[k], out, i);
        i += 1;
    }
    out[i] = 48 + left as u8;
    i + 1
}

fn put_two(n: usize, out: &mut [u8], pos: usize) -> usize {
    let left = put_digit(n, 10, out, pos);
    out[pos + 1] = 48 + left as u8;
    pos + 2
}

fn put_digit(n: usize, power: usize, out: &mut [u8], pos: usize) -> usize {
    let eight = take((0, n), 8, 8 * power);
    let four = take(eight, 4, 4 * power);
    let two = take(four, 2, 2 * power);
    let (digit, left) = take(two, 1, power);
    out[pos] = 48 + digit as u8;
    left
}

fn take((digit, left): (usize, usize), times: usize, much: usize) -> (usize, usize) {
    if left < much {
        return (digit, left);
    }
    (digit + times, left - much)
}

#[inline(never)]
fn dividing(n: usize, out: &mut [u8], pos: usize) -> usize {
    if n < 10 {
        out[pos] = 48 + n as u8;
        return pos + 1;
    }
    if n < 100 {
        out[pos] = 48 + (n / 10) as u8;
        out[pos + 1] = 48 + (n % 10) as u8;
        return pos + 2;
    }
    let end = pos + width(n);
    let (mut left, mut i) = (n, end);
    while left >= 10 {
        i -= 1;
        out[i] = 48 + (left % 10) as u8;
        left /= 10;
    }
    out[pos] = 48 + left as u8;
    end
}

fn width(n: usize) -> usize {
    match n {
        0..=9 => 1,
        10..=99 => 2,
        100..=999 => 3,
        1000..=9999 => 4,
        _ => 5,
    }
}
