//! Lent canonical forms and tables that are right, or wrong in one way.

use crate::corpus::case::{Canonical, Lent, Pair};
use crate::corpus::damage;
use crate::corpus::rng::Rng;
use crate::limits::RECORD;
use crate::tree::Layout;

/// A right canonical form with a little room past it.
pub fn canonical(rng: &mut Rng, octets: &[u8]) -> Canonical {
    let room = octets.len() + rng.below(2) * rng.below(12);
    canonical_in(rng, octets, room)
}

/// A right canonical form in that much room.
pub fn canonical_in(rng: &mut Rng, octets: &[u8], room: usize) -> Canonical {
    Canonical {
        lent: Lent {
            room: room.max(octets.len()),
            fill: rng.octet(),
            given: octets.to_vec(),
        },
        length: octets.len() as u64,
    }
}

/// A canonical form with its own table, in that much room where it suffices.
pub fn pair_in(rng: &mut Rng, layout: &Layout, room: usize, numbers: usize) -> Pair {
    let given = layout.records.as_flattened().to_vec();
    Pair {
        canonical: canonical_in(rng, &layout.octets, room),
        table: Lent {
            room: numbers.max(given.len()),
            fill: rng.octet(),
            given,
        },
        nodes: layout.records.len() as u64,
    }
}

/// The same with a little room.
pub fn pair(rng: &mut Rng, layout: &Layout) -> Pair {
    let room = layout.octets.len() + rng.below(12);
    let numbers = layout.records.len() * RECORD + rng.below(20);
    pair_in(rng, layout, room, numbers)
}

/// Makes one thing wrong with a canonical form; now and then nothing.
pub fn spoil_canonical(rng: &mut Rng, canonical: &mut Canonical) {
    let (length, room) = (canonical.length, canonical.lent.room as u64);
    match rng.below(6) {
        0..=2 => {
            let octets = damage::damaged(rng, &canonical.lent.given);
            // Damage may lengthen; the length said stays true to it mostly.
            if !rng.once_in(4) {
                canonical.length = octets.len() as u64;
            }
            canonical.lent.room = canonical.lent.room.max(octets.len());
            canonical.lent.given = octets;
        }
        3 => canonical.length = rng.pick(&[length.saturating_sub(1), length + 1, 0]),
        4 => canonical.length = room + 1 + rng.below(3) as u64,
        _ => canonical.length = huge(rng, length),
    }
}

/// Makes one thing wrong with a canonical form or its table.
pub fn spoil_pair(rng: &mut Rng, pair: &mut Pair) {
    let nodes = pair.nodes;
    match rng.below(10) {
        0..=2 => spoil_canonical(rng, &mut pair.canonical),
        3..=6 => spoil_number(rng, &mut pair.table.given),
        7 => pair.nodes = rng.pick(&[nodes - 1, nodes + 1, 0]),
        8 => pair.nodes = huge(rng, nodes),
        _ => {
            let most = pair.table.given.len() - 1;
            pair.table.room = most - rng.below(RECORD.min(most));
            pair.table.given.truncate(pair.table.room);
        }
    }
}

/// Changes one number of a table.
fn spoil_number(rng: &mut Rng, numbers: &mut [u32]) {
    let place = rng.below(numbers.len());
    let old = numbers[place];
    numbers[place] = match rng.below(6) {
        0 => old.wrapping_add(1),
        1 => old.wrapping_sub(1),
        2 => 0,
        3 => u32::MAX,
        4 => old ^ 1 << 31,
        _ => rng.pick(numbers),
    };
}

/// Numbers far past anything lent, some of which narrower arithmetic would
/// take for the right one: nine times the last but two is 2 in 64 bits, and
/// nine times the last but one two more than nine times the number.
pub fn huge(rng: &mut Rng, number: u64) -> u64 {
    rng.pick(&[
        u64::MAX,
        u64::MAX - 1,
        1 << 63,
        (1 << 63) + number,
        1 << 61,
        (1 << 61) + number,
        1 << 32,
        (1 << 32) + number,
        2_049_638_230_412_172_402,
        2_049_638_230_412_172_402 + number,
        (1 << 16) + number,
    ])
}
