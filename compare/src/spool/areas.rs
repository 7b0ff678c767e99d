//! The areas and sheets that are tried.

use etglavino::Adding;
use reference::corpus::rng::Rng;
use reference::spool::entry;

use super::Tally;

/// A string of that many octets in all, two at least; there is none of 12, 103
/// and so on, where the digits grow.
fn string(length: usize) -> Vec<u8> {
    let digits = (1..)
        .find(|&digits| length <= digits + 1 || (length - digits - 1).to_string().len() <= digits);
    let data = length.saturating_sub(digits.expect("some") + 1);
    let mut sheet = format!("{data}:").into_bytes();
    sheet.resize(sheet.len() + data, b'v');
    sheet
}

/// A sheet of just that many octets, two at least: a string, or a list with one.
pub fn sheet_of(length: usize) -> Vec<u8> {
    let sheet = string(length);
    if sheet.len() == length {
        return sheet;
    }
    [b"(", &string(length - 2)[..], b")"].concat()
}

/// Entries of just that many octets in all: of one entry, of the shortest and
/// one, and of as many as there can be. None of one or two octets.
fn layouts(end: usize) -> Vec<Vec<u8>> {
    let one = |octets: usize| entry(&sheet_of(octets - 1));
    let shortest = entry(b"()");
    match end {
        0 => vec![vec![]],
        1 | 2 => vec![],
        3..6 => vec![one(end)],
        6..9 => vec![one(end), [shortest, one(end - 3)].concat()],
        _ => {
            let many = [shortest.repeat(end / 3 - 1), one(3 + end % 3)].concat();
            vec![one(end), [shortest, one(end - 3)].concat(), many]
        }
    }
}

/// Areas of 0 to 40 octets: an end at each place that can be one, the end as a 0
/// or as the area's end, octets of each kind behind it, and a new sheet of each
/// size up to two more than there is room for.
pub fn around_every_end(tally: &mut Tally) {
    for end in 0..=40 {
        for (number, entries) in layouts(end).iter().enumerate() {
            assert_eq!(entries.len(), end);
            for size in end..=40 {
                let behinds: &[u8] = match number {
                    _ if size <= end + 1 => &[0],
                    0 => &[0, 1, 2, 40, 128, 255],
                    _ => &[2],
                };
                for &behind in behinds {
                    around(tally, entries, size, behind);
                }
            }
        }
    }
}

/// An area of these entries, a 0 if there is room, and this octet over and over.
fn around(tally: &mut Tally, entries: &[u8], size: usize, behind: u8) {
    let mut area = entries.to_vec();
    area.resize(size, behind);
    if let Some(end) = area.get_mut(entries.len()) {
        *end = 0;
    }
    tally.open(&area);
    for new in 2..=size - entries.len() + 2 {
        let sheet = sheet_of(new);
        assert_eq!(sheet.len(), new);
        tally.add(&area, &sheet, new);
    }
    tally.add(&area, b"0:()", 2);
    tally.add(&area, b"0:(", 3);
    tally.add(&area, b"0:", 3);
    tally.add(&area, b"", 0);
}

/// A spool with an octet changed to each other value, at each place.
pub fn damage_at_each_octet(tally: &mut Tally) {
    let sheets: [&[u8]; 4] = [b"()", b"(1:a[1:x]0:)", b"0:", b"3:abc"];
    let mut area: Vec<u8> = sheets.iter().flat_map(|sheet| entry(sheet)).collect();
    area.extend([0, 7, 0x82]);
    let long = [entry(&string(130)), entry(b"()"), vec![0; 4]].concat();
    for area in [area, long] {
        for place in 0..area.len() {
            for octet in 0..=255 {
                let mut changed = area.clone();
                changed[place] = octet;
                tally.open(&changed);
                tally.add(&changed, b"0:", 2);
            }
        }
    }
    // Groups without end, and more of them than any number has.
    for groups in 1..=20 {
        for last in [0, 1, 2, 127] {
            let mut area = vec![0x80; groups];
            tally.open(&area);
            area.push(last);
            tally.open(&area);
            area.extend(b"()");
            tally.open(&area);
        }
    }
}

/// Lengths where the groups grow, with just the room, one less and one more.
pub fn lengths(tally: &mut Tally) {
    for length in [126, 127, 128, 129, 16_382, 16_383, 16_384, 16_385] {
        let sheet = string(length);
        let room = entry(&sheet).len();
        for (size, behind) in [(room - 1, 0), (room, 0), (room + 1, 1), (room + 9, 200)] {
            for old in [vec![], entry(b"()"), entry(&string(300))] {
                let mut area = old.clone();
                area.resize(old.len() + size, behind);
                area[old.len()] = 0;
                tally.open(&area);
                if length < 1_000 || (size == room && old.is_empty()) {
                    tally.add(&area, &sheet, sheet.len());
                } else {
                    tally.whole(&area, &sheet);
                }
            }
        }
    }
}

/// Random areas, most of them spools, and random states.
pub fn random(tally: &mut Tally, seed: u64, count: u64) {
    let mut rng = Rng::new(seed ^ 0x5001);
    for _ in 0..count {
        let mut area = Vec::new();
        for _ in 0..rng.below(5) {
            area.extend(entry(&string(2 + rng.below(30))));
        }
        if rng.below(4) > 0 {
            area.push(0);
        }
        area.extend((0..rng.below(40)).map(|_| rng.below(256) as u8));
        if rng.below(3) == 0 && !area.is_empty() {
            let place = rng.below(area.len());
            area[place] = rng.below(256) as u8;
        }
        tally.open(&area);
        let mut sheet = string(2 + rng.below(40));
        let length = if rng.below(8) == 0 {
            rng.below(50)
        } else {
            sheet.len()
        };
        sheet.resize(sheet.len() + rng.below(3), b'x');
        tally.add(&area, &sheet, length);
        let mut number = || match rng.below(4) {
            0 => rng.below(4) as u64,
            1 => u64::MAX - rng.below(4) as u64,
            2 => 16_380 + rng.below(10) as u64,
            _ => rng.below(80) as u64,
        };
        let numbers = [number(), number(), number(), number() % 3];
        tally.other_state(numbers, &area, &sheet);
        if let Ok(mut adding) = Adding::start(&area, &sheet, length) {
            let mut now = area.clone();
            for _ in 0..rng.below(sheet.len() + 2) {
                adding.step(&mut now, &sheet);
            }
            now.resize(rng.below(2 * area.len() + 1), 7);
            sheet.truncate(rng.below(sheet.len() + 1));
            tally.other_state(adding.numbers(), &now, &sheet);
        }
    }
}
