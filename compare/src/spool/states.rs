//! States that are not those of the area and the sheet they come with: a call
//! ends, keeps inside the area, and does what the definition of a step says.

use etglavino::Adding;
use reference::limits::MAX_CANONICAL;
use reference::spool::entry;

use super::areas::sheet_of;
use super::Tally;

/// The next store of a state, and whether it is the last: `None` if the state is
/// done, or its entry does not lie in what is lent. The numbers are the place of
/// the old end, the sheet's octets, the stores made, and whether it is done.
fn next_store(numbers: [u64; 4], area: &[u8], sheet: &[u8]) -> Option<(usize, u8, bool)> {
    let [at, octets, made, done] = numbers;
    let (at, octets) = (usize::try_from(at).ok()?, usize::try_from(octets).ok()?);
    if done != 0 || octets > MAX_CANONICAL {
        return None;
    }
    let entry = entry(sheet.get(..octets)?);
    let end = at.checked_add(entry.len())?;
    if end > area.len() {
        return None;
    }
    // The 0 behind, the entry from its second octet on, its first octet.
    let behind = (end < area.len()).then_some((end, 0));
    let rest = (1..entry.len()).chain([0]);
    let stores = behind
        .into_iter()
        .chain(rest.map(|offset| (at + offset, entry[offset])));
    let stores: Vec<(usize, u8)> = stores.collect();
    let made = usize::try_from(made).ok()?;
    let (place, octet) = *stores.get(made)?;
    Some((place, octet, made + 1 == stores.len()))
}

impl Tally {
    /// A state with any area and sheet: one step of it after the other, until it
    /// is done, beside the definition.
    pub fn other_state(&mut self, numbers: [u64; 4], area: &[u8], sheet: &[u8]) {
        self.states += 1;
        let (mut now, sheet): (Box<[u8]>, Box<[u8]>) = (area.into(), sheet.into());
        let (mut adding, mut expected) = (Adding::from_numbers(numbers), numbers);
        // Past the last store, one more call.
        for _ in 0..sheet.len() + 6 {
            let next = next_store(expected, &now, &sheet);
            let last = next.is_some_and(|(_, _, last)| last);
            let mut after = now.clone();
            if let Some((place, octet, _)) = next {
                after[place] = octet;
                expected[2] += 1;
            }
            expected[3] = u64::from(next.is_none() || last);
            let commits = adding.commits(&now, &sheet);
            let done = adding.step(&mut now, &sheet);
            let same = commits == last
                && u64::from(done) == expected[3]
                && adding.numbers() == expected
                && now == after;
            self.hold(same, &format!("state {numbers:?}"), area, &sheet);
            if next.is_none() {
                return;
            }
        }
        self.hold(false, &format!("no end of {numbers:?}"), area, &sheet);
    }
}

/// Additions that go on, after each of their stores, with another area or
/// another sheet.
pub fn others_between(tally: &mut Tally) {
    let olds = [vec![], entry(b"()"), entry(&sheet_of(140))];
    for (old, new, room) in olds
        .iter()
        .flat_map(|old| [2, 3, 12, 127, 128].map(|new| (old, new)))
        .flat_map(|(old, new)| [0, 1, 9].map(|room| (old, new, room)))
    {
        let sheet = sheet_of(new);
        let mut area = old.clone();
        area.resize(old.len() + entry(&sheet).len() + room, 0);
        let mut adding = Adding::start(&area, &sheet, new).expect("room");
        loop {
            let numbers = adding.numbers();
            let full = area.len() - room;
            for size in [0, 1, old.len(), full - 1, full, full + 1, area.len() + 3] {
                let mut other = area.clone();
                other.resize(size, 255);
                tally.other_state(numbers, &other, &sheet);
                other.fill(255);
                tally.other_state(numbers, &other, &sheet);
            }
            for size in [0, 1, new - 1, new, new + 1, 200] {
                let mut other = sheet.clone();
                other.resize(size, b'w');
                tally.other_state(numbers, &area, &other);
                other.fill(b'(');
                tally.other_state(numbers, &area, &other);
            }
            if adding.step(&mut area, &sheet) {
                tally.other_state(adding.numbers(), &area, &sheet);
                break;
            }
        }
    }
}
