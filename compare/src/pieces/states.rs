//! States that the library did not hand back, and buffers changed between calls: a
//! call ends, keeps inside what is lent, and makes the size check.

use etglavino::{Record, RECORD};
use reference::corpus::damage::soup;
use reference::corpus::rng::Rng;

use super::raw::{self, State, RESIZED};
use super::Tally;

/// Elements around a lent buffer that no call may touch.
const GUARD: usize = 64;

/// Lent space with guards around it.
struct Guarded<T> {
    all: Vec<T>,
    guard: T,
}

impl<T: Copy + PartialEq> Guarded<T> {
    fn new(size: usize, guard: T, filler: T) -> Guarded<T> {
        let mut all = vec![guard; size + 2 * GUARD];
        all[GUARD..GUARD + size].fill(filler);
        Guarded { all, guard }
    }

    fn lent(&mut self) -> &mut [T] {
        let end = self.all.len() - GUARD;
        &mut self.all[GUARD..end]
    }

    fn intact(&self) -> bool {
        let end = self.all.len() - GUARD;
        let guards = self.all[..GUARD].iter().chain(&self.all[end..]);
        guards.into_iter().all(|element| *element == self.guard)
    }
}

/// What a number of a state might be that someone made up.
const NUMBERS: [u64; 16] = [
    0,
    1,
    2,
    3,
    4,
    5,
    9,
    255,
    16_384,
    16_385,
    32_768,
    32_769,
    u32::MAX as u64,
    1 << 32,
    1 << 63,
    u64::MAX,
];

/// The places in a state that tell sizes: those that other sizes change at the
/// start.
fn telling(room: usize, size: usize) -> [bool; 10] {
    let of = raw::start(room, size);
    let others = [raw::start(room + 1, size), raw::start(room, size + 1)];
    std::array::from_fn(|place| others.iter().any(|other| other[place] != of[place]))
}

/// Made-up states and changed buffers, `count` times and once for each number in
/// each place.
pub fn others(tally: &mut Tally, seed: u64, count: u64) {
    let mut rng = Rng::new(seed ^ 101);
    for (room, size) in [
        (0, 0),
        (1, 8),
        (14, 24),
        (100, 25),
        (16_384, 3),
        (17_000, 64),
    ] {
        let tells = telling(room, size);
        let starts = [&b""[..], b"(3:ab", b"12", b"[1:", b"x", b"(3:abc[1:x]0:)"];
        for begun in starts {
            for (place, tells) in tells.into_iter().enumerate() {
                for number in NUMBERS {
                    let mut state = fed(room, size, begun);
                    state[place] = number;
                    tally.other(&mut rng, state, (room, size), !tells);
                }
            }
        }
    }
    for _ in 0..count {
        let room = rng.pick(&[0, 1, 2, 14, 15, 100, 16_384, 16_390]);
        let size = rng.pick(&[0, 1, 7, 8, 9, 24, 30, 64]);
        let begun = soup(&mut rng);
        let tells = telling(room, size);
        let mut state = fed(room, size, &begun);
        match rng.below(3) {
            // The library's own, with buffers of other contents.
            0 => {}
            1 => {
                for (number, tells) in state.iter_mut().zip(tells) {
                    if !tells {
                        *number = drawn(&mut rng);
                    }
                }
            }
            _ => state = std::array::from_fn(|_| drawn(&mut rng)),
        }
        let own = raw::start(room, size);
        let told = (0..10).all(|place| !tells[place] || state[place] == own[place]);
        tally.other(&mut rng, state, (room, size), told);
    }
}

fn fed(room: usize, size: usize, begun: &[u8]) -> State {
    let mut state = raw::start(room, size);
    raw::feed(&mut state, begun, &mut vec![0; room], size);
    state
}

fn drawn(rng: &mut Rng) -> u64 {
    match rng.below(3) {
        0 => rng.draw(),
        1 => rng.below(20_000) as u64,
        _ => rng.pick(&NUMBERS),
    }
}

impl Tally {
    /// Pieces and ends with a state; where it tells the sizes, others are refused
    /// and change nothing.
    fn other(
        &mut self,
        rng: &mut Rng,
        state: State,
        (room, size): (usize, usize),
        tells_sizes: bool,
    ) {
        self.states += 1;
        let mut octets = Guarded::new(room, 0xc3, 0);
        for octet in octets.lent() {
            *octet = rng.pick(b"()[]:0123a9\0\xff");
        }
        let mut numbers = Guarded::new(size, 0xc3c3_c3c3, 7);
        let record = |number| Record::from([number; RECORD]);
        let mut records = Guarded::new(size, record(0xc3c3_c3c3), record(7));
        let mut wrong = None;
        if tells_sizes && !refuses_others(state, octets.lent(), size) {
            wrong = Some("another size is not refused");
        }
        let mut now = state;
        let long = vec![b'('; rng.pick(&[1, 100, 33_000])];
        for piece in [&soup(rng)[..], b"", &long, b"3:abc)"] {
            raw::feed(&mut now, piece, octets.lent(), size);
            raw::end_numbers(&now, octets.lent(), numbers.lent());
            raw::end_records(&now, octets.lent(), records.lent());
        }
        if !(octets.intact() && numbers.intact() && records.intact()) {
            wrong = Some("a step outside what is lent");
        }
        if let Some(what) = wrong {
            self.differences += 1;
            if self.differences <= crate::SHOWN {
                println!("pieces: {what}\n  state {state:?}, room {room}, table {size}");
            }
        }
    }
}

/// Whether calls of other sizes get 7 and change nothing.
fn refuses_others(state: State, octets: &[u8], size: usize) -> bool {
    let others = [
        (octets.len() + 1, size),
        (octets.len(), size + 1),
        (octets.len() + 9, size + 8),
        (octets.len().saturating_sub(1), size + 1),
    ];
    others.into_iter().all(|(room, size)| {
        let (mut now, mut lent) = (state, vec![0x5a; room]);
        let (mut numbers, mut records) = (vec![7; size], vec![Record::from([7; RECORD]); size]);
        raw::feed(&mut now, b"(1:a", &mut lent, size) == (7, 0)
            && raw::end_numbers(&now, &lent, &mut numbers) == RESIZED
            && raw::end_records(&now, &lent, &mut records) == RESIZED
            && now == state
            && lent == vec![0x5a; room]
            && numbers == vec![7; size]
            && records == vec![Record::from([7; RECORD]); size]
    })
}
