//! Texts in pieces: what S 13 says of them, and each way to feed them.

mod common;

use std::io::{self, Read, Write};

use common::*;
use etglavino::{
    Extent, OwnedPieces, OwnedSheet, Pieces, PiecesState, Record, Refusal, MAX_CANONICAL,
    MAX_NODES, MAX_SOURCE, RECORD,
};

const LIST_EXTENT: Extent = Extent {
    length: 14,
    nodes: 3,
};

/// What a text in pieces of a size gives, in just that much room over numbers and
/// over records. Past the octets taken the space keeps what it held, and in a
/// refusal the whole table does.
fn ended(text: &[u8], size: usize, room: usize, records: usize) -> Result<Extent, Refusal> {
    let numbers = records * RECORD;
    let (mut canonical, mut table) = (vec![OCTET; room], vec![NUMBER; numbers]);
    let mut flat = PiecesState::start(room, numbers);
    let mut taken = 0;
    for piece in text.chunks(size) {
        taken = flat.feed(piece, &mut canonical, numbers).unwrap();
    }
    assert_eq!(taken, text.len().min(MAX_SOURCE + 1));
    let begun = text.len().min(room).min(MAX_CANONICAL);
    let as_fed = [&text[..begun], &vec![OCTET; room - begun]].concat();
    assert!(canonical == as_fed);
    let answer = flat.end(&canonical, &mut table);
    let kept = &table[answer.map_or(0, |extent| extent.nodes * RECORD)..];
    assert!(kept.iter().all(|number| *number == NUMBER));

    let mut rows = vec![Record::from([NUMBER; RECORD]); records];
    let mut octets = vec![OCTET; room];
    let mut pieces = Pieces::start(&mut octets[..], &mut rows[..]);
    pieces.extend(text.chunks(size));
    assert_eq!(pieces.taken(), taken);
    assert!(pieces.octets() == &text[..begun]);
    let sheet = pieces.end();
    assert_eq!(
        sheet.as_ref().map(|sheet| sheet.extent()),
        answer.as_ref().copied()
    );
    drop(sheet);
    assert!(octets == as_fed);
    let flattened = rows.iter().flat_map(|row| <[u32; RECORD]>::from(*row));
    assert!(flattened.eq(table));
    answer
}

#[test]
fn the_list_in_every_two_pieces() {
    for cut in 0..=LIST.len() {
        let (mut canonical, mut table) = ([OCTET; 16], [NUMBER; 28]);
        let mut state = PiecesState::start(16, 28);
        let (one, other) = LIST.split_at(cut);
        assert_eq!(state.feed(one, &mut canonical, 28), Ok(cut));
        assert_eq!(&canonical[..cut], one);
        assert_eq!(state.feed(b"", &mut canonical, 28), Ok(cut));
        assert_eq!(state.feed(other, &mut canonical, 28), Ok(14));
        assert_eq!(table, [NUMBER; 28]);
        assert_eq!(state.end(&canonical, &mut table), Ok(LIST_EXTENT));
        assert_eq!(
            (&canonical[..14], &canonical[14..]),
            (LIST, &[OCTET; 2][..])
        );
        assert_eq!((&table[..27], table[27]), (&LIST_TABLE[..], NUMBER));
    }
}

#[test]
fn refusals_are_those_of_reading_the_whole() {
    let syntax = |place| Err(Refusal::Syntax { place });
    for size in [1, 2, 7, 1_000] {
        assert_eq!(ended(LIST, size, 14, 3), Ok(LIST_EXTENT));
        assert_eq!(ended(LIST, size, 13, 3), Err(Refusal::Size));
        assert_eq!(ended(LIST, size, 0, 3), Err(Refusal::Size));
        assert_eq!(ended(LIST, size, 14, 2), Err(Refusal::Nodes));
        assert_eq!(ended(LIST, size, 0, 0), Err(Refusal::Nodes));
        assert_eq!(ended(&nested(129), size, 0, 0), Err(Refusal::Depth));
        for room in [0, 3, 99] {
            assert_eq!(ended(b"", size, room, 3), syntax(0));
            assert_eq!(ended(b"3:abcX", size, room, 3), syntax(5));
            assert_eq!(ended(b"03:", size, room, 0), syntax(1));
            assert_eq!(ended(b"(3:ab", size, room, 0), syntax(5));
            assert_eq!(ended(b"99999999999999999999:a", size, room, 1), syntax(22));
        }
    }
}

#[test]
fn each_limit_and_one_past_it() {
    let extent = |length, nodes| Ok(Extent { length, nodes });
    for size in [1, 511, 40_000] {
        let (deep, full, long) = (nested(128), empties(8_191), verbatim(16_378));
        assert_eq!(ended(&deep, size, 256, 128), extent(256, 128));
        assert_eq!(ended(&full, size, 20_000, MAX_NODES), extent(16_384, 8_192));
        assert_eq!(ended(&long, size, 20_000, 1), extent(16_384, 1));
        let over = empties(8_192);
        assert_eq!(ended(&over, size, 20_000, MAX_NODES), Err(Refusal::Nodes));
        assert_eq!(ended(&over, size, 20_000, 8_193), Err(Refusal::Size));
        assert_eq!(
            ended(&verbatim(16_379), size, 20_000, 1),
            Err(Refusal::Size)
        );
        let most = verbatim(MAX_SOURCE - 6);
        assert_eq!(most.len(), MAX_SOURCE);
        assert_eq!(ended(&most, size, 40_000, 1), Err(Refusal::Size));
        let more = padded(&most, MAX_SOURCE + 1);
        assert_eq!(ended(&more, size, 40_000, 1), Err(Refusal::SourceSize));
        let place = MAX_SOURCE;
        let open = vec![b'('; place];
        assert_eq!(ended(&open, size, 100, 1), Err(Refusal::Syntax { place }));
    }
}

#[test]
fn another_size_changes_nothing() {
    let (mut canonical, mut table) = ([OCTET; 17], [NUMBER; 36]);
    let mut state = PiecesState::start(16, 27);
    assert_eq!(state.feed(&LIST[..5], &mut canonical[..16], 27), Ok(5));
    let before = (state, canonical, table);
    for (room, numbers) in [(15, 27), (17, 27), (16, 26), (16, 28), (0, 0), (17, 36)] {
        let lent = &mut canonical[..room];
        let refused = Err(Refusal::NotOwn);
        assert_eq!(state.feed(b"x", lent, numbers).map(drop), refused);
        assert_eq!(state.feed(b"", lent, numbers).map(drop), refused);
        assert_eq!(state.end(lent, &mut table[..numbers]).map(drop), refused);
        assert_eq!((state, canonical, table), before);
    }
    let any = state.feed(b"x", &mut canonical[..16], usize::MAX);
    assert_eq!((any, state), (Err(Refusal::NotOwn), before.0));
    assert_eq!(state.feed(&LIST[5..], &mut canonical[..16], 27), Ok(14));
    assert_eq!(
        state.end(&canonical[..16], &mut table[..27]),
        Ok(LIST_EXTENT)
    );
}

#[test]
fn the_state_knows_nothing_of_the_cutting() {
    let text = [&verbatim(20_000)[..], b"x"].concat();
    let after = |size: usize| {
        let mut canonical = vec![0; 16_384];
        let mut state = PiecesState::start(16_384, 9);
        for piece in text.chunks(size) {
            state.feed(piece, &mut canonical, 9).unwrap();
            state.feed(b"", &mut canonical, 9).unwrap();
        }
        (state, state.end(&canonical, &mut [0; 9]))
    };
    let whole = after(usize::MAX);
    assert_eq!(whole.1, Err(Refusal::Syntax { place: 20_006 }));
    for size in [1, 2, 3, 100, 16_384, 16_385, 20_006] {
        assert_eq!(after(size), whole);
    }
    let again = PiecesState::from_numbers(whole.0.numbers());
    assert_eq!(again, whole.0);
}

#[test]
fn other_states_keep_inside_what_is_lent() {
    const GUARD: usize = 32;
    let real = PiecesState::start(16, 27).numbers();
    // The sizes are those of the start; all else is made up.
    let sizes: Vec<usize> = (0..10).filter(|&at| [16, 27].contains(&real[at])).collect();
    assert_eq!(sizes.len(), 2);
    for number in [0, 1, 5, 16, 255, 16_385, 32_769, u64::MAX / 2, u64::MAX] {
        for kept in 0..8 {
            let mut numbers = [number; 10];
            numbers[kept] = real[kept];
            for &at in &sizes {
                numbers[at] = real[at];
            }
            let mut canonical = [OCTET; 16 + 2 * GUARD];
            let mut table = [NUMBER; 27 + 2 * GUARD];
            let mut state = PiecesState::from_numbers(numbers);
            let octets = &mut canonical[GUARD..GUARD + 16];
            assert!(state.feed(LIST, octets, 27).is_ok());
            let answer = state.end(octets, &mut table[GUARD..GUARD + 27]);
            assert_ne!(answer, Err(Refusal::NotOwn));
            // Another size is told all the same.
            let refused = state.feed(LIST, octets, 26);
            assert_eq!(refused, Err(Refusal::NotOwn));
            let refused = state.end(&octets[1..], &mut table[GUARD..GUARD + 27]);
            assert_eq!(refused, Err(Refusal::NotOwn));
            let around = canonical[..GUARD].iter().chain(&canonical[GUARD + 16..]);
            assert!(around.into_iter().all(|octet| *octet == OCTET));
            let around = table[..GUARD].iter().chain(&table[GUARD + 27..]);
            assert!(around.into_iter().all(|number| *number == NUMBER));
        }
    }
}

#[test]
fn an_owned_text_has_room_for_any_sheet() {
    let mut pieces = OwnedPieces::default();
    assert_eq!((pieces.taken(), pieces.octets()), (0, &b""[..]));
    io::copy(&mut &empties(8_191)[..], &mut pieces).unwrap();
    pieces.flush().unwrap();
    let sheet = pieces.end().unwrap();
    assert_eq!(sheet.extent().nodes, 8_192);
    let (octets, records, _) = sheet.into_parts();
    assert_eq!((octets.len(), records.len()), (16_384, 8_192));

    let mut pieces = OwnedPieces::new();
    let piece = vec![b'('; 40_000];
    assert_eq!(pieces.write(&piece).unwrap(), 40_000);
    assert_eq!((pieces.taken(), pieces.octets().len()), (32_769, 16_384));
    assert_eq!(pieces.end().map(drop), Err(Refusal::SourceSize));

    let sheet = OwnedSheet::of_pieces(LIST.chunks(3)).unwrap();
    assert_eq!(sheet.canonical(), LIST);
    let none: [&[u8]; 0] = [];
    let refused = OwnedSheet::of_pieces(none).map(drop);
    assert_eq!(refused, Err(Refusal::Syntax { place: 0 }));
}

/// Gives an octet at a time, is interrupted before each, and fails at the end if
/// it is to.
struct Line<'a> {
    octets: &'a [u8],
    ready: bool,
    fails: bool,
}

impl Read for Line<'_> {
    fn read(&mut self, to: &mut [u8]) -> io::Result<usize> {
        self.ready = !self.ready;
        if self.ready {
            return Err(io::ErrorKind::Interrupted.into());
        }
        match self.octets.read(&mut to[..1])? {
            0 if self.fails => Err(io::ErrorKind::BrokenPipe.into()),
            octets => Ok(octets),
        }
    }
}

#[test]
fn a_reader_is_read_to_its_end() {
    let line = |octets, fails| Line {
        octets,
        ready: false,
        fails,
    };
    let sheet = OwnedSheet::of_reader(line(LIST, false)).unwrap();
    assert_eq!(sheet.canonical(), LIST);
    let broken = OwnedSheet::of_reader(line(LIST, true)).map(drop);
    assert_eq!(broken.unwrap_err().kind(), io::ErrorKind::BrokenPipe);
    let refusal = |error: io::Error| {
        assert_eq!(error.kind(), io::ErrorKind::InvalidData);
        *error.into_inner().unwrap().downcast::<Refusal>().unwrap()
    };
    let short = OwnedSheet::of_reader(line(&LIST[..9], false)).map(drop);
    assert_eq!(short.map_err(refusal), Err(Refusal::Syntax { place: 9 }));
    // One that never ends is left once it is too long.
    let endless = OwnedSheet::of_reader(io::repeat(b'(')).map(drop);
    assert_eq!(endless.map_err(refusal), Err(Refusal::SourceSize));
}
