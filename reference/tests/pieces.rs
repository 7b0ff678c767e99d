//! Pieces: what S 13 says of them, worked out by hand.

use reference::entries::Reading;
use reference::limits::*;
use reference::pieces::{Ended, Pieces};

const LIST: &[u8] = b"(3:abc[1:x]0:)";
/// Its table, as S 16.1 has it.
const LIST_TABLE: [u32; 27] = [
    2, 0, 14, 3, 0, 0, 1, 13, 0, //
    0, 1, 6, 1, 0, 0, 3, 6, 0, //
    1, 6, 13, 1, 9, 10, 13, 13, 0,
];

const fn refused(number: u32, place: usize) -> Ended {
    Ended {
        reading: Reading::Refused(number),
        place,
    }
}

/// What a text's end tells in such room, fed in pieces of a size.
fn ended(text: &[u8], size: usize, room: usize, numbers: usize) -> Ended {
    let (mut canonical, mut table) = (vec![9; room], vec![7; numbers]);
    let mut pieces = Pieces::start(&canonical, numbers);
    for piece in text.chunks(size) {
        pieces.feed(piece, &mut canonical, numbers).expect("taken");
    }
    pieces.end(&mut canonical, &mut table)
}

#[test]
fn the_list_in_every_two_pieces() {
    for cut in 0..=LIST.len() {
        let (mut canonical, mut table) = ([9; 16], [7; 28]);
        let mut pieces = Pieces::start(&canonical, 28);
        let (one, other) = LIST.split_at(cut);
        assert_eq!(pieces.feed(one, &mut canonical, 28), Ok(cut));
        assert_eq!(
            (&canonical[..cut], &canonical[cut..]),
            (one, &[9; 16][cut..])
        );
        assert_eq!(pieces.feed(b"", &mut canonical, 28), Ok(cut));
        assert_eq!(pieces.feed(other, &mut canonical, 28), Ok(14));
        assert_eq!(table, [7; 28]);
        let reading = Reading::Accepted {
            length: 14,
            nodes: 3,
        };
        let end = pieces.end(&mut canonical, &mut table);
        assert_eq!(end, Ended { reading, place: 0 });
        assert_eq!((&canonical[..14], &canonical[14..]), (LIST, &[9, 9][..]));
        assert_eq!((&table[..27], table[27]), (&LIST_TABLE[..], 7));
    }
}

#[test]
fn ends_that_are_refused() {
    for size in [1, 2, 3, 99] {
        assert_eq!(ended(b"", size, 16, 27), refused(3, 0));
        assert_eq!(ended(b"3:abcX", size, 16, 27), refused(3, 5));
        assert_eq!(ended(b"03:", size, 16, 27), refused(3, 1));
        assert_eq!(ended(b"(3:ab", size, 16, 27), refused(3, 5));
        assert_eq!(ended(b"(3:ab", size, 0, 0), refused(3, 5));
        assert_eq!(ended(LIST, size, 13, 27), refused(6, 0));
        assert_eq!(ended(LIST, size, 0, 27), refused(6, 0));
        assert_eq!(ended(LIST, size, 14, 26), refused(5, 0));
        assert_eq!(ended(LIST, size, 0, 26), refused(5, 0));
        let deep = [[b'('; 129], [b')'; 129]].concat();
        assert_eq!(ended(&deep, size, 0, 0), refused(4, 0));
    }
}

#[test]
fn a_refused_end_restores_nothing() {
    let (mut canonical, mut table) = ([9; 8], [7; 9]);
    let mut pieces = Pieces::start(&canonical, 9);
    assert_eq!(pieces.feed(b"3:abX", &mut canonical, 9), Ok(5));
    assert_eq!(pieces.feed(b"YZ", &mut canonical, 9), Ok(7));
    assert_eq!(pieces.end(&mut canonical, &mut table), refused(3, 5));
    assert_eq!((&canonical, table), (b"3:abXYZ\x09", [7; 9]));
}

#[test]
fn another_size_is_refused_before_all_else() {
    let (mut canonical, mut table) = ([9; 16], [7; 36]);
    let mut pieces = Pieces::start(&canonical, 27);
    assert_eq!(pieces.feed(&LIST[..5], &mut canonical, 27), Ok(5));
    let before = (pieces.clone(), canonical);
    for (room, numbers) in [(15, 27), (16, 26), (16, 28), (0, 27), (16, 0), (15, 28)] {
        let lent = &mut canonical[..room];
        assert_eq!(pieces.feed(b"x", lent, numbers), Err(7));
        assert_eq!(pieces.feed(b"", lent, numbers), Err(7));
        assert_eq!(pieces.end(lent, &mut table[..numbers]), refused(7, 0));
        assert_eq!(
            (pieces.clone(), canonical, table),
            (before.0.clone(), before.1, [7; 36])
        );
    }
    assert_eq!(pieces.feed(&LIST[5..], &mut canonical, 27), Ok(14));
}

#[test]
fn the_count_stops() {
    let mut canonical = vec![9; 20_000];
    let mut pieces = Pieces::start(&canonical, 9);
    for (fed, taken) in [
        (16_383, 16_383),
        (2, 16_385),
        (16_382, 32_767),
        (1, 32_768),
        (1, 32_769),
        (1, 32_769),
        (40_000, 32_769),
    ] {
        let end = pieces.end(&mut canonical, &mut [7; 9]);
        assert!(matches!(end.reading, Reading::Refused(3 | 2)));
        assert_eq!(pieces.feed(&vec![b'('; fed], &mut canonical, 9), Ok(taken));
    }
    // The sheet begins with them as far as 16,384 go.
    assert!(canonical[..MAX_CANONICAL]
        .iter()
        .all(|octet| *octet == b'('));
    assert!(canonical[MAX_CANONICAL..].iter().all(|octet| *octet == 9));
    assert_eq!(pieces.end(&mut canonical, &mut [7; 9]), refused(2, 0));
}

#[test]
fn the_limits_and_one_past_them() {
    let open = vec![b'('; 32_768];
    assert_eq!(ended(&open, 1_000, 16_384, 9), refused(3, 32_768));
    let long = [b"32762:", &[b'v'; 32_762][..]].concat();
    assert_eq!(ended(&long, 1_000, 40_000, 9), refused(6, 0));
    assert_eq!(
        ended(&[&long[..], b"x"].concat(), 1_000, 40_000, 9),
        refused(2, 0)
    );
    let most = [b"16378:", &[b'v'; 16_378][..]].concat();
    let reading = Reading::Accepted {
        length: 16_384,
        nodes: 1,
    };
    assert_eq!(ended(&most, 1_000, 16_384, 9), Ended { reading, place: 0 });
    assert_eq!(ended(&most, 1_000, 16_383, 9), refused(6, 0));
}
