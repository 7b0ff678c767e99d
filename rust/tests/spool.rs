//! A spool in lent space: the examples of S 16.6, cuts, and a disk that
//! keeps no order. Expected areas were worked out by hand.

mod common;

use common::verbatim;
use etglavino::{spool_add, spool_open, spool_sheets, spool_shown, Adding, Opened, Refusal};

/// The sheets that an area shows, or nothing if it is damaged.
fn sheets(area: &[u8]) -> Option<Vec<Vec<u8>>> {
    let count = spool_open(area, 0).ok()?.count;
    assert_eq!(spool_shown(area, count), b"");
    let shown: Vec<Vec<u8>> = (0..count).map(|n| spool_shown(area, n).to_vec()).collect();
    let all = spool_sheets(area).expect("no damage");
    assert_eq!(all.len(), count);
    assert!(all.eq(shown.iter()));
    Some(shown)
}

/// All areas of an addition: before the first store, and after each.
fn areas(area: &[u8], sheet: &[u8]) -> Vec<Vec<u8>> {
    let mut adding = Adding::start(area, sheet, sheet.len()).expect("room");
    let mut areas = vec![area.to_vec()];
    loop {
        let mut after = areas.last().expect("one").clone();
        let last = adding.commits(&after, sheet);
        let done = adding.step(&mut after, sheet);
        assert_eq!(last, done);
        areas.push(after);
        if done {
            return areas;
        }
    }
}

#[test]
fn lengths_of_one_two_and_three_groups() {
    for (data, length, groups) in [
        (0, 2, &[0x02][..]),
        (123, 127, &[0x7f]),
        (124, 128, &[0x80, 0x01]),
        (16_377, 16_383, &[0xff, 0x7f]),
        (16_378, 16_384, &[0x80, 0x80, 0x01]),
    ] {
        let sheet = verbatim(data);
        assert_eq!(sheet.len(), length);
        let entry = [groups, &sheet].concat();
        let mut area = vec![0; entry.len()];
        assert_eq!(spool_add(&mut area, &sheet, length), Ok(()));
        assert!(area == entry);
        let mut short = vec![0; entry.len() - 1];
        assert_eq!(spool_add(&mut short, &sheet, length), Err(Refusal::Size));
        assert!(short.iter().all(|octet| *octet == 0));
    }
}

#[test]
fn opening() {
    let area = b"\x02()\x020:\0\x09";
    let opened = |count, start, end| Ok(Opened { count, start, end });
    assert_eq!(spool_open(area, 0), opened(2, 1, 3));
    assert_eq!(spool_open(area, 1), opened(2, 4, 6));
    assert_eq!(spool_open(area, 2), opened(2, 0, 0));
    assert_eq!(spool_open(area, usize::MAX), opened(2, 0, 0));
    assert_eq!(spool_open(b"", 0), opened(0, 0, 0));
    // The part shown is the area's own.
    assert_eq!(spool_shown(area, 1).as_ptr(), area[4..].as_ptr());
    for damaged in [
        &b"\x82\0()"[..],
        b"\x80\0",
        b"\x82",
        b"\x02(",
        b"\x02((\0",
        b"\x02()\x010\0",
        b"\x82\x80\x80\x80\x80\x80\x80\x80\x80\x80\x80\x01()",
    ] {
        assert_eq!(spool_open(damaged, 0), Err(Refusal::Damaged));
        assert_eq!(spool_shown(damaged, 0), b"");
        assert_eq!(spool_sheets(damaged).err(), Some(Refusal::Damaged));
    }
}

#[test]
fn the_order_of_refusals() {
    let start = |area: &[u8], sheet: &[u8], length| Adding::start(area, sheet, length).err();
    assert_eq!(start(b"\x82\0()", b"(", 1), Some(Refusal::Damaged));
    assert_eq!(start(b"\x02()", b"(", 1), Some(Refusal::NotOwn));
    assert_eq!(start(b"\x02()", b"()", 3), Some(Refusal::NotOwn));
    assert_eq!(start(b"\x02()\0\0", b"()", 2), Some(Refusal::Size));
    assert_eq!(start(b"\x02()\0\0\0", b"()", 2), None);
}

#[test]
fn each_store() {
    let expected: [&[u8]; 5] = [
        b"\x02()\0\x09\x09\x09\x09",
        b"\x02()\0\x09\x09\0\x09",
        b"\x02()\x000\x09\0\x09",
        b"\x02()\x000:\0\x09",
        b"\x02()\x020:\0\x09",
    ];
    assert_eq!(areas(expected[0], b"0:"), expected);
    // Up to the area's end nothing is behind.
    let expected: [&[u8]; 4] = [
        b"\x02()\0\x09\x09",
        b"\x02()\x000\x09",
        b"\x02()\x000:",
        b"\x02()\x020:",
    ];
    assert_eq!(areas(expected[0], b"0:"), expected);
}

#[test]
fn a_done_state_stores_nothing() {
    let mut area = b"\0\x09\x09\x09".to_vec();
    let mut adding = Adding::start(&area, b"()", 2).expect("room");
    while !adding.step(&mut area, b"()") {}
    let (state, after) = (adding, area.clone());
    assert!(!adding.commits(&area, b"()"));
    assert!(adding.step(&mut area, b"()"));
    assert_eq!((adding, area), (state, after));
}

/// A disk makes stores that are not synced in any order, or some only.
#[test]
fn a_disk_that_keeps_no_order() {
    let mut random = 1_u64;
    let mut next = |below: usize| {
        random = random
            .wrapping_mul(6_364_136_223_846_793_005)
            .wrapping_add(1);
        (random >> 33) as usize % below
    };
    for round in 0..200 {
        let mut area: Vec<u8> = (0..60 + next(40)).map(|_| next(256) as u8).collect();
        area[0] = 0;
        let mut disk = area.clone();
        let mut old = Vec::new();
        loop {
            let sheet = verbatim(next(9));
            let Ok(mut adding) = Adding::start(&area, &sheet, sheet.len()) else {
                break;
            };
            let mut waiting: Vec<(usize, u8)> = Vec::new();
            loop {
                if adding.commits(&area, &sheet) {
                    // Synced: all are made.
                    for (place, octet) in waiting.drain(..) {
                        disk[place] = octet;
                    }
                }
                let before = area.clone();
                let done = adding.step(&mut area, &sheet);
                let changed = (0..area.len()).find(|place| area[*place] != before[*place]);
                waiting.extend(changed.map(|place| (place, area[place])));
                // The power is cut here: some of those that wait are made.
                for _ in 0..4 {
                    let mut cut = disk.clone();
                    for _ in 0..next(waiting.len() + 1) {
                        let (place, octet) = waiting[next(waiting.len())];
                        cut[place] = octet;
                    }
                    let shown = sheets(&cut);
                    let new = [old.clone(), vec![sheet.clone()]].concat();
                    let allowed = [Some(old.clone()), Some(new).filter(|_| done)];
                    assert!(allowed.contains(&shown), "round {round}: {shown:?}");
                }
                if done {
                    break;
                }
            }
            disk.copy_from_slice(&area);
            old.push(sheet);
            assert_eq!(sheets(&disk), Some(old.clone()));
        }
    }
}
