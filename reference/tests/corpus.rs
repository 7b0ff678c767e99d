//! The corpus: always the same, within its bounds, and complete.

use reference::corpus::case::Case;
use reference::corpus::files::{self, Summary};
use reference::corpus::rng::Rng;
use reference::corpus::run::{digest, run, Buffer};
use reference::corpus::{explain, fixed, wire};
use reference::limits::RECORD;

fn corpus(seed: u64, count: u64) -> (Vec<u8>, Vec<u8>, Summary) {
    let (mut cases, mut expected) = (Vec::new(), Vec::new());
    let summary = files::write(seed, count, &mut cases, &mut expected).unwrap();
    (cases, expected, summary)
}

#[test]
fn the_same_seed_gives_the_same_files() {
    let one = corpus(7, 500);
    assert!(one == corpus(7, 500));
    let other = corpus(8, 500);
    assert!(one.0 != other.0 && one.1 != other.1);
    // More cases go on where fewer end.
    let more = corpus(7, 700);
    assert!(more.0.starts_with(&one.0) && more.1.starts_with(&one.1));
}

/// The generator must not depend on the machine, so a few of its numbers are
/// pinned: they are the published ones of splitmix64 for the seed 1234567.
#[test]
fn the_random_numbers_are_splitmix64() {
    let mut rng = Rng::new(1_234_567);
    assert_eq!(rng.draw(), 6_457_827_717_110_365_317);
    assert_eq!(rng.draw(), 3_203_168_211_198_807_973);
    assert_eq!(rng.draw(), 9_817_491_932_198_370_423);
}

#[test]
fn the_files_agree() {
    let (octets, expected, summary) = corpus(11, 1_000);
    let cases = wire::decode_all(&octets).unwrap();
    assert_eq!(cases.len(), fixed::cases().len() + 1_000);
    assert_eq!(summary.values().sum::<u64>(), cases.len() as u64);
    let again: Vec<u8> = cases.iter().flat_map(wire::encode).collect();
    assert!(again == octets);
    let lines: String = (0..)
        .zip(&cases)
        .map(|(number, case)| run(case).line(number, case.name()))
        .collect();
    assert!(lines.as_bytes() == expected);
}

#[test]
fn every_answer_of_every_entry_occurs() {
    let (cases, _, summary) = corpus(3, 3_000);
    let answers = [
        ("read", "0 1 2 3 4 5 6"),
        ("write", "0 1 6 7"),
        ("replace", "0 1 2 3 4 5 6 7 8"),
        ("hint", "0 1"),
        ("data", "0 1"),
    ];
    let mut wanted: Vec<(&str, String)> = Vec::new();
    for (entry, numbers) in answers {
        wanted.extend(numbers.split(' ').map(|number| (entry, number.to_string())));
    }
    wanted.extend(["0 yes", "0 no", "7"].map(|answer| ("same", answer.to_string())));
    wanted.sort();
    let found: Vec<(&str, String)> = summary.keys().cloned().collect();
    assert_eq!(found, wanted);
    // A consumer has little memory, and the file goes into the repository.
    assert!(cases.len() < 2_200_000, "{} octets", cases.len());
}

#[test]
fn random_cases_are_accepted_often() {
    let (_, _, all) = corpus(5, 2_000);
    let (_, _, fixed) = corpus(5, 0);
    for entry in ["read", "write", "replace"] {
        let count = |summary: &Summary, answer: Option<&str>| -> u64 {
            let counted =
                |key: &(&str, String)| key.0 == entry && answer.is_none_or(|a| a == key.1);
            summary
                .iter()
                .filter(|(key, _)| counted(key))
                .map(|(_, count)| count)
                .sum()
        };
        let accepted = count(&all, Some("0")) - count(&fixed, Some("0"));
        let total = count(&all, None) - count(&fixed, None);
        assert!(5 * accepted >= 2 * total, "{entry}: {accepted} of {total}");
        assert!(10 * accepted <= 9 * total, "{entry}: {accepted} of {total}");
    }
}

/// The format by hand: the example of README.md.
#[test]
fn one_case_octet_by_octet() {
    let octets = [
        &[33, 0, 0, 0][..],                        // size of what follows
        &[1],                                      // read
        &[3, 0, 0, 0],                             // form
        &[1, 0, 0, 0, b'a'],                       // source: count, octets
        &[4, 0, 0, 0, 250, 1, 0, 0, 0, 77],        // room, fill, count, one octet
        &[10, 0, 0, 0, 9, 1, 0, 0, 0, 1, 2, 0, 0], // room, fill, count, one number
    ]
    .concat();
    let cases = wire::decode_all(&octets).unwrap();
    let [Case::Read {
        canonical, table, ..
    }] = &cases[..]
    else {
        panic!("one read");
    };
    assert_eq!(canonical.buffer(), [77, 0, 1, 2]);
    assert_eq!(table.buffer(), [513, 10, 11, 12, 13, 14, 15, 16, 17, 18]);
    let outcome = run(&cases[0]);
    // The octets 1:a and 2; the record, then 18.
    assert_eq!(digest([49, 58, 97, 2].into_iter()), 884_943_376);
    let table = digest([0, 0, 3, 1, 0, 0, 2, 3, 0, 18].into_iter());
    assert_eq!(table, 68_225_906);
    let line = "5 read 0 3 1 884943376 68225906\n";
    assert_eq!(outcome.line(5, "read"), line);
    assert_eq!(wire::encode(&cases[0]), octets);
}

/// Numbers too few for a record play no part, and are there afterwards: so
/// whatever takes a case over records is held to the same answer.
#[test]
fn a_remainder_plays_no_part() {
    let (mut tables, mut remainders) = (0, 0);
    for case in files::cases(13, 2_000) {
        let mut whole = case.clone();
        let Some(table) = whole.table_mut() else {
            continue;
        };
        let room = table.room / RECORD * RECORD;
        let rest = table.buffer().split_off(room);
        table.room = room;
        table.given.truncate(room);
        tables += 1;
        remainders += u32::from(!rest.is_empty());
        let mut outcome = run(&whole);
        for (_, buffer) in &mut outcome.buffers {
            if let Buffer::Numbers(numbers) = buffer {
                numbers.extend(&rest);
            }
        }
        assert_eq!(outcome, run(&case));
    }
    assert!(tables > 1_000 && remainders > 100, "{tables} {remainders}");
}

#[test]
fn the_digest_by_hand() {
    assert_eq!(digest([].into_iter()), 0);
    assert_eq!(digest([0].into_iter()), 1);
    assert_eq!(digest([0, 0].into_iter()), 65_600);
    // 65600 * 65599 + 1 is 4303294401, which is 8327110 over the modulus.
    assert_eq!(digest([0, 0, 0].into_iter()), 8_327_110);
}

#[test]
fn files_that_are_no_corpus_are_errors() {
    let (octets, _, _) = corpus(1, 0);
    assert!(wire::decode_all(&octets[..octets.len() - 1]).is_err());
    let octets = &octets[..3_000];
    let mut rng = Rng::new(9);
    for _ in 0..2_000 {
        let mut spoiled = octets[..rng.below(octets.len())].to_vec();
        for _ in 0..rng.below(4) {
            if !spoiled.is_empty() {
                let place = rng.below(spoiled.len());
                spoiled[place] = rng.octet();
            }
        }
        // It may still be well formed; it must not panic.
        let _ = wire::decode_all(&spoiled);
    }
}

#[test]
fn every_fixed_case_can_be_explained() {
    for (number, case) in (0..).zip(fixed::cases()).step_by(7) {
        let page = explain::explain(number, &case);
        assert!(page.starts_with(&format!("case {number}: {}\n", case.name())));
        assert!(page.contains("expected\n"));
    }
}
