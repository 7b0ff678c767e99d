//! The plain reader gives the library's answers, and leaves lent buffers as the
//! library leaves them, on every reading of a corpus of the reference program.

use bench::plain::Reader;
use reference::corpus::case::Case;
use reference::corpus::files::cases;

const SEED: u64 = 20_003;
const COUNT: u64 = 40_000;

#[test]
fn answers_are_the_librarys() {
    let mut reader = Reader::new();
    let mut accepted = 0;
    let mut refused = [0; 9];
    for case in cases(SEED, COUNT) {
        let Case::Read {
            form,
            source,
            canonical,
            table,
        } = &case
        else {
            continue;
        };
        let (mut octets, mut numbers) = (canonical.buffer(), table.buffer());
        let answer = reader.read(*form, source, &mut octets, &mut numbers);
        let (mut expected, mut table) = (canonical.buffer(), table.buffer());
        let proved = etglavino::read_form(*form, source, &mut expected, &mut table);
        // The plain reader tells no place.
        assert_eq!(
            answer.map_err(|refusal| refusal.number()),
            proved.map_err(|refusal| refusal.number()),
            "{}",
            String::from_utf8_lossy(source)
        );
        assert!(octets == expected && numbers == table);
        match answer {
            Ok(_) => accepted += 1,
            Err(refusal) => refused[refusal.number() as usize] += 1,
        }
    }
    // The corpus has every answer that reading can give.
    assert!(accepted > 1_000);
    assert!(refused[1..=6].iter().all(|count| *count > 0), "{refused:?}");
}
