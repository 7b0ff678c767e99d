//! The texts that are read: short ones, and ones of trees whose canonical form
//! nearly fills 16 KiB.

use etglavino::{MAX_CANONICAL, MAX_NODES, RECORD};
use reference::base64;
use reference::corpus::rng::Rng;
use reference::entries::{self, Reading, Writing};

/// A text to read.
pub struct Text {
    /// What it is made of.
    pub name: &'static str,
    /// Its form.
    pub form: u32,
    /// Its octets.
    pub source: Vec<u8>,
    /// How many octets are lent for its canonical form.
    pub octets: usize,
    /// How many records are lent for its table.
    pub records: usize,
}

/// A short text in advanced form, of nine nodes.
pub const SHORT: &[u8] = b"(shift ann (from \"22:00\") (to \"06:00\"))";

const LETTERS: &[u8] = b"abcdefghijklmnopqrstuvwxyz-";
const WORDS: &[u8] = b"abcdefghijklmnopqrstuvwxyz 0123456789,.";

/// A token's octets.
fn token(rng: &mut Rng) -> Vec<u8> {
    let count = 3 + rng.below(8);
    (0..count).map(|_| rng.pick(LETTERS)).collect()
}

/// A line of words.
fn words(rng: &mut Rng) -> Vec<u8> {
    let count = 12 + rng.below(29);
    (0..count).map(|_| rng.pick(WORDS)).collect()
}

/// A line of words in which one octet in eight calls for an escape.
fn marked_words(rng: &mut Rng) -> Vec<u8> {
    let mut line = words(rng);
    for octet in line.iter_mut() {
        if rng.once_in(8) {
            *octet = rng.pick(b"\"\\\n");
        }
    }
    line
}

/// Octets of any value.
fn binary(rng: &mut Rng) -> Vec<u8> {
    let count = 24 + rng.below(25);
    (0..count).map(|_| rng.octet()).collect()
}

fn as_it_is(octets: &[u8]) -> Vec<u8> {
    octets.to_vec()
}

fn verbatim(octets: &[u8]) -> Vec<u8> {
    [octets.len().to_string().as_bytes(), b":", octets].concat()
}

fn quoted(octets: &[u8]) -> Vec<u8> {
    let mut text = vec![b'"'];
    for octet in octets {
        match octet {
            b'"' | b'\\' => text.extend([b'\\', *octet]),
            b'\n' => text.extend(b"\\n"),
            _ => text.push(*octet),
        }
    }
    text.push(b'"');
    text
}

fn hexadecimal(octets: &[u8]) -> Vec<u8> {
    let digits: String = octets.iter().map(|octet| format!("{octet:02x}")).collect();
    format!("#{digits}#").into_bytes()
}

fn base_64(octets: &[u8]) -> Vec<u8> {
    [b"|", &base64::encode(octets)[..], b"|"].concat()
}

/// A list of such strings, so many that the canonical form fits just yet.
fn list(make: fn(&mut Rng) -> Vec<u8>, spell: fn(&[u8]) -> Vec<u8>) -> Vec<u8> {
    let mut rng = Rng::new(1997);
    let mut text = vec![b'('];
    let mut size = 2;
    loop {
        let octets = make(&mut rng);
        size += verbatim(&octets).len();
        if size > MAX_CANONICAL {
            text.push(b')');
            return text;
        }
        if text.len() > 1 {
            text.push(b' ');
        }
        text.extend(spell(&octets));
    }
}

/// The longest single string.
fn single(make: fn(&mut Rng) -> Vec<u8>, spell: fn(&[u8]) -> Vec<u8>) -> Vec<u8> {
    let mut rng = Rng::new(1997);
    let mut octets = Vec::new();
    while octets.len() < MAX_CANONICAL {
        octets.extend(make(&mut rng));
    }
    octets.truncate(MAX_CANONICAL - 9);
    // In a list, as libgcrypt takes nothing else.
    [b"(", &spell(&octets)[..], b")"].concat()
}

/// Lists in lists, hints, and strings of each kind.
fn mixed() -> Vec<u8> {
    let mut rng = Rng::new(1997);
    let mut text = b"(sheet".to_vec();
    let mut size = 9;
    loop {
        let name = token(&mut rng);
        let (from, hours) = (rng.below(24), rng.octet());
        let line = format!(
            "\n  (shift {} (from \"{from:02}:00\") [hours]#{hours:02x}# ((pause) |MzA=|))",
            String::from_utf8_lossy(&name)
        );
        // What the line has in canonical form besides the name and its length.
        size += name.len() + 2 + usize::from(name.len() > 9) + 51;
        if size > MAX_CANONICAL {
            return [&text[..], b")\n"].concat();
        }
        text.extend(line.into_bytes());
    }
}

/// A list of that many empty strings, canonical: as many nodes as octets can hold.
fn empties(count: usize) -> Vec<u8> {
    format!("({})", "0:".repeat(count)).into_bytes()
}

/// Texts in each form and of each kind of string.
pub fn texts() -> Vec<Text> {
    let tokens = list(token, as_it_is);
    let canonical = canonical_of(&tokens);
    let mut basic = vec![0; 2 * MAX_CANONICAL];
    match entries::write(2, &canonical, canonical.len(), &mut basic) {
        Writing::Accepted { length } => basic.truncate(length),
        Writing::Refused(number) => panic!("refused {number}"),
    }
    vec![
        full("canonical form", 1, canonical),
        full("basic form", 2, basic),
        full("tokens", 3, tokens),
        full("verbatim", 3, list(token, verbatim)),
        full("quoted", 3, list(words, quoted)),
        full("quoted, escapes", 3, list(marked_words, quoted)),
        full("hexadecimal", 3, list(binary, hexadecimal)),
        full("base-64", 3, list(binary, base_64)),
        full("mixed", 3, mixed()),
        full("one quoted", 3, single(words, quoted)),
        full("one hexadecimal", 3, single(binary, hexadecimal)),
        full("one base-64", 3, single(binary, base_64)),
        full("8,192 nodes", 1, empties(MAX_NODES - 1)),
        full("1,000 nodes", 1, empties(999)),
        short("short, canonical", 1, canonical_of(SHORT)),
        short("short, advanced", 3, SHORT.to_vec()),
    ]
}

/// A text for which the most that a tree can take is lent.
fn full(name: &'static str, form: u32, source: Vec<u8>) -> Text {
    Text {
        name,
        form,
        source,
        octets: MAX_CANONICAL,
        records: MAX_NODES,
    }
}

/// A text for which 64 octets and 16 records are lent.
fn short(name: &'static str, form: u32, source: Vec<u8>) -> Text {
    Text {
        name,
        form,
        source,
        octets: 64,
        records: 16,
    }
}

/// The canonical octets of an advanced text that fits, by the reference program.
pub fn canonical_of(text: &[u8]) -> Vec<u8> {
    let (mut canonical, mut table) = (vec![0; MAX_CANONICAL], vec![0; MAX_NODES * RECORD]);
    match entries::read(3, text, &mut canonical, &mut table) {
        Reading::Accepted { length, .. } => canonical[..length].to_vec(),
        Reading::Refused(number) => panic!("refused {number}"),
    }
}
