//! The stack that entries take: all run on threads with just `STACK` octets of
//! it, while what is lent is on the heap. There is a test for each function of
//! the archive but those on values and hours, which `values.rs` runs so. Each is
//! in a process of its own, as a thread that needs more ends the process; the
//! thread's name then tells which call it was.

mod common;

use std::env;
use std::process::Command;
use std::thread;

use common::{empties, nested, padded, verbatim, NUMBER, OCTET};
use etglavino::{Adding, Extent, PiecesState, Record, Refusal, Slot};
use etglavino::{MAX_CANONICAL, MAX_NODES, MAX_SOURCE, RECORD};

/// What a thread has: enough for any entry, and for the thread itself.
const STACK: usize = 192 * 1024;

/// Tells a test that it is the child.
const CHILD: &str = "ETGLAVINO_STACK_CHILD";

/// Runs a test in a process of its own.
fn alone(name: &str, test: fn()) {
    if env::var_os(CHILD).is_some() {
        return test();
    }
    let child = Command::new(env::current_exe().expect("a path"))
        .args([name, "--exact", "--nocapture"])
        .env(CHILD, "")
        .output()
        .expect("a child");
    let (out, err) = (
        String::from_utf8_lossy(&child.stdout),
        String::from_utf8_lossy(&child.stderr),
    );
    let passed = child.status.success() && out.contains(" 1 passed");
    assert!(passed, "{name}, {}: {err}", child.status);
}

/// Runs a call on a thread with little stack.
fn tight<R: Send>(case: &str, call: impl FnOnce() -> R + Send) -> R {
    thread::scope(|scope| {
        let thread = thread::Builder::new()
            .name(case.to_string())
            .stack_size(STACK)
            .spawn_scoped(scope, call);
        thread.expect("a thread").join().expect("an answer")
    })
}

/// A tree: lists, each the first element of the one around it, and in the
/// innermost strings `ab`, then strings `abcd`.
#[derive(Clone, Copy)]
struct Tree {
    lists: usize,
    twos: usize,
    fours: usize,
}

/// As long as texts are that are taken in the least space, in more, in more yet
/// and in the most. The last is as long and as deep as a tree can be; the most
/// nodes has `empties(8_191)`.
const TREES: [Tree; 4] = [
    Tree::new(2, 5, 1),
    Tree::new(32, 100, 10),
    Tree::new(32, 1_000, 32),
    FULL,
];
const FULL: Tree = Tree::new(128, 3_984, 32);

impl Tree {
    const fn new(lists: usize, twos: usize, fours: usize) -> Tree {
        Tree { lists, twos, fours }
    }

    /// The tree with its strings spelled so.
    fn spelled(self, two: &str, four: &str) -> Vec<u8> {
        let (open, close) = ("(".repeat(self.lists), ")".repeat(self.lists));
        let strings = two.repeat(self.twos) + &four.repeat(self.fours);
        format!("{open}{strings}{close}").into_bytes()
    }

    fn canonical(self) -> Vec<u8> {
        self.spelled("2:ab", "4:abcd")
    }

    fn basic(self) -> Vec<u8> {
        braced(&self.canonical())
    }

    /// The tree in advanced form, with strings of each kind.
    fn advanced(self) -> Vec<Vec<u8>> {
        let spellings = [
            ("2:ab", "4:abcd"),
            (" ab", " abcd"),
            ("\"ab\"", "\"abcd\""),
            ("2\"ab\"", "4\"abcd\""),
            ("\"a\\x62\"", "\"ab\\143d\""),
            ("#6162#", "4#61626364#"),
            ("|YWI=|", "|YWJjZA==|"),
            ("2|YWI|", "4| YWJjZA |"),
        ];
        spellings.map(|(two, four)| self.spelled(two, four)).into()
    }

    /// What goes out in advanced form.
    fn written(self) -> Vec<u8> {
        let (open, close) = ("(".repeat(self.lists), ")".repeat(self.lists));
        let strings = [vec!["ab"; self.twos], vec!["abcd"; self.fours]].concat();
        format!("{open}{}{close}", strings.join(" ")).into_bytes()
    }

    fn extent(self) -> Extent {
        Extent {
            length: 2 * self.lists + 4 * self.twos + 6 * self.fours,
            nodes: self.lists + self.twos + self.fours,
        }
    }

    /// Texts of the tree in each form, and the same with space up to the
    /// longest that a source can be.
    fn texts(self) -> Vec<(u32, Vec<u8>)> {
        let mut texts = vec![(1, self.canonical()), (2, self.canonical())];
        let mut longest = self.basic();
        longest.pop();
        longest = padded(&longest, MAX_SOURCE - 1);
        longest.push(b'}');
        texts.extend([(2, self.basic()), (2, longest)]);
        for text in self.advanced() {
            texts.push((3, padded(&text, MAX_SOURCE)));
            texts.push((3, text));
        }
        // The whole in braces, and each string.
        texts.push((4, padded(&self.basic(), MAX_SOURCE)));
        texts.push((4, self.spelled("{MjphYg}", "{NDphYmNk}")));
        texts
    }
}

/// Base-64 with padding, in braces.
fn braced(octets: &[u8]) -> Vec<u8> {
    let letters = b"ABCDEFGHIJKLMNOPQRSTUVWXYZabcdefghijklmnopqrstuvwxyz0123456789+/";
    let mut text = vec![b'{'];
    for group in octets.chunks(3) {
        let octet = |place: usize| usize::from(*group.get(place).unwrap_or(&0));
        let bits = octet(0) << 16 | octet(1) << 8 | octet(2);
        for place in 0..4 {
            let letter = letters[bits >> (18 - 6 * place) & 63];
            text.push(if place > group.len() { b'=' } else { letter });
        }
    }
    text.push(b'}');
    text
}

/// Texts, most of them as long as a source can be, that reading refuses.
fn bad_texts() -> Vec<(u32, Vec<u8>, Refusal)> {
    // Of as many octets as a source can have, and of as many as braces can hold.
    let canonical = |size: usize| {
        let strings = (size - 2) / 2;
        [
            (vec![b'('; size], Refusal::Syntax { place: 0 }),
            (nested(size / 2), Refusal::Depth),
            (empties(strings), Refusal::Nodes),
            (verbatim(size - 6), Refusal::Size),
        ]
    };
    let mut texts = vec![
        (0, FULL.canonical(), Refusal::Form),
        (3, vec![b' '; MAX_SOURCE + 1], Refusal::SourceSize),
    ];
    for (text, refusal) in canonical(MAX_SOURCE) {
        for form in [1, 2, 3] {
            let refusal = match refusal {
                Refusal::Syntax { .. } if form < 3 => Refusal::Syntax { place: text.len() },
                other => other,
            };
            texts.push((form, text.clone(), refusal));
        }
    }
    for (text, refusal) in canonical(24_570) {
        texts.push((2, braced(&text), refusal));
    }
    for (mark, inner) in [("\"", "a"), ("\"", "\\\\"), ("#", "61"), ("|", "YWFh")] {
        let count = (MAX_SOURCE - 2) / inner.len();
        let open = format!("{mark}{}", inner.repeat(count));
        texts.push((3, open.clone().into_bytes(), Refusal::Syntax { place: 0 }));
        texts.push((3, (open + mark).into_bytes(), Refusal::Size));
    }
    texts.push((3, vec![b'a'; MAX_SOURCE], Refusal::Size));
    texts
}

/// What goes for a node's record in a table that is lent so.
trait Table: Clone + Send + Sync {
    /// How many of them are one record.
    const WIDTH: usize;
    /// One that stands in no table.
    fn other() -> Self;
    /// Those of a flat table.
    fn of(numbers: &[u32]) -> Vec<Self>;
}

impl Table for u32 {
    const WIDTH: usize = RECORD;

    fn other() -> u32 {
        NUMBER
    }

    fn of(numbers: &[u32]) -> Vec<u32> {
        numbers.to_vec()
    }
}

impl Table for Record {
    const WIDTH: usize = 1;

    fn other() -> Record {
        Record::from([NUMBER; RECORD])
    }

    fn of(numbers: &[u32]) -> Vec<Record> {
        let records = numbers.chunks_exact(RECORD);
        let record = |numbers: &[u32]| {
            numbers
                .try_into()
                .map(|record: [u32; RECORD]| record.into())
        };
        records
            .map(|numbers| record(numbers).expect("nine"))
            .collect()
    }
}

/// A sheet and its table, with room for any tree.
#[derive(Clone)]
struct Sheet<T> {
    canonical: Vec<u8>,
    table: Vec<T>,
    extent: Extent,
}

impl<T: Table> Sheet<T> {
    fn empty() -> Sheet<T> {
        Sheet {
            canonical: vec![OCTET; MAX_CANONICAL],
            table: vec![T::other(); MAX_NODES * T::WIDTH],
            extent: Extent::default(),
        }
    }

    /// Read over numbers, whatever the table is lent as.
    fn of(octets: &[u8]) -> Sheet<T> {
        let sheet = common::Sheet::of(octets);
        Sheet {
            canonical: sheet.canonical,
            table: T::of(&sheet.table),
            extent: sheet.extent,
        }
    }
}

fn case(what: &str, form: u32, text: &[u8]) -> String {
    let start = text[..text.len().min(8)].escape_ascii();
    format!("{what}, form {form}, {} octets, {start}", text.len())
}

type Read<T> = fn(u32, &[u8], &mut [u8], &mut [T]) -> Result<Extent, Refusal>;

fn reading<T: Table>(read: Read<T>) {
    for tree in TREES {
        for (form, text) in tree.texts() {
            let mut lent = Sheet::<T>::empty();
            let (canonical, table) = (&mut lent.canonical, &mut lent.table);
            let case = case("read", form, &text);
            let answer = tight(&case, || read(form, &text, canonical, table));
            assert_eq!(answer, Ok(tree.extent()), "{case}");
            let octets = tree.canonical();
            assert!(lent.canonical[..octets.len()] == octets, "{case}");
            // In less room than it takes.
            let (room, count) = (octets.len() - 1, tree.extent().nodes * T::WIDTH);
            for (room, count, refusal) in [
                (room, count, Refusal::Size),
                (room, count - 1, Refusal::Nodes),
            ] {
                let (canonical, table) = (&mut lent.canonical[..room], &mut lent.table[..count]);
                let answer = tight(&case, || read(form, &text, canonical, table));
                assert_eq!(answer, Err(refusal), "{case}");
            }
        }
    }
    for form in [1, 2, 3] {
        for (text, nodes) in [(hinted(), 4_096), (empties(8_191), 8_192)] {
            let mut lent = Sheet::<T>::empty();
            let (canonical, table) = (&mut lent.canonical, &mut lent.table);
            let case = case("read", form, &text);
            let answer = tight(&case, || read(form, &text, canonical, table));
            let length = MAX_CANONICAL;
            assert_eq!(answer, Ok(Extent { length, nodes }), "{case}");
            assert!(lent.canonical == text, "{case}");
        }
    }
    for (form, text, refusal) in bad_texts() {
        let mut lent = Sheet::<T>::empty();
        let (canonical, table) = (&mut lent.canonical, &mut lent.table);
        let case = case("read", form, &text);
        let answer = tight(&case, || read(form, &text, canonical, table));
        assert_eq!(answer, Err(refusal), "{case}");
    }
}

type Replace<T> = fn(u32, &[u8], &mut [u8], &mut [T], Extent, usize) -> Result<Extent, Refusal>;

/// Replaces a node of a sheet.
fn replaced<T: Table>(
    replace: Replace<T>,
    sheet: &mut Sheet<T>,
    (form, text): (u32, &[u8]),
    node: usize,
) -> Result<Extent, Refusal> {
    let (canonical, table, extent) = (&mut sheet.canonical, &mut sheet.table, sheet.extent);
    let case = case(&format!("replace {node}"), form, text);
    tight(&case, || {
        replace(form, text, canonical, table, extent, node)
    })
}

fn replacing<T: Table>(replace: Replace<T>) {
    let last = FULL.extent().nodes - 1;
    let full = Sheet::<T>::of(&FULL.canonical());
    for tree in TREES {
        for (form, text) in tree.texts() {
            // The whole of the largest sheet and of the smallest.
            for octets in [FULL.canonical(), b"()".to_vec()] {
                let mut sheet = Sheet::<T>::of(&octets);
                let answer = replaced(replace, &mut sheet, (form, &text), 0);
                assert_eq!(answer, Ok(tree.extent()));
                let octets = tree.canonical();
                assert!(sheet.canonical[..octets.len()] == octets);
            }
            // The last string is in as many lists as there may be.
            let refused = replaced(replace, &mut full.clone(), (form, &text), last);
            assert_eq!(refused, Err(Refusal::Depth));
            let missing = replaced(replace, &mut full.clone(), (form, &text), last + 1);
            assert_eq!(missing, Err(Refusal::NoNode));
            let mut bad = full.clone();
            bad.table[FULL.extent().nodes * T::WIDTH - 1] = T::other();
            let refused = replaced(replace, &mut bad, (form, &text), 0);
            assert_eq!(refused, Err(Refusal::NotOwn));
        }
    }
    // The last `abcd` gives way to a string as long, then to ones that do not fit.
    for text in [&b"|d3h5eg==|"[..], b"\"wx\\x79z\"", b"wxyz"] {
        for text in [text.to_vec(), padded(text, 1_024), padded(text, MAX_SOURCE)] {
            let mut sheet = full.clone();
            let answer = replaced(replace, &mut sheet, (3, &text), last);
            assert_eq!(answer, Ok(FULL.extent()));
            let end = [&b"4:wxyz"[..], &[b')'; FULL.lists]].concat();
            assert!(sheet.canonical.ends_with(&end));
        }
    }
    let one_list = Sheet::<T>::of(&empties(8_191));
    for (text, refusal) in [
        (&b"(ab)"[..], Refusal::Nodes),
        (&verbatim(20_000), Refusal::Size),
    ] {
        let refused = replaced(replace, &mut one_list.clone(), (3, text), 8_191);
        assert_eq!(refused, Err(refusal));
    }
    for (form, text, refusal) in bad_texts() {
        let refused = replaced(replace, &mut full.clone(), (form, &text), 0);
        assert_eq!(refused, Err(refusal), "{}", case("replace 0", form, &text));
    }
}

type Look<T> = fn(&[u8], &[T], Extent, usize) -> Option<(usize, usize)>;

type Insert<T> = fn(u32, &[u8], &mut [u8], &mut [T], Extent, Slot) -> Result<Extent, Refusal>;

/// Texts put into a list that is else empty, and into a full sheet.
fn inserting<T: Table>(insert: Insert<T>) {
    let inserted = |sheet: &mut Sheet<T>, form, text: &[u8], slot: Slot| {
        let (canonical, table, extent) = (&mut sheet.canonical, &mut sheet.table, sheet.extent);
        let case = case(&format!("insert {slot:?}"), form, text);
        tight(&case, || insert(form, text, canonical, table, extent, slot))
    };
    let empty = Sheet::<T>::of(b"()");
    let full = Sheet::<T>::of(&FULL.canonical());
    let (first, last) = (
        Slot { node: 0, k: 0 },
        Slot {
            node: 127,
            k: 4_016,
        },
    );
    for tree in TREES {
        for (form, text) in tree.texts() {
            let mut sheet = empty.clone();
            let answer = inserted(&mut sheet, form, &text, first);
            let Extent { length, nodes } = tree.extent();
            if tree.lists < FULL.lists {
                let (length, nodes) = (length + 2, nodes + 1);
                assert_eq!(answer, Ok(Extent { length, nodes }));
                assert!(sheet.canonical[1..length - 1] == tree.canonical());
            } else {
                assert_eq!(answer, Err(Refusal::Depth));
            }
            let refused = inserted(&mut full.clone(), form, &text, last);
            assert_eq!(refused, Err(Refusal::Depth));
            let past = Slot {
                k: last.k + 1,
                ..last
            };
            let refused = inserted(&mut full.clone(), form, &text, past);
            assert_eq!(refused, Err(Refusal::NoPlace));
        }
    }
    for (form, text, refusal) in bad_texts() {
        let refused = inserted(&mut empty.clone(), form, &text, first);
        assert_eq!(refused, Err(refusal), "{}", case("insert", form, &text));
    }
}

type Remove<T> = fn(&mut [u8], &mut [T], Extent, usize) -> Result<Extent, Refusal>;

/// Nodes of the fullest sheets, from the first to the last.
fn removing<T: Table>(remove: Remove<T>) {
    for octets in [FULL.canonical(), empties(8_191), b"(0:)".to_vec()] {
        let full = Sheet::<T>::of(&octets);
        let count = full.extent.nodes;
        for (node, refusal) in [
            (0, Some(Refusal::NoPlace)),
            (1, None),
            (count / 2, None),
            (count - 1, None),
            (count, Some(Refusal::NoNode)),
        ] {
            let mut sheet = full.clone();
            let (canonical, table, extent) = (&mut sheet.canonical, &mut sheet.table, full.extent);
            let case = format!("remove {node} of {count}");
            let answer = tight(&case, || remove(canonical, table, extent, node));
            assert_eq!(answer.err(), refusal, "{case}");
        }
    }
}

/// A list as long as can be in which half of the strings have hints, the last
/// one too.
fn hinted() -> Vec<u8> {
    let (plain, hinted) = ("0:".repeat(2_047), "[0:]0:".repeat(2_048));
    format!("({plain}{hinted})").into_bytes()
}

/// The places of the last node's hint or data in `hinted` and in the full tree,
/// and in the sheet with the most nodes; then the same over tables and sheets that
/// are not good.
fn looking<T: Table>(look: Look<T>, in_hinted: (usize, usize), in_full: Option<(usize, usize)>) {
    let sheets = [
        (Sheet::<T>::of(&hinted()), Some(in_hinted)),
        (Sheet::of(&FULL.canonical()), in_full),
        (Sheet::of(&empties(8_191)), in_full.map(|_| DATA)),
    ];
    for (sheet, expected) in sheets {
        let Sheet {
            canonical,
            table,
            extent,
        } = sheet;
        let last = extent.nodes - 1;
        let found = |canonical: &[u8], table: &[T], node| {
            let case = format!("look at {node}");
            tight(&case, || look(canonical, table, extent, node))
        };
        assert_eq!(found(&canonical, &table, last), expected);
        assert_eq!(found(&canonical, &table, last + 1), None);
        let mut bad = table.clone();
        bad[extent.nodes * T::WIDTH - 1] = T::other();
        assert_eq!(found(&canonical, &bad, last), None);
        let mut bad = canonical.clone();
        *bad.last_mut().expect("an octet") = b'(';
        assert_eq!(found(&bad, &table, last), None);
    }
}

/// Of the last node of `hinted`; the data also of `empties(8_191)`.
const HINT: (usize, usize) = (16_380, 16_380);
const DATA: (usize, usize) = (16_383, 16_383);
/// Of the last node of the full tree.
const FULL_DATA: (usize, usize) = (16_252, 16_256);

fn writing() {
    let mut outputs = Vec::new();
    for tree in TREES {
        let octets = tree.canonical();
        outputs.push((1, octets.clone(), octets.clone()));
        outputs.push((2, octets.clone(), tree.basic()));
        outputs.push((3, octets, tree.written()));
    }
    // What takes the most room, and strings of each kind.
    for (octet, mark, spelled) in [("\"", "\"", "\\\""), ("\0", "#", "00"), ("a", "", "a")] {
        let octets = format!("16378:{}", octet.repeat(16_378));
        let text = format!("{mark}{}{mark}", spelled.repeat(16_378));
        outputs.push((3, octets.into_bytes(), text.into_bytes()));
    }
    let (plain, strings) = ("\"\" ".repeat(2_047), ["[\"\"]\"\""; 2_048].join(" "));
    let text = format!("({plain}{strings})");
    outputs.push((3, hinted(), text.into_bytes()));
    for (form, octets, text) in outputs {
        let mut out = vec![OCTET; 2 * MAX_CANONICAL + 2];
        let case = case("write", form, &octets);
        let (length, lent) = (octets.len(), &mut out);
        let answer = tight(&case, || etglavino::write_form(form, &octets, length, lent));
        assert_eq!(answer, Ok(text.len()), "{case}");
        assert!(out[..text.len()] == text, "{case}");
        let tight_room = &mut out[..text.len() - 1];
        let answer = tight(&case, || {
            etglavino::write_form(form, &octets, length, tight_room)
        });
        assert_eq!(answer, Err(Refusal::Size), "{case}");
    }
    for octets in not_sheets() {
        for form in [1, 2, 3] {
            let mut out = vec![OCTET; 2 * MAX_CANONICAL + 2];
            let case = case("write", form, &octets);
            let (length, lent) = (octets.len(), &mut out);
            let answer = tight(&case, || etglavino::write_form(form, &octets, length, lent));
            assert_eq!(answer, Err(Refusal::NotOwn), "{case}");
        }
    }
}

/// What is no sheet, by its octets or by its size.
fn not_sheets() -> Vec<Vec<u8>> {
    let open = FULL.canonical()[..MAX_CANONICAL - 1].to_vec();
    let deep = [b"(", &FULL.canonical()[..], b")"].concat();
    vec![open, deep, nested(129), empties(8_192), verbatim(16_379)]
}

fn comparing() {
    let compare = |a: &[u8], b: &[u8], default_hint: &[u8]| {
        tight(&case("compare", 1, b), || {
            etglavino::same(a, a.len(), b, b.len(), default_hint)
        })
    };
    for tree in TREES {
        let octets = tree.canonical();
        assert_eq!(compare(&octets, &octets, b""), Ok(true));
        // The last string is another.
        let mut other = octets.clone();
        other[octets.len() - tree.lists - 1] = b'e';
        assert_eq!(compare(&octets, &other, b""), Ok(false));
    }
    let full = FULL.canonical();
    assert_eq!(compare(&full, &hinted(), b""), Ok(false));
    // The same strings with hints and without.
    let (plain, hints) = (empties(2_730), "[0:]0:".repeat(2_730));
    let hints = format!("({hints})").into_bytes();
    assert_eq!(compare(&plain, &hints, b""), Ok(true));
    assert_eq!(compare(&hints, &plain, b"x"), Ok(false));
    for bad in not_sheets() {
        assert_eq!(compare(&full, &bad, b""), Err(Refusal::NotOwn));
        assert_eq!(compare(&bad, &full, b""), Err(Refusal::NotOwn));
        assert_eq!(compare(&bad, &bad, b""), Err(Refusal::NotOwn));
    }
}

/// The extract of each tree, which hides nothing, and of lists that are hidden.
fn extracting<T: Table>(
    extract: impl Fn(&Sheet<T>, usize, &mut [u8], &mut [T]) -> Result<Extent, Refusal> + Sync,
) {
    for tree in TREES {
        let (sheet, octets) = (Sheet::<T>::of(&tree.canonical()), tree.canonical());
        let mut lent = Sheet::<T>::empty();
        let (canonical, table) = (&mut lent.canonical, &mut lent.table);
        let case = case("extract", 1, &octets);
        let answer = tight(&case, || extract(&sheet, octets.len(), canonical, table));
        assert_eq!(answer, Ok(tree.extent()), "{case}");
        assert!(lent.canonical[..octets.len()] == octets, "{case}");
        let (room, count) = (octets.len() - 1, tree.extent().nodes * T::WIDTH);
        for (room, count, refusal) in [
            (room, count, Refusal::Size),
            (room, count - 1, Refusal::Nodes),
        ] {
            let (canonical, table) = (&mut lent.canonical[..room], &mut lent.table[..count]);
            let answer = tight(&case, || extract(&sheet, octets.len(), canonical, table));
            assert_eq!(answer, Err(refusal), "{case}");
        }
    }
    let hidden = format!("({})", "(7:private)".repeat(1_489)).into_bytes();
    let sheet = Sheet::<T>::of(&hidden);
    let mut lent = Sheet::<T>::empty();
    let (canonical, table) = (&mut lent.canonical, &mut lent.table);
    let answer = tight("hidden", || extract(&sheet, hidden.len(), canonical, table));
    assert_eq!(answer.map(|extent| extent.nodes), Ok(1_490));
    for octets in not_sheets() {
        let mut bad = Sheet::<T>::of(b"()");
        bad.canonical[..].copy_from_slice(&[OCTET; MAX_CANONICAL]);
        let room = octets.len().min(MAX_CANONICAL);
        bad.canonical[..room].copy_from_slice(&octets[..room]);
        let (canonical, table) = (&mut lent.canonical, &mut lent.table);
        let answer = tight("bad", || extract(&bad, octets.len(), canonical, table));
        assert_eq!(answer, Err(Refusal::NotOwn));
    }
}

#[test]
fn etg_extract() {
    alone("etg_extract", || {
        extracting::<u32>(|sheet, length, canonical, table| {
            etglavino::extract(&sheet.canonical, length, canonical, table)
        })
    });
}

#[test]
fn etg_extract_own() {
    alone("etg_extract_own", || {
        extracting::<u32>(|sheet, length, canonical, table| {
            let extent = Extent {
                length,
                nodes: sheet.extent.nodes,
            };
            etglavino::extract_own(&sheet.canonical, &sheet.table, extent, canonical, table)
        })
    });
}

#[test]
fn etg_extract_records() {
    alone("etg_extract_records", || {
        extracting::<Record>(|sheet, length, canonical, table| {
            etglavino::extract_records(&sheet.canonical, length, canonical, table)
        })
    });
}

#[test]
fn etg_extract_own_records() {
    alone("etg_extract_own_records", || {
        extracting::<Record>(|sheet, length, canonical, table| {
            let extent = Extent {
                length,
                nodes: sheet.extent.nodes,
            };
            etglavino::extract_own_records(&sheet.canonical, &sheet.table, extent, canonical, table)
        })
    });
}

#[test]
fn etg_read() {
    alone("etg_read", || reading(etglavino::read_form));
}

#[test]
fn etg_read_records() {
    alone("etg_read_records", || reading(etglavino::read_records_form));
}

#[test]
fn etg_replace() {
    alone("etg_replace", || replacing(etglavino::replace_form));
}

#[test]
fn etg_replace_records() {
    alone("etg_replace_records", || {
        replacing(etglavino::replace_records_form)
    });
}

#[test]
fn etg_insert() {
    alone("etg_insert", || inserting(etglavino::insert_form));
}

#[test]
fn etg_insert_records() {
    alone("etg_insert_records", || {
        inserting(etglavino::insert_records_form)
    });
}

#[test]
fn etg_remove() {
    alone("etg_remove", || removing(etglavino::remove));
}

#[test]
fn etg_remove_records() {
    alone("etg_remove_records", || removing(etglavino::remove_records));
}

#[test]
fn etg_write() {
    alone("etg_write", writing);
}

#[test]
fn etg_same() {
    alone("etg_same", comparing);
}

#[test]
fn etg_hint() {
    alone("etg_hint", || looking(etglavino::hint_part, HINT, None));
}

#[test]
fn etg_hint_records() {
    alone("etg_hint_records", || {
        looking(etglavino::hint_records_part, HINT, None)
    });
}

#[test]
fn etg_data() {
    alone("etg_data", || {
        looking(etglavino::data_part, DATA, Some(FULL_DATA))
    });
}

#[test]
fn etg_data_records() {
    alone("etg_data_records", || {
        looking(etglavino::data_records_part, DATA, Some(FULL_DATA))
    });
}

/// Areas of the largest sheets, and one sheet more; in the last there is no
/// room, and after it damage.
fn spooling() {
    let sheet = FULL.canonical();
    let mut area = vec![0; 4 * (sheet.len() + 3) - 1];
    for added in [Ok(()), Ok(()), Ok(()), Err(Refusal::Size)] {
        let before = area.clone();
        let mut stepped = area.clone();
        let started = tight("start", || {
            Adding::start(&before, &sheet, sheet.len()).map(|mut adding| loop {
                let last = adding.commits(&stepped, &sheet);
                let done = adding.step(&mut stepped, &sheet);
                assert_eq!(last, done);
                if done {
                    break;
                }
            })
        });
        assert_eq!(started, added);
        let answer = tight("add", || {
            etglavino::spool_add(&mut area, &sheet, sheet.len())
        });
        assert_eq!(answer, added);
        assert!(area == stepped);
    }
    let opened = tight("open", || etglavino::spool_open(&area, 2));
    assert_eq!(opened.map(|opened| opened.count), Ok(3));
    area[3] = b')';
    let opened = tight("open", || etglavino::spool_open(&area, 2));
    assert_eq!(opened, Err(Refusal::Damaged));
}

#[test]
fn etg_spool() {
    alone("etg_spool", spooling);
}

type End<T> = fn(&PiecesState, &[u8], &mut [T]) -> Result<Extent, Refusal>;

/// A canonical text fed in pieces of a size, and its end.
fn in_pieces<T: Table>(end: End<T>, text: &[u8], size: usize) -> Result<Extent, Refusal> {
    let mut lent = Sheet::<T>::empty();
    let (canonical, table) = (&mut lent.canonical, &mut lent.table);
    let case = case(&format!("pieces of {size}"), 1, text);
    let answer = tight(&case, || {
        let mut state = PiecesState::start(canonical.len(), table.len());
        for piece in text.chunks(size) {
            let taken = state.feed(piece, canonical, table.len());
            assert!(taken.is_ok(), "{case}");
        }
        end(&state, canonical, table)
    });
    let octets = text.len().min(MAX_CANONICAL);
    assert!(lent.canonical[..octets] == text[..octets], "{case}");
    answer
}

fn pieces<T: Table>(end: End<T>) {
    let trees = TREES.map(|tree| (tree.canonical(), tree.extent()));
    let full = |nodes| Extent {
        length: MAX_CANONICAL,
        nodes,
    };
    let most = [(hinted(), full(4_096)), (empties(8_191), full(8_192))];
    let good = trees.into_iter().chain(most);
    let good = good.map(|(text, extent)| (text, Ok(extent)));
    let bad = bad_texts().into_iter().filter(|(form, ..)| *form == 1);
    let bad = bad.map(|(_, text, refusal)| (text, Err(refusal)));
    let long = [(vec![b'('; MAX_SOURCE + 1], Err(Refusal::SourceSize))];
    for (text, answer) in good.chain(bad).chain(long) {
        for size in [1, 512, MAX_SOURCE + 1] {
            assert_eq!(in_pieces(end, &text, size), answer);
        }
    }
}

#[test]
fn etg_pieces() {
    alone("etg_pieces", || pieces(PiecesState::end));
}

#[test]
fn etg_pieces_records() {
    alone("etg_pieces_records", || pieces(PiecesState::end_records));
}
