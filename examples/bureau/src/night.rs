//! The night: what is done with the sheets, and that it comes out as it was
//! made.

use std::collections::BTreeMap;
use std::fs;
use std::path::{Path, PathBuf};
use std::time::{Duration, Instant};

use etglavino::{Form, Node, OwnedSheet, Refusal, SpoolError, SpoolFile};

use crate::made::{line, made, Fate, Made};
use crate::rng::Rng;
use crate::spell::canonical;
use crate::terminal::Terminal;

/// Lines and quarters of a worker of a factory.
type Hours = BTreeMap<(usize, String), (usize, u32)>;

/// What one line of the first good sheet becomes.
const CORRECTED: [u32; 3] = [32, 0, 2];

pub struct Night<'a> {
    factories: usize,
    sheets: usize,
    seed: u64,
    folder: &'a Path,
    times: Vec<(&'static str, Duration)>,
}

impl<'a> Night<'a> {
    pub fn of(factories: usize, sheets: usize, seed: u64, folder: &'a Path) -> Night<'a> {
        Night {
            factories,
            sheets,
            seed,
            folder,
            times: Vec::new(),
        }
    }

    /// All of it, or what differs from what was made.
    pub fn pass(mut self) -> Result<(), String> {
        let (factories, sheets, seed) = (self.factories, self.sheets, self.seed);
        println!("{factories} factories, {sheets} sheets each, seed {seed}");
        let made = self.timed("making the week", |night| Ok(night.week()))?;
        let (taken, refused) = self.timed("reading", |_| take(&made))?;
        self.timed("spooling to files", |night| night.spool(&taken))?;
        let mut sheets = self.timed("opening the files and reading", |night| {
            night.opened(&taken)
        })?;
        let old = self.timed("correcting an entry", |_| correct(&mut sheets, &made))?;
        let shown = self.timed("extracts", |night| night.extracts(&sheets, &made))?;
        let (hours, long) = self.timed("hours, and CSV", |night| night.hours(&sheets))?;
        let expected = expected(&made, old);
        same("the hours", &hours, &expected)?;
        let fate = |fate: Fate| {
            made.iter()
                .flatten()
                .filter(|made| made.fate == fate)
                .count()
        };
        same(
            "the sheets with a line too long",
            &long,
            &fate(Fate::TooLong),
        )?;
        let (taken, workers) = (sheets.len(), hours.len());
        let quarters: u32 = hours.values().map(|(_, quarters)| quarters).sum();
        let paid = f64::from(quarters) / 4.0;
        println!("{taken} taken, {long} of them with a line that is too long");
        for (number, count) in &refused {
            println!("{count} refused with {number}");
        }
        println!("{paid} hours of {workers} workers, {shown} octets for foremen");
        self.tell();
        Ok(())
    }

    /// What each part took.
    fn tell(&self) {
        for (what, time) in &self.times {
            println!("{:>9.1} ms  {what}", time.as_secs_f64() * 1e3);
        }
    }

    fn timed<T>(
        &mut self,
        what: &'static str,
        part: impl FnOnce(&Night) -> Result<T, String>,
    ) -> Result<T, String> {
        let start = Instant::now();
        let answer = part(self).map_err(|wrong| format!("{what}: {wrong}"));
        self.times.push((what, start.elapsed()));
        answer
    }

    fn week(&self) -> Vec<Vec<Made>> {
        let mut rng = Rng(self.seed);
        let mut factory = |factory| {
            (0..self.sheets)
                .map(|number| made(factory, number, &mut rng))
                .collect()
        };
        (0..self.factories).map(&mut factory).collect()
    }

    fn file(&self, factory: usize, kind: &str) -> PathBuf {
        self.folder.join(format!("factory-{factory:02}.{kind}"))
    }

    /// A spool to a factory, made longer as it has to be.
    fn spool(&self, taken: &[(usize, OwnedSheet)]) -> Result<(), String> {
        for factory in 0..self.factories {
            let path = self.file(factory, "spool");
            let _ = fs::remove_file(&path);
            let mut spool = SpoolFile::create(&path, 1 << 16).map_err(|error| error.to_string())?;
            for (_, sheet) in taken.iter().filter(|(of, _)| *of == factory) {
                let mut added = spool.add(sheet.canonical());
                if matches!(added, Err(SpoolError::Refused(Refusal::Size))) {
                    let size = 2 * spool.area().len();
                    added = spool.grow(size).and_then(|()| spool.add(sheet.canonical()));
                }
                added.map_err(|error| error.to_string())?;
            }
        }
        Ok(())
    }

    /// The sheets of all spools again, which are those that went in.
    fn opened(&self, taken: &[(usize, OwnedSheet)]) -> Result<Taken, String> {
        let mut sheets = Vec::new();
        for factory in 0..self.factories {
            let path = self.file(factory, "spool");
            let spool = SpoolFile::open(&path).map_err(|error| error.to_string())?;
            for octets in spool.sheets().map_err(|refusal| refusal.to_string())? {
                let sheet = OwnedSheet::of_text(Form::Canonical, octets);
                sheets.push((factory, sheet.map_err(|refusal| refusal.to_string())?));
            }
        }
        match sheets == taken {
            true => Ok(sheets),
            false => Err("not the sheets that went in".into()),
        }
    }

    /// A file to a factory's foreman, which has no secret in it.
    fn extracts(
        &self,
        sheets: &[(usize, OwnedSheet)],
        made: &[Vec<Made>],
    ) -> Result<usize, String> {
        let mut octets = 0;
        for (factory, made) in made.iter().enumerate() {
            let mut text = Vec::new();
            for (_, sheet) in sheets.iter().filter(|(of, _)| *of == factory) {
                let extract = sheet.extract(Vec::new(), Vec::new());
                let shown = extract.and_then(|extract| extract.text(Form::Advanced));
                text.extend(shown.map_err(|refusal| refusal.to_string())?);
                text.push(b'\n');
            }
            let seen = String::from_utf8_lossy(&text);
            let hidden = |made: &Made| seen.contains(&made.secret);
            if made.iter().any(hidden) || seen.contains("private") {
                return Err(format!("the foreman of factory {factory} sees a secret"));
            }
            octets += text.len();
            fs::write(self.file(factory, "foreman"), text).map_err(|error| error.to_string())?;
        }
        Ok(octets)
    }

    /// Each worker's hours, as a file of CSV; and how many sheets have none.
    fn hours(&self, sheets: &[(usize, OwnedSheet)]) -> Result<(Hours, usize), String> {
        let (mut hours, mut long) = (Hours::new(), 0);
        for (factory, sheet) in sheets {
            let weeks: Result<Vec<_>, _> = workers(sheet)
                .map(|worker| Ok((name(worker), worker.child(1).unwrap_or(worker).week()?)))
                .collect();
            match weeks {
                Ok(weeks) => weeks.into_iter().for_each(|(name, week)| {
                    let sum = hours.entry((*factory, name)).or_default();
                    *sum = (sum.0 + week.lines, sum.1 + week.total.quarters);
                }),
                Err(etglavino::NoWeek {
                    refusal: Refusal::NotLine,
                    ..
                }) => long += 1,
                Err(other) => return Err(other.to_string()),
            }
        }
        let mut csv = String::from("factory,worker,lines,hours\r\n");
        for ((factory, name), (lines, quarters)) in &hours {
            csv += &format!(
                "{factory},{name},{lines},{:.2}\r\n",
                f64::from(*quarters) / 4.0
            );
        }
        let path = self.folder.join("hours.csv");
        fs::write(path, csv).map_err(|error| error.to_string())?;
        Ok((hours, long))
    }
}

/// Sheets with their factories.
type Taken = Vec<(usize, OwnedSheet)>;

/// Reads every text in its form, a canonical one as the line brings it. What is
/// damaged is refused as it was made to be, and counted by number.
fn take(made: &[Vec<Made>]) -> Result<(Taken, BTreeMap<u32, usize>), String> {
    let (mut taken, mut refused) = (Vec::new(), BTreeMap::new());
    for (factory, made) in made.iter().enumerate() {
        let mut terminal = Terminal::new(factory as u64);
        for (number, made) in made.iter().enumerate() {
            let answer = match made.form {
                Form::Canonical => terminal.sheet(&made.text),
                form => OwnedSheet::of_text(form, &made.text),
            };
            let fate = match &answer {
                Err(refusal) => Fate::Refused(refusal.number()),
                Ok(_) if made.fate == Fate::TooLong => Fate::TooLong,
                Ok(_) => Fate::Good,
            };
            same(
                &format!("sheet {number} of factory {factory}"),
                &fate,
                &made.fate,
            )?;
            match answer {
                Ok(sheet) => taken.push((factory, sheet)),
                Err(refusal) => *refused.entry(refusal.number()).or_default() += 1,
            }
        }
    }
    Ok((taken, refused))
}

/// The lists of workers in a sheet, between its heading and what is private.
fn workers(sheet: &OwnedSheet) -> impl Iterator<Item = Node<'_>> {
    let lists = sheet.root().children().skip(3);
    lists.filter(|list| list.child(0).is_none_or(|first| first.data() != b"private"))
}

fn name(worker: Node<'_>) -> String {
    let name = worker.child(0).map_or(&b""[..], Node::data);
    String::from_utf8_lossy(name).into_owned()
}

/// The first line of the first good sheet becomes another; what it was.
fn correct(
    sheets: &mut [(usize, OwnedSheet)],
    made: &[Vec<Made>],
) -> Result<Option<Place>, String> {
    let all = made
        .iter()
        .enumerate()
        .flat_map(|(factory, made)| made.iter().map(move |made| (factory, made)));
    let mut good = all
        .filter(|(_, made)| matches!(made.fate, Fate::Good | Fate::TooLong))
        .enumerate();
    let Some((place, (factory, first))) = good.find(|(_, (_, made))| made.fate == Fate::Good)
    else {
        return Ok(None);
    };
    let sheet = &mut sheets[place].1;
    let node = workers(sheet)
        .next()
        .and_then(|worker| worker.child(1)?.child(0))
        .ok_or("no line")?;
    let (number, mut text) = (node.number(), Vec::new());
    canonical(&line(&CORRECTED), &mut text);
    let replaced = sheet.replace(Form::Canonical, &text, number);
    replaced.map_err(|refusal| refusal.to_string())?;
    let worker = &first.workers[0];
    Ok(Some((factory, worker.name, worker.lines[0])))
}

/// A factory, a worker, and what a line of theirs was.
type Place = (usize, &'static str, [u32; 3]);

/// The hours that were made, with the one line corrected.
fn expected(made: &[Vec<Made>], corrected: Option<Place>) -> Hours {
    let mut hours = Hours::new();
    for (factory, made) in made.iter().enumerate() {
        for made in made.iter().filter(|made| made.fate == Fate::Good) {
            for worker in &made.workers {
                let sum = hours.entry((factory, worker.name.into())).or_default();
                sum.0 += worker.lines.len();
                sum.1 += worker.lines.iter().flatten().sum::<u32>();
            }
        }
    }
    if let Some((factory, name, old)) = corrected {
        let sum = hours.entry((factory, name.into())).or_default();
        sum.1 = sum.1 + CORRECTED.iter().sum::<u32>() - old.iter().sum::<u32>();
    }
    hours
}

fn same<T: PartialEq + std::fmt::Debug>(what: &str, got: &T, made: &T) -> Result<(), String> {
    match got == made {
        true => Ok(()),
        false => Err(format!("{what}: {got:?} came out, {made:?} was made")),
    }
}
