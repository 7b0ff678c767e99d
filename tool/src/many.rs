//! Many files: taken by threads, with a bar while it lasts and a summary.

use std::ffi::OsString;
use std::io::{self, IsTerminal, Write};
use std::sync::atomic::{AtomicUsize, Ordering};
use std::thread;
use std::time::{Duration, Instant};

use crate::problem::{say, Problem};

/// How long nobody minds to see nothing.
const PATIENCE: Duration = Duration::from_secs(1);
/// More threads than these would only wait for the disk.
const MOST: usize = 64;
/// How often the bar is drawn.
const BEAT: Duration = Duration::from_millis(100);

/// Has `judge` look at each file; tells each problem in the files' order, and if
/// there are several in one line each, with what came of all.
pub fn each(
    files: &[OsString],
    threads: Option<usize>,
    judge: impl Fn(&OsString) -> Result<(), Problem> + Sync,
) -> Result<(), Problem> {
    let taken = take(files, threads, judge);
    if let (Ok(_), 2..) = (&taken, files.len()) {
        summary(files.len(), 0, 0);
    }
    taken.map(drop)
}

/// What `judge` makes of each file, in their order, if there is no problem with
/// any. Of good files nothing is said.
pub fn take<T: Send>(
    files: &[OsString],
    threads: Option<usize>,
    judge: impl Fn(&OsString) -> Result<T, Problem> + Sync,
) -> Result<Vec<T>, Problem> {
    let threads = threads.unwrap_or_else(|| thread::available_parallelism().map_or(1, usize::from));
    let answers = answers(files, threads.min(files.len()).min(MOST), &judge);
    let (mut taken, mut refused, mut unread) = (Vec::new(), 0, 0);
    for answer in answers {
        match answer.inspect_err(|problem| match files.len() {
            1 => problem.tell(),
            _ => problem.tell_in_a_line(),
        }) {
            Ok(answer) => taken.push(answer),
            Err(problem) if problem.status() == 1 => refused += 1,
            Err(_) => unread += 1,
        }
    }
    if refused + unread > 0 && files.len() > 1 {
        summary(taken.len(), refused, unread);
    }
    match (refused, unread) {
        (0, 0) => Ok(taken),
        (_, 0) => Err(Problem::Told(1)),
        _ => Err(Problem::Told(2)),
    }
}

fn summary(good: usize, refused: usize, unread: usize) {
    let of = good + refused + unread;
    say(&format!(
        "{of} files: {good} good, {refused} refused, {unread} not read"
    ));
}

/// An answer for each file, in their order.
fn answers<T: Send>(
    files: &[OsString],
    threads: usize,
    judge: &(impl Fn(&OsString) -> Result<T, Problem> + Sync),
) -> Vec<Result<T, Problem>> {
    let (next, done) = (AtomicUsize::new(0), AtomicUsize::new(0));
    let work = || {
        let mut own = Vec::new();
        loop {
            let number = next.fetch_add(1, Ordering::Relaxed);
            let Some(file) = files.get(number) else {
                return own;
            };
            own.push((number, judge(file)));
            done.fetch_add(1, Ordering::Relaxed);
        }
    };
    let mut all = thread::scope(|scope| {
        let workers: Vec<_> = (0..threads).map(|_| scope.spawn(work)).collect();
        let mut bar = Bar::of(files.len());
        while bar.seen && workers.iter().any(|worker| !worker.is_finished()) {
            thread::sleep(PATIENCE / 100);
            bar.show(done.load(Ordering::Relaxed));
        }
        let answers = workers.into_iter().flat_map(|worker| match worker.join() {
            Ok(own) => own,
            Err(panic) => std::panic::resume_unwind(panic),
        });
        let answers = answers.collect::<Vec<_>>();
        bar.end();
        answers
    });
    all.sort_by_key(|(number, _)| *number);
    all.into_iter().map(|(_, answer)| answer).collect()
}

/// A bar on standard error, if anybody sees it and waits long enough.
pub struct Bar {
    of: usize,
    seen: bool,
    start: Instant,
    drawn: Option<Instant>,
}

impl Bar {
    pub fn of(of: usize) -> Bar {
        Bar {
            of,
            seen: io::stderr().is_terminal(),
            start: Instant::now(),
            drawn: None,
        }
    }

    /// Draws how many are done, unless that was done just now.
    pub fn show(&mut self, done: usize) {
        let again = self.drawn.is_none_or(|drawn| drawn.elapsed() > BEAT);
        if self.seen && again && self.start.elapsed() > PATIENCE {
            self.draw(done);
            self.drawn = Some(Instant::now());
        }
    }

    /// All is done: a bar that was drawn is drawn full.
    pub fn end(self) {
        if self.drawn.is_some() {
            self.draw(self.of);
            say("");
        }
    }

    fn draw(&self, done: usize) {
        let (of, full) = (self.of, done * 40 / self.of.max(1));
        let bar = format!("{}{}", "#".repeat(full), " ".repeat(40 - full));
        let mut out = io::stderr();
        let _ = write!(out, "\r[{bar}] {done} of {of}").and_then(|()| out.flush());
    }
}
