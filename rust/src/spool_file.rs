//! A spool in a file. The file is mapped into memory and is the area: each
//! store of an addition is a step of the library, made where the file lies.
//!
//! What is synced, and when: all stores but the last go to the map; `msync`
//! with `MS_SYNC` has them on the disk; then the last one, which shows the
//! entry, goes to the map, and `msync` again has it there before
//! [`SpoolFile::add`] returns. A disk may make the stores before the first sync
//! in any order, or some of them only: the old entries are shown all the same.
//! It must not make the last one before them, which is what the first sync is
//! for.
//!
//! A sync that failed may have lost stores that a later one reports nothing of.
//! So nothing is added after it until the file is opened anew, and opening has
//! what the file shows written again.

use std::fs::{File, OpenOptions, TryLockError};
use std::io::{self, ErrorKind};
use std::os::unix::fs::MetadataExt;
use std::path::{Path, PathBuf};
use std::sync::atomic::{AtomicUsize, Ordering};
use std::{fmt, fs, process};

use crate::spool_map::{reserve, Map};
use crate::{spool_open, spool_sheets, spool_shown, Adding, Refusal, Sheets};

/// Why a spool file could not be used.
#[derive(Debug)]
pub enum SpoolError {
    /// Another process, or this one, has the file open; or this process was
    /// forked from the one that opened it.
    InUse,
    /// The library refused: 10 for a damaged file, 7 for a bad sheet, and 6
    /// where the entry has no room.
    Refused(Refusal),
    /// The file could not be made, read, made longer, mapped or synced. Where
    /// the disk is full its kind is `StorageFull`.
    File(io::Error),
}

impl fmt::Display for SpoolError {
    fn fmt(&self, f: &mut fmt::Formatter<'_>) -> fmt::Result {
        match self {
            SpoolError::InUse => write!(f, "the spool file is in use"),
            SpoolError::Refused(refusal) => write!(f, "{refusal}"),
            SpoolError::File(error) => write!(f, "the spool file: {error}"),
        }
    }
}

impl std::error::Error for SpoolError {}

impl From<Refusal> for SpoolError {
    fn from(refusal: Refusal) -> SpoolError {
        SpoolError::Refused(refusal)
    }
}

impl From<io::Error> for SpoolError {
    fn from(error: io::Error) -> SpoolError {
        SpoolError::File(error)
    }
}

/// A spool in a file, open for one writer at a time.
///
/// The file is locked (`flock`) as long as this lives, and its whole size is
/// reserved on the disk. A process forked from this one shares the lock: there
/// it refuses to add and to grow, and what it shows may change under its hands.
#[derive(Debug)]
pub struct SpoolFile {
    file: File,
    area: Map,
    process: u32,
    failed: bool,
}

impl SpoolFile {
    /// Makes a file of that many octets, an empty spool. When this returns `Ok`,
    /// the file and its name are on the disk.
    ///
    /// The file is made under another name, `.spool-` and numbers, and gets its
    /// own when it is whole and locked. A process that is killed meanwhile may
    /// leave the other name.
    ///
    /// # Errors
    ///
    /// [`SpoolError::File`], also where the name is taken or the disk is full;
    /// [`SpoolError::InUse`] where someone locks the file under its other name.
    /// There is then no new file.
    pub fn create(path: impl AsRef<Path>, size: usize) -> Result<SpoolFile, SpoolError> {
        let path = path.as_ref();
        let folder = folder_of(path);
        let (aside, file) = aside(folder)?;
        let linked = locked(file).and_then(|file| {
            reserve(&file, size)?;
            let spool = SpoolFile::mapped(file, size)?;
            spool.file.sync_all()?;
            fs::hard_link(&aside, path)?;
            Ok(spool)
        });
        let removed = fs::remove_file(&aside);
        let spool = linked?;
        if let Err(error) = removed.and_then(|()| File::open(folder)?.sync_all()) {
            // Nobody else has it: it is still locked, and who waits for the lock
            // finds no name.
            fs::remove_file(path)?;
            return Err(error.into());
        }
        Ok(spool)
    }

    /// Opens a file that is there. When this returns `Ok`, what the file shows
    /// is on the disk, and its name.
    ///
    /// # Errors
    ///
    /// [`SpoolError::InUse`]; [`SpoolError::File`], also where the file is
    /// removed or replaced meanwhile, and of kind `StorageFull` where it has
    /// holes that the disk has no room for. A damaged file can be opened, and
    /// then refuses.
    pub fn open(path: impl AsRef<Path>) -> Result<SpoolFile, SpoolError> {
        let path = path.as_ref();
        let file = locked(OpenOptions::new().read(true).write(true).open(path)?)?;
        let (here, there) = (file.metadata()?, fs::metadata(path)?);
        if here.nlink() == 0 || (here.dev(), here.ino()) != (there.dev(), there.ino()) {
            let gone = "removed or replaced while it was opened";
            return Err(io::Error::new(ErrorKind::NotFound, gone).into());
        }
        let size =
            usize::try_from(here.len()).map_err(|_| io::Error::from(ErrorKind::FileTooLarge))?;
        reserve(&file, size)?;
        let mut spool = SpoolFile::mapped(file, size)?;
        // Pages whose writing failed before now are written again.
        let used = used(spool.area());
        spool.area.touch(used);
        spool.area.sync()?;
        spool.file.sync_all()?;
        File::open(folder_of(&fs::canonicalize(path)?))?.sync_all()?;
        Ok(spool)
    }

    fn mapped(file: File, size: usize) -> Result<SpoolFile, SpoolError> {
        let area = Map::of(&file, size)?;
        let process = process::id();
        Ok(SpoolFile {
            file,
            area,
            process,
            failed: false,
        })
    }

    /// Whether the file may be changed: by the process that locked it, and
    /// unless a sync failed.
    fn usable(&self) -> Result<(), SpoolError> {
        if self.process != process::id() {
            return Err(SpoolError::InUse);
        }
        if self.failed {
            let advice = "a sync failed; open it anew";
            return Err(io::Error::other(advice).into());
        }
        Ok(())
    }

    /// What a sync gives. After one that failed it is unknown what the disk has.
    fn synced(&mut self, sync: io::Result<()>) -> Result<(), SpoolError> {
        self.failed |= sync.is_err();
        Ok(sync?)
    }

    /// The whole area.
    pub fn area(&self) -> &[u8] {
        self.area.octets()
    }

    /// How many entries there are.
    ///
    /// # Errors
    ///
    /// [`Refusal::Damaged`].
    pub fn count(&self) -> Result<usize, Refusal> {
        spool_open(self.area(), 0).map(|opened| opened.count)
    }

    /// The sheet of a number from 0, which is empty if there is none such or the
    /// file is damaged.
    pub fn sheet(&self, number: usize) -> &[u8] {
        spool_shown(self.area(), number)
    }

    /// All sheets, in order.
    ///
    /// # Errors
    ///
    /// [`Refusal::Damaged`].
    pub fn sheets(&self) -> Result<Sheets<'_>, Refusal> {
        spool_sheets(self.area())
    }

    /// Adds a sheet. When this returns `Ok`, the entry is on the disk.
    ///
    /// # Errors
    ///
    /// [`SpoolError::Refused`], with nothing stored; [`SpoolError::InUse`] in a
    /// forked process; [`SpoolError::File`] where a sync failed: the file then
    /// shows the old entries, or those and the new one, and has to be opened
    /// anew before anything is added.
    pub fn add(&mut self, sheet: &[u8]) -> Result<(), SpoolError> {
        self.add_watched(sheet, |_| ())
    }

    /// [`SpoolFile::add`], with a call after each store, which is told how many
    /// have been made.
    ///
    /// # Errors
    ///
    /// As [`SpoolFile::add`].
    pub fn add_watched(
        &mut self,
        sheet: &[u8],
        mut stored: impl FnMut(usize),
    ) -> Result<(), SpoolError> {
        self.usable()?;
        let mut adding = Adding::start(self.area(), sheet, sheet.len())?;
        let mut stores = 0;
        loop {
            if adding.commits(self.area(), sheet) {
                self.synced(self.area.sync())?;
            }
            let done = adding.step(self.area.octets_mut(), sheet);
            stores += 1;
            stored(stores);
            if done {
                return self.synced(self.area.sync());
            }
        }
    }

    /// Makes the area longer, with zeros; a shorter size changes nothing.
    ///
    /// # Errors
    ///
    /// [`SpoolError::InUse`] in a forked process; [`SpoolError::File`], of kind
    /// `StorageFull` where the disk is full. No entry is lost then.
    pub fn grow(&mut self, size: usize) -> Result<(), SpoolError> {
        self.usable()?;
        let old = self.area().len();
        if size <= old {
            return Ok(());
        }
        if let Err(error) = reserve(&self.file, size) {
            // A part may have been reserved. Zeros behind the area do no harm.
            let _ = self.file.set_len(old as u64);
            return Err(error.into());
        }
        self.synced(self.file.sync_all())?;
        self.area = Map::of(&self.file, size)?;
        Ok(())
    }
}

fn locked(file: File) -> Result<File, SpoolError> {
    match file.try_lock() {
        Ok(()) => Ok(file),
        Err(TryLockError::WouldBlock) => Err(SpoolError::InUse),
        Err(TryLockError::Error(error)) => Err(error.into()),
    }
}

fn folder_of(path: &Path) -> &Path {
    let folder = path.parent().filter(|name| !name.as_os_str().is_empty());
    folder.unwrap_or(Path::new("."))
}

/// A new file in the folder, under a name that nobody asks for.
fn aside(folder: &Path) -> io::Result<(PathBuf, File)> {
    static NEXT: AtomicUsize = AtomicUsize::new(0);
    loop {
        let number = NEXT.fetch_add(1, Ordering::Relaxed);
        let path = folder.join(format!(".spool-{}-{number}", process::id()));
        let mut new = OpenOptions::new();
        match new.read(true).write(true).create_new(true).open(&path) {
            Err(error) if error.kind() == ErrorKind::AlreadyExists => (),
            file => return Ok((path, file?)),
        }
    }
}

/// How many octets the entries have, with the 0 behind them. A damaged area is
/// never added to, and has no entries.
fn used(area: &[u8]) -> usize {
    let count = spool_open(area, 0).map_or(0, |opened| opened.count);
    let last = spool_open(area, count.saturating_sub(1)).unwrap_or_default();
    area.len().min(last.end + 1)
}
