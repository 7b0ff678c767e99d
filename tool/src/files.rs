//! Files: read up to what a source may have, and replaced as a whole.

use std::ffi::OsStr;
use std::fs::{self, File, OpenOptions};
use std::io::{self, ErrorKind, Read, Write};
use std::os::fd::AsFd;
use std::os::unix::fs::{fchown, MetadataExt};
use std::path::{Path, PathBuf};
use std::process;

use etglavino::{Form, OwnedSheet, Refusal, MAX_SOURCE};

use crate::args::Given;
use crate::closed;
use crate::problem::{usage, word, Problem};

/// How a file is called in a sentence; none, and `-`, are standard input.
pub fn name(file: Option<&OsStr>) -> String {
    match file {
        Some(path) if path != "-" => word(path),
        _ => "standard input".into(),
    }
}

/// A file's octets, one more at most than a source may have, so that a longer
/// one is refused.
pub fn read(file: Option<&OsStr>) -> Result<Vec<u8>, Problem> {
    read_most(file, MAX_SOURCE as u64 + 1)
}

/// All octets of a file.
pub fn read_whole(file: Option<&OsStr>) -> Result<Vec<u8>, Problem> {
    read_most(file, u64::MAX)
}

fn read_most(file: Option<&OsStr>, most: u64) -> Result<Vec<u8>, Problem> {
    let mut octets = Vec::new();
    let done = match file {
        Some(path) if path != "-" => {
            File::open(path).and_then(|file| file.take(most).read_to_end(&mut octets))
        }
        _ => io::stdin().lock().take(most).read_to_end(&mut octets),
    };
    match done {
        Ok(_) => Ok(octets),
        Err(error) => Err(Problem::File(name(file), error)),
    }
}

/// A file's text: its octets, the form that it is read in, and how the file is
/// called.
pub struct Source {
    pub octets: Vec<u8>,
    pub form: Form,
    pub name: String,
}

impl Source {
    /// A file's text, in the form that `--from` names.
    pub fn of(given: &Given, file: Option<&OsStr>) -> Result<Source, Problem> {
        let octets = read(file)?;
        Ok(Source {
            form: given.form_of("--from", &octets)?,
            name: name(file),
            octets,
        })
    }

    pub fn sheet(&self) -> Result<OwnedSheet, Refusal> {
        OwnedSheet::of_text(self.form, &self.octets)
    }

    /// What is said where it was refused.
    pub fn refused(&self, why: Refusal) -> Problem {
        Problem::text(self.name.clone(), why, self.form, &self.octets)
    }
}

/// A text with its sheet.
pub struct Taken {
    pub source: Source,
    pub sheet: OwnedSheet,
}

/// Takes a file's text, in the form that `--from` names.
pub fn take(given: &Given, file: Option<&OsStr>) -> Result<Taken, Problem> {
    let source = Source::of(given, file)?;
    match source.sheet() {
        Ok(sheet) => Ok(Taken { source, sheet }),
        Err(why) => Err(source.refused(why)),
    }
}

/// A sheet's text for a file: advanced text ends with a line feed, which its
/// grammar lets stand there; that of the other forms doesn't.
pub fn text(name: &str, sheet: &OwnedSheet, form: Form) -> Result<Vec<u8>, Problem> {
    let text = sheet.text(form);
    let mut text = text.map_err(|refusal| Problem::Refused(name.into(), refusal))?;
    if form == Form::Advanced {
        text.push(b'\n');
    }
    Ok(text)
}

/// Writes all of it to standard output.
pub fn put(octets: &[u8]) -> Result<(), Problem> {
    if closed::output() && !octets.is_empty() {
        return Err(Problem::Output(io::Error::other("it is closed")));
    }
    let mut out = io::stdout().lock();
    let done = out.write_all(octets).and_then(|()| out.flush());
    done.map_err(Problem::Output)
}

/// Wrong use where `--output` names the file that is read, under this name or
/// another: what a command says of a sheet would take the sheet's place.
pub fn apart(given: &Given, file: Option<&OsStr>) -> Result<(), Problem> {
    let Some(output) = given.value("--output").filter(|path| *path != "-") else {
        return Ok(());
    };
    let read = match file {
        Some(path) if path != "-" => fs::metadata(path),
        _ => io::stdin()
            .as_fd()
            .try_clone_to_owned()
            .and_then(|stdin| File::from(stdin).metadata()),
    };
    match (read, fs::metadata(output)) {
        (Ok(a), Ok(b)) if (a.dev(), a.ino()) == (b.dev(), b.ino()) => {
            let output = name(Some(output));
            usage(format!("--output: {output} is the file that is read"))
        }
        _ => Ok(()),
    }
}

/// Replaces a file as a whole, or makes it: the octets are written beside it and
/// synced, and then take its name. After a power cut the old file is there or
/// the new one. `old` is what it was read as: where something else stands there
/// meanwhile, nothing is changed.
pub fn replace(path: &OsStr, octets: &[u8], old: Option<&[u8]>) -> Result<(), Problem> {
    replaced(Path::new(path), octets, old).map_err(|error| Problem::File(word(path), error))
}

fn replaced(path: &Path, octets: &[u8], old: Option<&[u8]>) -> io::Result<()> {
    let path = meant(path)?;
    let folder = match path.parent() {
        Some(folder) if !folder.as_os_str().is_empty() => folder,
        _ => Path::new("."),
    };
    let before = match fs::metadata(&path) {
        Ok(before) if before.is_file() => Some(before),
        Ok(_) => return Err(io::Error::other("it is no plain file")),
        Err(error) if error.kind() == ErrorKind::NotFound => None,
        Err(error) => return Err(error),
    };
    // Opened first: who may not sync the folder is refused before anything changes.
    let listing = File::open(folder)?;
    let (beside, mut file) = beside(folder)?;
    let done = (|| {
        if let Some(before) = before {
            // Whoever may not give files away keeps what is made.
            let _ = fchown(&file, Some(before.uid()), Some(before.gid()));
            file.set_permissions(before.permissions())?;
        }
        file.write_all(octets)?;
        file.sync_all()?;
        if old.is_some_and(|old| fs::read(&path).ok().as_deref() != Some(old)) {
            return Err(io::Error::other("it was changed meanwhile, and is left so"));
        }
        fs::rename(&beside, &path)?;
        listing.sync_all()
    })();
    if done.is_err() {
        let _ = fs::remove_file(&beside);
    }
    done
}

/// The file that a path names, or that it would make: of a link the one that it
/// leads to, and the link stays. Links in a circle are an error.
fn meant(path: &Path) -> io::Result<PathBuf> {
    match fs::canonicalize(path) {
        Err(error) if error.kind() == ErrorKind::NotFound => match fs::read_link(path) {
            Ok(link) => meant(&path.with_file_name("").join(link)),
            Err(_) => Ok(path.to_path_buf()),
        },
        found => found,
    }
}

/// A new file in the folder, under a name that nobody asks for.
fn beside(folder: &Path) -> io::Result<(PathBuf, File)> {
    for number in 0.. {
        let path = folder.join(format!(".etglavino-{}-{number}", process::id()));
        match OpenOptions::new().write(true).create_new(true).open(&path) {
            Err(error) if error.kind() == ErrorKind::AlreadyExists => (),
            file => return Ok((path, file?)),
        }
    }
    Err(ErrorKind::AlreadyExists.into())
}

#[cfg(test)]
mod tests {
    use super::*;

    #[test]
    fn what_was_changed_meanwhile_is_left() {
        let folder = std::env::temp_dir().join(format!("etglavino-files-{}", process::id()));
        fs::create_dir(&folder).unwrap();
        let path = folder.join("list");
        fs::write(&path, "theirs").unwrap();
        let answer = replaced(&path, b"ours", Some(b"old"));
        assert!(answer
            .unwrap_err()
            .to_string()
            .contains("changed meanwhile"));
        assert_eq!(fs::read(&path).unwrap(), b"theirs");
        assert_eq!(fs::read_dir(&folder).unwrap().count(), 1);
        replaced(&path, b"ours", Some(b"theirs")).unwrap();
        assert_eq!(fs::read(&path).unwrap(), b"ours");
        assert_eq!(fs::read_dir(&folder).unwrap().count(), 1);
        fs::remove_dir_all(&folder).unwrap();
    }
}
