//! The system's calls that a spool in a file makes: what is stored when each
//! sync comes, what follows one that fails, and who may come between. The
//! functions of this program stand before the C library's of the same names.
#![cfg(target_os = "linux")]
#![cfg(any(target_arch = "x86_64", target_arch = "aarch64"))]

use std::ffi::c_long;
use std::path::{Path, PathBuf};
use std::sync::{Arc, Mutex, MutexGuard};
use std::{env, fs, io, process};

use etglavino::{SpoolError, SpoolFile};

#[derive(Clone, Debug, PartialEq)]
enum Call {
    /// `msync` of these octets.
    Map(Vec<u8>),
    /// `fsync` of this file or folder.
    Sync(PathBuf),
    /// `flock`.
    Lock,
}

/// Told of each call, before it is made; whether it may be made.
type Watch = Box<dyn FnMut(&Call) -> bool + Send>;

static WATCH: Mutex<Option<Watch>> = Mutex::new(None);

/// What the watch says. Calls that it makes itself are not told.
fn may(call: Call) -> bool {
    let watch = WATCH.lock().expect("a watch").take();
    let Some(mut watch) = watch else { return true };
    let may = watch(&call);
    *WATCH.lock().expect("a watch") = Some(watch);
    may
}

fn watched(watch: impl FnMut(&Call) -> bool + Send + 'static) {
    *WATCH.lock().expect("a watch") = Some(Box::new(watch));
}

/// The system's numbers of `msync`, `fsync` and `flock`.
#[cfg(target_arch = "x86_64")]
const NUMBERS: [c_long; 3] = [26, 74, 73];
#[cfg(target_arch = "aarch64")]
const NUMBERS: [c_long; 3] = [227, 82, 32];
const SYNCED: i32 = 4;
const EIO: i32 = 5;

extern "C" {
    fn syscall(number: c_long, ...) -> c_long;
    fn __errno_location() -> *mut i32;
    fn fork() -> i32;
    fn waitpid(process: i32, status: *mut i32, options: i32) -> i32;
    fn _exit(status: i32) -> !;
}

fn failed() -> i32 {
    // SAFETY: this thread's own.
    unsafe { *__errno_location() = EIO };
    -1
}

#[no_mangle]
extern "C" fn msync(at: *mut u8, size: usize, flags: i32) -> i32 {
    assert_eq!(flags, SYNCED);
    // SAFETY: a map of this size.
    let octets = unsafe { std::slice::from_raw_parts(at, size) };
    if !may(Call::Map(octets.to_vec())) {
        return failed();
    }
    // SAFETY: what the C library does.
    unsafe { syscall(NUMBERS[0], at, size, flags as c_long) as i32 }
}

#[no_mangle]
extern "C" fn fsync(file: i32) -> i32 {
    let path = fs::read_link(format!("/proc/self/fd/{file}")).expect("a file");
    if !may(Call::Sync(path)) {
        return failed();
    }
    // SAFETY: what the C library does.
    unsafe { syscall(NUMBERS[1], file as c_long) as i32 }
}

#[no_mangle]
extern "C" fn flock(file: i32, how: i32) -> i32 {
    if !may(Call::Lock) {
        return failed();
    }
    // SAFETY: what the C library does.
    unsafe { syscall(NUMBERS[2], file as c_long, how as c_long) as i32 }
}

/// A folder of a test's own, and its turn: one test at a time.
struct Folder(PathBuf, #[allow(dead_code)] MutexGuard<'static, ()>);

impl Folder {
    fn new(name: &str) -> Folder {
        static ONE: Mutex<()> = Mutex::new(());
        let turn = ONE.lock().unwrap_or_else(|failed| failed.into_inner());
        let path = env::temp_dir().join(format!("etglavino-{}-{name}", process::id()));
        let _ = fs::remove_dir_all(&path);
        fs::create_dir(&path).expect("a folder");
        Folder(fs::canonicalize(path).expect("a path"), turn)
    }

    fn spool(&self) -> PathBuf {
        self.0.join("spool")
    }

    fn names(&self) -> Vec<String> {
        let names = fs::read_dir(&self.0).expect("a folder");
        let name = |entry: io::Result<fs::DirEntry>| entry.expect("a name").file_name();
        names
            .map(|entry| name(entry).to_string_lossy().into_owned())
            .collect()
    }
}

impl Drop for Folder {
    fn drop(&mut self) {
        if let Ok(mut watch) = WATCH.lock() {
            *watch = None;
        }
        let _ = fs::remove_dir_all(&self.0);
    }
}

/// The calls from now on.
fn recorded() -> Arc<Mutex<Vec<Call>>> {
    let calls = Arc::new(Mutex::new(Vec::new()));
    let record = calls.clone();
    watched(move |call| {
        record.lock().expect("calls").push(call.clone());
        true
    });
    calls
}

fn map(octets: &[u8]) -> Call {
    Call::Map(octets.to_vec())
}

/// Before the commit store all the rest is synced, and then the commit store:
/// two syncs in all.
#[test]
fn an_addition_syncs_twice() {
    let folder = Folder::new("twice");
    fs::write(folder.spool(), b"\x02()\0\x09\x09\x09\x09").expect("a file");
    let mut file = SpoolFile::open(folder.spool()).expect("the file");
    let calls = recorded();
    file.add(b"0:").expect("room");
    let expected = [map(b"\x02()\x000:\0\x09"), map(b"\x02()\x020:\0\x09")];
    assert_eq!(*calls.lock().expect("calls"), expected);
}

/// What an opened file shows is on the disk, with its name.
#[test]
fn opening_syncs_file_and_folder() {
    let folder = Folder::new("opening");
    fs::write(folder.spool(), b"\x02()\0").expect("a file");
    let calls = recorded();
    drop(SpoolFile::open(folder.spool()).expect("the file"));
    let expected = [
        Call::Lock,
        map(b"\x02()\0"),
        Call::Sync(folder.spool()),
        Call::Sync(folder.0.clone()),
    ];
    assert_eq!(*calls.lock().expect("calls"), expected);
}

/// Kilobytes of the file's map that a sync is to write.
fn dirty(path: &Path) -> usize {
    let maps = fs::read_to_string("/proc/self/smaps").expect("maps");
    let of = path.to_str().expect("a name");
    let lines = maps.lines().skip_while(|line| !line.ends_with(of)).skip(1);
    lines
        .take_while(|line| !line.starts_with("VmFlags"))
        .filter(|line| line.contains("_Dirty:"))
        .filter_map(|line| line.split_whitespace().nth(1)?.parse::<usize>().ok())
        .sum()
}

/// Pages whose writing failed once are clean to the system: each page that
/// holds entries, or the 0 behind them, is written at the next opening.
#[test]
fn opening_writes_what_is_shown() {
    let folder = Folder::new("written");
    let sheet = [&b"8186:"[..], &[b'v'; 8_186]].concat();
    let mut file = SpoolFile::create(folder.spool(), 5 << 12).expect("a file");
    file.add(&sheet).expect("room");
    assert_eq!(file.area()[8_192..8_194], [b'v', 0]);
    drop(file);
    let (path, seen) = (folder.spool(), Arc::new(Mutex::new(0)));
    let most = seen.clone();
    watched(move |call| {
        if matches!(call, Call::Map(_)) {
            *most.lock().expect("a count") = dirty(&path);
        }
        true
    });
    let file = SpoolFile::open(folder.spool()).expect("the file");
    assert_eq!(file.sheet(0), sheet);
    // A file system in memory has all that is mapped dirty.
    assert!(*seen.lock().expect("a count") >= 12, "{seen:?}");
}

/// After a sync that failed nothing is added, whichever of the two it was; a
/// file opened anew shows the old entries, or those and the new one.
#[test]
fn nothing_is_added_after_a_failed_sync() {
    for (good, shown) in [(0, 1), (1, 2)] {
        let folder = Folder::new("failed");
        let mut file = SpoolFile::create(folder.spool(), 64).expect("a file");
        file.add(b"1:a").expect("room");
        let mut left = good;
        watched(move |_| {
            left -= 1;
            left >= 0
        });
        assert!(matches!(file.add(b"1:b"), Err(SpoolError::File(_))));
        let calls = recorded();
        assert!(matches!(file.add(b"1:c"), Err(SpoolError::File(_))));
        assert!(matches!(file.grow(100), Err(SpoolError::File(_))));
        assert_eq!(*calls.lock().expect("calls"), []);
        drop(file);
        let mut file = SpoolFile::open(folder.spool()).expect("the file");
        assert_eq!(file.count(), Ok(shown));
        file.add(b"1:c").expect("room");
        assert_eq!(file.sheet(shown), b"1:c");
    }
}

/// The name is there only once the file is whole, on the disk and locked.
#[test]
fn nobody_comes_between_making_and_locking() {
    let folder = Folder::new("making");
    let (path, at, seen) = (folder.spool(), folder.0.clone(), Arc::new(Mutex::new(0)));
    let (named, count) = (path.clone(), seen.clone());
    watched(move |call| {
        match call {
            Call::Sync(of) if *of == at => {
                let other = SpoolFile::open(&named).expect_err("in use");
                assert!(matches!(other, SpoolError::InUse), "{other}");
                *count.lock().expect("a count") += 1;
            }
            _ => assert!(!named.exists(), "{call:?}"),
        }
        true
    });
    let file = SpoolFile::create(&path, 64).expect("a file");
    assert_eq!(*seen.lock().expect("a count"), 1);
    assert_eq!(file.area(), [0; 64]);
    assert_eq!(folder.names(), ["spool"]);
}

/// A file that cannot be made leaves no name, and one that is there alone.
#[test]
fn a_file_that_cannot_be_made() {
    let folder = Folder::new("unmade");
    for good in 0..3 {
        let mut left = good;
        watched(move |_| {
            left -= 1;
            left >= 0
        });
        let made = SpoolFile::create(folder.spool(), 64);
        assert!(matches!(made, Err(SpoolError::File(_))), "{good}");
        assert!(folder.names().is_empty(), "{good}");
    }
    watched(|_| true);
    fs::write(folder.spool(), b"\x02()").expect("a file");
    let made = SpoolFile::create(folder.spool(), 64);
    assert!(matches!(made, Err(SpoolError::File(_))));
    assert_eq!(folder.names(), ["spool"]);
    assert_eq!(fs::read(folder.spool()).expect("octets"), b"\x02()");
}

/// Between opening a file and locking it, another takes its name or nobody has
/// it any more.
#[test]
fn a_file_that_is_replaced() {
    let folder = Folder::new("replaced");
    let change: [fn(&Path); 2] = [
        |path| fs::remove_file(path).expect("removed"),
        |path| {
            fs::rename(path, path.with_extension("old")).expect("renamed");
            fs::write(path, b"\x020:\0").expect("a file");
        },
    ];
    for change in change {
        let path = folder.spool();
        fs::write(&path, b"\x02()\0").expect("a file");
        let named = path.clone();
        watched(move |call| {
            if *call == Call::Lock {
                change(&named);
            }
            true
        });
        let Err(SpoolError::File(error)) = SpoolFile::open(&path) else {
            panic!("opened");
        };
        assert_eq!(error.kind(), io::ErrorKind::NotFound);
    }
}

/// A forked process shares the lock, so it may not add.
#[test]
fn a_forked_process_adds_nothing() {
    let folder = Folder::new("forked");
    let mut file = SpoolFile::create(folder.spool(), 64).expect("a file");
    // SAFETY: the child makes calls that ask for no memory, and ends.
    let child = unsafe { fork() };
    if child == 0 {
        let refused = matches!(file.add(b"()"), Err(SpoolError::InUse))
            && matches!(file.grow(128), Err(SpoolError::InUse));
        // SAFETY: ends the child alone.
        unsafe { _exit(if refused { 42 } else { 1 }) };
    }
    let mut status = 0;
    // SAFETY: a child of this process.
    assert_eq!(unsafe { waitpid(child, &mut status, 0) }, child);
    assert_eq!(status >> 8, 42);
    file.add(b"1:a").expect("room");
    assert_eq!(file.sheet(0), b"1:a");
    assert_eq!(file.count(), Ok(1));
}
