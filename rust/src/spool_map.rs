//! A file's octets mapped into memory, and room for them on the disk.

use std::fs::File;
use std::io;
use std::os::fd::AsRawFd;
use std::{ptr, slice};

/// Octets of the smallest page that a system has.
const PAGE: usize = 4_096;

/// Has the disk keep room for all octets of the file, which gets this size if
/// it is shorter. Without that a store to the map would end the process where
/// the disk is full.
pub fn reserve(file: &File, size: usize) -> io::Result<()> {
    if size == 0 {
        return Ok(());
    }
    let size = i64::try_from(size).map_err(|_| io::ErrorKind::FileTooLarge)?;
    loop {
        // SAFETY: the file is open.
        match unsafe { c::posix_fallocate(file.as_raw_fd(), 0, size) } {
            0 => return Ok(()),
            c::EINTR => (),
            error => return Err(io::Error::from_raw_os_error(error)),
        }
    }
}

/// A file mapped into memory, shared with the file.
#[derive(Debug)]
pub struct Map {
    at: *mut u8,
    size: usize,
}

// SAFETY: the memory is this map's alone as long as the file is locked, and any
// thread may use it.
unsafe impl Send for Map {}
unsafe impl Sync for Map {}

impl Map {
    pub fn of(file: &File, size: usize) -> io::Result<Map> {
        if size == 0 {
            // Nothing can be mapped, and no octet is ever asked for.
            let at = ptr::NonNull::dangling().as_ptr();
            return Ok(Map { at, size });
        }
        // SAFETY: a new mapping, of octets that the file has.
        let at = unsafe {
            c::mmap(
                ptr::null_mut(),
                size,
                c::PROT_READ | c::PROT_WRITE,
                c::MAP_SHARED,
                file.as_raw_fd(),
                0,
            )
        };
        if at as isize == -1 {
            return Err(io::Error::last_os_error());
        }
        Ok(Map { at, size })
    }

    pub fn octets(&self) -> &[u8] {
        // SAFETY: mapped, of this size, as long as `self` lives.
        unsafe { slice::from_raw_parts(self.at, self.size) }
    }

    pub fn octets_mut(&mut self) -> &mut [u8] {
        // SAFETY: as above, and borrowed mutably.
        unsafe { slice::from_raw_parts_mut(self.at, self.size) }
    }

    /// Stores an octet of each page up to there as it is, so that the next sync
    /// writes these pages.
    pub fn touch(&mut self, end: usize) {
        for octet in self.octets_mut()[..end].iter_mut().step_by(PAGE) {
            // SAFETY: a valid octet; volatile, as the store changes nothing that
            // the compiler sees.
            unsafe { ptr::write_volatile(octet, ptr::read_volatile(octet)) };
        }
    }

    /// Returns when all that was stored is on the disk.
    pub fn sync(&self) -> io::Result<()> {
        // SAFETY: as above; a mapping starts at a page.
        if self.size > 0 && unsafe { c::msync(self.at, self.size, c::MS_SYNC) } != 0 {
            return Err(io::Error::last_os_error());
        }
        Ok(())
    }
}

impl Drop for Map {
    fn drop(&mut self) {
        if self.size > 0 {
            // SAFETY: mapped by `of`, and used no more.
            unsafe { c::munmap(self.at, self.size) };
        }
    }
}

/// What the standard library has no name for, of the C library that it links;
/// the numbers are Linux's.
mod c {
    pub const EINTR: i32 = 4;
    pub const PROT_READ: i32 = 1;
    pub const PROT_WRITE: i32 = 2;
    pub const MAP_SHARED: i32 = 1;
    pub const MS_SYNC: i32 = 4;

    extern "C" {
        pub fn mmap(
            at: *mut u8,
            size: usize,
            protection: i32,
            flags: i32,
            file: i32,
            from: i64,
        ) -> *mut u8;
        pub fn munmap(at: *mut u8, size: usize) -> i32;
        pub fn msync(at: *mut u8, size: usize, flags: i32) -> i32;
        pub fn posix_fallocate(file: i32, from: i64, size: i64) -> i32;
    }
}
