//! Whether standard output was closed when the process began. Rust's runtime opens
//! /dev/null in place of a closed descriptor before `main`, and what is written
//! there is lost in silence; so this is looked at earlier.

use std::sync::atomic::{AtomicBool, Ordering};

static CLOSED: AtomicBool = AtomicBool::new(false);

/// Called by the C library before `main`.
#[used]
#[link_section = ".init_array"]
static LOOK: extern "C" fn() = look;

const OUTPUT: i32 = 1;
/// Linux's number for asking for a descriptor's flags.
const F_GETFD: i32 = 1;

extern "C" {
    fn fcntl(descriptor: i32, command: i32, ...) -> i32;
}

extern "C" fn look() {
    // SAFETY: asks, and changes nothing.
    let flags = unsafe { fcntl(OUTPUT, F_GETFD) };
    CLOSED.store(flags == -1, Ordering::Relaxed);
}

pub fn output() -> bool {
    CLOSED.load(Ordering::Relaxed)
}
