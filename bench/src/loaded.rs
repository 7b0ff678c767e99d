//! Shared objects that are looked for when the program runs.

use std::ffi::{c_char, c_int, c_void, CStr};

extern "C" {
    fn dlopen(name: *const c_char, flags: c_int) -> *mut c_void;
    fn dlsym(library: *mut c_void, name: *const c_char) -> *mut c_void;
}

const RTLD_NOW: c_int = 2;

/// A shared object, loaded for as long as the program runs.
pub struct Loaded(*mut c_void);

impl Loaded {
    /// Loads it, if it is there.
    pub fn find(name: &CStr) -> Option<Loaded> {
        // SAFETY: the name ends with a zero octet.
        let library = unsafe { dlopen(name.as_ptr(), RTLD_NOW) };
        (!library.is_null()).then_some(Loaded(library))
    }

    /// The address of a name that it has.
    pub fn symbol(&self, name: &CStr) -> Option<*mut c_void> {
        // SAFETY: the object is loaded, and the name ends with a zero octet.
        let found = unsafe { dlsym(self.0, name.as_ptr()) };
        (!found.is_null()).then_some(found)
    }
}
