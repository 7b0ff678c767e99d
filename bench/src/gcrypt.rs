//! libgcrypt's reader of S-expressions, where it is installed: it is looked for
//! when the program runs.

use std::ffi::{c_char, c_int, c_uint, c_void, CStr};
use std::mem::transmute;
use std::ptr::{null, null_mut};

use crate::loaded::Loaded;

/// libgcrypt's number for output in canonical form.
const CANONICAL: c_int = 1;

type Scan = unsafe extern "C" fn(*mut *mut c_void, *mut usize, *const u8, usize) -> c_uint;
type Print = unsafe extern "C" fn(*mut c_void, c_int, *mut u8, usize) -> usize;
type Release = unsafe extern "C" fn(*mut c_void);
type Version = unsafe extern "C" fn(*const c_char) -> *const c_char;

/// The library, loaded.
pub struct Gcrypt {
    scan: Scan,
    print: Print,
    release: Release,
    /// Its version.
    pub version: String,
}

impl Gcrypt {
    /// Looks for the library.
    pub fn find() -> Option<Gcrypt> {
        let library = Loaded::find(c"libgcrypt.so.20")?;
        // SAFETY: the types are those that the library's header declares. Asking
        // for the version sets it up.
        unsafe {
            let version: Version = transmute(library.symbol(c"gcry_check_version")?);
            let version = CStr::from_ptr(version(null()));
            Some(Gcrypt {
                scan: transmute::<*mut c_void, Scan>(library.symbol(c"gcry_sexp_sscan")?),
                print: transmute::<*mut c_void, Print>(library.symbol(c"gcry_sexp_sprint")?),
                release: transmute::<*mut c_void, Release>(library.symbol(c"gcry_sexp_release")?),
                version: version.to_string_lossy().into_owned(),
            })
        }
    }

    /// Reads a text and prints it in canonical form; how many octets that takes,
    /// or `None` where the text is refused.
    pub fn canonical(&self, text: &[u8], out: &mut [u8]) -> Option<usize> {
        let mut value = null_mut();
        let mut place = 0;
        // SAFETY: each pointer comes with its slice's length, and a value is
        // released once, after its last use.
        unsafe {
            if (self.scan)(&mut value, &mut place, text.as_ptr(), text.len()) != 0 {
                return None;
            }
            let length = (self.print)(value, CANONICAL, out.as_mut_ptr(), out.len());
            (self.release)(value);
            Some(length)
        }
    }
}
