//! This build's reading beside another build's, given as a shared object, in one
//! run: what a change costs.

use std::ffi::{c_void, CString};
use std::hint::black_box;
use std::mem::transmute;

use bench::clock::race;
use bench::loaded::Loaded;
use bench::report::{head, row, Cell};
use bench::texts::{texts, Text};
use etglavino::RECORD;

/// What `etg_read` is.
type Read = unsafe extern "C" fn(
    u32,
    *const u8,
    usize,
    *mut u8,
    usize,
    *mut u32,
    usize,
    *mut usize,
    *mut usize,
    *mut usize,
) -> u32;

extern "C" {
    fn etg_read(
        form: u32,
        source: *const u8,
        source_len: usize,
        canonical: *mut u8,
        canonical_room: usize,
        table: *mut u32,
        table_room: usize,
        length: *mut usize,
        nodes: *mut usize,
        place: *mut usize,
    ) -> u32;
}

/// Prints the table; `None` if that object can't be loaded, or can't read.
pub fn table(object: &str) -> Option<()> {
    let other = Loaded::find(&CString::new(object).ok()?)?;
    // SAFETY: the header of the C interface declares this type.
    let other = unsafe { transmute::<*mut c_void, Read>(other.symbol(c"etg_read")?) };
    head(&[
        "reading",
        "octets",
        "this build",
        "the other",
        "this / other",
    ]);
    for text in texts() {
        measure(&text, other);
    }
    Some(())
}

fn measure(text: &Text, other: Read) {
    let mut canonical = vec![0; text.octets];
    let mut table = vec![0; text.records * RECORD];
    let (mut octets, mut numbers) = (canonical.clone(), table.clone());
    if call(other, text, &mut octets, &mut numbers) != 0 {
        // Its limits are others.
        let cells = ["", "refuses it", ""].map(Cell::Word);
        return row(text.name, text.source.len(), &cells);
    }
    let figures = race(&mut [
        &mut || assert_eq!(call(etg_read, text, &mut canonical, &mut table), 0),
        &mut || assert_eq!(call(other, text, &mut octets, &mut numbers), 0),
    ]);
    let cells = [
        Cell::Time(figures[0]),
        Cell::Time(figures[1]),
        Cell::Ratio(figures[0], figures[1]),
    ];
    row(text.name, text.source.len(), &cells);
}

/// The answer's number.
fn call(read: Read, text: &Text, canonical: &mut [u8], table: &mut [u32]) -> u32 {
    let source = black_box(&text.source);
    let (mut length, mut nodes, mut place) = (0, 0, 0);
    // SAFETY: each pointer comes with its length.
    let number = unsafe {
        read(
            text.form,
            source.as_ptr(),
            source.len(),
            canonical.as_mut_ptr(),
            canonical.len(),
            table.as_mut_ptr(),
            table.len(),
            &mut length,
            &mut nodes,
            &mut place,
        )
    };
    black_box(number)
}
