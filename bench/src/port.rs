//! The port's exported functions that are measured (include/tehkumir.h), over slices.

#[path = "../../include/tehkumir.rs"]
mod ffi;
pub use ffi::{TEHKUMIR_ATTRIBUTE_WORDS, TEHKUMIR_PAGE_SIZE};

/// Rows of a table: five words for an abbreviation, three for a specification.
#[derive(Default)]
pub struct Table {
    pub rows: Vec<u64>,
    pub specs: Vec<u64>,
}

impl Table {
    pub fn with_room(abbreviations: usize, specifications: usize) -> Table {
        Table { rows: vec![0; abbreviations * 5], specs: vec![0; specifications * 3] }
    }
}

/// A unit's entries: their bytes, the offset in the unit where they start, and the encoding.
#[derive(Clone, Copy)]
pub struct Part<'a> {
    pub bytes: &'a [u8],
    pub start: usize,
    pub version: u16,
    pub is_64: bool,
    pub width: u8,
}

// SAFETY, of each call below: every pointer is that of a slice beside its length, and the mutable ones overlap nothing.

pub fn next_unit(info: &[u8], at: usize, out: &mut [u64]) -> u64 {
    unsafe { ffi::tehkumir_next_unit(info.as_ptr(), info.len(), at, false, out.as_mut_ptr(), out.len()) }
}

pub fn abbreviations(section: &[u8], offset: u64, t: &mut Table, out: &mut [u64]) -> u64 {
    let (rows, specs) = (&mut t.rows, &mut t.specs);
    unsafe {
        ffi::tehkumir_abbreviations(
            section.as_ptr(),
            section.len(),
            offset,
            rows.as_mut_ptr(),
            rows.len(),
            specs.as_mut_ptr(),
            specs.len(),
            out.as_mut_ptr(),
            out.len(),
        )
    }
}

macro_rules! walk {
    ($name:ident, $f:ident, $t:ty) => {
        pub fn $name(p: &Part, t: &Table, calls: &[$t], out: &mut [u64]) -> u64 {
            unsafe {
                ffi::$f(
                    p.bytes.as_ptr(),
                    p.bytes.len(),
                    p.start,
                    p.version,
                    p.is_64,
                    p.width,
                    false,
                    t.rows.as_ptr(),
                    t.rows.len(),
                    t.specs.as_ptr(),
                    t.specs.len(),
                    calls.as_ptr(),
                    calls.len(),
                    out.as_mut_ptr(),
                    out.len(),
                )
            }
        }
    };
}

walk!(raw, tehkumir_raw, u8);
walk!(cursor, tehkumir_cursor, u8);
walk!(tree, tehkumir_tree, u64);

pub fn sheet(info: &[u8], unit: usize, t: &Table, n: usize, page: &mut [u8]) -> u64 {
    unsafe {
        ffi::tehkumir_sheet(
            info.as_ptr(),
            info.len(),
            unit as u64,
            false,
            t.rows.as_ptr(),
            t.rows.len(),
            t.specs.as_ptr(),
            t.specs.len(),
            n as u64,
            page.as_mut_ptr(),
            page.len(),
        )
    }
}

pub fn list(abbrevs: &[u8], info: &[u8], t: &mut Table, text: &mut [u8], out: &mut [u64]) -> u64 {
    let (rows, specs) = (&mut t.rows, &mut t.specs);
    unsafe {
        ffi::tehkumir_list(
            abbrevs.as_ptr(),
            abbrevs.len(),
            info.as_ptr(),
            info.len(),
            rows.as_mut_ptr(),
            rows.len(),
            specs.as_mut_ptr(),
            specs.len(),
            0,
            0,
            0,
            text.as_mut_ptr(),
            text.len(),
            out.as_mut_ptr(),
            out.len(),
        )
    }
}
