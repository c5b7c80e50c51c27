//! The port's exported functions, and one call for any case.

use crate::case::*;

#[cfg(not(noport))]
#[path = "../../include/tehkumir.rs"]
mod ffi;

/// Whether there is a port to ask, and whether it has a listing.
pub const PRESENT: bool = cfg!(not(noport));
pub const LISTS: bool = cfg!(list);

/// What is lent to a call to be written, and as much again behind each that is not.
#[derive(Default)]
pub struct Lent {
    pub out: Guarded<u64>,
    pub rows: Guarded<u64>,
    pub specs: Guarded<u64>,
    pub text: Guarded<u8>,
}

/// What stands in lent words before a call, and behind them also after it.
const STALE: u64 = 0xa5a5_5a5a_dead_beef;
const BEHIND: usize = 8;

pub trait Stale: Copy + PartialEq {
    const STALE: Self;
}
impl Stale for u64 {
    const STALE: u64 = STALE;
}
impl Stale for u8 {
    const STALE: u8 = 0xa5;
}

#[derive(Default)]
pub struct Guarded<T> {
    all: Vec<T>,
    len: usize,
}

impl<T: Stale> Guarded<T> {
    pub fn renew(&mut self, len: usize) {
        self.len = len;
        self.all.clear();
        self.all.resize(len + BEHIND, T::STALE);
    }

    /// Whether nothing was written behind.
    pub fn is_kept(&self) -> bool {
        self.all.iter().skip(self.len).all(|x| *x == T::STALE)
    }
}

impl<T> std::ops::Deref for Guarded<T> {
    type Target = [T];
    fn deref(&self) -> &[T] {
        &self.all[..self.len]
    }
}

impl<T> std::ops::DerefMut for Guarded<T> {
    fn deref_mut(&mut self) -> &mut [T] {
        &mut self.all[..self.len]
    }
}

/// Calls the port's function of a case and gives its status.
#[cfg(not(noport))]
pub fn call(case: &Case, lent: &mut Lent) -> u64 {
    use ffi::*;
    let b = case.bytes.as_ptr();
    let n = case.bytes.len();
    let p = case.n;
    let out = lent.out.as_mut_ptr();
    let len = lent.out.len();
    let none: &[u64] = &[];
    let (rows, specs) = case.table.as_ref().map_or((none, none), |t| (&t.rows[..], &t.specs[..]));
    let (r, rn, s, sn) = (rows.as_ptr(), rows.len(), specs.as_ptr(), specs.len());
    // SAFETY: every pointer is that of a slice beside its length, the lent ones are written by
    // nobody else, and a bool is made of a number here.
    unsafe {
        match case.kind {
            ULEB => tehkumir_read_uleb128(b, n, p[0] as usize, out, len),
            ULEB16 => tehkumir_read_uleb128_u16(b, n, p[0] as usize, out, len),
            SLEB => tehkumir_read_sleb128(b, n, p[0] as usize, out, len),
            SKIP_LEB => tehkumir_skip_leb128(b, n, p[0] as usize, out, len),
            WORD => tehkumir_read_word(b, n, p[0] as usize, p[1] as u8, p[2] != 0, out, len),
            INITIAL => tehkumir_read_initial_length(b, n, p[0] as usize, p[1] != 0, out, len),
            HEADER => tehkumir_unit_header(b, n, p[0], p[1] != 0, out, len),
            NEXT_UNIT => tehkumir_next_unit(b, n, p[0] as usize, p[1] != 0, out, len),
            TYPES_NEXT => tehkumir_types_next_unit(b, n, p[0] as usize, p[1] != 0, out, len),
            TYPE_ENTRY => tehkumir_type_entry(
                b,
                n,
                case.second.as_ptr(),
                case.second.len(),
                p[0],
                p[1] != 0,
                lent.rows.as_mut_ptr(),
                lent.rows.len(),
                lent.specs.as_mut_ptr(),
                lent.specs.len(),
                out,
                len,
            ),
            ENTRY => tehkumir_entry(b, n, p[0], p[1] as usize, p[2] != 0, r, rn, s, sn, out, len),
            TABLE => tehkumir_abbreviations(
                b,
                n,
                p[0],
                lent.rows.as_mut_ptr(),
                lent.rows.len(),
                lent.specs.as_mut_ptr(),
                lent.specs.len(),
                out,
                len,
            ),
            GET => tehkumir_get(r, rn, s, sn, p[0], out, len),
            ATTRIBUTE => tehkumir_read_attribute(
                b,
                n,
                p[0] as usize,
                p[1] as usize,
                p[2] as u16,
                p[3] != 0,
                p[4] as u8,
                p[5] != 0,
                p[6] as u16,
                p[7] as u16,
                p[8],
                out,
                len,
            ),
            RAW | RAW_LENT | CURSOR => {
                let calls: Vec<u8> = case.calls.iter().map(|x| *x as u8).collect();
                let (start, version, width) = (p[0] as usize, p[1] as u16, p[3] as u8);
                let (c, cn) = (calls.as_ptr(), calls.len());
                let f = match case.kind {
                    RAW => tehkumir_raw,
                    RAW_LENT => tehkumir_raw_lent,
                    _ => tehkumir_cursor,
                };
                f(b, n, start, version, p[2] != 0, width, p[4] != 0, r, rn, s, sn, c, cn, out, len)
            }
            TREE => tehkumir_tree(
                b,
                n,
                p[0] as usize,
                p[1] as u16,
                p[2] != 0,
                p[3] as u8,
                p[4] != 0,
                r,
                rn,
                s,
                sn,
                case.calls.as_ptr(),
                case.calls.len(),
                out,
                len,
            ),
            #[cfg(list)]
            LIST => tehkumir_list(
                case.second.as_ptr(),
                case.second.len(),
                b,
                n,
                lent.rows.as_mut_ptr(),
                lent.rows.len(),
                lent.specs.as_mut_ptr(),
                lent.specs.len(),
                p[0] as usize,
                p[1] as usize,
                p[2] as i64,
                lent.text.as_mut_ptr(),
                lent.text.len(),
                out,
                len,
            ),
            _ => unreachable!("no such kind"),
        }
    }
}

#[cfg(noport)]
pub fn call(_: &Case, _: &mut Lent) -> u64 {
    unreachable!("built without the port")
}
