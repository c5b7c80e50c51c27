//! Document 01's added refusals and the words that gimli does not have, recomputed from the inputs alone. Nothing here
//! asks gimli or the port, so that a listed difference is let through only where its condition holds.

use crate::case::Enc;
use std::collections::HashMap;

pub const MAX_SECTION: usize = (1 << 31) - 1;

/// Start offset plus byte count above 2^63 - 1.
pub fn long_offset(start: u64, count: usize) -> bool {
    start as u128 + count as u128 > (1 << 63) - 1
}

// ---- LEB128 by document 01's limits: number and next place, or the refusal's number

pub fn uleb(b: &[u8], mut at: usize) -> Result<(u64, usize), u64> {
    let mut value = 0u64;
    for i in 0.. {
        let byte = *b.get(at).ok_or(2u64)?;
        at += 1;
        if i == 9 && byte > 1 {
            return Err(3);
        }
        value |= ((byte & 0x7f) as u64) << (7 * i);
        if byte < 0x80 {
            break;
        }
    }
    Ok((value, at))
}

pub fn uleb16(b: &[u8], mut at: usize) -> Result<(u64, usize), u64> {
    let mut value = 0u64;
    for i in 0..3 {
        let byte = *b.get(at).ok_or(2u64)?;
        at += 1;
        if i == 2 && byte > 3 {
            return Err(3);
        }
        value |= ((byte & 0x7f) as u64) << (7 * i);
        if byte < 0x80 {
            break;
        }
    }
    Ok((value, at))
}

pub fn sleb(b: &[u8], mut at: usize) -> Result<(i64, usize), u64> {
    let mut value = 0i128;
    for i in 0.. {
        let byte = *b.get(at).ok_or(2u64)?;
        at += 1;
        if i == 9 && byte != 0 && byte != 0x7f {
            return Err(4);
        }
        value |= ((byte & 0x7f) as i128) << (7 * i);
        if byte < 0x80 {
            if byte & 0x40 != 0 {
                value -= 1 << (7 * (i + 1));
            }
            break;
        }
    }
    Ok((value as i64, at))
}

pub fn skip_leb(b: &[u8], mut at: usize) -> Result<usize, u64> {
    loop {
        let byte = *b.get(at).ok_or(2u64)?;
        at += 1;
        if byte < 0x80 {
            return Ok(at);
        }
    }
}

// ---- padded numbers, by the definition: a shorter list of bytes is read to the same number

/// The bytes of the shortest list for an unsigned number: its bits by sevens.
pub fn shortest_unsigned(v: u64) -> usize {
    (64 - v.leading_zeros()).div_ceil(7).max(1) as usize
}

/// The same of a signed one: the least k with -2^(7k-1) <= z < 2^(7k-1).
pub fn shortest_signed(z: i64) -> usize {
    let holds = |k: &usize| {
        let half = 1i128 << (7 * k - 1);
        (-half..half).contains(&(z as i128))
    };
    (1..).find(holds).unwrap()
}

/// Reads every list of up to `most` bytes, by rising length; a number's first list has to have the length above. How
/// many lists there are for each reader, or the first number for which it is otherwise.
pub fn search_shortest(most: usize) -> Result<u64, String> {
    type Reading = fn(&[u8]) -> Option<(u64, usize)>;
    let readers: [Reading; 3] = [
        |b| uleb(b, 0).ok().map(|(v, _)| (v, shortest_unsigned(v))),
        |b| uleb16(b, 0).ok().map(|(v, _)| (v, shortest_unsigned(v))),
        |b| sleb(b, 0).ok().map(|(z, _)| (z as u64, shortest_signed(z))),
    ];
    for read in readers {
        let mut seen = std::collections::HashSet::new();
        for len in 1..=most {
            for digits in 0..1u64 << (7 * len) {
                let mut b = [0x80; 10];
                b.iter_mut().enumerate().for_each(|(i, x)| *x |= (digits >> (7 * i)) as u8 & 0x7f);
                b[len - 1] &= 0x7f;
                if let Some((v, least)) = read(&b[..len])
                    && seen.insert(v)
                    && least != len
                {
                    return Err(format!("{v:#x} in {len} bytes, not {least}"));
                }
            }
        }
    }
    Ok((1..=most).map(|len| 1 << (7 * len)).sum())
}

/// An attribute as it lies in the bytes.
pub struct Read {
    /// the place behind it
    pub next: usize,
    /// the form that its form is in the end
    pub form: u64,
    /// whether a number that names a form is padded
    pub named: bool,
    /// whether the number or the length that its value has is padded
    pub own: bool,
}

/// An attribute that gimli reads; None where there are too few bytes, or no such form, so that both disagree.
pub fn attribute(b: &[u8], mut at: usize, mut form: u64, c: &Enc) -> Option<Read> {
    let mut named = false;
    while form == 0x16 {
        let (inner, next) = uleb16(b, at).ok()?;
        named |= next - at > shortest_unsigned(inner);
        (form, at) = (inner, next);
    }
    let mut own = false;
    let len = match form {
        0x0a | 0x03 | 0x04 => {
            let width = count_width(form);
            let n = count(b, at, width, c.is_big)?;
            at += width;
            n
        }
        0x09 | 0x18 => {
            let (n, next) = uleb(b, at).ok()?;
            own = next - at > shortest_unsigned(n);
            at = next;
            n
        }
        0x0f | 0x15 | 0x1a | 0x1b | 0x22 | 0x23 | 0x1f01 | 0x1f02 => {
            let (v, next) = uleb(b, at).ok()?;
            own = next - at > shortest_unsigned(v);
            at = next;
            0
        }
        0x0d => {
            let (z, next) = sleb(b, at).ok()?;
            own = next - at > shortest_signed(z);
            at = next;
            0
        }
        0x08 => b.get(at..)?.iter().position(|x| *x == 0)? as u64 + 1,
        _ => size(form, c.version, c.is_64, c.width)?,
    };
    let next = at as u128 + len as u128;
    (next <= b.len() as u128).then_some(Read { next: next as usize, form, named, own })
}

// ---- tables

#[derive(Clone)]
pub struct Declaration {
    pub code: u64,
    pub tag: u64,
    pub children: u64,
    /// name, form, constant in two's complement
    pub specs: Vec<[u64; 3]>,
    /// of each whether its name or form is padded, and whether its constant is
    pub padded: Vec<(bool, bool)>,
}

/// By code what is padded in a table, where something is.
pub type Pairs = HashMap<u64, Vec<(bool, bool)>>;

pub fn padded_pairs(all: &[Declaration]) -> Pairs {
    let some = all.iter().filter(|d| d.padded.iter().any(|p| p.0 || p.1));
    some.map(|d| (d.code, d.padded.clone())).collect()
}

/// Pairs of an abbreviation, rows and specification rows at most.
#[derive(Clone, Copy)]
pub struct Limits {
    pub pairs: usize,
    pub rows: usize,
    pub specs: usize,
}

pub const NO_LIMITS: Limits = Limits { pairs: usize::MAX, rows: usize::MAX, specs: usize::MAX };

fn declaration(b: &[u8], at: &mut usize, pairs: usize) -> Result<Option<Declaration>, u64> {
    if *at == b.len() {
        return Ok(None);
    }
    let (code, next) = uleb(b, *at)?;
    if code == 0 {
        return Ok(None);
    }
    let (tag, next) = uleb16(b, next)?;
    if tag == 0 {
        return Err(9);
    }
    let children = *b.get(next).ok_or(2u64)? as u64;
    if children > 1 {
        return Err(10);
    }
    *at = next + 1;
    let (mut specs, mut padded) = (Vec::new(), Vec::new());
    loop {
        let from = *at;
        let (name, next) = uleb16(b, from)?;
        let (form, next) = uleb16(b, next)?;
        match (name, form) {
            (0, 0) => {
                *at = next;
                return Ok(Some(Declaration { code, tag, children, specs, padded }));
            }
            (0, _) => return Err(11),
            (_, 0) => return Err(12),
            _ => {}
        }
        if specs.len() == pairs {
            return Err(13);
        }
        let (constant, end) = if form == 0x21 { sleb(b, next)? } else { (0, next) };
        *at = end;
        specs.push([name, form, constant as u64]);
        padded.push((
            next - from > shortest_unsigned(name) + shortest_unsigned(form),
            form == 0x21 && end - next > shortest_signed(constant),
        ));
    }
}

/// The declarations in file order up to the first refusal, and its number or 0.
pub fn table(b: &[u8], offset: u64, limits: Limits) -> (u64, Vec<Declaration>) {
    let mut all: Vec<Declaration> = Vec::new();
    if offset > b.len() as u64 {
        return (2, all);
    }
    let mut at = offset as usize;
    let mut used = 0;
    let mut seen = std::collections::HashSet::new();
    loop {
        match declaration(b, &mut at, limits.pairs) {
            Err(n) => return (n, all),
            Ok(None) => return (0, all),
            Ok(Some(d)) => {
                if !seen.insert(d.code) {
                    return (14, all);
                }
                used += d.specs.len();
                if all.len() == limits.rows || used > limits.specs {
                    return (15, all);
                }
                all.push(d);
            }
        }
    }
}

// ---- rows

/// The lowest row with a code.
pub fn found_row(rows: &[u64], code: u64) -> Option<[u64; 5]> {
    if code == 0 {
        return None;
    }
    rows.chunks_exact(5).find(|r| r[0] == code).map(|r| r.try_into().unwrap())
}

/// Document 01: tag from 1 to 65,535, names and forms up to 65,535, children 0 or 1, at most 64
/// specifications inside their slice.
pub fn row_breaks(row: &[u64; 5], specs: &[u64]) -> bool {
    let [_, tag, children, first, count] = *row;
    if tag == 0 || tag > 65_535 || children > 1 || count > 64 {
        return true;
    }
    if first as u128 + count as u128 > (specs.len() / 3) as u128 {
        return true;
    }
    let from = first as usize * 3;
    specs[from..from + count as usize * 3].chunks_exact(3).any(|s| s[0] > 65_535 || s[1] > 65_535)
}

/// Whether a code is found in a row that breaks the sizes.
pub fn code_breaks(rows: &[u64], specs: &[u64], code: u64) -> bool {
    found_row(rows, code).is_some_and(|r| row_breaks(&r, specs))
}

// ---- skipping

/// Document 01's table of sizes.
fn size(form: u64, version: u16, is_64: bool, width: u8) -> Option<u64> {
    let word = if is_64 { 8 } else { 4 };
    Some(match form {
        0x19 | 0x21 => 0,
        0x0b | 0x0c | 0x11 | 0x25 | 0x29 => 1,
        0x05 | 0x12 | 0x26 | 0x2a => 2,
        0x27 | 0x2b => 3,
        0x06 | 0x13 | 0x1c | 0x28 | 0x2c => 4,
        0x07 | 0x14 | 0x20 | 0x24 => 8,
        0x1e => 16,
        0x0e | 0x17 | 0x1d | 0x1f | 0x1f20 | 0x1f21 => word,
        0x01 => width as u64,
        0x10 => {
            if version == 2 {
                width as u64
            } else {
                word
            }
        }
        _ => return None,
    })
}

/// The bytes of the count of a block of form 0x0a, 0x03 or 0x04; 0 for other forms.
fn count_width(form: u64) -> usize {
    match form {
        0x0a => 1,
        0x03 => 2,
        0x04 => 4,
        _ => 0,
    }
}

fn count(b: &[u8], at: usize, width: usize, is_big: bool) -> Option<u64> {
    let part = b.get(at..)?.get(..width)?;
    let digit = |n: u64, x: &u8| n << 8 | *x as u64;
    Some(if is_big { part.iter().fold(0, digit) } else { part.iter().rev().fold(0, digit) })
}

/// Whether the sum of sizes in gimli's skip_attributes reaches 2^64 before anything else is refused.
pub fn skip_wraps(
    b: &[u8],
    mut at: usize,
    forms: impl Iterator<Item = u64>,
    version: u16,
    is_64: bool,
    width: u8,
    is_big: bool,
) -> bool {
    let mut sum = 0u128;
    for mut form in forms {
        loop {
            if let Some(n) = size(form, version, is_64, width) {
                sum += n as u128;
                if sum >> 64 != 0 {
                    return true;
                }
                break;
            }
            if sum > (b.len() - at) as u128 {
                return false;
            }
            at += sum as usize;
            sum = 0;
            let fixed = count_width(form);
            if fixed != 0 {
                let Some(n) = count(b, at, fixed, is_big) else { return false };
                sum = n as u128;
                at += fixed;
                break;
            }
            match form {
                0x16 => match uleb16(b, at) {
                    Err(_) => return false,
                    Ok((f, next)) => {
                        form = f;
                        at = next;
                        continue;
                    }
                },
                0x09 | 0x18 => match uleb(b, at) {
                    Err(_) => return false,
                    Ok((n, next)) => {
                        sum = n as u128;
                        at = next;
                    }
                },
                0x08 => match b[at..].iter().position(|x| *x == 0) {
                    None => return false,
                    Some(n) => at += n + 1,
                },
                0x0d | 0x0f | 0x15 | 0x1a | 0x1b | 0x22 | 0x23 | 0x1f01 | 0x1f02 => match skip_leb(b, at) {
                    Err(_) => return false,
                    Ok(next) => at = next,
                },
                _ => return false,
            }
            break;
        }
    }
    false
}
