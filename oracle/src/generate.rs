//! Inputs, the same for the same seed. A scene makes some bytes and puts several cases over them.

use crate::case::*;
use crate::gimli_side::{self, Chooser};
use crate::port::{self, Lent};
use crate::random::Rng;
use crate::rules;
use gimli::{DebugAbbrev, DebugAbbrevOffset, EndianSlice, RunTimeEndian};
use std::sync::Arc;

/// Where the cases of a scene go, with gimli's answer where it was asked already. It says whether more
/// are wanted.
pub type Sink<'a> = dyn FnMut(Case, Option<Answer>) -> bool + 'a;

/// All forms of document 01's table of sizes.
pub const FORMS: [u16; 47] = [
    0x01, 0x03, 0x04, 0x05, 0x06, 0x07, 0x08, 0x09, 0x0a, 0x0b, 0x0c, 0x0d, 0x0e, 0x0f, 0x10, 0x11, 0x12, 0x13, 0x14,
    0x15, 0x16, 0x17, 0x18, 0x19, 0x1a, 0x1b, 0x1c, 0x1d, 0x1e, 0x1f, 0x20, 0x21, 0x22, 0x23, 0x24, 0x25, 0x26, 0x27,
    0x28, 0x29, 0x2a, 0x2b, 0x2c, 0x1f01, 0x1f02, 0x1f20, 0x1f21,
];

/// Those of them that have a LEB128 number of their own, a length among them.
pub const NUMBERED: [u16; 11] = [0x09, 0x0d, 0x0f, 0x15, 0x18, 0x1a, 0x1b, 0x22, 0x23, 0x1f01, 0x1f02];

const UNKNOWN_FORMS: [u16; 8] = [0x00, 0x02, 0x2d, 0x7f, 0x1f00, 0x1f03, 0x1f22, 0xffff];

/// Names for which forms 06 and 07 can be a SecOffset, and some neighbours.
const NAMES_OF_NOTE: [u16; 20] = [
    0x02, 0x10, 0x19, 0x2a, 0x2c, 0x40, 0x43, 0x46, 0x48, 0x4a, 0x4d, 0x55, 0x79, 0x38, 0x38, 0x38, 0x01, 0x03, 0x11,
    0x12,
];

// ---- bytes

pub fn put_uleb(out: &mut Vec<u8>, mut v: u64) {
    loop {
        let byte = (v & 0x7f) as u8;
        v >>= 7;
        if v == 0 {
            out.push(byte);
            return;
        }
        out.push(byte | 0x80);
    }
}

/// In at least so many bytes.
pub fn put_uleb_padded(out: &mut Vec<u8>, mut v: u64, len: usize) {
    for i in 1.. {
        let byte = (v & 0x7f) as u8;
        v >>= 7;
        if v == 0 && i >= len {
            out.push(byte);
            return;
        }
        out.push(byte | 0x80);
    }
}

pub fn put_sleb(out: &mut Vec<u8>, mut v: i64) {
    loop {
        let byte = (v & 0x7f) as u8;
        v >>= 7;
        if (v == 0 && byte & 0x40 == 0) || (v == -1 && byte & 0x40 != 0) {
            out.push(byte);
            return;
        }
        out.push(byte | 0x80);
    }
}

/// In at least so many bytes, of which ten are the limit.
pub fn put_sleb_padded(out: &mut Vec<u8>, v: i64, len: usize) {
    let len = len.max(rules::shortest_signed(v));
    for i in 0..len {
        let digits = (v >> (7 * i).min(63)) as u8 & 0x7f;
        out.push(digits | if i + 1 < len { 0x80 } else { 0 });
    }
}

/// In so many of a hundred in more bytes than are needed, up to the limit.
fn put_any_uleb(rng: &mut Rng, out: &mut Vec<u8>, v: u64, percent: usize, most: usize) {
    let least = rules::shortest_unsigned(v);
    let len = if least < most && rng.percent(percent) { rng.within(least + 1, most) } else { least };
    put_uleb_padded(out, v, len);
}

fn put_any_sleb(rng: &mut Rng, out: &mut Vec<u8>, v: i64, percent: usize) {
    let least = rules::shortest_signed(v);
    let len = if least < 10 && rng.percent(percent) { rng.within(least + 1, 10) } else { least };
    put_sleb_padded(out, v, len);
}

pub fn put_word(out: &mut Vec<u8>, v: u64, width: usize, is_big: bool) {
    let digits: Vec<u8> = (0..width).map(|i| if i < 8 { (v >> (8 * i)) as u8 } else { 0 }).collect();
    if is_big {
        out.extend(digits.iter().rev());
    } else {
        out.extend(digits);
    }
}

fn put_uleb16(rng: &mut Rng, out: &mut Vec<u8>, v: u16) {
    put_any_uleb(rng, out, v as u64, 5, 3);
}

/// Flips bits, changes, cuts, leaves out or puts in bytes.
fn damage(rng: &mut Rng, b: &mut Vec<u8>) {
    for _ in 0..rng.within(1, 3) {
        let n = b.len();
        if n == 0 {
            return;
        }
        let at = rng.below(n);
        match rng.below(8) {
            0 | 1 => b[at] ^= 1 << rng.below(8),
            2 => b[at] = rng.byte(),
            3 => b[at] = rng.pick(&[0, 1, 0x7f, 0x80, 0xff, 0x21, 0x16]),
            4 => b.truncate(at),
            5 => {
                b.remove(at);
            }
            6 => b.insert(at, rng.pick(&[0, 0x80, 0xff, 1])),
            _ => {
                let to = (at + rng.within(1, 8)).min(n);
                b.drain(at..to);
            }
        }
    }
}

/// A place in so many bytes: at a likely one, anywhere, or past the end.
fn place(rng: &mut Rng, likely: usize, n: usize) -> u64 {
    match rng.below(12) {
        0 => n as u64,
        1 => n as u64 + rng.within(1, 3) as u64,
        2 => rng.below(n + 1) as u64,
        3 => rng.pick(&[u64::MAX, u64::MAX - 1, 1 << 63, (1 << 63) - 1, 1 << 32]),
        _ => likely as u64,
    }
}

// ---- numbers

/// Some bytes of a number, and behind them nothing but a sign of either kind: the last pads it or nearly does, for the
/// unsigned readers or the signed one.
fn signs_behind(rng: &mut Rng) -> Vec<u8> {
    let len = if rng.percent(30) { rng.within(1, 3) } else { rng.within(1, 10) };
    let own = rng.within(1, len);
    let mut b: Vec<u8> = (0..own).map(|_| rng.byte() | 0x80).collect();
    b.resize(len, rng.pick(&[0x80, 0xff]));
    b[len - 1] &= 0x7f;
    b
}

fn leb_bytes(rng: &mut Rng) -> Vec<u8> {
    let mut b = Vec::new();
    match rng.below(11) {
        8 | 9 => b = signs_behind(rng),
        10 => {
            let v = rng.number() as i64;
            put_any_sleb(rng, &mut b, v, 60)
        }
        0 => put_uleb(&mut b, rng.number()),
        1 => {
            let len = rng.within(1, 12);
            put_uleb_padded(&mut b, rng.number(), len)
        }
        2 => put_sleb(&mut b, rng.number() as i64),
        3 => {
            // nine, then the one that counts
            let fill = rng.pick(&[0x80, 0xff]);
            for _ in 0..9 {
                b.push(if rng.percent(70) { fill } else { 0x80 | rng.byte() });
            }
            b.push(rng.pick(&[0, 1, 2, 3, 0x3f, 0x40, 0x7e, 0x7f, 0x80, 0x81, 0xfe, 0xff]));
        }
        4 => {
            // two, then the third of a 16-bit number
            b.extend([0x80 | rng.byte(), 0x80 | rng.byte()]);
            b.push(rng.pick(&[0, 1, 2, 3, 4, 5, 0x7f, 0x80, 0x81, 0x83, 0x84, 0xff]));
        }
        5 => {
            let n = rng.below(14);
            b.resize(n, rng.pick(&[0x80, 0xff]));
        }
        6 => {
            let n = rng.below(12);
            b.extend((0..n).map(|_| rng.byte() | if rng.percent(60) { 0x80 } else { 0 }));
        }
        _ => {
            let n = rng.below(12);
            b = rng.bytes(n);
        }
    }
    b
}

fn numbers(rng: &mut Rng, sink: &mut Sink) -> bool {
    let lead = if rng.flip() { 0 } else { rng.below(5) };
    let mut b = rng.bytes(lead);
    b.extend(leb_bytes(rng));
    let tail = rng.below(4);
    b.extend(rng.bytes(tail));
    if rng.percent(15) {
        damage(rng, &mut b);
    }
    let at = place(rng, lead.min(b.len()), b.len());
    let b = Arc::new(b);
    [ULEB, ULEB16, SLEB, SKIP_LEB].iter().all(|k| sink(cut(rng, Case::new(*k, &b, &[at])), None))
}

/// Now and then too few words are lent for an answer.
fn cut(rng: &mut Rng, mut case: Case) -> Case {
    if rng.percent(4) {
        case.cut = Some(if rng.flip() { rng.below(16) } else { rng.below(1000) | 1 });
    }
    case
}

fn words(rng: &mut Rng, sink: &mut Sink) -> bool {
    let n = rng.below(24);
    let b = Arc::new(rng.bytes(n));
    for width in [1, 2, 3, 4, 8, rng.byte()] {
        let likely = rng.below(n + 1);
        let at = place(rng, likely, n);
        let case = Case::new(WORD, &b, &[at, width as u64, rng.flip() as u64]);
        if !sink(cut(rng, case), None) {
            return false;
        }
    }
    true
}

fn initial(rng: &mut Rng, sink: &mut Sink) -> bool {
    let is_big = rng.flip();
    let lead = rng.below(4);
    let mut b = rng.bytes(lead);
    let first = match rng.below(4) {
        0 => 0xffff_ffff,
        1 => 0xffff_ffea + rng.below(22) as u64,
        2 => rng.below(100) as u64,
        _ => rng.word() & 0xffff_ffff,
    };
    put_word(&mut b, first, 4, is_big);
    let second = rng.number();
    put_word(&mut b, second, 8, is_big);
    let keep = rng.pick(&[0, 3, 4, 8, 11, 12, 12, 12]);
    b.truncate(lead + keep);
    let at = place(rng, lead, b.len());
    let b = Arc::new(b);
    sink(cut(rng, Case::new(INITIAL, &b, &[at, is_big as u64])), None)
}

// ---- headers

#[derive(Clone, Copy)]
pub struct Head {
    pub version: u16,
    pub is_64: bool,
    pub width: u8,
    pub is_big: bool,
    /// of .debug_types, where versions 2 to 4 have a signature too
    pub is_types: bool,
    /// of version 5
    pub unit_type: u8,
    pub table: u64,
    pub signature: u64,
    pub type_offset: u64,
}

impl Head {
    /// What follows the length.
    fn fields(&self) -> Vec<u8> {
        let mut b = Vec::new();
        let word = if self.is_64 { 8 } else { 4 };
        put_word(&mut b, self.version as u64, 2, self.is_big);
        if self.version == 5 {
            b.extend([self.unit_type, self.width]);
            put_word(&mut b, self.table, word, self.is_big);
        } else {
            put_word(&mut b, self.table, word, self.is_big);
            b.push(self.width);
        }
        if matches!(self.type_(), 2 | 4 | 5 | 6) {
            put_word(&mut b, self.signature, 8, self.is_big);
        }
        if matches!(self.type_(), 2 | 6) {
            put_word(&mut b, self.type_offset, word, self.is_big);
        }
        b
    }

    fn type_(&self) -> u8 {
        match self.version {
            5 => self.unit_type,
            _ => 1 + self.is_types as u8,
        }
    }

    pub fn size(&self) -> usize {
        self.fields().len() + if self.is_64 { 12 } else { 4 }
    }

    /// A unit; its length is told wrong by `off`.
    pub fn unit(&self, entries: &[u8], off: i64) -> Vec<u8> {
        let fields = self.fields();
        let length = ((fields.len() + entries.len()) as u64).wrapping_add(off as u64);
        let mut b = Vec::new();
        if self.is_64 {
            put_word(&mut b, 0xffff_ffff, 4, self.is_big);
            put_word(&mut b, length, 8, self.is_big);
        } else {
            put_word(&mut b, length & 0xffff_ffff, 4, self.is_big);
        }
        b.extend(fields);
        b.extend(entries);
        b
    }
}

fn head(rng: &mut Rng, is_big: bool) -> Head {
    Head {
        version: rng.pick(&[2, 3, 4, 5, 5, 5]),
        is_64: rng.percent(40),
        width: rng.pick(&[1, 2, 4, 8]),
        is_big,
        is_types: false,
        unit_type: rng.within(1, 6) as u8,
        table: rng.number(),
        signature: rng.word(),
        type_offset: rng.number(),
    }
}

fn off(rng: &mut Rng) -> i64 {
    if rng.percent(90) {
        return 0;
    }
    match rng.below(4) {
        0 => -(rng.within(1, 12) as i64),
        1 => rng.within(1, 6) as i64,
        2 => rng.number() as i64,
        _ => -1,
    }
}

fn odd_head(rng: &mut Rng, is_big: bool) -> Head {
    let mut h = head(rng, is_big);
    match rng.below(12) {
        0 => h.version = rng.pick(&[0, 1, 6, 0x0200, 0x0500, 0xffff]),
        1 => h.width = rng.pick(&[0, 3, 5, 6, 7, 9, 16, 255]),
        2 => {
            h.version = 5;
            h.unit_type = rng.pick(&[0, 7, 0x80, 0xff]);
        }
        3 => {
            h.version = 5;
            h.unit_type = 7;
            h.width = 3;
        }
        _ => {}
    }
    h
}

fn headers(rng: &mut Rng, sink: &mut Sink) -> bool {
    let is_big = rng.flip();
    let lead = if rng.flip() { 0 } else { rng.below(20) };
    let mut b = rng.bytes(lead);
    let n = rng.below(12);
    let entries = rng.bytes(n);
    let mut h = odd_head(rng, is_big);
    h.is_types = rng.flip();
    b.extend(h.unit(&entries, off(rng)));
    let tail = if rng.flip() { 0 } else { rng.below(12) };
    b.extend(rng.bytes(tail));
    if rng.percent(40) {
        damage(rng, &mut b);
    }
    let order = if rng.percent(95) { is_big } else { !is_big } as u64;
    let b = Arc::new(b);
    [HEADER, NEXT_UNIT, TYPES_NEXT].iter().all(|k| {
        let at = place(rng, lead.min(b.len()), b.len());
        sink(cut(rng, Case::new(*k, &b, &[at, order])), None)
    })
}

fn unit_list(rng: &mut Rng, sink: &mut Sink) -> bool {
    let is_big = rng.flip();
    let is_types = rng.flip();
    let mut b = Vec::new();
    for _ in 0..rng.below(5) {
        let n = rng.below(20);
        let entries = rng.bytes(n);
        let mut h = if rng.percent(85) { head(rng, is_big) } else { odd_head(rng, is_big) };
        h.is_types = is_types;
        let wrong = if rng.percent(90) { 0 } else { off(rng) };
        b.extend(h.unit(&entries, wrong));
    }
    if rng.percent(25) {
        damage(rng, &mut b);
    }
    let kind = if is_types { TYPES_NEXT } else { NEXT_UNIT };
    whole_list(rng, kind, &Arc::new(b), is_big, sink)
}

/// The list of units of a section from its first to its last, and from any place.
fn whole_list(rng: &mut Rng, kind: u8, b: &Arc<Vec<u8>>, is_big: bool, sink: &mut Sink) -> bool {
    let order = is_big as u64;
    let mut at = 0;
    loop {
        let case = Case::new(kind, b, &[at, order]);
        let answer = crate::compare::expected(&case);
        let next = answer.words[0];
        let more = answer.status == 0 && answer.words[1] == 1;
        if !sink(case, Some(answer)) {
            return false;
        }
        at = next;
        if !more {
            break;
        }
    }
    // the list stays ended
    if !sink(Case::new(kind, b, &[at, order]), None) {
        return false;
    }
    let at = place(rng, 0, b.len());
    sink(cut(rng, Case::new(kind, b, &[at, order])), None)
}

// ---- tables

#[derive(Clone)]
pub struct Shape {
    pub code: u64,
    pub tag: u16,
    pub children: bool,
    pub specs: Vec<(u16, u16, i64)>,
}

fn codes(rng: &mut Rng, n: usize) -> Vec<u64> {
    let mut c: Vec<u64> = match rng.below(7) {
        0 | 1 => (1..=n as u64).collect(),
        2 => {
            let mut at = 0;
            (0..n)
                .map(|_| {
                    at += rng.within(1, 40) as u64;
                    at
                })
                .collect()
        }
        3 => (1..=n as u64).rev().collect(),
        4 => {
            let mut c: Vec<u64> = (1..=n as u64).collect();
            rng.shuffle(&mut c);
            c
        }
        5 => (0..n).map(|_| rng.number().max(1)).collect(),
        _ => (0..n).map(|_| rng.within(1, 2 * n + 2) as u64).collect(),
    };
    let mut seen = std::collections::HashSet::new();
    c.retain(|x| seen.insert(*x));
    c
}

fn name(rng: &mut Rng) -> u16 {
    match rng.below(10) {
        0..=4 => rng.pick(&NAMES_OF_NOTE),
        5 => rng.pick(&[0x7f, 0x80, 0x3fff, 0x4000, 0x7fff, 0xffff]),
        6 => (rng.word() as u16).max(1),
        _ => rng.within(1, 0x8c) as u16,
    }
}

fn form(rng: &mut Rng) -> u16 {
    rng.pick(&FORMS)
}

fn shape(rng: &mut Rng, code: u64) -> Shape {
    let count = match rng.below(20) {
        0..=2 => 0,
        3..=14 => rng.within(1, 5),
        15..=18 => rng.within(4, 12),
        _ => rng.within(12, 40),
    };
    let specs = (0..count)
        .map(|_| {
            let form = form(rng);
            (name(rng), form, if form == 0x21 { rng.number() as i64 } else { 0 })
        })
        .collect();
    Shape {
        code,
        tag: if rng.percent(80) { rng.within(1, 0x4b) as u16 } else { (rng.word() as u16).max(1) },
        children: rng.flip(),
        specs,
    }
}

pub fn put_table(rng: &mut Rng, shapes: &[Shape], out: &mut Vec<u8>) {
    for s in shapes {
        put_any_uleb(rng, out, s.code, 4, 10);
        put_uleb16(rng, out, s.tag);
        out.push(s.children as u8);
        for (name, form, constant) in &s.specs {
            put_uleb16(rng, out, *name);
            put_uleb16(rng, out, *form);
            if *form == 0x21 {
                put_any_sleb(rng, out, *constant, 30);
            }
        }
        out.extend([0, 0]);
    }
}

/// Makes a table of which one abbreviation is refused, or nearly.
fn spoil(rng: &mut Rng, shapes: &mut Vec<Shape>) {
    let i = rng.below(shapes.len());
    match rng.below(6) {
        0 => {
            let code = shapes[rng.below(shapes.len())].code;
            let at = rng.within(i, shapes.len());
            let again = shape(rng, code);
            shapes.insert(at, again);
        }
        1 => {
            // about as many pairs as there may be
            let count = rng.within(62, 68);
            shapes[i].specs = (0..count).map(|_| (name(rng), form(rng), 0)).collect();
            if rng.flip() {
                shapes[i].specs[count - 1].1 = 0x21;
                shapes[i].specs[count - 1].2 = rng.number() as i64;
            }
        }
        2 => {
            if let Some(s) = shapes[i].specs.first_mut() {
                s.0 = 0;
            }
        }
        3 => {
            if let Some(s) = shapes[i].specs.last_mut() {
                s.1 = 0;
            }
        }
        4 => shapes[i].tag = 0,
        _ => {
            if let Some(s) = shapes[i].specs.last_mut() {
                *s = (name(rng), rng.pick(&UNKNOWN_FORMS), 0);
            }
        }
    }
}

/// Words lent for rows of so many words, and some left over: as many rows as are needed, some more, or not enough.
fn room(rng: &mut Rng, need: usize, words: usize) -> usize {
    let rows = match rng.below(12) {
        0 => need,
        1 => need.saturating_sub(1),
        2 => rng.below(need + 1),
        3 => 0,
        _ => need + rng.within(0, 6),
    };
    rows * words + rng.below(words)
}

fn tables(rng: &mut Rng, sink: &mut Sink) -> bool {
    let n = match rng.below(10) {
        0 => 0,
        1..=6 => rng.within(1, 6),
        7 | 8 => rng.within(5, 20),
        _ => rng.within(20, 60),
    };
    let mut shapes: Vec<Shape> = codes(rng, n).into_iter().map(|c| shape(rng, c)).collect();
    if !shapes.is_empty() && rng.percent(38) {
        spoil(rng, &mut shapes);
    }
    let lead = if rng.percent(70) { 0 } else { rng.below(20) };
    let mut b = rng.bytes(lead);
    put_table(rng, &shapes, &mut b);
    match rng.below(6) {
        0 => {}
        1 => {
            b.push(0);
            let tail = rng.below(10);
            b.extend(rng.bytes(tail));
        }
        _ => b.push(0),
    }
    if rng.percent(35) {
        damage(rng, &mut b);
    }
    let offset = place(rng, lead.min(b.len()), b.len());
    let (_, all) = rules::table(&b, offset, rules::NO_LIMITS);
    let specs: usize = all.iter().map(|d| d.specs.len()).sum();
    let b = Arc::new(b);
    let turns = rng.within(1, 2);
    for _ in 0..turns {
        let mut case = Case::new(TABLE, &b, &[offset]);
        case.lent = (room(rng, all.len(), 5), room(rng, specs, 3));
        if !sink(cut(rng, case), None) {
            return false;
        }
    }
    true
}

// ---- values

#[derive(Clone, Copy)]
pub struct Unit {
    pub version: u16,
    pub is_64: bool,
    pub width: u8,
    pub is_big: bool,
}

fn unit(rng: &mut Rng) -> Unit {
    Unit {
        version: if rng.percent(97) { rng.within(2, 5) as u16 } else { rng.pick(&[0, 1, 6, 0x0200, 0xffff]) },
        is_64: rng.percent(40),
        width: if rng.percent(70) { rng.pick(&[1, 2, 4, 8, 4, 8]) } else { rng.byte() },
        is_big: rng.flip(),
    }
}

/// The bytes of a value; `wild` also lengths that no bytes follow.
pub fn put_value(rng: &mut Rng, form: u16, u: Unit, out: &mut Vec<u8>, wild: bool) {
    let word = if u.is_64 { 8 } else { 4 };
    let random = |rng: &mut Rng, out: &mut Vec<u8>, n: usize| {
        let v = rng.number();
        if n <= 8 && rng.flip() { put_word(out, v, n, u.is_big) } else { out.extend((0..n).map(|_| rng.byte())) }
    };
    match form {
        0x19 | 0x21 => {}
        0x0c => out.push(rng.pick(&[0, 1, 1, 2, 0x80, 0xff])),
        0x0b | 0x11 | 0x25 | 0x29 => random(rng, out, 1),
        0x05 | 0x12 | 0x26 | 0x2a => random(rng, out, 2),
        0x27 | 0x2b => random(rng, out, 3),
        0x06 | 0x13 | 0x1c | 0x28 | 0x2c => random(rng, out, 4),
        0x07 | 0x14 | 0x20 | 0x24 => random(rng, out, 8),
        0x1e => random(rng, out, 16),
        0x0e | 0x17 | 0x1d | 0x1f | 0x1f20 | 0x1f21 => random(rng, out, word),
        0x01 => random(rng, out, u.width as usize),
        0x10 => random(rng, out, if u.version == 2 { u.width as usize } else { word }),
        0x0a | 0x03 | 0x04 => {
            let width = match form {
                0x0a => 1,
                0x03 => 2,
                _ => 4,
            };
            let n = if rng.percent(90) { rng.below(6) } else { rng.below(60) };
            let told = if wild && rng.percent(10) { rng.number() } else { n as u64 };
            put_word(out, told, width, u.is_big);
            out.extend((0..n).map(|_| rng.byte()));
        }
        0x09 | 0x18 => {
            let n = if rng.percent(90) { rng.below(6) } else { rng.below(60) };
            let told = if wild && rng.percent(15) { u64::MAX - rng.below(300) as u64 } else { n as u64 };
            put_any_uleb(rng, out, told, 15, 10);
            out.extend((0..n).map(|_| rng.byte()));
        }
        0x0f | 0x15 | 0x1a | 0x1b | 0x22 | 0x23 | 0x1f01 | 0x1f02 => {
            let v = rng.number();
            put_any_uleb(rng, out, v, 15, 10);
            if wild && rng.percent(5) {
                let b = leb_bytes(rng);
                out.extend(b);
            }
        }
        0x0d => {
            if wild && rng.percent(15) {
                let b = leb_bytes(rng);
                out.extend(b);
            } else {
                let v = rng.number() as i64;
                put_any_sleb(rng, out, v, 20);
            }
        }
        0x08 => {
            let n = if rng.percent(90) { rng.below(8) } else { rng.below(80) };
            out.extend((0..n).map(|_| rng.byte().max(1)));
            out.push(0);
        }
        0x16 => {
            let inner = match rng.below(20) {
                0 | 3 => 0x16,
                1 if wild => rng.pick(&UNKNOWN_FORMS),
                2 if wild => 0x21,
                4..=8 => rng.pick(&NUMBERED),
                _ => rng.pick(&FORMS),
            };
            let inner = if inner == 0x21 && !wild { 0x0f } else { inner };
            put_any_uleb(rng, out, inner as u64, 20, 3);
            put_value(rng, inner, u, out, wild);
        }
        _ => {
            let n = rng.below(5);
            out.extend((0..n).map(|_| rng.byte()));
        }
    }
}

/// An offset at which a part of a unit with so many bytes starts.
fn start(rng: &mut Rng, n: usize) -> u64 {
    match rng.below(20) {
        0 => 0,
        1 => rng.below(256) as u64,
        2 => (1 << 32) - rng.below(40) as u64,
        3 => (1 << 31) - rng.below(40) as u64,
        4 => (1 << 62) - rng.below(100) as u64,
        5 => (1 << 63) - 1 - n as u64,
        6 if rng.percent(30) => (1 << 63) - n as u64,
        6 if rng.percent(30) => u64::MAX - rng.below(20) as u64,
        7 => rng.word() >> rng.within(2, 60),
        _ => rng.pick(&[11, 12, 23, 24, 20, 24, 40]),
    }
}

fn values(rng: &mut Rng, sink: &mut Sink) -> bool {
    let u = unit(rng);
    let form = match rng.below(20) {
        0 => rng.pick(&UNKNOWN_FORMS),
        1 => rng.word() as u16,
        2 | 3 => rng.pick(&[0x06, 0x07]),
        4 | 5 => 0x16,
        6 => rng.pick(&[0x01, 0x10]),
        _ => form(rng),
    };
    let lead = if rng.percent(60) { 0 } else { rng.below(10) };
    let mut b = rng.bytes(lead);
    put_value(rng, form, u, &mut b, true);
    let tail = if rng.flip() { 0 } else { rng.below(12) };
    b.extend(rng.bytes(tail));
    if rng.percent(15) {
        let n = rng.within(lead.min(b.len()), b.len());
        b.truncate(n);
    }
    if rng.percent(8) {
        damage(rng, &mut b);
    }
    let at = if rng.percent(70) { lead.min(b.len()) as u64 } else { place(rng, lead.min(b.len()), b.len()) };
    let b = Arc::new(b);
    // the same bytes for other names, versions and formats
    for _ in 0..3 {
        let s = start(rng, b.len());
        let v = if rng.percent(70) { u } else { unit(rng) };
        let name = if rng.percent(70) { rng.pick(&NAMES_OF_NOTE) } else { rng.word() as u16 };
        let constant = if form == 0x21 || rng.percent(5) { rng.number() } else { 0 };
        let numbers = [
            s,
            at,
            v.version as u64,
            v.is_64 as u64,
            v.width as u64,
            v.is_big as u64,
            name as u64,
            form as u64,
            constant,
        ];
        if !sink(cut(rng, Case::new(ATTRIBUTE, &b, &numbers)), None) {
            return false;
        }
    }
    true
}

// ---- entries

const REFS: [u16; 6] = [0x11, 0x12, 0x13, 0x14, 0x15, 0x16];

/// A table with which entries can be built: with siblings, and an implicit constant now and then.
fn entry_shapes(rng: &mut Rng) -> Vec<Shape> {
    let n = if rng.percent(90) { rng.within(1, 8) } else { rng.within(8, 30) };
    codes(rng, n)
        .into_iter()
        .map(|c| {
            let mut s = shape(rng, c);
            if rng.percent(5) {
                // up to as many values as an entry may carry
                let count = if rng.flip() { rng.within(60, 64) } else { rng.within(24, 60) };
                s.specs = (0..count).map(|_| (name(rng).max(2), rng.pick(&[0x0b, 0x0f, 0x08, 0x19]), 0)).collect();
            }
            if rng.percent(3) {
                s.specs.push((name(rng), rng.pick(&UNKNOWN_FORMS).max(2), 0));
            }
            s.children = rng.percent(65);
            if rng.percent(if s.children { 55 } else { 10 }) {
                let at = rng.below(s.specs.len() + 1);
                let form = if rng.percent(95) { rng.pick(&REFS) } else { rng.pick(&FORMS) };
                s.specs.insert(at, (1, form, 0));
                if rng.percent(5) {
                    let at = rng.below(s.specs.len() + 1);
                    s.specs.insert(at, (1, rng.pick(&REFS), 0));
                }
            }
            s.specs.truncate(64);
            s
        })
        .collect()
}

/// A sibling reference to be set when all is laid out.
struct Patch {
    at: usize,
    form: u16,
    len: usize,
    /// the entry's own place, where its values end, and where its children end
    own: usize,
    values: usize,
    end: usize,
}

struct Builder<'a> {
    rng: &'a mut Rng,
    shapes: &'a [Shape],
    unit: Unit,
    start: u64,
    wild: bool,
    bytes: Vec<u8>,
    items: Vec<usize>,
    patches: Vec<Patch>,
    left: usize,
}

impl Builder<'_> {
    fn sibling(&mut self, form: u16, own: usize) {
        let mut inner = form;
        if form == 0x16 {
            inner = self.rng.pick(&[0x11, 0x12, 0x13, 0x14, 0x15]);
            put_uleb16(self.rng, &mut self.bytes, inner);
        }
        let len = match inner {
            0x11 => 1,
            0x12 => 2,
            0x13 => 4,
            0x14 => 8,
            _ if self.start < 1 << 20 => self.rng.within(3, 5),
            _ => 10,
        };
        let at = self.bytes.len();
        self.bytes.resize(at + len, 0);
        self.patches.push(Patch { at, form: inner, len, own, values: 0, end: 0 });
    }

    fn null(&mut self) {
        self.items.push(self.bytes.len());
        if self.rng.percent(3) {
            let len = self.rng.within(2, 4);
            put_uleb_padded(&mut self.bytes, 0, len);
        } else {
            self.bytes.push(0);
        }
    }

    fn entry(&mut self, depth: usize) {
        self.left = self.left.saturating_sub(1);
        let mut s = self.rng.below(self.shapes.len());
        if !self.shapes[s].children && depth < 3 && self.rng.flip() {
            s = self.rng.below(self.shapes.len());
        }
        let shape = &self.shapes[s];
        let own = self.bytes.len();
        self.items.push(own);
        put_any_uleb(self.rng, &mut self.bytes, shape.code, 6, 10);
        let first = self.patches.len();
        for (name, form, _) in &shape.specs {
            if *name == 1 && REFS.contains(form) && self.rng.percent(97) {
                self.sibling(*form, own);
            } else {
                put_value(self.rng, *form, self.unit, &mut self.bytes, self.wild);
            }
        }
        let last = self.patches.len();
        let values = self.bytes.len();
        if shape.children {
            let count = if depth > 30 { 0 } else { self.rng.pick(&[0, 0, 1, 1, 2, 2, 3, 5]) };
            for _ in 0..count {
                if self.left == 0 {
                    break;
                }
                self.entry(depth + 1);
            }
            if self.rng.percent(96) {
                self.null();
            }
        }
        for p in &mut self.patches[first..last] {
            p.values = values;
            p.end = self.bytes.len();
        }
        for p in &mut self.patches[first..last] {
            p.end = self.bytes.len();
        }
    }

    fn patch(&mut self) {
        let n = self.bytes.len();
        for p in std::mem::take(&mut self.patches) {
            let (start, rng) = (self.start, &mut *self.rng);
            let target = match rng.below(24) {
                0..=12 => start + p.end as u64,
                13 => start + n as u64,
                14 => start + n as u64 + rng.within(1, 3) as u64,
                15 => start + p.own as u64 + rng.below(2) as u64,
                16 => start.saturating_sub(rng.below(12) as u64) + rng.below(p.own + 1) as u64,
                17 => start + rng.within(p.own, p.values) as u64,
                18 => start + p.values as u64,
                19 => start + p.values as u64 - 1,
                20 | 21 => start + rng.below(n + 1) as u64,
                22 => start + rng.pick(&self.items) as u64,
                _ => rng.number(),
            };
            let mut v = Vec::new();
            if p.form == 0x15 {
                put_uleb_padded(&mut v, target & (u64::MAX >> 64usize.saturating_sub(7 * p.len)), p.len);
            } else {
                put_word(&mut v, target, p.len, self.unit.is_big);
            }
            v.truncate(p.len);
            self.bytes[p.at..p.at + v.len()].copy_from_slice(&v);
        }
    }
}

pub struct Entries {
    pub bytes: Vec<u8>,
    pub items: Vec<usize>,
}

pub fn entries(rng: &mut Rng, shapes: &[Shape], unit: Unit, start: u64, wild: bool) -> Entries {
    let left = rng.pick(&[3, 8, 15, 30, 30, 60]);
    let mut b =
        Builder { rng, shapes, unit, start, wild, bytes: Vec::new(), items: Vec::new(), patches: Vec::new(), left };
    let roots = b.rng.pick(&[1, 1, 1, 1, 2, 3]);
    for _ in 0..roots {
        if b.rng.percent(3) {
            b.null();
        }
        b.entry(0);
    }
    if b.rng.percent(25) {
        for _ in 0..b.rng.within(1, 4) {
            b.null();
        }
    }
    b.patch();
    Entries { bytes: b.bytes, items: b.items }
}

// ---- rows

#[derive(Clone, Copy, PartialEq)]
pub enum Layout {
    /// as the port's own table call leaves them
    Port,
    /// in file order
    Plain,
    /// in any order, with unused rows, repeated codes, and words left over
    Forged,
}

fn row(s: &Shape, first: usize) -> [u64; 5] {
    [s.code, s.tag as u64, s.children as u64, first as u64, s.specs.len() as u64]
}

fn spec_words(s: &Shape) -> Vec<u64> {
    s.specs.iter().flat_map(|(n, f, c)| [*n as u64, *f as u64, *c as u64]).collect()
}

/// A row that breaks document 01's sizes.
fn broken_row(rng: &mut Rng, s: &Shape, specs: &mut Vec<u64>) -> [u64; 5] {
    let first = specs.len() / 3;
    specs.extend(spec_words(s));
    let mut r = row(s, first);
    match rng.below(8) {
        0 => r[1] = 0,
        1 => r[1] = rng.pick(&[65_536, 1 << 32, u64::MAX]),
        2 => r[2] = rng.pick(&[2, 256, u64::MAX]),
        3 => r[3] = rng.pick(&[u64::MAX, u64::MAX - r[4], 1 << 62, 1 << 32]),
        4 => {
            // one too many, in their slice
            specs.truncate(first * 3);
            for _ in 0..65 {
                specs.extend([rng.pick(&[3, 3, 3, 1]), rng.pick(&[0x0b, 0x19]), 0]);
            }
            r[4] = 65;
        }
        5 => r[4] = rng.pick(&[65, 1 << 32, u64::MAX]),
        6 if !s.specs.is_empty() => {
            let at = (first + rng.below(s.specs.len())) * 3 + rng.below(2);
            specs[at] = rng.pick(&[65_536, 1 << 40, u64::MAX]);
        }
        _ => r[1] += 65_536,
    }
    r
}

/// A table in rows of a layout. Codes of `broken` get rows that break the sizes, and gimli's table lacks
/// them.
pub fn make_table(rng: &mut Rng, shapes: &[Shape], broken: &[u64], layout: Layout) -> Option<Arc<Table>> {
    let kept: Vec<Shape> = shapes.iter().filter(|s| !broken.contains(&s.code)).cloned().collect();
    let mut section = Vec::new();
    put_table(rng, &kept, &mut section);
    if rng.percent(80) {
        section.push(0);
    }
    let gimli = DebugAbbrev::from(EndianSlice::new(&section[..], RunTimeEndian::Little))
        .abbreviations(DebugAbbrevOffset(0))
        .ok()?;
    let size: usize = kept.iter().map(|s| s.specs.len()).sum();
    let (mut rows, mut specs) = (Vec::new(), Vec::new());
    match layout {
        Layout::Port if port::PRESENT => {
            let spare = rng.below(3);
            let mut case = Case::new(TABLE, &Arc::new(section.clone()), &[0]);
            case.lent = ((kept.len() + spare) * 5 + rng.below(5), (size + spare) * 3 + rng.below(3));
            let mut lent = Lent::default();
            lent.rows.renew(case.lent.0);
            lent.specs.renew(case.lent.1);
            port::call(&case, &mut lent);
            (rows, specs) = (lent.rows.to_vec(), lent.specs.to_vec());
        }
        Layout::Port | Layout::Plain => {
            for s in &kept {
                rows.extend(row(s, specs.len() / 3));
                specs.extend(spec_words(s));
            }
        }
        Layout::Forged => {
            let mut order: Vec<&Shape> = shapes.iter().collect();
            rng.shuffle(&mut order);
            for s in order {
                if rng.percent(20) {
                    let gap = rng.within(1, 2);
                    rows.resize(rows.len() + gap * 5, 0);
                }
                if rng.percent(20) {
                    specs.extend([rng.word(), rng.word(), rng.word()]);
                }
                if broken.contains(&s.code) {
                    let r = broken_row(rng, s, &mut specs);
                    rows.extend(r);
                } else {
                    rows.extend(row(s, specs.len() / 3));
                    specs.extend(spec_words(s));
                }
                if rng.percent(10) {
                    // a later row with the same code is not asked
                    rows.extend([s.code, rng.word(), rng.word(), rng.word(), rng.word()]);
                }
            }
            let spare = rng.below(5);
            rows.extend((0..spare).map(|_| rng.word()));
            let spare = rng.below(3);
            specs.extend((0..spare).map(|_| rng.word()));
            // a row for a broken code has to be one
            for code in broken {
                if !rules::code_breaks(&rows, &specs, *code) {
                    return None;
                }
            }
        }
    }
    let padded = rules::padded_pairs(&rules::table(&section, 0, rules::NO_LIMITS).1);
    Some(Arc::new(Table { section, gimli, rows, specs, size, padded }))
}

// ---- scripts

/// Levels by what the tree holds.
pub struct Levels<'a> {
    pub rng: &'a mut Rng,
    pub count: usize,
    /// only such as gimli can be asked
    pub askable: bool,
    pub failed_roots: usize,
}

impl Chooser for Levels<'_> {
    fn next(&mut self, done: usize, depth: i64, standing: i64, _: bool) -> Option<u64> {
        if done >= self.count {
            return None;
        }
        if standing == 0 {
            self.failed_roots += 1;
            if self.askable || self.failed_roots > 4 {
                return (self.failed_roots < 4).then_some(0);
            }
            return Some(if self.rng.percent(80) { 0 } else { self.rng.pick(&[1, 2, u64::MAX, 1 << 63]) });
        }
        let rng = &mut *self.rng;
        let k = match rng.below(20) {
            0..=8 => depth + 1,
            9..=12 => depth,
            13 | 14 => depth - 1,
            15 => 1,
            16 => rng.within(1, (depth.max(0) + 1) as usize) as i64,
            17 if rng.percent(30) => 0,
            18 if rng.percent(40) => {
                rng.pick(&[depth + 2, depth + 3, -1, -depth, i64::MIN, i64::MAX, 1 << 32, depth.wrapping_mul(1000)])
            }
            _ => standing,
        };
        if self.askable {
            return Some(k.clamp(0, standing) as u64);
        }
        Some(k as u64)
    }
}

/// Depth first through the whole tree.
pub struct Whole {
    pub most: usize,
}

impl Chooser for Whole {
    fn next(&mut self, done: usize, depth: i64, standing: i64, reached: bool) -> Option<u64> {
        if done == 0 {
            return Some(0);
        }
        if done >= self.most || standing == 0 {
            return None;
        }
        if reached {
            return Some(depth as u64 + 1);
        }
        // this level said no more
        (standing > 1).then_some(standing as u64 - 1)
    }
}

fn cursor_calls(rng: &mut Rng, n: usize) -> Vec<u64> {
    let mode = rng.below(6);
    (0..n)
        .map(|i| match mode {
            0 => 0,
            1 => 1,
            2 if i < 2 => 0,
            2 => 2,
            3 => rng.pick(&[0, 2, 2, 2]),
            _ => rng.pick(&[0, 0, 1, 1, 2, 2, 2, 3, 255]),
        })
        .collect()
}

fn raw_calls(rng: &mut Rng, n: usize) -> Vec<u64> {
    let mode = rng.below(4);
    (0..n)
        .map(|_| match mode {
            0 => 0,
            1 => 1,
            _ => rng.pick(&[0, 0, 1, 1, 2, 255]),
        })
        .collect()
}

/// A table and entries by it; every kind of case over them. In a sample the rows are those of the table's
/// bytes, and only such cases come as gimli can answer alone.
pub fn units(rng: &mut Rng, sink: &mut Sink, sample: bool) -> bool {
    let shapes = entry_shapes(rng);
    let mut u = unit(rng);
    let mut h = head(rng, u.is_big);
    if rng.percent(70) {
        // as a header would have it
        u.version = h.version;
        u.is_64 = h.is_64;
        u.width = h.width;
    }
    let first = if rng.percent(60) { h.size() as u64 } else { start(rng, 0) };
    let wild = rng.percent(30);
    let mut e = entries(rng, &shapes, u, first.min(1 << 62), wild);
    match rng.below(10) {
        0..=2 => damage(rng, &mut e.bytes),
        3 => {
            let n = rng.below(e.bytes.len() + 1);
            e.bytes.truncate(n);
        }
        _ => {}
    }
    let mut broken: Vec<u64> = Vec::new();
    let mut layout = rng.pick(&[Layout::Port, Layout::Port, Layout::Plain, Layout::Forged]);
    if sample {
        layout = Layout::Plain;
    } else if rng.percent(15) {
        layout = Layout::Forged;
        broken.extend(shapes.iter().map(|s| s.code).filter(|_| rng.percent(25)));
    }
    let Some(table) = make_table(rng, &shapes, &broken, layout) else { return true };
    let b = Arc::new(e.bytes);

    if broken.is_empty() {
        let mut case = Case::new(TABLE, &Arc::new(table.section.clone()), &[0]);
        case.lent = ((shapes.len() + rng.below(2)) * 5, (table.size + rng.below(2)) * 3);
        if !sink(case, None) {
            return false;
        }
    }
    for _ in 0..3 {
        let code = match rng.below(8) {
            0 => 0,
            1 => rng.number(),
            2 => shapes.len() as u64 + 1,
            _ => shapes[rng.below(shapes.len())].code,
        };
        if !sink(cut(rng, Case::new(GET, &b, &[code]).with(&table)), None) {
            return false;
        }
    }

    let item = |rng: &mut Rng, items: &[usize]| match items.len() {
        0 => 0,
        n => items[rng.below(n)],
    };
    let part = |rng: &mut Rng, kind: u8| {
        // all, or from an item on
        let from = if rng.percent(85) { 0 } else { item(rng, &e.items).min(b.len()) };
        let mut s = first;
        if rng.percent(4) {
            s = start(rng, b.len());
        } else if !rules::long_offset(first, b.len()) {
            s = first + from as u64;
        }
        let bytes = if from == 0 { b.clone() } else { Arc::new(b[from..].to_vec()) };
        let n = [s, u.version as u64, u.is_64 as u64, u.width as u64, u.is_big as u64];
        Case::new(kind, &bytes, &n).with(&table)
    };
    let most = e.items.len() + 4;
    let count = |rng: &mut Rng| if rng.percent(40) { most } else { rng.within(1, most.min(40)) };

    for _ in 0..4 {
        let mut case = part(rng, RAW);
        let n = count(rng);
        case.calls = raw_calls(rng, n);
        let mut answer = Some(crate::compare::expected(&case));
        let said = &answer.as_ref().unwrap().said;
        if let Some(i) = said.iter().position(|s| *s != 0) {
            // the state is kept, so that what follows repeats itself unless it is another call
            if i + 4 < case.calls.len() {
                case.calls.truncate(i + 4);
                answer = None;
            }
        }
        if !sink(cut(rng, case), answer) {
            return false;
        }
    }
    for _ in 0..5 {
        let mut case = part(rng, CURSOR);
        let n = count(rng);
        case.calls = cursor_calls(rng, n);
        if !sink(cut(rng, case), None) {
            return false;
        }
    }
    for i in 0..5 {
        let mut case = part(rng, TREE);
        if !gimli_side::can_open(&case) {
            continue;
        }
        let n = count(rng);
        let went = crate::compare::caught(|| {
            if i == 0 {
                gimli_side::tree(&case, &mut Whole { most: 3 * most })
            } else {
                gimli_side::tree(&case, &mut Levels { rng: &mut *rng, count: n, askable: sample, failed_roots: 0 })
            }
        });
        let (answer, calls) = went.unwrap_or_else(|| (crate::compare::panicked(), Vec::new()));
        case.calls = calls;
        if !sink(cut(rng, case), Some(answer)) {
            return false;
        }
    }

    // a section around them
    if rng.percent(10) {
        h = odd_head(rng, u.is_big);
    }
    if rng.percent(60) {
        h.table = 0;
    }
    let lead = if rng.percent(70) { 0 } else { rng.below(30) };
    let mut section = rng.bytes(lead);
    let wrong = if rng.percent(95) { 0 } else { off(rng) };
    section.extend(h.unit(&b, wrong));
    let tail = if rng.flip() { 0 } else { rng.below(16) };
    section.extend(rng.bytes(tail));
    let section = Arc::new(section);
    let order = u.is_big as u64;
    for _ in 0..5 {
        let size = h.size();
        let offset = match rng.below(10) {
            0 => rng.below(size + 1),
            1 => size + b.len() - rng.below(2).min(b.len()),
            2 => size + rng.below(b.len() + 2),
            3 => rng.number() as usize,
            _ => size + item(rng, &e.items),
        };
        let at = if rng.percent(95) { lead as u64 } else { place(rng, lead, section.len()) };
        let case = Case::new(ENTRY, &section, &[at, offset as u64, order]).with(&table);
        if !sink(cut(rng, case), None) {
            return false;
        }
    }
    if !sink(Case::new(HEADER, &section, &[lead as u64, order]), None) {
        return false;
    }
    if port::LISTS && !u.is_big {
        let mut case = Case::new(LIST, &section, &[0, 0, 0, rng.pick(&[0, 71, 72, 100, 400, 4000])]);
        case.second = Arc::new(table.section.clone());
        case.lent = ((shapes.len() + rng.below(2)) * 5, (table.size + rng.below(2)) * 3);
        if rng.flip() {
            let places = crate::gimli_side::places(&case);
            case.n[..3].copy_from_slice(&rng.pick(&places));
        }
        return sink(case, None);
    }
    true
}

/// Blocks longer than all bytes, before values of known sizes: the sum of skip_attributes wraps.
fn long_blocks(rng: &mut Rng, sink: &mut Sink) -> bool {
    let u = unit(rng);
    let mut specs = Vec::new();
    for _ in 0..rng.below(3) {
        specs.push((3, rng.pick(&[0x0b, 0x0f, 0x08, 0x19]), 0));
    }
    specs.push((3, rng.pick(&[0x09, 0x18, 0x16]), 0));
    let long = specs.len() - 1;
    for _ in 0..rng.within(0, 5) {
        specs.push((3, rng.pick(&[0x0b, 0x05, 0x06, 0x07, 0x1e, 0x01, 0x10, 0x17, 0x19, 0x0f, 0x09, 0x02]), 0));
    }
    let shapes = [Shape { code: 1, tag: 0x34, children: rng.flip(), specs }];
    let Some(table) = make_table(rng, &shapes, &[], Layout::Plain) else { return true };
    let mut b = vec![1];
    for (i, (_, form, _)) in shapes[0].specs.iter().enumerate() {
        if i != long {
            put_value(rng, *form, u, &mut b, false);
            continue;
        }
        if *form == 0x16 {
            b.push(rng.pick(&[0x09, 0x18]));
        }
        put_uleb(&mut b, u64::MAX - rng.below(40) as u64);
    }
    let tail = rng.below(20);
    b.extend(rng.bytes(tail));
    let s = start(rng, b.len());
    let n = [s, u.version as u64, u.is_64 as u64, u.width as u64, u.is_big as u64];
    let b = Arc::new(b);
    for kind in [RAW, RAW, CURSOR] {
        let mut case = Case::new(kind, &b, &n).with(&table);
        case.calls = vec![1, rng.below(2) as u64, rng.below(3) as u64];
        if !sink(cut(rng, case), None) {
            return false;
        }
    }
    true
}

/// Listings of whole sections: several units with tables at several offsets.
fn listings(rng: &mut Rng, sink: &mut Sink) -> bool {
    let mut abbrevs = Vec::new();
    let mut info = Vec::new();
    let mut need = (0, 0);
    for _ in 0..rng.within(0, 3) {
        let shapes = entry_shapes(rng);
        let mut h = head(rng, false);
        h.table = abbrevs.len() as u64;
        if rng.percent(5) {
            h.table += rng.below(4) as u64;
        }
        let u = Unit { version: h.version, is_64: h.is_64, width: h.width, is_big: false };
        let e = entries(rng, &shapes, u, h.size() as u64, false);
        put_table(rng, &shapes, &mut abbrevs);
        abbrevs.push(0);
        let keep = if rng.percent(10) { 0 } else { e.bytes.len() };
        info.extend(h.unit(&e.bytes[..keep], 0));
        need.0 = shapes.len().max(need.0);
        need.1 = shapes.iter().map(|s| s.specs.len()).sum::<usize>().max(need.1);
    }
    if rng.percent(25) {
        let which = if rng.flip() { &mut info } else { &mut abbrevs };
        damage(rng, which);
    }
    let info = Arc::new(info);
    let less = rng.percent(3) as usize;
    let lent = ((need.0 - less.min(need.0)) * 5 + rng.below(5), (need.1 + rng.below(3)) * 3);
    let mut place = [0; 3];
    // in pieces, with the same words lent
    let room = rng.pick(&[72, 100, 300, 1000, 8000]);
    for _ in 0..8 {
        let mut case = Case::new(LIST, &info, &[place[0], place[1], place[2], room]);
        case.second = Arc::new(abbrevs.clone());
        case.lent = lent;
        let answer = crate::compare::expected(&case);
        let more = answer.words[2];
        place.copy_from_slice(&answer.words[3..6]);
        if !sink(case, Some(answer)) {
            return false;
        }
        if more == 0 {
            break;
        }
    }
    true
}

// ---- types by their signatures

/// Tables one after the other, and the rows that the largest of them needs.
#[derive(Default)]
struct Tables {
    section: Vec<u8>,
    all: Vec<(u64, Vec<Shape>)>,
    rows: usize,
    specs: usize,
}

impl Tables {
    fn add(&mut self, rng: &mut Rng) {
        let shapes = entry_shapes(rng);
        let mut written = shapes.clone();
        if rng.percent(10) {
            spoil(rng, &mut written);
        }
        self.all.push((self.section.len() as u64, shapes));
        let from = self.section.len();
        put_table(rng, &written, &mut self.section);
        self.section.push(0);
        if rng.percent(8) {
            let mut own = self.section.split_off(from);
            damage(rng, &mut own);
            self.section.extend(own);
        }
        self.rows = written.len().max(self.rows);
        self.specs = written.iter().map(|s| s.specs.len()).sum::<usize>().max(self.specs);
    }

    /// A new one, or one that other units have.
    fn pick(&mut self, rng: &mut Rng) -> (u64, Vec<Shape>) {
        if self.all.is_empty() || rng.percent(60) {
            self.add(rng);
        }
        self.all[rng.below(self.all.len())].clone()
    }
}

/// An offset for the type of a unit: that of an item, or around the unit's limits.
fn type_offset(rng: &mut Rng, size: usize, e: &Entries) -> u64 {
    let end = size + e.bytes.len();
    let (nulls, entries): (Vec<usize>, Vec<usize>) = e.items.iter().partition(|i| e.bytes.get(**i) == Some(&0));
    let at = match rng.below(30) {
        0 => size - 1,
        1 => size,
        2 => end - 1,
        3 => end,
        4 => end + rng.within(1, 3),
        5 => rng.below(size),
        6 => rng.within(size, end),
        7 => return rng.number(),
        8 => return rng.pick(&[u64::MAX, 1 << 63, 1 << 32, (1 << 32) + size as u64, u64::MAX - size as u64]),
        9 | 10 if !nulls.is_empty() => size + rng.pick(&nulls),
        _ if !entries.is_empty() => size + rng.pick(&entries),
        _ => size,
    };
    at as u64
}

fn type_unit(rng: &mut Rng, is_big: bool, signatures: &[u64], tables: &mut Tables) -> Vec<u8> {
    let mut h = if rng.percent(88) { head(rng, is_big) } else { odd_head(rng, is_big) };
    h.is_types = true;
    h.signature = rng.pick(signatures);
    let (table, shapes) = tables.pick(rng);
    h.table = if rng.percent(95) { table } else { place(rng, table as usize, tables.section.len()) };
    let u = Unit { version: h.version, is_64: h.is_64, width: h.width, is_big };
    let wild = rng.flip();
    let mut e = entries(rng, &shapes, u, h.size() as u64, wild);
    match rng.below(16) {
        0 => e.bytes.clear(),
        1 => {
            let n = rng.below(e.bytes.len() + 1);
            e.bytes.truncate(n);
        }
        2 => damage(rng, &mut e.bytes),
        _ => {}
    }
    h.type_offset = type_offset(rng, h.size(), &e);
    h.unit(&e.bytes, if rng.percent(97) { 0 } else { off(rng) })
}

/// Units of .debug_types with few signatures, so that one is carried by several, or is a dwo_id, or has but one
/// other bit.
fn types(rng: &mut Rng, sink: &mut Sink) -> bool {
    let is_big = rng.flip();
    let one = rng.word();
    let signatures = [one, one, one ^ 1 << rng.below(64), rng.number()];
    let mut tables = Tables::default();
    let mut b = Vec::new();
    for _ in 0..rng.pick(&[0, 1, 2, 2, 3, 3, 4, 6]) {
        b.extend(type_unit(rng, is_big, &signatures, &mut tables));
    }
    if rng.percent(15) {
        damage(rng, &mut b);
    }
    let b = Arc::new(b);
    let abbrevs = Arc::new(tables.section);
    let order = if rng.percent(97) { is_big } else { !is_big } as u64;
    for signature in signatures.into_iter().chain([rng.number()]) {
        if signature != one && rng.flip() {
            continue;
        }
        let mut case = Case::new(TYPE_ENTRY, &b, &[signature, order]);
        case.second = abbrevs.clone();
        case.lent = (tables.rows * 5 + rng.below(12), tables.specs * 3 + rng.below(9));
        if rng.percent(15) {
            case.lent = (room(rng, tables.rows, 5), room(rng, tables.specs, 3));
        }
        if !sink(cut(rng, case), None) {
            return false;
        }
    }
    whole_list(rng, TYPES_NEXT, &b, is_big, sink)
}

/// One scene of any sort. It says whether more are wanted.
pub fn scene(rng: &mut Rng, sink: &mut Sink) -> bool {
    match rng.below(100) {
        0..=23 => numbers(rng, sink),
        24..=29 => types(rng, sink),
        30..=34 => words(rng, sink),
        35..=42 => initial(rng, sink),
        43..=54 => headers(rng, sink),
        55..=58 => unit_list(rng, sink),
        59..=69 => tables(rng, sink),
        70..=89 => values(rng, sink),
        90 if port::LISTS => listings(rng, sink),
        91 => long_blocks(rng, sink),
        _ => units(rng, sink, false),
    }
}

/// The sizes themselves: sections of 2^31 bytes and one less, whose zeros are never written and take no
/// memory.
pub fn long_sections(sink: &mut Sink) -> bool {
    let mut rng = Rng::new(1, 1);
    let shapes = [Shape { code: 1, tag: 0x11, children: false, specs: vec![(3, 0x0b, 0)] }];
    let table = make_table(&mut rng, &shapes, &[], Layout::Plain).unwrap();
    for len in [rules::MAX_SECTION, rules::MAX_SECTION + 1] {
        let b = Arc::new(vec![0u8; len]);
        for at in [0, 1, len as u64 - 4, len as u64, len as u64 + 1] {
            for order in [0, 1] {
                let mut table_case = Case::new(TABLE, &b, &[at]);
                table_case.lent = (10, 6);
                let cases = [
                    Case::new(HEADER, &b, &[at, order]),
                    Case::new(NEXT_UNIT, &b, &[at, order]),
                    Case::new(TYPES_NEXT, &b, &[at, order]),
                    Case::new(ENTRY, &b, &[at, 11, order]).with(&table),
                    table_case,
                    Case::new(ULEB, &b, &[at]),
                    Case::new(WORD, &b, &[at, 4, order]),
                ];
                for case in cases {
                    if !sink(case, None) {
                        return false;
                    }
                }
            }
        }
        if !long_types(&b, sink) {
            return false;
        }
    }
    true
}

/// Searches with a long section, as the types or as the tables beside none, a refused header, and a unit that
/// has the signature, whose table lies at the first or the last byte or behind it.
fn long_types(long: &Arc<Vec<u8>>, sink: &mut Sink) -> bool {
    let none = Arc::new(Vec::new());
    let mut all = vec![(long.clone(), none.clone()), (none, long.clone()), (Arc::new(vec![0; 4]), long.clone())];
    let n = long.len() as u64;
    for (table, inside) in [(0, 0), (n - 1, 0), (n, 0), (n + 1, 0), (n, 1)] {
        let size = 23;
        let h = Head {
            version: 4,
            is_64: false,
            width: 8,
            is_big: false,
            is_types: true,
            unit_type: 2,
            table,
            signature: 7,
            type_offset: size + inside,
        };
        all.push((Arc::new(h.unit(&[1], 0)), long.clone()));
    }
    all.into_iter().all(|(types, abbrevs)| {
        let mut case = Case::new(TYPE_ENTRY, &types, &[7, 0]);
        case.second = abbrevs;
        case.lent = (10, 6);
        sink(case, None)
    })
}
