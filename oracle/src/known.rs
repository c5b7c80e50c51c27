//! The inputs of gimli's own tests (read/unit.rs, read/abbrev.rs) and document 01's readings.

use crate::case::*;
use crate::generate::{Head, NUMBERED, put_sleb, put_sleb_padded, put_uleb, put_uleb_padded};
use gimli::{DebugAbbrev, DebugAbbrevOffset, EndianSlice, RunTimeEndian};
use std::sync::Arc;

/// A table of bytes as gimli reads it, in rows in file order.
pub fn table_of(section: &[u8]) -> Option<Arc<Table>> {
    let gimli =
        DebugAbbrev::from(EndianSlice::new(section, RunTimeEndian::Little)).abbreviations(DebugAbbrevOffset(0)).ok()?;
    let limits = crate::rules::Limits { pairs: 64, ..crate::rules::NO_LIMITS };
    let (status, all) = crate::rules::table(section, 0, limits);
    if status != 0 {
        return None;
    }
    let (mut rows, mut specs): (Vec<u64>, Vec<u64>) = (Vec::new(), Vec::new());
    for d in &all {
        rows.extend([d.code, d.tag, d.children, specs.len() as u64 / 3, d.specs.len() as u64]);
        specs.extend(d.specs.iter().flatten());
    }
    let size = specs.len() / 3;
    let padded = crate::rules::padded_pairs(&all);
    Some(Arc::new(Table { section: section.to_vec(), gimli, rows, specs, size, padded }))
}

fn case(kind: u8, bytes: &[u8], n: &[u64]) -> Case {
    Case::new(kind, &Arc::new(bytes.to_vec()), n)
}

fn table_case(section: &[u8], offset: u64) -> Case {
    let mut c = case(TABLE, section, &[offset]);
    c.lent = (5 * 64, 3 * 256);
    c
}

// ---- building as the tests do

struct Abbrevs(Vec<u8>);

impl Abbrevs {
    fn new() -> Abbrevs {
        Abbrevs(Vec::new())
    }
    fn abbrev(mut self, code: u64, tag: u64, children: bool) -> Self {
        put_uleb(&mut self.0, code);
        put_uleb(&mut self.0, tag);
        self.0.push(children as u8);
        self
    }
    fn attr(mut self, name: u64, form: u64) -> Self {
        put_uleb(&mut self.0, name);
        put_uleb(&mut self.0, form);
        self
    }
    fn attr_null(self) -> Self {
        self.attr(0, 0)
    }
    fn null(mut self) -> Vec<u8> {
        self.0.push(0);
        self.0
    }
}

#[derive(Default)]
struct Dies(Vec<u8>);

impl Dies {
    fn die(&mut self, code: u8, name: &str) -> &mut Self {
        self.0.push(code);
        self.text(name)
    }
    fn text(&mut self, text: &str) -> &mut Self {
        self.0.extend(text.as_bytes());
        self.0.push(0);
        self
    }
    fn byte(&mut self, b: u8) -> &mut Self {
        self.0.push(b);
        self
    }
    fn nulls(&mut self, n: usize) -> &mut Self {
        self.0.resize(self.0.len() + n, 0);
        self
    }
}

const V4: Head = Head {
    version: 4,
    is_64: false,
    width: 4,
    is_big: false,
    is_types: false,
    unit_type: 1,
    table: 0,
    signature: 0,
    type_offset: 0,
};

/// An entry with one value of a form and one of form 0x0b, skipped and read.
fn passed_and_read(all: &mut Vec<Case>, form: u16, width: u8, is_64: bool, version: u16, value: &[u8]) {
    let mut table = Abbrevs::new().abbrev(1, 0x34, false).attr(3, form as u64);
    if form == 0x21 {
        put_sleb(&mut table.0, -5);
    }
    let t = table_of(&table.attr(0x0b, 0x0b).attr_null().null()).unwrap();
    let mut bytes = vec![1];
    bytes.extend(value);
    bytes.extend([1, 0]);
    for calls in [[1], [0]] {
        let mut c = case(RAW, &bytes, &[11, version as u64, is_64 as u64, width as u64, 0]).with(&t);
        c.calls = calls.to_vec();
        all.push(c);
    }
}

fn values(all: &mut Vec<Case>) {
    let eight = [1, 2, 3, 4, 5, 6, 7, 8];
    let ten = [1, 2, 3, 4, 5, 6, 7, 8, 0x99, 0x99];
    let offset = [1, 2, 3, 4, 5, 6, 7, 8, 9, 0x10];
    let sixteen = [1, 2, 3, 4, 5, 6, 7, 8, 9, 10, 11, 12, 13, 14, 15, 16, 0x99, 0x99];
    let leb = |v: u64| {
        let mut b = Vec::new();
        put_uleb(&mut b, v);
        b.extend([0; 10]);
        b
    };
    let mut signed = Vec::new();
    put_sleb(&mut signed, -4097);
    signed.extend([0; 10]);
    let mut indirect = vec![0x0f];
    indirect.extend(leb(9_999_999));
    let mut constant = vec![0x21];
    constant.extend([0; 10]);
    // form, width, 64-bit, version, bytes
    let tests: Vec<(u16, u8, bool, u16, Vec<u8>)> = vec![
        (0x01, 4, false, 4, eight.to_vec()),
        (0x01, 8, false, 4, eight.to_vec()),
        (0x0a, 4, false, 4, vec![3, 9, 9, 9, 0, 0]),
        (0x03, 4, false, 4, vec![2, 0, 9, 9, 0, 0]),
        (0x04, 4, false, 4, vec![2, 0, 0, 0, 0x99, 0x99]),
        (0x09, 4, false, 4, vec![2, 0x99, 0x99]),
        (0x0b, 4, false, 4, vec![3]),
        (0x05, 4, false, 4, vec![2, 1, 0]),
        (0x06, 4, false, 4, vec![1, 2, 3, 4, 0x99, 0x99]),
        (0x07, 4, false, 4, ten.to_vec()),
        (0x1e, 4, false, 4, sixteen.to_vec()),
        (0x0f, 4, false, 4, leb(4097)),
        (0x0d, 4, false, 4, signed),
        (0x18, 4, false, 4, vec![2, 0x99, 0x99, 0x11]),
        (0x0c, 4, false, 4, vec![0x42]),
        (0x0c, 4, false, 4, vec![0]),
        (0x19, 4, false, 4, vec![1, 2, 3, 4]),
        (0x17, 4, false, 4, offset.to_vec()),
        (0x17, 4, true, 4, offset.to_vec()),
        (0x11, 4, false, 4, vec![3]),
        (0x12, 4, false, 4, vec![2, 1, 0]),
        (0x13, 4, false, 4, vec![1, 2, 3, 4, 0x99, 0x99]),
        (0x14, 4, false, 4, ten.to_vec()),
        (0x1c, 4, false, 4, vec![1, 2, 3, 4, 0x99, 0x99]),
        (0x24, 4, false, 4, ten.to_vec()),
        (0x15, 4, false, 4, leb(4097)),
        (0x10, 4, false, 4, ten.to_vec()),
        (0x10, 4, true, 4, ten.to_vec()),
        (0x10, 4, false, 2, ten.to_vec()),
        (0x10, 8, false, 2, ten.to_vec()),
        (0x1f20, 4, false, 4, ten.to_vec()),
        (0x1f20, 4, true, 4, ten.to_vec()),
        (0x20, 4, false, 4, ten.to_vec()),
        (0x08, 4, false, 4, vec![1, 2, 3, 4, 5, 0, 0x99, 0x99]),
        (0x0e, 4, false, 4, ten.to_vec()),
        (0x0e, 4, true, 4, ten.to_vec()),
        (0x1d, 4, false, 4, ten.to_vec()),
        (0x1d, 4, true, 4, ten.to_vec()),
        (0x1f21, 4, false, 4, ten.to_vec()),
        (0x1f21, 4, true, 4, ten.to_vec()),
        (0x1f, 4, false, 5, ten.to_vec()),
        (0x1f, 4, true, 5, ten.to_vec()),
        (0x1a, 4, false, 4, leb(4097)),
        (0x25, 4, true, 4, vec![1, 0x99, 0x99]),
        (0x26, 4, true, 4, vec![1, 2, 0x99, 0x99]),
        (0x27, 4, true, 4, vec![1, 2, 3, 0x99, 0x99]),
        (0x28, 4, true, 4, vec![1, 2, 3, 4, 0x99, 0x99]),
        (0x1b, 4, false, 4, leb(4097)),
        (0x29, 4, true, 4, vec![1, 0x99, 0x99]),
        (0x2a, 4, true, 4, vec![1, 2, 0x99, 0x99]),
        (0x2b, 4, true, 4, vec![1, 2, 3, 0x99, 0x99]),
        (0x2c, 4, true, 4, vec![1, 2, 3, 4, 0x99, 0x99]),
        (0x22, 4, false, 4, leb(4097)),
        (0x23, 4, false, 4, leb(4097)),
        (0x1f01, 4, false, 4, leb(4097)),
        (0x1f02, 4, false, 4, leb(4097)),
        (0x16, 4, false, 4, indirect),
        (0x16, 4, false, 4, constant),
        (0x21, 4, false, 4, vec![1, 2]),
        (0x02, 4, false, 4, vec![1, 2]),
        // document 01: width 3
        (0x01, 3, false, 4, vec![1, 2, 3]),
        (0x10, 3, false, 2, vec![1, 2, 3]),
    ];
    for (form, width, is_64, version, bytes) in &tests {
        passed_and_read(all, *form, *width, *is_64, *version, bytes);
    }
    for (form, width, is_64, version, bytes) in tests {
        for is_big in [0, 1] {
            // DW_AT_low_pc, and names by which 06 and 07 are a SecOffset
            for name in [0x11, 0x02, 0x38] {
                if name != 0x11 && !matches!(form, 0x06 | 0x07) {
                    continue;
                }
                for version in [version, 3] {
                    let n = [
                        0,
                        0,
                        version as u64,
                        is_64 as u64,
                        width as u64,
                        is_big,
                        name,
                        form as u64,
                        if form == 0x21 { -5i64 as u64 } else { 0 },
                    ];
                    all.push(case(ATTRIBUTE, &bytes, &n));
                    if name == 0x11 {
                        break;
                    }
                }
            }
        }
    }
}

/// A value of one of the numbered forms, its number in at least so many bytes.
fn numbered(form: u16, len: usize) -> Vec<u8> {
    let mut b = Vec::new();
    match form {
        0x09 | 0x18 => {
            put_uleb_padded(&mut b, 2, len);
            b.extend([0x80, 0]);
        }
        0x0d => put_sleb_padded(&mut b, -3, len),
        _ => put_uleb_padded(&mut b, 3, len),
    }
    b
}

/// Single attributes of which a number is padded, and such of which only bytes look like it.
fn padded_values(all: &mut Vec<Case>) {
    let mut put = |form: u16, parts: &[&[u8]]| {
        all.push(case(ATTRIBUTE, &parts.concat(), &[11, 0, 4, 0, 4, 0, 0x11, form as u64, 7]));
    };
    for (i, form) in NUMBERED.into_iter().enumerate() {
        let mut named = Vec::new();
        put_uleb_padded(&mut named, form as u64, 2 + (form < 0x80 && i % 2 == 0 || form > 0x80) as usize);
        put(form, &[&numbered(form, 2 + i % 9)]);
        put(0x16, &[&named, &numbered(form, 1)]);
        put(0x16, &[&named, &numbered(form, 10 - i % 9)]);
    }
    let nine = |fill: u8, last: u8| [&[fill; 9][..], &[last]].concat();
    let singles: [(u16, &[u8]); 38] = [
        // chains: the first link, a middle one, the last, all, none
        (0x16, &[0x96, 0, 0x0f, 5]),
        (0x16, &[0x16, 0x96, 0x80, 0, 0x16, 0x0f, 5]),
        (0x16, &[0x16, 0x8f, 0, 5]),
        (0x16, &[0x96, 0x80, 0, 0x8f, 0, 0x85, 0]),
        (0x16, &[0x16, 0x16, 0x0f, 5]),
        // forms without a number of their own
        (0x16, &[0x8b, 0, 7]),
        (0x16, &[0x99, 0]),
        (0x16, &[0x88, 0, 0x61, 0]),
        (0x16, &[0x8a, 0x80, 0, 1, 0xff]),
        (0x16, &[0x81, 0, 1, 2, 3, 4]),
        (0x16, &[0x90, 0, 1, 2, 3, 4]),
        (0x16, &[0xa0, 0xbe, 0, 1, 2, 3, 4]),
        (0x16, &[0xa0, 0x3e, 1, 2, 3, 4]),
        (0x16, &[0x96, 0, 0x9e, 0, 1, 2, 3, 4, 5, 6, 7, 8, 9, 10, 11, 12, 13, 14, 15, 16]),
        // refused: form 0x21 in a chain, an unknown form, a name too long, no value
        (0x16, &[0xa1, 0, 0]),
        (0x16, &[0xa1, 0x80, 0, 0]),
        (0x16, &[0x96, 0, 0x21]),
        (0x16, &[0xff, 0]),
        (0x16, &[0x8f, 0x80, 0x80, 0, 5]),
        (0x16, &[0x8f, 0, 0x80]),
        // no numbers, or numbers of fixed width
        (0x21, &[0x80, 0]),
        (0x05, &[0x80, 0]),
        (0x06, &[0x80, 0x80, 0x80, 0]),
        (0x0a, &[2, 0x80, 0]),
        (0x03, &[2, 0, 0x80, 0]),
        (0x04, &[2, 0, 0, 0, 0x80, 0]),
        (0x08, &[0x80, 0]),
        (0x16, &[0x0a, 2, 0x80, 0]),
        // signed numbers whose last byte is 0 or 0x7f
        (0x0d, &[0xff, 0]),
        (0x0d, &[0x80, 0x7f]),
        (0x0d, &[0xbf, 0]),
        (0x0d, &[0xff, 0x7f]),
        (0x0d, &nine(0x80, 0x7f)),
        (0x0d, &nine(0xff, 0x7f)),
        (0x0d, &nine(0xff, 0)),
        // and the longest unsigned ones
        (0x0f, &[0xff, 0]),
        (0x0f, &nine(0xff, 1)),
        (0x0f, &nine(0xff, 0)),
    ];
    for (form, b) in singles {
        put(form, &[b]);
    }
}

/// Entries with marked attributes and without. Codes, nulls, names, forms and a constant of the table are padded too.
fn padded_entries(all: &mut Vec<Case>) {
    let table = [
        &[1, 0x11, 1, 0x83, 0, 0x0f, 0x49, 0x16, 2, 0x98, 0, 0, 0][..],
        &[0x82, 0, 0xb4, 0, 0, 0x0b, 0x0d, 3, 8, 0x1c, 0x21, 0xfb, 0x7f, 0x1c, 0xa1, 0, 0x7b, 0, 0],
        &[3, 0x2e, 1, 1, 0x15, 3, 9, 0, 0, 0],
    ]
    .concat();
    let first: &[u8] = &[0x81, 0, 5, 0x0f, 7, 1, 0xff];
    let named: &[u8] = &[3, 0xff, 0x80, 0, 0x81, 0, 0xaa];
    let inner: [&[u8]; 2] = [&[2, 0xff, 0, 0x61, 0], &[0x82, 0x80, 0, 0xff, 0x7f, 0x80, 0]];
    let nulls: &[u8] = &[0x80, 0];
    let second: &[u8] = &[1, 0x85, 0, 0x96, 0, 0x8f, 0x80, 0, 7, 1, 0x80];
    let third: &[u8] = &[0x81, 0x80, 0, 5, 0x8b, 0, 7, 0x82, 0, 1, 2];
    let parts = [first, named, inner[0], inner[1], &[0], second, inner[1], nulls, third, nulls, &[0]];
    let offsets: Vec<u64> = (0..parts.len()).map(|i| parts[..i].concat().len() as u64).collect();
    let mut b = parts.concat();
    // the sibling of the second entry
    let at = offsets[1] as usize + 1;
    b[at] = 0x80 | (11 + offsets[5]) as u8;
    let t = table_of(&table).unwrap();
    for is_big in [false, true] {
        let h = Head { is_big, ..V4 };
        let scripts: [(u8, &[u64]); 8] = [
            (RAW, &[0; 12]),
            (RAW, &[1, 0, 1, 0, 0, 0, 1, 0, 0, 0]),
            (CURSOR, &[0; 12]),
            (CURSOR, &[1; 8]),
            (CURSOR, &[1, 1, 2, 2, 2]),
            (TREE, &[0, 1, 2, 2, 2, 1, 2, 2, 1, 2, 1]),
            (TREE, &[0, 1, 1, 1, 1]),
            (TREE, &[0, 1, 2, 0, 1, 1, 2]),
        ];
        for (kind, calls) in scripts {
            let mut c = case(kind, &b, &[11, 4, 0, 4, is_big as u64]).with(&t);
            c.calls = calls.to_vec();
            all.push(c);
        }
        let unit = h.unit(&b, 0);
        for (i, offset) in offsets.iter().enumerate() {
            if i % 2 == is_big as usize || i == 5 {
                all.push(case(ENTRY, &unit, &[0, 11 + offset, is_big as u64]).with(&t));
            }
        }
        for i in [1, 3, 5, 8, 9] {
            let h = Head { is_big, ..TYPED };
            let type_offset = h.size() as u64 + offsets[i];
            let mut c = search(&Head { type_offset, ..h }.unit(&b, 0), &table, 7);
            c.n[1] = is_big as u64;
            all.push(c);
        }
    }
    all.push(table_case(&table, 0));
}

fn headers(all: &mut Vec<Case>) {
    let rest = [1, 2, 3, 4, 5, 6, 7, 8, 9];
    for (is_64, width, table) in [(false, 4, 0x0807_0605), (true, 8, 0x0102_0304_0506_0708)] {
        for is_big in [false, true] {
            let mut list = Vec::new();
            for (version, unit_type) in [(2, 1), (3, 1), (4, 1), (5, 1), (5, 2), (5, 3), (5, 4), (5, 5), (5, 6)] {
                let h = Head {
                    version,
                    is_64,
                    width,
                    is_big,
                    is_types: false,
                    unit_type,
                    table,
                    signature: if matches!(unit_type, 2 | 6) { 0xdead_beef_dead_beef } else { 0x0706_5040_0304_1050 },
                    type_offset: if is_64 { 0x7856_3412_7856_3412 } else { 0x7856_3412 },
                };
                let mut b = h.unit(&rest, 0);
                list.extend(&b);
                b.extend(rest);
                all.push(case(HEADER, &b, &[0, is_big as u64]));
                all.push(case(NEXT_UNIT, &b, &[0, is_big as u64]));
                for keep in [0, 3, 5, 7, h.size() - 1, h.size()] {
                    all.push(case(HEADER, &b[..keep], &[0, is_big as u64]));
                }
            }
            let mut at = 0;
            while at < list.len() as u64 {
                let c = case(NEXT_UNIT, &list, &[at, is_big as u64]);
                at = crate::compare::expected(&c).words[0];
                all.push(c);
            }
            all.push(case(NEXT_UNIT, &list, &[list.len() as u64, is_big as u64]));
        }
    }
    // test_unit_version_unknown_version, test_unit_version_incomplete
    for b in [&[2, 0, 0, 0, 0xab, 0xcd][..], &[2, 0, 0, 0, 1, 0], &[2, 0, 0, 0, 6, 0], &[1, 0, 0, 0, 4]] {
        all.push(case(HEADER, b, &[0, 0]));
        all.push(case(NEXT_UNIT, b, &[0, 0]));
    }
    // document 01: version 5, type 7, width 3 gives 7, and width 4 gives 8
    for width in [3, 4] {
        let h = Head { version: 5, unit_type: 7, width, ..V4 };
        all.push(case(HEADER, &h.unit(&[], 0), &[0, 0]));
    }
    // lengths that are reserved
    for first in [0xef, 0xf0, 0xfe, 0xff] {
        let b = [first, 0xff, 0xff, 0xff, 5, 0, 0, 0, 0, 0, 0, 0];
        all.push(case(INITIAL, &b, &[0, 0]));
        all.push(case(HEADER, &b, &[0, 0]));
    }
}

/// The same of .debug_types: test_parse_type_unit_header_32_ok, test_parse_type_unit_header_64_ok, and the others.
fn type_headers(all: &mut Vec<Case>) {
    for (is_64, table) in [(false, 0x0807_0605), (true, 0x0102_0304_0506_0708)] {
        for is_big in [false, true] {
            let mut list = Vec::new();
            for (version, unit_type) in [(2, 2), (3, 2), (4, 2), (5, 1), (5, 2), (5, 3), (5, 4), (5, 5), (5, 6)] {
                let h = Head {
                    version,
                    is_64,
                    width: 8,
                    is_big,
                    is_types: true,
                    unit_type,
                    table,
                    signature: 0xdead_beef_dead_beef,
                    type_offset: if is_64 { 0x7856_3412_7856_3412 } else { 0x7856_3412 },
                };
                list.extend(h.unit(&[1, 2, 3], 0));
                if version == 4 {
                    // units that end in the signature and in the type's offset
                    for less in [9, 1] {
                        let b = h.unit(&[], -less);
                        all.push(case(TYPES_NEXT, &b[..b.len() - less as usize], &[0, is_big as u64]));
                    }
                }
            }
            let mut at = 0;
            while at < list.len() as u64 {
                let c = case(TYPES_NEXT, &list, &[at, is_big as u64]);
                at = crate::compare::expected(&c).words[0];
                all.push(c);
            }
            all.push(case(TYPES_NEXT, &list, &[list.len() as u64, is_big as u64]));
        }
    }
    for b in [&[2, 0, 0, 0, 1, 0][..], &[2, 0, 0, 0, 6, 0], &[1, 0, 0, 0, 4], &[0xf0, 0xff, 0xff, 0xff], &[]] {
        all.push(case(TYPES_NEXT, b, &[0, 0]));
    }
    for width in [3, 4] {
        let h = Head { version: 5, unit_type: 7, width, ..V4 };
        all.push(case(TYPES_NEXT, &h.unit(&[], 0), &[0, 0]));
    }
}

const TYPED: Head = Head { is_types: true, unit_type: 2, signature: 7, ..V4 };

/// A root, a structure with one member, and their nulls; `inside` is the type's offset behind the header.
fn typed(h: Head, inside: i64) -> Vec<u8> {
    let type_offset = (h.size() as u64).wrapping_add(inside as u64);
    Head { type_offset, ..h }.unit(&[3, 1, 0x61, 0, 2, 5, 0, 0], 0)
}

fn search(types: &[u8], abbrevs: &[u8], signature: u64) -> Case {
    let mut c = case(TYPE_ENTRY, types, &[signature, 0]);
    c.second = Arc::new(abbrevs.to_vec());
    c.lent = (5 * 64, 3 * 256);
    c
}

/// The search for a type, each of its questions and their order.
fn types(all: &mut Vec<Case>) {
    let table = Abbrevs::new()
        .abbrev(1, 0x13, true)
        .attr(3, 8)
        .attr_null()
        .abbrev(2, 0x0d, false)
        .attr(0x38, 0x0b)
        .attr_null()
        .abbrev(3, 0x41, true)
        .attr_null()
        .abbrev(4, 0x13, false)
        .attr(3, 0x7f)
        .attr_null()
        .abbrev(5, 0x13, false)
        .attr(3, 0x16)
        .attr_null()
        .null();
    for is_64 in [false, true] {
        for is_big in [false, true] {
            for (version, unit_type) in [(2, 2), (3, 2), (4, 2), (5, 2), (5, 6)] {
                let h = Head { version, is_64, is_big, unit_type, ..TYPED };
                let mut c = search(&typed(h, 1), &table, 7);
                c.n[1] = is_big as u64;
                all.push(c);
            }
        }
    }
    // the type's offset: 0, below the header's size, at entries, in one, at nulls, at the end, past it
    for inside in [-23, -1, 0, 1, 2, 6, 7, 8, 9] {
        all.push(search(&typed(TYPED, inside), &table, 7));
    }
    for type_offset in [u64::MAX, 1 << 63, (1 << 32) + 40] {
        let h = Head { is_64: true, type_offset, ..TYPED };
        all.push(search(&h.unit(&[3, 0], 0), &table, 7));
    }
    // no entry bytes
    for type_offset in [TYPED.size() as u64 - 1, TYPED.size() as u64] {
        all.push(search(&Head { type_offset, ..TYPED }.unit(&[], 0), &table, 7));
    }
    let good = typed(TYPED, 1);
    let other = typed(Head { signature: 8, ..TYPED }, 4);
    let outside = typed(TYPED, -1);
    let later = typed(TYPED, 4);
    let of_type = |unit_type: u8| typed(Head { version: 5, unit_type, ..TYPED }, 1);
    let refused = typed(Head { version: 6, ..TYPED }, 1);
    let width = typed(Head { width: 3, ..TYPED }, 1);
    let no_table = typed(Head { table: table.len() as u64 + 1, ..TYPED }, 1);
    let lists: [&[&[u8]]; 13] = [
        &[&good, &other],
        &[&other, &good],
        &[&good, &later],
        &[&later, &good],
        &[&outside, &good],
        &[&good, &refused],
        &[&refused, &good],
        &[&other, &refused, &good],
        &[&other, &width],
        &[&other, &good[..good.len() - 1]],
        &[&good, &[0xf0, 0xff, 0xff, 0xff]],
        &[&other, &[0xf0, 0xff, 0xff, 0xff], &good],
        &[&no_table, &good],
    ];
    for list in lists {
        all.push(search(&list.concat(), &table, 7));
    }
    let without: [&[&[u8]]; 4] = [&[], &[&good, &later], &[&good, &refused], &[&good, &width]];
    for list in without {
        all.push(search(&list.concat(), &table, 9));
    }
    all.push(search(&good, &table, 7 + (1 << 32)));
    // numbers of other types, and unknown types
    for unit_type in [1, 3, 4, 5, 7] {
        let first = of_type(unit_type);
        all.push(search(&first, &table, 7));
        all.push(search(&[&first[..], &good].concat(), &table, 7));
    }
    // tables refused, or missing; the type's offset is asked before
    let end = table.len() as u64;
    let sections: [&[u8]; 8] = [
        &[1, 0, 0],
        &[1, 0x2e, 2],
        &[1, 0x2e, 1, 0, 8, 0, 0],
        &[1, 0x2e, 1, 3, 0],
        &[1, 0x2e],
        &[1, 0x80, 0x80, 4],
        &[1, 0x2e, 1, 3, 0x21, 0x80, 0x80, 0x80, 0x80, 0x80, 0x80, 0x80, 0x80, 0x80, 1],
        &[],
    ];
    for section in sections {
        all.push(search(&good, section, 7));
    }
    for b in [&outside, &typed(TYPED, 8)] {
        all.push(search(b, sections[0], 7));
    }
    all.push(search(&good, &[&table[..table.len() - 1], &table[..]].concat(), 7));
    for at in [end - 1, end, end + 1, 0xffff_ffff] {
        all.push(search(&typed(Head { table: at, ..TYPED }, 1), &table, 7));
    }
    for lent in [(0, 0), (20, 768), (25, 9), (25, 12)] {
        for b in [&good, &outside] {
            let mut c = search(b, &table, 7);
            c.lent = lent;
            all.push(c);
        }
    }
    // entries refused
    let long = [0x80, 0x80, 0x80, 0x80, 0x80, 0x80, 0x80, 0x80, 0x80, 2];
    let entries: [&[u8]; 8] = [
        &[6],
        &[0x80],
        &[4, 1],
        &[5, 0x21],
        &[1, 0x61],
        &long,
        &[&[5, 0x0f], &long[..]].concat(),
        &[&[5, 0x0d], &long[..]].concat(),
    ];
    for b in entries {
        let h = Head { type_offset: TYPED.size() as u64, ..TYPED };
        all.push(search(&h.unit(b, 0), &table, 7));
    }
}

fn tables(all: &mut Vec<Case>) {
    let two = Abbrevs::new()
        .abbrev(2, 0x2e, false)
        .attr(3, 8)
        .attr_null()
        .abbrev(1, 0x11, true)
        .attr(0x25, 8)
        .attr(0x13, 5)
        .attr_null()
        .null();
    let mut lead = vec![1, 2, 3, 4];
    lead.extend(&two);
    all.push(table_case(&lead, 4));
    let twice = Abbrevs::new()
        .abbrev(1, 0x2e, false)
        .attr(3, 8)
        .attr_null()
        .abbrev(1, 0x11, true)
        .attr(0x25, 8)
        .attr_null()
        .null();
    let refused: [&[u8]; 9] = [
        &[1, 0, 0],                                                                               // tag 0
        &[1, 0x2e, 2],                                                                            // children 2
        &[1, 0x2e, 1, 0, 8, 0, 0],                                                                // name 0
        &[1, 0x2e, 1, 3, 0, 0, 0],                                                                // form 0
        &[1, 0x2e, 1, 3],                                                                         // cut
        &[0x81, 0x80, 0x80, 0x80, 0x80, 0x80, 0x80, 0x80, 0x80, 2, 0x2e, 1, 0, 0],                // a code too long
        &[1, 0x80, 0x80, 4, 1, 0, 0],                                                             // a tag too long
        &[1, 0x2e, 1, 3, 0x21, 0x80, 0x80, 0x80, 0x80, 0x80, 0x80, 0x80, 0x80, 0x80, 1, 0, 0, 0], // a constant too long
        &twice,
    ];
    for b in refused {
        all.push(table_case(b, 0));
    }
    // offsets: the section's end is allowed
    for offset in [0, two.len() as u64 - 1, two.len() as u64, two.len() as u64 + 1] {
        all.push(table_case(&two, offset));
    }
    // a missing end, constants, codes far apart
    all.push(table_case(&two[..two.len() - 1], 0));
    all.push(table_case(&[1, 0x2e, 1, 3, 0x21, 0x7f, 3, 0x21, 0x80, 1, 0, 0, 0], 0));
    let apart = Abbrevs::new()
        .abbrev(u64::MAX, 0xffff, false)
        .attr(0xffff, 0xffff)
        .attr_null()
        .abbrev(1, 1, true)
        .attr_null()
        .abbrev(1 << 40, 1, true)
        .attr_null()
        .null();
    all.push(table_case(&apart, 0));
    // 64 pairs pass
    let mut a = Abbrevs::new().abbrev(1, 0x11, false);
    for _ in 0..64 {
        a = a.attr(3, 0x0b);
    }
    all.push(table_case(&a.attr_null().null(), 0));
    for section in [&two, &apart] {
        let t = table_of(section).unwrap();
        for code in [0, 1, 2, 3, 1 << 40, u64::MAX, u64::MAX - 1] {
            all.push(case(GET, &[], &[code]).with(&t));
        }
    }
}

fn numbers(all: &mut Vec<Case>) {
    let nine = |last: u8, fill: u8| {
        let mut b = vec![fill; 9];
        b.push(last);
        b
    };
    let mut inputs: Vec<Vec<u8>> = vec![
        vec![],
        vec![2],
        vec![0x7f],
        vec![0x80],
        vec![0x80, 1],
        vec![0x81, 1],
        vec![0x82, 1],
        vec![0xb9, 0x64],
        vec![0x7e],
        vec![0xff, 0],
        vec![0x81, 0x7f],
        vec![0x80, 0x7f],
        vec![0xff, 0x7e],
        vec![0xff, 0xff, 3],
        vec![0x80, 0x80, 4],
        vec![0x80, 0x80, 0x83, 0],
        vec![0x80, 0x80, 0],
    ];
    for (last, fill) in
        [(1, 0xff), (2, 0xff), (0, 0x80), (0x7f, 0x80), (1, 0x80), (0x7f, 0xff), (0x80, 0x80), (0, 0xff)]
    {
        inputs.push(nine(last, fill));
    }
    inputs.push(vec![0x80; 12]);
    let mut long = vec![0x80; 12];
    long.push(1);
    inputs.push(long);
    for b in &inputs {
        for kind in [ULEB, ULEB16, SLEB, SKIP_LEB] {
            all.push(case(kind, b, &[0]));
        }
    }
    let b = [1, 2, 3, 4, 5, 6, 7, 8, 9];
    for width in [0, 1, 2, 3, 4, 5, 8, 16, 255] {
        for at in [0, 1, 2, 8, 9] {
            for is_big in [0, 1] {
                all.push(case(WORD, &b, &[at, width, is_big]));
            }
        }
    }
    for is_big in [0, 1] {
        for first in [0u8, 0xff] {
            let b = [first, first, first, first, 0, 0, 0, 0, 0, 0, 0, 9, 1];
            for keep in [3, 4, 11, 12, 13] {
                all.push(case(INITIAL, &b[..keep], &[0, is_big]));
            }
        }
    }
}

/// Numbers padded and not, of every length.
fn padded_numbers(all: &mut Vec<Case>) {
    // what pads an unsigned number need not pad a signed one
    for b in
        [&[0][..], &[0x80, 0], &[0xbf, 0], &[0xc0, 0], &[0xbf, 0x7f], &[0xc0, 0x7f], &[0xff, 0x7f], &[0xff, 0xff, 0]]
    {
        for kind in [ULEB, ULEB16, SLEB] {
            all.push(case(kind, b, &[0]));
        }
    }
    for len in 2..=10 {
        let list = |first: u8, fill: u8, before: u8, last: u8| {
            let mut b = vec![fill; len];
            (b[0], b[len - 2], b[len - 1]) = (first, before, last);
            b
        };
        let kinds = if len <= 3 { &[ULEB, ULEB16][..] } else { &[ULEB] };
        for kind in kinds {
            let before = if len == 2 { 0x85 } else { 0x80 };
            all.push(case(*kind, &list(0x85, 0x80, before, 0), &[0]));
            all.push(case(*kind, &list(0x85, 0x80, before, 1), &[0]));
        }
        // the last byte repeats the sign, and is the sign
        let signed =
            if len % 2 == 0 { [(0x80, 0xbf, 0), (0x80, 0xc0, 0)] } else { [(0xff, 0xc0, 0x7f), (0xff, 0xbf, 0x7f)] };
        for (fill, before, last) in signed {
            all.push(case(SLEB, &list(fill, fill, before, last), &[0]));
        }
    }
}

/// Lists whose shortest length is known from how they are made: bytes of which the last is needed, then a sign.
fn spelled(all: &mut Vec<Case>) {
    for (kind, most) in [(ULEB, 10), (ULEB16, 3), (SLEB, 10)] {
        for own in 1..=most {
            let is_last = own == most;
            // the last digit that counts, what the ones below it are, and whether the number is negative
            let ends: Vec<(u8, u8, bool)> = match kind {
                ULEB if is_last => vec![(1, 0, false), (1, 0x7f, false)],
                ULEB16 if is_last => vec![(1, 0, false), (2, 0x7f, false), (3, 0x7f, false)],
                SLEB if is_last => vec![(0, 0x40, false), (0, 0x7f, false), (0x7f, 0, true), (0x7f, 0x3f, true)],
                SLEB if own == 1 => {
                    vec![(0, 0, false), (1, 0, false), (0x3f, 0, false), (0x40, 0, true), (0x7f, 0, true)]
                }
                SLEB => vec![
                    (0, 0x40, false),
                    (0, 0x7f, false),
                    (1, 0, false),
                    (0x3f, 0x7f, false),
                    (0x40, 0, true),
                    (0x7e, 0x7f, true),
                    (0x7f, 0x3f, true),
                    (0x7f, 0, true),
                ],
                _ if own == 1 => vec![(0, 0, false), (1, 0, false), (0x40, 0, false), (0x7f, 0, false)],
                _ => vec![(1, 0, false), (0x3f, 0x7f, false), (0x40, 0, false), (0x7f, 0x7f, false)],
            };
            for (top, below, negative) in ends {
                for len in own..=most {
                    let mut b = vec![0x80 | below; own];
                    b[own - 1] = 0x80 | top;
                    b.resize(len, if negative { 0xff } else { 0x80 });
                    b[len - 1] &= 0x7f;
                    b.push(0x80);
                    let c = case(kind, &b, &[0]);
                    let x = crate::compare::expected(&c);
                    assert_eq!(x.words[1..], [len as u64, len as u64, (len > own) as u64], "{}", c.describe());
                    all.push(c);
                }
            }
        }
    }
}

/// For a run alone: every list of one and two bytes, and `spelled`.
pub fn more() -> Vec<Case> {
    let mut all = Vec::new();
    spelled(&mut all);
    for kind in [ULEB, ULEB16, SLEB] {
        for b in 0..0x80 {
            all.push(case(kind, &[b], &[0]));
            for first in 0x80..=0xff {
                all.push(case(kind, &[first, b], &[0]));
            }
        }
    }
    all
}

/// Raw runs, cursors and trees over a part of a unit.
fn walks(all: &mut Vec<Case>, section: &[u8], bytes: &[u8], start: u64, offsets: &[u64]) {
    let t = table_of(section).unwrap();
    let n = [start, 4, 0, 4, 0];
    let put = |all: &mut Vec<Case>, kind: u8, calls: &[u64]| {
        let mut c = case(kind, bytes, &n).with(&t);
        c.calls = calls.to_vec();
        all.push(c);
    };
    for calls in [&[0; 24][..], &[1; 24], &[0, 1, 0, 1, 0, 1, 0, 1, 0, 1]] {
        put(all, RAW, calls);
    }
    for calls in [
        &[0; 24][..],
        &[1; 12],
        &[1, 1, 2, 2, 2, 2, 2],
        &[1, 1, 2, 1, 2, 2, 2, 2, 2, 1, 2, 2],
        &[1, 2, 2],
        &[0, 0, 2, 2, 2, 2, 2, 2],
        &[2, 0, 0, 0, 2, 2, 0, 2],
    ] {
        put(all, CURSOR, calls);
    }
    for levels in [
        &[0, 1, 0, 1, 0, 1, 2, 3, 3, 2, 3, 3, 2, 2, 1, 2, 2, 2, 1, 2, 3, 2, 2, 1, 1][..],
        &[0, 1, 1, 1, 1, 1, 1],
        &[0, 1, 2, 2, 2, 1, 2, 3],
    ] {
        put(all, TREE, levels);
    }
    let unit = V4.unit(bytes, 0);
    if start == V4.size() as u64 {
        for offset in offsets {
            all.push(case(ENTRY, &unit, &[0, *offset, 0]).with(&t));
        }
        all.push(case(HEADER, &unit, &[0, 0]));
    }
    all.push(table_case(section, 0));
}

fn entries(all: &mut Vec<Case>) {
    // entries_cursor_tests_*
    let plain = Abbrevs::new().abbrev(1, 0x2e, true).attr(3, 8).attr_null().null();
    let mut d = Dies::default();
    d.die(1, "001").die(1, "002").die(1, "003").nulls(2);
    d.die(1, "004").die(1, "005").nulls(1).die(1, "006").nulls(2);
    d.die(1, "007").die(1, "008").die(1, "009").nulls(3);
    d.die(1, "010").nulls(2);
    let end = 11 + d.0.len() as u64;
    walks(all, &plain, &d.0, 11, &[0, 10, 11, 12, 16, 21, 26, 27, end - 1, end, end + 1, u64::MAX]);
    // test_cursor_next_entry_incomplete
    let mut d = Dies::default();
    d.die(1, "001").die(1, "002").byte(1);
    walks(all, &plain, &d.0, 11, &[11, 16, 21]);
    // entries_cursor_sibling_*
    let siblings = Abbrevs::new()
        .abbrev(1, 0x2e, true)
        .attr(3, 8)
        .attr(1, 0x11)
        .attr_null()
        .abbrev(2, 0x2e, true)
        .attr(3, 8)
        .attr_null()
        .null();
    let mut d = Dies::default();
    d.die(2, "001").die(1, "002");
    let first = d.0.len();
    d.byte(0).die(10, "003").nulls(2);
    d.0[first] = 11 + d.0.len() as u8;
    d.die(1, "004").byte(255).die(2, "005").nulls(2);
    d.die(2, "006").die(1, "007");
    let second = d.0.len();
    d.byte(0).die(10, "008").nulls(2);
    d.0[second] = 11 + d.0.len() as u8;
    d.die(2, "009").nulls(2);
    d.die(2, "010").die(2, "011").nulls(3);
    walks(all, &siblings, &d.0, 11, &[11, 16, 22]);
    // a jump exactly to the end, one past it, one into the entry's own bytes, one to its own place
    for target in [d.0.len() as u8 + 11, d.0.len() as u8 + 12, 20, 16] {
        let mut b = d.0.clone();
        b[first] = target;
        walks(all, &siblings, &b, 11, &[16]);
    }
    // entries_tree_tests_*
    let tree = Abbrevs::new()
        .abbrev(1, 0x2e, true)
        .attr(3, 8)
        .attr_null()
        .abbrev(2, 0x2e, false)
        .attr(3, 8)
        .attr_null()
        .null();
    let mut d = Dies::default();
    d.die(1, "root").die(1, "1").die(1, "1a").nulls(1).die(2, "1b").nulls(1);
    let entry2 = d.0.len();
    d.die(1, "2").die(1, "2a").die(1, "2a1").nulls(2).die(1, "2b").die(2, "2b1").nulls(2);
    d.die(1, "3").die(1, "3a").die(2, "3a1").die(2, "3a2").nulls(1).die(2, "3b").nulls(1);
    d.die(2, "final").nulls(1);
    walks(all, &tree, &d.0, 11, &[11, 17]);
    walks(all, &tree, &d.0[entry2..], 11 + entry2 as u64, &[]);
    // test_entries_raw
    let raw = Abbrevs::new()
        .abbrev(1, 0x2e, true)
        .attr(3, 8)
        .attr(0x6e, 8)
        .attr_null()
        .abbrev(2, 0x34, false)
        .attr(3, 8)
        .attr_null()
        .null();
    let mut d = Dies::default();
    d.die(1, "f1").text("l1").die(2, "v1").die(2, "v2").die(1, "f2").text("l2").nulls(2);
    walks(all, &raw, &d.0, 11, &[11, 18, 22, 26]);
    // document 01's unit
    let table = [1, 0x11, 1, 3, 8, 0, 0, 2, 0x34, 0, 0x0b, 0x0b, 0, 0, 0];
    let mut unit = vec![0x0f, 0, 0, 0, 4, 0, 0, 0, 0, 0, 8];
    unit.extend([1, 0x61, 0, 2, 5, 2, 7, 0]);
    walks(all, &table, &unit[11..], 11, &[]);
    let t = table_of(&table).unwrap();
    for offset in [10, 11, 12, 14, 16, 18, 19] {
        all.push(case(ENTRY, &unit, &[0, offset, 0]).with(&t));
    }
    all.push(case(HEADER, &unit, &[0, 0]));
    // a null, nothing and an unknown code for a root; skipping what reading refuses
    for b in [&[0][..], &[9], &[0x80], &[2]] {
        walks(all, &table, b, 11, &[11]);
    }
    let odd = Abbrevs::new().abbrev(1, 0x11, false).attr(3, 0x16).attr(3, 1).attr_null().null();
    let t = table_of(&odd).unwrap();
    for (bytes, width) in [(&[1, 0x21, 1, 2, 3, 4][..], 4), (&[1, 0x0b, 7, 1, 2, 3], 3), (&[1, 0x7f, 1, 2], 4)] {
        for calls in [[0], [1]] {
            let mut c = case(RAW, bytes, &[11, 4, 0, width, 0]).with(&t);
            c.calls = calls.to_vec();
            all.push(c);
        }
    }
}

pub fn cases() -> Vec<Case> {
    let mut all = Vec::new();
    numbers(&mut all);
    padded_numbers(&mut all);
    headers(&mut all);
    type_headers(&mut all);
    tables(&mut all);
    types(&mut all);
    values(&mut all);
    padded_values(&mut all);
    entries(&mut all);
    padded_entries(&mut all);
    all
}
