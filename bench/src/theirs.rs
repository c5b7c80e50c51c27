//! The same passes by gimli. Each gives every entry or null that it reaches to `see`; the answer says whether the unit was refused.

use gimli::*;
use std::fmt::Write;

pub type R<'a, E> = EndianSlice<'a, E>;
pub type Die<'a, E> = DebuggingInformationEntry<R<'a, E>>;

/// A unit with its table.
pub struct Opened<'a, 't, E: Endianity> {
    pub header: &'t UnitHeader<R<'a, E>>,
    pub table: &'t Abbreviations,
}

impl<'a, 't, E: Endianity> Opened<'a, 't, E> {
    pub fn raw(&self, held: &mut Die<'a, E>, mut see: impl FnMut(&Die<'a, E>)) -> bool {
        let Ok(mut raw) = self.header.entries_raw(self.table, None) else { return true };
        while !raw.is_empty() {
            match raw.read_entry(held) {
                Ok(_) => see(held),
                Err(_) => return true,
            }
        }
        false
    }

    /// Gives the next offset and depth and the tag, 0 for a null.
    pub fn skip(&self, mut see: impl FnMut(usize, isize, u16)) -> bool {
        let Ok(mut raw) = self.header.entries_raw(self.table, None) else { return true };
        while !raw.is_empty() {
            match raw.read_abbreviation() {
                Ok(None) => see(raw.next_offset().0, raw.next_depth(), 0),
                Ok(Some(abbreviation)) => {
                    if raw.skip_attributes(abbreviation.attributes()).is_err() {
                        return true;
                    }
                    see(raw.next_offset().0, raw.next_depth(), abbreviation.tag().0)
                }
                Err(_) => return true,
            }
        }
        false
    }

    /// A page of the unit's sheet, by `write!`.
    pub fn page(&self, held: &mut Die<'a, E>, n: usize, page: &mut String) -> bool {
        let mut items = 0;
        page.clear();
        let refused = self.raw(held, |e| {
            let (offset, depth, tag, count) = (e.offset().0, e.depth(), e.tag().0, e.attrs().len());
            match items / 60 == n {
                true if tag == 0 => writeln!(page, "{offset:10} {depth:11} null    0").unwrap(),
                true => writeln!(page, "{offset:10} {depth:11} 0x{tag:04x} {count:2}").unwrap(),
                false => {}
            }
            items += 1;
        });
        if refused {
            page.clear();
        }
        while page.len() < 60 * 33 {
            writeln!(page, "{:32}", "").unwrap();
        }
        refused
    }

    pub fn dfs(&self, mut see: impl FnMut(&Die<'a, E>)) -> bool {
        let mut cursor = self.header.entries(self.table);
        loop {
            match cursor.next_dfs() {
                Ok(Some(entry)) => see(entry),
                Ok(None) => return false,
                Err(_) => return true,
            }
        }
    }

    /// The first entry, and its children by next_sibling.
    pub fn siblings(&self, mut see: impl FnMut(&Die<'a, E>)) -> bool {
        let mut cursor = self.header.entries(self.table);
        match cursor.next_entry() {
            Ok(_) => {}
            Err(_) => return true,
        }
        match cursor.current() {
            Some(root) => {
                see(root);
                if !root.has_children() {
                    return false;
                }
            }
            None => return false,
        }
        if cursor.next_entry().is_err() {
            return true;
        }
        match cursor.current() {
            Some(child) => see(child),
            None => return false,
        }
        loop {
            match cursor.next_sibling() {
                Ok(Some(entry)) => see(entry),
                Ok(None) => return false,
                Err(_) => return true,
            }
        }
    }

    /// The root and its children by the tree.
    pub fn children(&self, mut see: impl FnMut(&Die<'a, E>)) -> bool {
        let Ok(mut tree) = self.header.entries_tree(self.table, None) else { return true };
        let Ok(root) = tree.root() else { return true };
        see(root.entry());
        let mut children = root.children();
        loop {
            match children.next() {
                Ok(Some(child)) => see(child.entry()),
                Ok(None) => return false,
                Err(_) => return true,
            }
        }
    }

    /// Every entry by the tree.
    pub fn whole(&self, mut see: impl FnMut(&Die<'a, E>)) -> bool {
        let Ok(mut tree) = self.header.entries_tree(self.table, None) else { return true };
        let Ok(root) = tree.root() else { return true };
        below(root, &mut see).is_err()
    }
}

fn below<'a, E: Endianity>(node: EntriesTreeNode<R<'a, E>>, see: &mut impl FnMut(&Die<'a, E>)) -> Result<()> {
    see(node.entry());
    let mut children = node.children();
    while let Some(child) = children.next()? {
        below(child, see)?;
    }
    Ok(())
}

/// How a listing writes its numbers.
pub trait Lines {
    fn clear(&mut self);
    fn text(&self) -> &[u8];
    fn unit(&mut self, offset: usize, version: u16, bits: u8, width: u8);
    fn entry(&mut self, offset: usize, depth: isize, tag: u16, count: usize);
    fn null(&mut self, offset: usize, depth: isize);
    fn end(&mut self);
}

/// By `write!`.
#[derive(Default)]
pub struct Formatted(pub String);

impl Lines for Formatted {
    fn clear(&mut self) {
        self.0.clear();
    }
    fn text(&self) -> &[u8] {
        self.0.as_bytes()
    }
    fn unit(&mut self, offset: usize, version: u16, bits: u8, width: u8) {
        writeln!(self.0, "unit {offset} {version} {bits} {width}").unwrap();
    }
    fn entry(&mut self, offset: usize, depth: isize, tag: u16, count: usize) {
        writeln!(self.0, "{offset} {depth} 0x{tag:x} {count}").unwrap();
    }
    fn null(&mut self, offset: usize, depth: isize) {
        writeln!(self.0, "{offset} {depth} null").unwrap();
    }
    fn end(&mut self) {
        self.0.push_str("end\n");
    }
}

/// Digit by digit.
#[derive(Default)]
pub struct ByHand(pub Vec<u8>);

impl ByHand {
    fn number<const BASE: u64>(&mut self, mut n: u64, after: u8) {
        let mut digits = [after; 24];
        let mut at = 23;
        loop {
            at -= 1;
            digits[at] = b"0123456789abcdef"[(n % BASE) as usize];
            n /= BASE;
            if n == 0 {
                break;
            }
        }
        self.0.extend_from_slice(&digits[at..]);
    }

    #[inline(always)]
    fn place(&mut self, offset: usize, depth: isize) {
        self.number::<10>(offset as u64, b' ');
        if depth < 0 {
            self.0.push(b'-');
        }
        self.number::<10>(depth.unsigned_abs() as u64, b' ');
    }
}

impl Lines for ByHand {
    fn clear(&mut self) {
        self.0.clear();
    }
    fn text(&self) -> &[u8] {
        &self.0
    }
    fn unit(&mut self, offset: usize, version: u16, bits: u8, width: u8) {
        self.0.extend_from_slice(b"unit ");
        self.number::<10>(offset as u64, b' ');
        self.number::<10>(version as u64, b' ');
        self.number::<10>(bits as u64, b' ');
        self.number::<10>(width as u64, b'\n');
    }
    fn entry(&mut self, offset: usize, depth: isize, tag: u16, count: usize) {
        self.place(offset, depth);
        self.0.extend_from_slice(b"0x");
        self.number::<16>(tag as u64, b' ');
        self.number::<10>(count as u64, b'\n');
    }
    fn null(&mut self, offset: usize, depth: isize) {
        self.place(offset, depth);
        self.0.extend_from_slice(b"null\n");
    }
    fn end(&mut self) {
        self.0.extend_from_slice(b"end\n");
    }
}

/// The listing, with each unit's table read on the way. After a refusal the text ends before its line.
pub fn list<'a, E: Endianity>(
    abbrevs: &DebugAbbrev<R<'a, E>>,
    info: &DebugInfo<R<'a, E>>,
    held: &mut Die<'a, E>,
    lines: &mut impl Lines,
) -> Result<()> {
    lines.clear();
    let mut units = info.units();
    while let Some(unit) = units.next()? {
        let bits = 8 * unit.format().word_size();
        lines.unit(unit.offset().0, unit.version(), bits, unit.address_size());
        if unit.header_size() == unit.length_including_self() {
            continue;
        }
        let table = unit.abbreviations(abbrevs)?;
        let mut raw = unit.entries_raw(&table, None)?;
        while !raw.is_empty() {
            if raw.read_entry(held)? {
                lines.entry(held.offset().0, held.depth(), held.tag().0, held.attrs().len());
            } else {
                lines.null(held.offset().0, held.depth());
            }
        }
    }
    lines.end();
    Ok(())
}
