//! A reader whose `Debug` is its length only, and what a tree's `Debug` says of its state.
//!
//! gimli's `EntriesTree` has no accessors for the place and depth of its next item, nor for the null it
//! holds after "no more". Its `Debug` prints all its fields; over this reader they are short and exact.

use gimli::{EndianSlice, Reader, ReaderOffsetId, Result, RunTimeEndian};
use std::borrow::Cow;
use std::fmt::{self, Debug, Write};

pub type Slice<'a> = EndianSlice<'a, RunTimeEndian>;

#[derive(Clone, Copy)]
pub struct Probe<'a>(pub Slice<'a>);

impl Debug for Probe<'_> {
    fn fmt(&self, f: &mut fmt::Formatter<'_>) -> fmt::Result {
        write!(f, "{}", self.0.len())
    }
}

impl<'a> Reader for Probe<'a> {
    type Endian = RunTimeEndian;
    type Offset = usize;

    fn endian(&self) -> RunTimeEndian {
        self.0.endian()
    }
    fn len(&self) -> usize {
        Reader::len(&self.0)
    }
    fn empty(&mut self) {
        self.0.empty()
    }
    fn truncate(&mut self, len: usize) -> Result<()> {
        self.0.truncate(len)
    }
    fn offset_from(&self, base: &Self) -> usize {
        Reader::offset_from(&self.0, &base.0)
    }
    fn offset_id(&self) -> ReaderOffsetId {
        self.0.offset_id()
    }
    fn lookup_offset_id(&self, id: ReaderOffsetId) -> Option<usize> {
        self.0.lookup_offset_id(id)
    }
    fn find(&self, byte: u8) -> Result<usize> {
        Reader::find(&self.0, byte)
    }
    fn skip(&mut self, len: usize) -> Result<()> {
        self.0.skip(len)
    }
    fn split(&mut self, len: usize) -> Result<Self> {
        self.0.split(len).map(Probe)
    }
    fn to_slice(&self) -> Result<Cow<'_, [u8]>> {
        self.0.to_slice()
    }
    fn to_string(&self) -> Result<Cow<'_, str>> {
        Reader::to_string(&self.0)
    }
    fn to_string_lossy(&self) -> Result<Cow<'_, str>> {
        Reader::to_string_lossy(&self.0)
    }
    fn read_slice(&mut self, buf: &mut [u8]) -> Result<()> {
        Reader::read_slice(&mut self.0, buf)
    }
}

/// Where the bytes of a block, expression or string lie.
pub trait Placed {
    fn span(&self) -> (usize, usize);
}

impl Placed for Slice<'_> {
    fn span(&self) -> (usize, usize) {
        (self.slice().as_ptr() as usize, self.slice().len())
    }
}

impl Placed for Probe<'_> {
    fn span(&self) -> (usize, usize) {
        self.0.span()
    }
}

/// What a tree holds.
#[derive(Clone, Copy, PartialEq, Debug)]
pub struct Seen {
    /// bytes not yet read
    pub left: usize,
    /// of the next item
    pub next_depth: i64,
    pub is_null: bool,
    pub offset: u64,
    pub depth: i64,
}

fn after<'a>(s: &'a str, mark: &str) -> Option<&'a str> {
    s.rfind(mark).map(|i| &s[i + mark.len()..])
}

fn number<T: std::str::FromStr>(s: &str) -> Option<T> {
    let end = s.find(|c: char| !c.is_ascii_digit() && c != '-').unwrap_or(s.len());
    s[..end].parse().ok()
}

/// Reads the state out of the `Debug` of a tree, a node or an iterator over a `Probe`.
pub fn see(tree: &dyn Debug, text: &mut String) -> Option<Seen> {
    text.clear();
    write!(text, "{tree:?}").ok()?;
    let s = text.as_str();
    let first = s.find("input: EntriesRaw { input: ")?;
    let left = number(&s[first + "input: EntriesRaw { input: ".len()..])?;
    let end = after(s, ", end_offset: UnitOffset(")?;
    let next_depth = number(&end[end.find(", depth: ")? + ", depth: ".len()..])?;
    let tag = after(s, "entry: DebuggingInformationEntry { tag: ")?;
    let is_null = tag.starts_with("DwTag(0)") || tag.starts_with("DW_TAG_null,");
    let held = after(s, "], offset: UnitOffset(")?;
    let offset = number(held)?;
    let depth = number(&held[held.find(", depth: ")? + ", depth: ".len()..])?;
    Some(Seen { left, next_depth, is_null, offset, depth })
}
