//! A case: one call of one exported function with its inputs; and what is expected of it.

use crate::rules::Pairs;
use std::sync::Arc;

pub const ULEB: u8 = 0;
pub const ULEB16: u8 = 1;
pub const SLEB: u8 = 2;
pub const SKIP_LEB: u8 = 3;
pub const WORD: u8 = 4;
pub const INITIAL: u8 = 5;
pub const HEADER: u8 = 6;
pub const NEXT_UNIT: u8 = 7;
pub const ENTRY: u8 = 8;
pub const TABLE: u8 = 9;
pub const GET: u8 = 10;
pub const ATTRIBUTE: u8 = 11;
pub const RAW: u8 = 12;
pub const CURSOR: u8 = 13;
pub const TREE: u8 = 14;
/// The calls of `RAW` on a lent state.
pub const RAW_LENT: u8 = 15;
/// The list of units of .debug_types.
pub const TYPES_NEXT: u8 = 16;
pub const TYPE_ENTRY: u8 = 17;
pub const LIST: u8 = 18;

pub const KINDS: usize = 19;
pub const NAMES: [&str; KINDS] = [
    "read_uleb128",
    "read_uleb128_u16",
    "read_sleb128",
    "skip_leb128",
    "read_word",
    "read_initial_length",
    "unit_header",
    "next_unit",
    "entry",
    "abbreviations",
    "get",
    "read_attribute",
    "raw",
    "cursor",
    "tree",
    "raw_lent",
    "types_next_unit",
    "type_entry",
    "list",
];

/// The words of an entry before its attributes, and of each attribute, of which the last is its mark.
const ENTRY_WORDS: usize = 5;
const ATTRIBUTE_WORDS: usize = 6;

/// Where the expected answer is not gimli's own. The first ones are the differences that
/// docs/DIFFERENCES.md lists; from `CLOSED` on gimli cannot be asked, or its state is not looked at,
/// and document 01 says what is expected.
pub const CLASSES: usize = 14;
pub const CLASS_NAMES: [&str; CLASSES] = [
    "1: a position past the end of the bytes",
    "1: a section of more than 2^31 - 1 bytes",
    "1: start offset plus byte count above 2^63 - 1",
    "1: a found row that breaks the sizes",
    "13: more than 64 pairs",
    "15: rows full",
    "21: no root, or a level out of range",
    "22: no unit has the signature",
    "2: a sum that wraps in skip_attributes",
    "(01) no more: a level in range where gimli has no iterator",
    "(01) a raw reader keeps its state after a refusal",
    "(01) a tree is as new after a failed root",
    "(01) a tree over no bytes, which gimli does not open",
    "(01) a plain read past the end is one at the end",
];
pub const PAST_PLACE: u32 = 1 << 0;
pub const LONG_SECTION: u32 = 1 << 1;
pub const LONG_OFFSET: u32 = 1 << 2;
pub const FORGED_ROW: u32 = 1 << 3;
pub const PAIRS: u32 = 1 << 4;
pub const ROWS_FULL: u32 = 1 << 5;
pub const LEVEL: u32 = 1 << 6;
pub const NO_TYPE: u32 = 1 << 7;
pub const WRAPS: u32 = 1 << 8;
pub const CLOSED: u32 = 1 << 9;
pub const RAW_KEPT: u32 = 1 << 10;
pub const TREE_NEW: u32 = 1 << 11;
pub const TREE_EMPTY: u32 = 1 << 12;
pub const PAST_END: u32 = 1 << 13;

/// An abbreviation table: as bytes, as gimli read it, and as rows for the port. The rows may lie in
/// any order, and have more codes than gimli's table where they break document 01's sizes.
pub struct Table {
    pub section: Vec<u8>,
    pub gimli: gimli::Abbreviations,
    pub rows: Vec<u64>,
    pub specs: Vec<u64>,
    /// specifications in gimli's table, for the cost of printing it
    pub size: usize,
    /// padded numbers of the section, which are none of an attribute's
    pub padded: Pairs,
}

/// The scalar parameters `n` stand in their order:
///   0..3 at | 4 at, width, is_big | 5 at, is_big | 6 offset, is_big | 7 at, is_big
///   8 unit, offset, is_big | 9 offset | 10 code
///   11 start, at, version, is_64, width, is_big, name, form, constant
///   12..15 start, version, is_64, width, is_big | 16 at, is_big | 17 signature, is_big
///   18 first, bytes of text lent
#[derive(Clone)]
pub struct Case {
    pub kind: u8,
    pub n: [u64; 10],
    pub bytes: Arc<Vec<u8>>,
    /// 17 and 18: .debug_abbrev
    pub second: Arc<Vec<u8>>,
    pub table: Option<Arc<Table>>,
    /// calls or levels
    pub calls: Vec<u64>,
    /// 9, 17 and 18: words lent for rows and specifications
    pub lent: (usize, usize),
    /// where too few words may be lent for the answer (see `ask` in compare.rs)
    pub cut: Option<usize>,
}

pub struct Enc {
    pub start: u64,
    pub version: u16,
    pub is_64: bool,
    pub width: u8,
    pub is_big: bool,
}

impl Case {
    /// A raw run on a lent state.
    pub fn lent(&self) -> Case {
        Case { kind: RAW_LENT, ..self.clone() }
    }

    pub fn new(kind: u8, bytes: &Arc<Vec<u8>>, n: &[u64]) -> Case {
        let mut all = [0; 10];
        all[..n.len()].copy_from_slice(n);
        Case {
            kind,
            n: all,
            bytes: bytes.clone(),
            second: Arc::new(Vec::new()),
            table: None,
            calls: Vec::new(),
            lent: (0, 0),
            cut: None,
        }
    }

    pub fn with(mut self, table: &Arc<Table>) -> Case {
        self.table = Some(table.clone());
        self
    }

    pub fn is_big(&self) -> bool {
        let i = match self.kind {
            WORD | ENTRY => 2,
            INITIAL | HEADER | NEXT_UNIT | TYPES_NEXT | TYPE_ENTRY => 1,
            ATTRIBUTE => 5,
            RAW | CURSOR | TREE | RAW_LENT => 4,
            _ => return false,
        };
        self.n[i] != 0
    }

    /// Of kinds 12 to 14.
    pub fn enc(&self) -> Enc {
        Enc {
            start: self.n[0],
            version: self.n[1] as u16,
            is_64: self.n[2] != 0,
            width: self.n[3] as u8,
            is_big: self.n[4] != 0,
        }
    }

    /// Whether rows are lent to be filled.
    pub fn fills(&self) -> bool {
        matches!(self.kind, TABLE | TYPE_ENTRY | LIST)
    }

    /// A measure for the smallest of several.
    pub fn size(&self) -> usize {
        self.bytes.len()
            + self.second.len()
            + self.calls.len() * 2
            + self.table.as_ref().map_or(0, |t| t.section.len() + t.rows.len() / 5)
    }

    pub fn describe(&self) -> String {
        let mut s = format!("  {}", NAMES[self.kind as usize]);
        s += &format!("\n    numbers {:?}", self.n);
        s += &format!("\n    bytes ({}) {}", self.bytes.len(), hex(&self.bytes));
        if !self.second.is_empty() {
            s += &format!("\n    abbrevs ({}) {}", self.second.len(), hex(&self.second));
        }
        if let Some(t) = &self.table {
            s += &format!("\n    table ({}) {}", t.section.len(), hex(&t.section));
            s += &format!("\n    rows ({}) {}", t.rows.len(), list(&t.rows));
            s += &format!("\n    specs ({}) {}", t.specs.len(), list(&t.specs));
        }
        if !self.calls.is_empty() {
            s += &format!("\n    calls ({}) {}", self.calls.len(), signed(&self.calls));
        }
        if self.lent != (0, 0) {
            s += &format!("\n    lent {:?}", self.lent);
        }
        if let Some(k) = self.cut {
            s += &format!("\n    words cut by {k}");
        }
        s
    }
}

pub fn hex(b: &[u8]) -> String {
    let most = if b.len() > 4000 { 40 } else { 400 };
    let mut s: String = b.iter().take(most).map(|x| format!("{x:02x}")).collect();
    if b.len() > most {
        s += "..";
    }
    s
}

pub fn list(w: &[u64]) -> String {
    let mut s: Vec<String> = w.iter().take(120).map(|x| format!("{x}")).collect();
    if w.len() > 120 {
        s.push("..".into());
    }
    s.join(" ")
}

pub fn signed(w: &[u64]) -> String {
    let mut s: Vec<String> = w.iter().take(120).map(|x| format!("{}", *x as i64)).collect();
    if w.len() > 120 {
        s.push("..".into());
    }
    s.join(" ")
}

/// The padded numbers of what was read, for the counts of a run.
#[derive(Clone, Default)]
pub struct Padded {
    /// of a number: the bytes used, and whether fewer would do
    pub number: Option<(usize, bool)>,
    /// attributes read
    pub attributes: u64,
    /// of each marked one the form that its form is in the end, whether a number that names a form is padded, and
    /// whether its value's own number is
    pub marked: Vec<(u64, bool, bool)>,
    /// what does not count, where there is no mark: entries whose code is padded, attributes whose name or form is
    /// padded in the table, and those whose constant is
    pub codes: u64,
    pub pairs: u64,
    pub constants: u64,
}

/// What is expected: a status and words, gimli's own but for those of `added`. For a table or a type also the rows,
/// sorted since their order is left open, and the specifications; for a listing the text.
#[derive(Clone, Default)]
pub struct Answer {
    pub status: u64,
    pub words: Vec<u64>,
    pub rows: Vec<[u64; 5]>,
    pub specs: Vec<u64>,
    pub text: Vec<u8>,
    /// where this is not gimli's own answer
    pub classes: u32,
    /// the status of each call, for scripts
    pub said: Vec<u64>,
    /// the words up to the end of each call, for scripts
    pub ends: Vec<usize>,
    /// calls that start with a jump by a sibling reference
    pub jumps: u64,
    pub padded: Padded,
    /// something in the harness or in gimli that should not be: gimli panicked, two of its own
    /// functions disagree, or the harness's own reading of a table differs from gimli's
    pub trouble: Option<String>,
}

impl Answer {
    pub fn refused(status: u64) -> Answer {
        Answer { status, ..Answer::default() }
    }

    pub fn gave(words: Vec<u64>) -> Answer {
        Answer { words, ..Answer::default() }
    }

    pub fn class(mut self, class: u32) -> Answer {
        self.classes |= class;
        self
    }

    /// The places of the words that gimli does not have: how many bytes a number has and whether fewer would do, and
    /// the marks of attributes.
    pub fn added(&self, case: &Case) -> Vec<usize> {
        let mut all = Vec::new();
        let mut entry = |at: usize| {
            let count = self.words[at + 4] as usize;
            all.extend((1..=count).map(|i| at + ENTRY_WORDS + ATTRIBUTE_WORDS * i - 1));
        };
        match case.kind {
            _ if self.status != 0 => {}
            ULEB | ULEB16 | SLEB => all.extend([2, 3]),
            ATTRIBUTE => all.push(ATTRIBUTE_WORDS),
            ENTRY => entry(0),
            TYPE_ENTRY => entry(match self.words[7] {
                2 | 6 => 10,
                4 | 5 => 9,
                _ => 8,
            }),
            RAW | RAW_LENT | CURSOR | TREE => {
                let head = if case.kind == TREE { 5 } else { 4 };
                let mut from = 0;
                for (call, end) in case.calls.iter().zip(&self.ends) {
                    let is_skip = *call != 0 && matches!(case.kind, RAW | RAW_LENT);
                    if !is_skip {
                        entry(from + head);
                    }
                    from = *end;
                }
            }
            _ => {}
        }
        all
    }

    pub fn end_call(&mut self, status: u64) {
        self.said.push(status);
        self.ends.push(self.words.len());
    }
}
