//! The words of each answer from gimli, with document 01's added refusals where `rules` finds their
//! conditions. An answer tells in `classes` where it is not gimli's own. Behind a number and in an attribute stand
//! words that gimli does not have; they are those of `rules`, whose reading has to end where gimli's does.

use crate::case::*;
use crate::probe::{Placed, Probe, Seen, Slice, see};
use crate::rules;
use gimli::*;

fn endian(is_big: bool) -> RunTimeEndian {
    if is_big { RunTimeEndian::Big } else { RunTimeEndian::Little }
}

/// Document 01's number of a refusal; 99 for one that has none.
pub fn number(e: &Error) -> u64 {
    match e {
        Error::UnexpectedEof(_) => 2,
        Error::BadUnsignedLeb128 => 3,
        Error::BadSignedLeb128 => 4,
        Error::UnknownReservedLength(_) => 5,
        Error::UnknownVersion(_) => 6,
        Error::UnsupportedAddressSize(_) | Error::UnsupportedOffsetSize(_) => 7,
        Error::UnknownUnitType(_) => 8,
        Error::AbbreviationTagZero => 9,
        Error::InvalidAbbreviationChildren(_) => 10,
        Error::AttributeNameZero => 11,
        Error::AttributeFormZero => 12,
        Error::DuplicateAbbreviationCode(_) => 14,
        Error::InvalidAbbreviationCode(_) => 16,
        Error::UnknownForm(_) => 17,
        Error::InvalidImplicitConst => 18,
        Error::OffsetOutOfBounds(_) => 19,
        Error::NoEntryAtGivenOffset(_) => 20,
        _ => 99,
    }
}

/// The same with the rows that the port is given: a code that gimli's table lacks may be found in a
/// row that breaks the sizes, which is 1 in the place of 16.
fn number_in(e: &Error, table: &Table, classes: &mut u32) -> u64 {
    if let Error::InvalidAbbreviationCode(code) = e {
        if rules::code_breaks(&table.rows, &table.specs, *code) {
            *classes |= FORGED_ROW;
            return 1;
        }
    }
    number(e)
}

fn one(r: Result<Vec<u64>>) -> Answer {
    match r {
        Ok(words) => Answer::gave(words),
        Err(e) => Answer::refused(number(&e)),
    }
}

pub fn answer(case: &Case) -> Answer {
    match case.kind {
        ULEB | ULEB16 | SLEB | SKIP_LEB | WORD | INITIAL => plain(case),
        HEADER => header(case),
        NEXT_UNIT | TYPES_NEXT => next_unit(case),
        TYPE_ENTRY => type_entry(case),
        ENTRY => entry(case),
        TABLE => table(case),
        GET => get(case),
        ATTRIBUTE => attribute(case),
        RAW | RAW_LENT => raw(case),
        CURSOR => cursor(case),
        TREE => tree(case, &mut Fixed(&case.calls)).0,
        _ => listing(case),
    }
}

// ---- numbers and words

fn plain(case: &Case) -> Answer {
    let b = &case.bytes[..];
    let at = case.n[0].min(b.len() as u64) as usize;
    let r = &mut EndianSlice::new(&b[at..], endian(case.is_big()));
    let mut said = (|| {
        let mut words = match case.kind {
            ULEB => vec![r.read_uleb128()?],
            ULEB16 => vec![r.read_uleb128_u16()? as u64],
            SLEB => vec![r.read_sleb128()? as u64],
            SKIP_LEB => {
                r.skip_leb128()?;
                vec![]
            }
            WORD if case.n[1] == 3 => vec![r.read_uint(3)?],
            WORD => vec![r.read_address(case.n[1] as u8)?],
            _ => {
                let (length, format) = r.read_initial_length()?;
                vec![length as u64, format.word_size() as u64]
            }
        };
        words.push((b.len() - Reader::len(r)) as u64);
        Ok(words)
    })();
    let own = match case.kind {
        ULEB => Some(rules::uleb(b, at).map(|(v, next)| (v, next, rules::shortest_unsigned(v)))),
        ULEB16 => Some(rules::uleb16(b, at).map(|(v, next)| (v, next, rules::shortest_unsigned(v)))),
        SLEB => Some(rules::sleb(b, at).map(|(z, next)| (z as u64, next, rules::shortest_signed(z)))),
        _ => None,
    };
    let (mut padded, mut trouble) = (Padded::default(), None);
    match (&mut said, own) {
        (_, None) => {}
        (Ok(words), Some(Ok((v, next, least)))) if words[..] == [v, next as u64] => {
            let used = next - at;
            words.extend([used as u64, (used > least) as u64]);
            padded.number = Some((used, used > least));
        }
        (Err(e), Some(Err(n))) if number(e) == n => {}
        _ => trouble = Some("the harness reads a number otherwise than gimli".into()),
    }
    let answer = Answer { padded, trouble, ..one(said) };
    if case.n[0] > b.len() as u64 {
        return answer.class(PAST_END);
    }
    answer
}

// ---- units

fn header_words(h: &UnitHeader<Slice>, at: u64, words: &mut Vec<u64>, trouble: &mut Option<String>) {
    if h.header_size() != h.size_of_header() {
        *trouble = Some("header_size and size_of_header differ".into());
    }
    words.extend([
        h.offset().0 as u64 + at,
        h.unit_length() as u64,
        h.version() as u64,
        h.format().word_size() as u64,
        h.address_size() as u64,
        h.debug_abbrev_offset().0 as u64,
        h.header_size() as u64,
    ]);
    match h.type_() {
        UnitType::Compilation => words.push(1),
        UnitType::Type { type_signature, type_offset } => words.extend([2, type_signature.0, type_offset.0 as u64]),
        UnitType::Partial => words.push(3),
        UnitType::Skeleton(id) => words.extend([4, id.0]),
        UnitType::SplitCompilation(id) => words.extend([5, id.0]),
        UnitType::SplitType { type_signature, type_offset } => {
            words.extend([6, type_signature.0, type_offset.0 as u64])
        }
    }
}

fn header(case: &Case) -> Answer {
    if case.bytes.len() > rules::MAX_SECTION {
        return Answer::refused(1).class(LONG_SECTION);
    }
    let info = DebugInfo::from(EndianSlice::new(&case.bytes[..], endian(case.is_big())));
    match info.header_from_offset(DebugInfoOffset(case.n[0] as usize)) {
        Err(e) => Answer::refused(number(&e)),
        Ok(h) => {
            let mut a = Answer::default();
            header_words(&h, 0, &mut a.words, &mut a.trouble);
            a
        }
    }
}

/// gimli's list of the units of either section.
enum Units<'a> {
    Info(DebugInfoUnitHeadersIter<Slice<'a>>),
    Types(DebugTypesUnitHeadersIter<Slice<'a>>),
}

impl<'a> Units<'a> {
    fn new(kind: u8, section: &'a [u8], is_big: bool) -> Units<'a> {
        let section = EndianSlice::new(section, endian(is_big));
        match kind {
            NEXT_UNIT => Units::Info(DebugInfo::from(section).units()),
            _ => Units::Types(DebugTypes::from(section).units()),
        }
    }

    fn next(&mut self) -> Result<Option<UnitHeader<Slice<'a>>>> {
        match self {
            Units::Info(units) => units.next(),
            Units::Types(units) => units.next(),
        }
    }
}

fn next_unit(case: &Case) -> Answer {
    let b = &case.bytes[..];
    let at = case.n[0];
    if b.len() > rules::MAX_SECTION {
        return Answer { status: 1, words: vec![at], ..Answer::default() }.class(LONG_SECTION);
    }
    if at > b.len() as u64 {
        return Answer { status: 1, words: vec![at], ..Answer::default() }.class(PAST_PLACE);
    }
    // gimli's own list from 0 on, as far as it comes to this place
    let mut units = Units::new(case.kind, b, case.is_big());
    let mut place = 0;
    while place < at {
        match units.next() {
            Ok(Some(h)) => place = (h.offset().0 + h.length_including_self()) as u64,
            _ => break,
        }
    }
    // else a list that starts at the place
    let mut base = 0;
    if place != at {
        base = at;
        units = Units::new(case.kind, &b[at as usize..], case.is_big());
    }
    let mut a = Answer::default();
    match units.next() {
        Err(e) => {
            a.status = number(&e);
            a.words.push(b.len() as u64);
            if !matches!(units.next(), Ok(None)) {
                a.trouble = Some("a failed header did not end gimli's list".into());
            }
        }
        Ok(None) => a.words.extend([at, 0]),
        Ok(Some(h)) => {
            a.words.extend([at + h.length_including_self() as u64, 1]);
            header_words(&h, base, &mut a.words, &mut a.trouble);
        }
    }
    a
}

// ---- values and entries

fn value_words<R: Reader<Offset = usize> + Placed>(v: &AttributeValue<R>, base: usize, words: &mut Vec<u64>) {
    use AttributeValue::*;
    let place = |r: &R| {
        let (address, len) = r.span();
        (address.wrapping_sub(base) as u64, len as u64)
    };
    let (case, (low, high)) = match v {
        Addr(x) => (1, (*x, 0)),
        Block(x) => (2, place(x)),
        Data1(x) => (3, (*x as u64, 0)),
        Data2(x) => (4, (*x as u64, 0)),
        Data4(x) => (5, (*x as u64, 0)),
        Data8(x) => (6, (*x, 0)),
        Data16(x) => (7, (*x as u64, (*x >> 64) as u64)),
        Sdata(x) => (8, (*x as u64, 0)),
        Udata(x) => (9, (*x, 0)),
        Exprloc(x) => (10, place(&x.0)),
        Flag(x) => (11, (*x as u64, 0)),
        SecOffset(x) => (12, (*x as u64, 0)),
        DebugAddrIndex(x) => (13, (x.0 as u64, 0)),
        UnitRef(x) => (14, (x.0 as u64, 0)),
        DebugInfoRef(x) => (15, (x.0 as u64, 0)),
        DebugInfoRefSup(x) => (16, (x.0 as u64, 0)),
        DebugLocListsIndex(x) => (17, (x.0 as u64, 0)),
        DebugRngListsIndex(x) => (18, (x.0 as u64, 0)),
        DebugTypesRef(x) => (19, (x.0, 0)),
        DebugStrRef(x) => (20, (x.0 as u64, 0)),
        DebugStrRefSup(x) => (21, (x.0 as u64, 0)),
        DebugStrOffsetsIndex(x) => (22, (x.0 as u64, 0)),
        DebugLineStrRef(x) => (23, (x.0 as u64, 0)),
        String(x) => (24, place(x)),
        _ => (99, (0, 0)),
    };
    words.extend([case, low, high]);
}

/// The bytes that entries are read from, from the offset `enc.start` of their unit on.
struct Source<'a> {
    bytes: &'a [u8],
    enc: Enc,
    /// what is padded in the table
    pairs: &'a rules::Pairs,
}

impl Source<'_> {
    /// Where the unit's offset 0 lies.
    fn base(&self) -> usize {
        (self.bytes.as_ptr() as usize).wrapping_sub(self.enc.start as usize)
    }
}

/// The words of an entry or a null, behind which gimli goes on at the offset `end`.
fn entry_words<R: Reader<Offset = usize> + Placed>(
    e: &DebuggingInformationEntry<R>,
    depth: i64,
    source: &Source,
    end: usize,
    words: &mut Vec<u64>,
    padded: &mut Padded,
    trouble: &mut Option<String>,
) {
    words.extend([
        e.offset().0 as u64,
        depth as u64,
        e.tag().0 as u64,
        e.has_children() as u64,
        e.attrs().len() as u64,
    ]);
    let (b, start) = (source.bytes, source.enc.start as usize);
    let mut at = e.offset().0 - start;
    let Ok((code, next)) = rules::uleb(b, at) else {
        *trouble = Some("the harness reads no code where gimli does".into());
        return;
    };
    let long_code = next - at > rules::shortest_unsigned(code);
    at = next;
    let pairs = source.pairs.get(&code);
    let before = padded.marked.len();
    for (i, a) in e.attrs().iter().enumerate() {
        words.extend([a.name().0 as u64, a.form().0 as u64]);
        value_words(&a.raw_value(), source.base(), words);
        let Some(read) = rules::attribute(b, at, a.form().0 as u64, &source.enc) else {
            *trouble = Some("the harness does not read an attribute that gimli reads".into());
            return;
        };
        at = read.next;
        mark_word(&read, pairs.map_or((false, false), |p| p[i]), words, padded);
    }
    if start + at != end {
        *trouble = Some(format!("the harness reads an entry up to {}, gimli up to {end}", start + at));
    }
    padded.codes += (long_code && padded.marked.len() == before) as u64;
}

/// The mark of an attribute, whose pair and constant are padded or not in the table.
fn mark_word(read: &rules::Read, pair: (bool, bool), words: &mut Vec<u64>, padded: &mut Padded) {
    padded.attributes += 1;
    let is_marked = read.named || read.own;
    words.push(is_marked as u64);
    if is_marked {
        padded.marked.push((read.form, read.named, read.own));
    } else {
        padded.pairs += pair.0 as u64;
        padded.constants += pair.1 as u64;
    }
}

/// Whether an entry offers a jump that can be taken, from the next byte to read up to the end.
fn jumps<R: Reader<Offset = usize>>(e: &DebuggingInformationEntry<R>, next: usize, end: usize) -> bool {
    match e.attr_value_raw(DW_AT_sibling) {
        Some(AttributeValue::UnitRef(x)) => e.has_children() && x.0 > e.offset().0 && x.0 >= next && x.0 <= end,
        _ => false,
    }
}

fn null_words(offset: u64, depth: i64, words: &mut Vec<u64>) {
    words.extend([offset, depth as u64, 0, 0, 0]);
}

fn encoding(version: u16, is_64: bool, width: u8) -> Encoding {
    Encoding { address_size: width, format: if is_64 { Format::Dwarf64 } else { Format::Dwarf32 }, version }
}

fn attribute(case: &Case) -> Answer {
    let [start, at, version, is_64, width, is_big, name, form, constant, _] = case.n;
    let b = &case.bytes[..];
    if at > b.len() as u64 {
        return Answer::refused(1).class(PAST_PLACE);
    }
    if rules::long_offset(start, b.len()) {
        return Answer::refused(1).class(LONG_OFFSET);
    }
    let input = EndianSlice::new(&b[at as usize..], endian(is_big != 0));
    let none = Abbreviations::default();
    let offset = UnitOffset((start + at) as usize);
    let mut raw = EntriesRaw::new(input, encoding(version as u16, is_64 != 0, width as u8), &none, offset);
    let constant = if form == 0x21 { Some(constant as i64) } else { None };
    let spec = AttributeSpecification::new(DwAt(name as u16), DwForm(form as u16), constant);
    match raw.read_attribute(spec) {
        Err(e) => Answer::refused(number(&e)),
        Ok(a) => {
            let next = raw.next_offset().0 as u64 - start;
            let mut words = vec![next, a.name().0 as u64, a.form().0 as u64];
            let base = (b.as_ptr() as usize).wrapping_sub(start as usize);
            value_words(&a.raw_value(), base, &mut words);
            let mut answer = Answer::default();
            let enc =
                Enc { start, version: version as u16, is_64: is_64 != 0, width: width as u8, is_big: is_big != 0 };
            match rules::attribute(b, at as usize, form, &enc) {
                Some(read) if read.next as u64 == next => {
                    mark_word(&read, (false, false), &mut words, &mut answer.padded)
                }
                _ => answer.trouble = Some("the harness reads an attribute otherwise than gimli".into()),
            }
            Answer { words, ..answer }
        }
    }
}

/// The words of an entry by its offset, from the bytes of a section from the unit on.
fn single_entry(
    h: &UnitHeader<Slice>,
    e: &DebuggingInformationEntry<Slice>,
    b: &[u8],
    is_big: bool,
    abbreviations: &Abbreviations,
    pairs: &rules::Pairs,
    a: &mut Answer,
) -> Result<()> {
    // it is read again, for the place behind it
    let mut raw = h.entries_raw(abbreviations, Some(e.offset()))?;
    raw.read_entry(&mut DebuggingInformationEntry::null())?;
    let enc =
        Enc { start: 0, version: h.version(), is_64: h.format() == Format::Dwarf64, width: h.address_size(), is_big };
    let source = Source { bytes: &b[..h.length_including_self()], enc, pairs };
    let end = raw.next_offset().0;
    entry_words(e, e.depth() as i64, &source, end, &mut a.words, &mut a.padded, &mut a.trouble);
    Ok(())
}

fn entry(case: &Case) -> Answer {
    let b = &case.bytes[..];
    if b.len() > rules::MAX_SECTION {
        return Answer::refused(1).class(LONG_SECTION);
    }
    let t = case.table.as_ref().unwrap();
    let info = DebugInfo::from(EndianSlice::new(b, endian(case.is_big())));
    let mut a = Answer::default();
    let said = info.header_from_offset(DebugInfoOffset(case.n[0] as usize)).and_then(|h| {
        let e = h.entry(&t.gimli, UnitOffset(case.n[1] as usize))?;
        single_entry(&h, &e, &b[case.n[0] as usize..], case.is_big(), &t.gimli, &t.padded, &mut a)
    });
    if let Err(e) = said {
        a.status = number_in(&e, t, &mut a.classes);
    }
    a
}

// ---- tables

fn same(d: &rules::Declaration, a: &Abbreviation) -> bool {
    a.code() == d.code
        && a.tag().0 as u64 == d.tag
        && a.has_children() as u64 == d.children
        && a.attributes().len() == d.specs.len()
        && a.attributes().iter().zip(&d.specs).all(|(x, s)| {
            x.name().0 as u64 == s[0]
                && x.form().0 as u64 == s[1]
                && x.implicit_const_value().unwrap_or(0) as u64 == s[2]
        })
}

fn table(case: &Case) -> Answer {
    let mut a = no_rows(case);
    if case.bytes.len() > rules::MAX_SECTION {
        a.status = 1;
        return a.class(LONG_SECTION);
    }
    if let Some((all, _)) = fill(&mut a, &case.bytes, case.n[0], case.lent) {
        a.words.push(all.len() as u64);
    }
    a
}

/// All lent rows zero.
fn no_rows(case: &Case) -> Answer {
    let (rows, specs) = case.lent;
    Answer { rows: vec![[0; 5]; rows / 5], specs: vec![0; specs], ..Answer::default() }
}

/// Puts a table into the rows of an answer, or its refusal into the status; the declarations in file order.
/// The rows come from gimli's own; which codes there are, and their order, is the harness's own reading, which
/// has to agree with gimli's in every case.
fn fill(
    a: &mut Answer,
    b: &[u8],
    offset: u64,
    lent: (usize, usize),
) -> Option<(Vec<rules::Declaration>, Abbreviations)> {
    let said =
        DebugAbbrev::from(EndianSlice::new(b, RunTimeEndian::Little)).abbreviations(DebugAbbrevOffset(offset as usize));
    let status = said.as_ref().map_or_else(number, |_| 0);
    let (free, all) = rules::table(b, offset, rules::NO_LIMITS);
    if free != status {
        a.trouble = Some(format!("the harness reads the table with {free}, gimli with {status}"));
    }
    let limits = rules::Limits { pairs: 64, rows: lent.0 / 5, specs: lent.1 / 3 };
    let (limited, _) = rules::table(b, offset, limits);
    a.status = status;
    if limited != free {
        a.status = limited;
        a.classes |= match limited {
            13 => PAIRS,
            15 => ROWS_FULL,
            _ => 0,
        };
        return None;
    }
    let abbreviations = said.ok()?;
    let mut first = 0;
    for (i, d) in all.iter().enumerate() {
        let Some(found) = abbreviations.get(d.code).filter(|x| same(d, x)) else {
            a.trouble = Some(format!("the harness reads code {} otherwise than gimli", d.code));
            return None;
        };
        let count = found.attributes().len();
        a.rows[i] = [found.code(), found.tag().0 as u64, found.has_children() as u64, first as u64, count as u64];
        for (k, s) in found.attributes().iter().enumerate() {
            let at = (first + k) * 3;
            a.specs[at] = s.name().0 as u64;
            a.specs[at + 1] = s.form().0 as u64;
            a.specs[at + 2] = s.implicit_const_value().unwrap_or(0) as u64;
        }
        first += count;
    }
    a.rows.sort();
    Some((all, abbreviations))
}

// ---- a type by its signature

/// The signature and the type's offset of a type unit; a dwo_id is no signature.
fn typed(h: &UnitHeader<Slice>) -> Option<(u64, UnitOffset)> {
    match h.type_() {
        UnitType::Type { type_signature, type_offset } => Some((type_signature.0, type_offset)),
        UnitType::SplitType { type_signature, type_offset } => Some((type_signature.0, type_offset)),
        _ => None,
    }
}

/// The first unit in gimli's list with the signature, or a refusal: a header's, or 22 after the last.
fn unit_with<'a>(case: &'a Case) -> std::result::Result<(UnitHeader<Slice<'a>>, UnitOffset), u64> {
    let mut units = Units::new(case.kind, &case.bytes, case.is_big());
    loop {
        let h = units.next().map_err(|e| number(&e))?.ok_or(22u64)?;
        if let Some((signature, offset)) = typed(&h)
            && signature == case.n[0]
        {
            return Ok((h, offset));
        }
    }
}

fn type_entry(case: &Case) -> Answer {
    let mut a = no_rows(case);
    if case.bytes.len().max(case.second.len()) > rules::MAX_SECTION {
        a.status = 1;
        return a.class(LONG_SECTION);
    }
    let (h, offset) = match unit_with(case) {
        Ok(found) => found,
        Err(n) => {
            a.status = n;
            return if n == 22 { a.class(NO_TYPE) } else { a };
        }
    };
    let inside = offset.0 >= h.header_size() && offset.0 < h.length_including_self();
    if inside != offset.is_in_bounds(&h) {
        a.trouble = Some("the harness bounds a unit otherwise than gimli".into());
    }
    if !inside {
        a.status = 19;
        return a;
    }
    let Some((all, abbreviations)) = fill(&mut a, &case.second, h.debug_abbrev_offset().0 as u64, case.lent) else {
        return a;
    };
    let said = h.entry(&abbreviations, offset).and_then(|e| {
        header_words(&h, 0, &mut a.words, &mut a.trouble);
        let pairs = rules::padded_pairs(&all);
        single_entry(&h, &e, &case.bytes[h.offset().0..], case.is_big(), &abbreviations, &pairs, &mut a)
    });
    if let Err(e) = said {
        a.status = number(&e);
    }
    a
}

/// The signatures of a section's type units, as far as its list comes.
pub fn signatures(types: &[u8], is_big: bool) -> Vec<u64> {
    let mut units = Units::new(TYPE_ENTRY, types, is_big);
    let mut all = Vec::new();
    while let Ok(Some(h)) = units.next() {
        all.extend(typed(&h).map(|t| t.0));
    }
    all
}

fn get(case: &Case) -> Answer {
    let t = case.table.as_ref().unwrap();
    let code = case.n[0];
    match t.gimli.get(code) {
        Some(x) => {
            let first = rules::found_row(&t.rows, code).map_or(u64::MAX, |r| r[3]);
            Answer::gave(vec![
                1,
                x.code(),
                x.tag().0 as u64,
                x.has_children() as u64,
                first,
                x.attributes().len() as u64,
            ])
        }
        None if rules::code_breaks(&t.rows, &t.specs, code) => Answer::refused(1).class(FORGED_ROW),
        None => Answer::gave(vec![0]),
    }
}

// ---- the raw reader

/// gimli's raw reader, which can be set back to a state that it had: a new one from that place on, whose
/// depth counts from there.
struct RawAt<'a> {
    bytes: &'a [u8],
    start: usize,
    enc: Encoding,
    endian: RunTimeEndian,
    table: &'a Abbreviations,
    raw: EntriesRaw<'a, Slice<'a>>,
    depth: i64,
}

impl<'a> RawAt<'a> {
    fn new(bytes: &'a [u8], start: usize, enc: Encoding, endian: RunTimeEndian, table: &'a Abbreviations) -> Self {
        let raw = EntriesRaw::new(EndianSlice::new(bytes, endian), enc, table, UnitOffset(start));
        RawAt { bytes, start, enc, endian, table, raw, depth: 0 }
    }

    fn state(&self) -> (usize, i64) {
        (self.raw.next_offset().0 - self.start, self.raw.next_depth() as i64 + self.depth)
    }

    fn back(&mut self, state: (usize, i64)) {
        let rest = EndianSlice::new(&self.bytes[state.0..], self.endian);
        self.raw = EntriesRaw::new(rest, self.enc, self.table, UnitOffset(self.start + state.0));
        self.depth = state.1;
    }
}

fn raw(case: &Case) -> Answer {
    let c = case.enc();
    let b = &case.bytes[..];
    if rules::long_offset(c.start, b.len()) {
        return Answer::refused(1).class(LONG_OFFSET);
    }
    let t = case.table.as_ref().unwrap();
    let enc = encoding(c.version, c.is_64, c.width);
    let mut r = RawAt::new(b, c.start as usize, enc, endian(c.is_big), &t.gimli);
    let source = Source { bytes: b, enc: case.enc(), pairs: &t.padded };
    let mut e = DebuggingInformationEntry::null();
    let mut a = Answer::default();
    for op in &case.calls {
        let before = r.state();
        if *op == 0 {
            let said = r.raw.read_entry(&mut e);
            let status = match said {
                Ok(is_entry) => {
                    let (at, depth) = r.state();
                    a.words.extend([0, is_entry as u64, at as u64, depth as u64]);
                    if is_entry == e.is_null() {
                        a.trouble = Some("read_entry and is_null differ".into());
                    }
                    let (held, end) = (e.depth() as i64 + r.depth, r.start + at);
                    entry_words(&e, held, &source, end, &mut a.words, &mut a.padded, &mut a.trouble);
                    0
                }
                Err(x) => {
                    let n = number_in(&x, t, &mut a.classes);
                    a.classes |= RAW_KEPT;
                    a.words.extend([n, 0, before.0 as u64, before.1 as u64]);
                    null_words(0, 0, &mut a.words);
                    r.back(before);
                    n
                }
            };
            a.end_call(status);
            continue;
        }
        let mut passed = [0; 3];
        let status = match r.raw.read_abbreviation() {
            Err(x) => Err(number_in(&x, t, &mut a.classes)),
            Ok(None) => Ok(0),
            Ok(Some(x)) => {
                let after = r.state();
                let specs = x.attributes();
                let forms = specs.iter().map(|s| s.form().0 as u64);
                if rules::skip_wraps(b, after.0, forms, c.version, c.is_64, c.width, c.is_big) {
                    // in a release build the sum wraps, in a checked build it panics
                    #[cfg(checked)]
                    {
                        let mut raw = r.raw.clone();
                        if crate::compare::caught(|| raw.skip_attributes(specs)).is_some() {
                            a.trouble = Some("a sum that should wrap did not panic".into());
                        }
                    }
                    a.classes |= WRAPS;
                    Err(2)
                } else {
                    match r.raw.skip_attributes(specs) {
                        Err(e) => Err(number(&e)),
                        Ok(()) => {
                            passed = [x.tag().0 as u64, x.has_children() as u64, specs.len() as u64];
                            Ok(1)
                        }
                    }
                }
            }
        };
        let status = match status {
            Ok(reached) => {
                let (at, depth) = r.state();
                a.words.extend([0, reached, at as u64, depth as u64]);
                0
            }
            Err(n) => {
                a.classes |= RAW_KEPT;
                a.words.extend([n, 0, before.0 as u64, before.1 as u64]);
                r.back(before);
                n
            }
        };
        a.words.extend(passed);
        a.end_call(status);
    }
    a
}

// ---- the cursor

/// A header whose entries are these bytes, from this offset on.
fn unit_over<R: Reader<Offset = usize>>(input: R, start: usize, enc: Encoding) -> UnitHeader<R> {
    let length = (start + input.len()).wrapping_sub(enc.format.initial_length_size() as usize);
    UnitHeader::new(
        enc,
        length,
        UnitType::Compilation,
        DebugAbbrevOffset(0),
        SectionId::DebugInfo,
        UnitSectionOffset(0),
        input,
    )
}

/// In a checked build such a header cannot be made for a unit shorter than its own length field.
pub fn can_open(case: &Case) -> bool {
    let c = case.enc();
    !cfg!(checked) || !matches!(case.kind, CURSOR | TREE) || c.start.saturating_add(case.bytes.len() as u64) >= 12
}

fn cursor(case: &Case) -> Answer {
    let c = case.enc();
    let b = &case.bytes[..];
    if rules::long_offset(c.start, b.len()) {
        return Answer::refused(1).class(LONG_OFFSET);
    }
    let t = case.table.as_ref().unwrap();
    let start = c.start as usize;
    let enc = encoding(c.version, c.is_64, c.width);
    let unit = unit_over(EndianSlice::new(b, endian(c.is_big)), start, enc);
    let mut cursor = if b.is_empty() || start % 2 == 0 {
        unit.entries(&t.gimli)
    } else {
        unit.entries_at_offset(&t.gimli, UnitOffset(start)).unwrap()
    };
    let source = Source { bytes: b, enc: case.enc(), pairs: &t.padded };
    let mut a = Answer::default();
    for op in &case.calls {
        if *op > 1 {
            let next = cursor.next_offset().0;
            a.jumps += cursor.current().is_some_and(|e| jumps(e, next, start + b.len())) as u64;
        }
        let said = match op {
            0 => cursor.next_entry(),
            1 => cursor.next_dfs().map(|x| x.is_some()),
            _ => cursor.next_sibling().map(|x| x.is_some()),
        };
        let (status, reached) = match said {
            Ok(x) => (0, x as u64),
            Err(e) => (number_in(&e, t, &mut a.classes), 0),
        };
        let at = (cursor.next_offset().0 - start) as u64;
        a.words.extend([status, reached, at, cursor.next_depth() as u64]);
        match cursor.current() {
            None => null_words(cursor.offset().0 as u64, cursor.depth() as i64, &mut a.words),
            Some(e) => {
                if (e.offset(), e.depth()) != (cursor.offset(), cursor.depth()) {
                    a.trouble = Some("a cursor's entry stands elsewhere than the cursor".into());
                }
                let end = cursor.next_offset().0;
                entry_words(e, e.depth() as i64, &source, end, &mut a.words, &mut a.padded, &mut a.trouble)
            }
        }
        a.end_call(status);
    }
    a
}

// ---- the tree

/// Which level is asked for next; 0 is the root. It is told the depth of what is held, the highest level
/// at which an iterator stands, and whether the last call reached an entry.
pub trait Chooser {
    fn next(&mut self, done: usize, depth: i64, standing: i64, reached: bool) -> Option<u64>;
}

pub struct Fixed<'a>(pub &'a [u64]);

impl Chooser for Fixed<'_> {
    fn next(&mut self, done: usize, _: i64, _: i64, _: bool) -> Option<u64> {
        self.0.get(done).copied()
    }
}

struct Walk<'a> {
    chooser: &'a mut dyn Chooser,
    table: &'a Table,
    bytes: &'a [u8],
    start: usize,
    source: Source<'a>,
    enc: Encoding,
    endian: RunTimeEndian,
    /// a call chosen, to be made further up
    pending: Option<u64>,
    calls: Vec<u64>,
    rooted: bool,
    reached: bool,
    seen: Seen,
    held: Vec<u64>,
    /// what is held offers a jump
    jumps: bool,
    text: String,
    a: Answer,
}

impl Walk<'_> {
    fn choose(&mut self, standing: i64) -> Option<u64> {
        if let Some(k) = self.pending.take() {
            return Some(k);
        }
        let depth = self.held[1] as i64;
        self.chooser.next(self.calls.len(), depth, standing, self.reached)
    }

    fn said(&mut self, call: u64, status: u64, reached: bool) {
        self.calls.push(call);
        self.reached = reached;
        let at = (self.bytes.len() - self.seen.left) as u64;
        self.a.words.extend([status, reached as u64, self.rooted as u64, at, self.seen.next_depth as u64]);
        self.a.words.extend_from_slice(&self.held);
        self.a.end_call(status);
    }

    fn renew(&mut self) {
        self.rooted = false;
        self.seen = Seen { left: self.bytes.len(), next_depth: 0, is_null: true, offset: 0, depth: 0 };
        self.held = vec![0; 5];
    }

    /// An entry was reached. The place after it is where gimli's raw reader stands after reading it.
    fn node(&mut self, node: &EntriesTreeNode<Probe>) {
        let e = node.entry();
        let at = e.offset().0 - self.start;
        let rest = EndianSlice::new(&self.bytes[at..], self.endian);
        let mut raw = EntriesRaw::new(rest, self.enc, &self.table.gimli, e.offset());
        let mut again = DebuggingInformationEntry::null();
        if raw.read_entry(&mut again) != Ok(true) {
            self.a.trouble = Some("an entry of the tree does not read again".into());
        }
        let seen = Seen {
            left: self.bytes.len() - (raw.next_offset().0 - self.start),
            next_depth: (e.depth() + e.has_children() as isize) as i64,
            is_null: false,
            offset: e.offset().0 as u64,
            depth: e.depth() as i64,
        };
        if self.table.size <= 64 && see(node, &mut self.text) != Some(seen) {
            self.a.trouble = Some(format!("a tree's state is not {seen:?}: {}", self.text));
        }
        self.jumps = jumps(e, raw.next_offset().0, self.start + self.bytes.len());
        self.seen = seen;
        self.held.clear();
        let (end, a) = (raw.next_offset().0, &mut self.a);
        entry_words(e, e.depth() as i64, &self.source, end, &mut self.held, &mut a.padded, &mut a.trouble);
    }

    /// No entry was reached: what the tree holds now is a null, or still the entry it held.
    fn look(&mut self, tree: &dyn std::fmt::Debug) {
        let Some(seen) = see(tree, &mut self.text) else {
            self.a.trouble = Some(format!("a tree's state is not understood: {}", self.text));
            return;
        };
        if seen.is_null {
            self.jumps = false;
            self.held.clear();
            null_words(seen.offset, seen.depth, &mut self.held);
        } else if seen != self.seen {
            self.a.trouble = Some(format!("a tree holds another entry after no more: {}", self.text));
        }
        self.seen = seen;
    }

    fn level(&mut self, node: EntriesTreeNode<Probe>, level: i64) {
        let mut iter = node.children();
        loop {
            let Some(call) = self.choose(level) else { return };
            let k = call as i64;
            if k >= 0 && k < level {
                self.pending = Some(call);
                return;
            }
            if k != level {
                // no iterator stands there
                if k > level && k <= self.held[1] as i64 + 1 {
                    self.a.classes |= CLOSED;
                    self.said(call, 0, false);
                } else {
                    self.a.classes |= LEVEL;
                    self.said(call, 21, false);
                }
                continue;
            }
            if k > self.held[1] as i64 + 1 {
                self.a.trouble = Some("gimli has an iterator out of range".into());
            }
            self.a.jumps += (self.jumps && k <= self.held[1] as i64) as u64;
            match iter.next() {
                Ok(Some(child)) => {
                    self.node(&child);
                    self.said(call, 0, true);
                    self.level(child, level + 1);
                }
                Ok(None) => {
                    self.look(&iter);
                    self.said(call, 0, false);
                }
                Err(e) => {
                    let n = number_in(&e, self.table, &mut self.a.classes);
                    self.look(&iter);
                    self.said(call, n, false);
                }
            }
        }
    }
}

/// The answer, and the calls that were chosen.
pub fn tree(case: &Case, chooser: &mut dyn Chooser) -> (Answer, Vec<u64>) {
    let c = case.enc();
    let b = &case.bytes[..];
    let t = case.table.as_ref().unwrap();
    let start = c.start as usize;
    let enc = encoding(c.version, c.is_64, c.width);
    let mut walk = Walk {
        chooser,
        table: t,
        bytes: b,
        start,
        source: Source { bytes: b, enc: case.enc(), pairs: &t.padded },
        enc,
        endian: endian(c.is_big),
        pending: None,
        calls: Vec::new(),
        rooted: false,
        reached: false,
        seen: Seen { left: b.len(), next_depth: 0, is_null: true, offset: 0, depth: 0 },
        held: vec![0; 5],
        jumps: false,
        text: String::new(),
        a: Answer::default(),
    };
    if rules::long_offset(c.start, b.len()) {
        while let Some(k) = walk.choose(0) {
            walk.calls.push(k);
        }
        return (Answer::refused(1).class(LONG_OFFSET), walk.calls);
    }
    let unit = unit_over(Probe(EndianSlice::new(b, endian(c.is_big))), start, enc);
    let mut tree = unit.entries_tree(&t.gimli, Some(UnitOffset(start)));
    while let Some(call) = walk.choose(0) {
        if call != 0 {
            walk.a.classes |= LEVEL;
            walk.said(call, 21, false);
            continue;
        }
        let Ok(tree) = &mut tree else {
            // no bytes: the code is not there
            walk.a.classes |= TREE_EMPTY;
            walk.renew();
            walk.said(call, 2, false);
            continue;
        };
        match tree.root() {
            Err(e) => {
                let n = number_in(&e, t, &mut walk.a.classes);
                walk.a.classes |= TREE_NEW;
                walk.renew();
                walk.said(call, n, false);
            }
            Ok(node) => {
                walk.rooted = true;
                walk.node(&node);
                walk.said(call, 0, true);
                walk.level(node, 1);
            }
        }
    }
    (walk.a, walk.calls)
}

// ---- the listing

/// A line, and its place: the unit's offset, and the offset in the unit and the depth of its item.
type Lines = Vec<(String, [u64; 3])>;

fn lines(case: &Case, lines: &mut Lines, place: &mut [u64; 3], classes: &mut u32) -> std::result::Result<(), u64> {
    let (abbrevs, info) = (&case.second[..], &case.bytes[..]);
    let tables = DebugAbbrev::from(EndianSlice::new(abbrevs, RunTimeEndian::Little));
    let units = DebugInfo::from(EndianSlice::new(info, RunTimeEndian::Little));
    let limits = rules::Limits { pairs: 64, rows: case.lent.0 / 5, specs: case.lent.1 / 3 };
    let mut units = units.units();
    while let Some(h) = units.next().map_err(|e| number(&e))? {
        let bits = h.format().word_size() as u32 * 8;
        lines.push((format!("unit {} {} {} {}", h.offset().0, h.version(), bits, h.address_size()), *place));
        let next = [place[0] + h.length_including_self() as u64, 0, 0];
        if h.header_size() == h.length_including_self() {
            *place = next;
            continue;
        }
        *place = [place[0], h.header_size() as u64, 0];
        let (limited, _) = rules::table(abbrevs, h.debug_abbrev_offset().0 as u64, limits);
        if limited == 13 || limited == 15 {
            *classes |= if limited == 13 { PAIRS } else { ROWS_FULL };
            return Err(limited);
        }
        let table = h.abbreviations(&tables).map_err(|e| number(&e))?;
        let mut raw = h.entries_raw(&table, None).map_err(|e| number(&e))?;
        let mut e = DebuggingInformationEntry::null();
        while !raw.is_empty() {
            *place = [place[0], raw.next_offset().0 as u64, raw.next_depth() as u64];
            let line = if raw.read_entry(&mut e).map_err(|e| number(&e))? {
                format!("{} {} {:#x} {}", e.offset().0, e.depth(), e.tag().0, e.attrs().len())
            } else {
                format!("{} {} null", e.offset().0, e.depth())
            };
            lines.push((line, *place));
        }
        *place = next;
    }
    lines.push(("end".into(), *place));
    Ok(())
}

fn all_lines(case: &Case, classes: &mut u32) -> Lines {
    let mut all = Vec::new();
    let mut place = [0; 3];
    if let Err(n) = lines(case, &mut all, &mut place, classes) {
        all.push((format!("refused {n}"), place));
    }
    all
}

/// The places that the listing of two sections can go on from.
pub fn places(case: &Case) -> Vec<[u64; 3]> {
    all_lines(case, &mut 0).into_iter().map(|l| l.1).collect()
}

fn listing(case: &Case) -> Answer {
    let mut a = Answer::default();
    let all = all_lines(case, &mut a.classes);
    let room = case.n[3] as usize;
    let from = all.iter().position(|l| l.1[..] == case.n[..3]).expect("a place of the listing");
    let rest = &all[from..];
    let mut count = 0;
    for (line, _) in rest {
        if a.text.len() + 72 > room {
            break;
        }
        a.text.extend(line.as_bytes());
        a.text.push(b'\n');
        count += 1;
    }
    a.words = vec![a.text.len() as u64, count as u64, (count < rest.len()) as u64];
    a.words.extend(rest.get(count).map_or([0; 3], |l| l.1));
    a.text.resize(room, 0);
    a
}
