//! The exported functions of Tehkumir for Rust programs; tehkumir.h says what each does. Link target/staticlib/libcapi.a, and take this file in by
//! `#[path = ".."] mod tehkumir;`. Every pointer is that of a slice beside its length; slices that are written overlap no other.
#![allow(dead_code)]

/// The words of an ENTRY before its attributes.
pub const TEHKUMIR_ENTRY_WORDS: usize = 5;
/// The words of an ATTRIBUTE.
pub const TEHKUMIR_ATTRIBUTE_WORDS: usize = 6;
/// The bytes of a page of a sheet.
pub const TEHKUMIR_PAGE_SIZE: usize = 1980;

unsafe extern "C" {
    pub fn tehkumir_read_uleb128(b: *const u8, n: usize, at: usize, out: *mut u64, len: usize) -> u64;
    pub fn tehkumir_read_uleb128_u16(b: *const u8, n: usize, at: usize, out: *mut u64, len: usize) -> u64;
    pub fn tehkumir_read_sleb128(b: *const u8, n: usize, at: usize, out: *mut u64, len: usize) -> u64;
    pub fn tehkumir_skip_leb128(b: *const u8, n: usize, at: usize, out: *mut u64, len: usize) -> u64;
    pub fn tehkumir_read_word(
        b: *const u8,
        n: usize,
        at: usize,
        width: u8,
        is_big: bool,
        out: *mut u64,
        len: usize,
    ) -> u64;
    pub fn tehkumir_read_initial_length(
        b: *const u8,
        n: usize,
        at: usize,
        is_big: bool,
        out: *mut u64,
        len: usize,
    ) -> u64;
    pub fn tehkumir_unit_header(
        b: *const u8,
        n: usize,
        offset: u64,
        is_big: bool,
        out: *mut u64,
        len: usize,
    ) -> u64;
    pub fn tehkumir_next_unit(b: *const u8, n: usize, at: usize, is_big: bool, out: *mut u64, len: usize) -> u64;
    pub fn tehkumir_types_next_unit(
        b: *const u8,
        n: usize,
        at: usize,
        is_big: bool,
        out: *mut u64,
        len: usize,
    ) -> u64;
    pub fn tehkumir_type_entry(
        types: *const u8,
        types_len: usize,
        abbrevs: *const u8,
        abbrevs_len: usize,
        signature: u64,
        is_big: bool,
        rows: *mut u64,
        rows_len: usize,
        specs: *mut u64,
        specs_len: usize,
        out: *mut u64,
        len: usize,
    ) -> u64;
    pub fn tehkumir_entry(
        b: *const u8,
        n: usize,
        unit: u64,
        offset: usize,
        is_big: bool,
        rows: *const u64,
        rows_len: usize,
        specs: *const u64,
        specs_len: usize,
        out: *mut u64,
        len: usize,
    ) -> u64;
    pub fn tehkumir_sheet(
        section: *const u8,
        len: usize,
        unit: u64,
        is_big: bool,
        rows: *const u64,
        rows_len: usize,
        specs: *const u64,
        specs_len: usize,
        n: u64,
        page: *mut u8,
        page_len: usize,
    ) -> u64;
    pub fn tehkumir_abbreviations(
        b: *const u8,
        n: usize,
        offset: u64,
        rows: *mut u64,
        rows_len: usize,
        specs: *mut u64,
        specs_len: usize,
        out: *mut u64,
        len: usize,
    ) -> u64;
    pub fn tehkumir_get(
        rows: *const u64,
        rows_len: usize,
        specs: *const u64,
        specs_len: usize,
        code: u64,
        out: *mut u64,
        len: usize,
    ) -> u64;
    pub fn tehkumir_read_attribute(
        b: *const u8,
        n: usize,
        start: usize,
        at: usize,
        version: u16,
        is_64: bool,
        width: u8,
        is_big: bool,
        name: u16,
        form: u16,
        constant: u64,
        out: *mut u64,
        len: usize,
    ) -> u64;
    pub fn tehkumir_raw(
        b: *const u8,
        n: usize,
        start: usize,
        version: u16,
        is_64: bool,
        width: u8,
        is_big: bool,
        rows: *const u64,
        rows_len: usize,
        specs: *const u64,
        specs_len: usize,
        calls: *const u8,
        calls_len: usize,
        out: *mut u64,
        len: usize,
    ) -> u64;
    pub fn tehkumir_raw_lent(
        b: *const u8,
        n: usize,
        start: usize,
        version: u16,
        is_64: bool,
        width: u8,
        is_big: bool,
        rows: *const u64,
        rows_len: usize,
        specs: *const u64,
        specs_len: usize,
        calls: *const u8,
        calls_len: usize,
        out: *mut u64,
        len: usize,
    ) -> u64;
    pub fn tehkumir_cursor(
        b: *const u8,
        n: usize,
        start: usize,
        version: u16,
        is_64: bool,
        width: u8,
        is_big: bool,
        rows: *const u64,
        rows_len: usize,
        specs: *const u64,
        specs_len: usize,
        calls: *const u8,
        calls_len: usize,
        out: *mut u64,
        len: usize,
    ) -> u64;
    pub fn tehkumir_tree(
        b: *const u8,
        n: usize,
        start: usize,
        version: u16,
        is_64: bool,
        width: u8,
        is_big: bool,
        rows: *const u64,
        rows_len: usize,
        specs: *const u64,
        specs_len: usize,
        levels: *const u64,
        levels_len: usize,
        out: *mut u64,
        len: usize,
    ) -> u64;
    pub fn tehkumir_list(
        abbrevs: *const u8,
        abbrevs_len: usize,
        info: *const u8,
        info_len: usize,
        rows: *mut u64,
        rows_len: usize,
        specs: *mut u64,
        specs_len: usize,
        unit: usize,
        offset: usize,
        depth: i64,
        text: *mut u8,
        text_len: usize,
        out: *mut u64,
        len: usize,
    ) -> u64;
}
