//! The program of tests/include.c in Rust.
use std::io::Read;

#[path = "../include/tehkumir.rs"]
mod tehkumir;
use tehkumir::*;

const CALLS: usize = 2;
const MARK: u8 = b'#';
const WORDS: usize = CALLS * (5 + TEHKUMIR_ENTRY_WORDS + 64 * TEHKUMIR_ATTRIBUTE_WORDS);

fn number(word: &str) -> u64 {
    u64::from_str_radix(word, 16).unwrap()
}

fn bytes(words: &[&str]) -> Vec<u8> {
    let mut bytes = Vec::new();
    for word in words {
        let (byte, times) = word.split_once('*').unwrap_or((word, "1"));
        bytes.resize(bytes.len() + times.parse::<usize>().unwrap(), number(byte) as u8);
    }
    bytes
}

fn answer(refusal: u64, words: &[u64]) -> String {
    let words: Vec<String> = words.iter().map(|w| format!(" {w:x}")).collect();
    format!("{refusal:x}:{}", words.concat())
}

type Reader = unsafe extern "C" fn(*const u8, usize, usize, *mut u64, usize) -> u64;

fn read_number(read: Reader, words: &[&str]) -> String {
    let (at, b) = (number(words[0]) as usize, bytes(&words[1..]));
    let mut out = [u64::MAX; 5];
    let refusal = unsafe { read(b.as_ptr(), b.len(), at, out.as_mut_ptr(), out.len()) };
    answer(refusal, &out)
}

fn read_attribute(words: &[&str]) -> String {
    let (form, b) = (number(words[0]) as u16, bytes(&words[1..]));
    let mut out = [u64::MAX; 1 + TEHKUMIR_ATTRIBUTE_WORDS + 1];
    let (p, n) = (b.as_ptr(), b.len());
    let (o, len) = (out.as_mut_ptr(), out.len());
    let refusal = unsafe { tehkumir_read_attribute(p, n, 0, 0, 5, false, 8, false, 0x2000, form, 7, o, len) };
    answer(refusal, &out)
}

/// The tags and marks of the entries that are read.
fn read_marks(name: &str, words: &[&str]) -> String {
    let slash = words.iter().position(|w| *w == "/").unwrap();
    let (table, b) = (bytes(&words[..slash]), bytes(&words[slash + 1..]));
    let (mut rows, mut specs, mut out) = ([0; 5 * 4], [0; 3 * 80], [u64::MAX; WORDS]);
    let (o, r, s) = (out.as_mut_ptr(), rows.as_mut_ptr(), specs.as_mut_ptr());
    let (rn, sn) = (rows.len(), specs.len());
    let mut refusal = unsafe { tehkumir_abbreviations(table.as_ptr(), table.len(), 0, r, rn, s, sn, o, 1) };
    let (p, n, calls, levels) = (b.as_ptr(), b.len(), [0u8; CALLS], [0u64, 1]);
    macro_rules! walk {
        ($function:ident, $calls:expr) => {
            $function(p, n, 0, 5, false, 8, false, r, rn, s, sn, $calls.as_ptr(), CALLS, o, WORDS)
        };
    }
    if refusal == 0 {
        refusal = match name {
            "raw" => unsafe { walk!(tehkumir_raw, calls) },
            "raw_lent" => unsafe { walk!(tehkumir_raw_lent, calls) },
            "cursor" => unsafe { walk!(tehkumir_cursor, calls) },
            _ => unsafe { walk!(tehkumir_tree, levels) },
        };
    }
    let (mut marks, mut left) = (Vec::new(), &out[..]);
    for _ in 0..if refusal == 0 { CALLS } else { 0 } {
        let entry = &left[if name == "tree" { 5 } else { 4 }..];
        let (head, attributes) = entry.split_at(TEHKUMIR_ENTRY_WORDS);
        let (attributes, rest) = attributes.split_at(head[4] as usize * TEHKUMIR_ATTRIBUTE_WORDS);
        marks.push(head[2]);
        marks.extend(attributes.chunks(TEHKUMIR_ATTRIBUTE_WORDS).map(|a| a[5]));
        left = rest;
    }
    answer(refusal, &marks)
}

/// The bytes of a page, a line feed as a bar; blank lines, and bytes that still hold the mark, by their count.
fn lines(mut page: &[u8]) -> String {
    let blank: Vec<u8> = [&[b' '; 32][..], b"\n"].concat();
    let mut said = String::new();
    while let Some(&first) = page.first() {
        let blanks = page.chunks(blank.len()).take_while(|l| *l == blank).count();
        let kept = page.iter().take_while(|b| **b == MARK).count();
        if blanks > 0 {
            said += &format!("<{blanks} blank>");
        } else if kept > 0 {
            said += &format!("<{kept} kept>");
        } else {
            said.push(if first == b'\n' { '|' } else { first as char });
        }
        page = &page[(blanks * blank.len()).max(kept).max(1)..];
    }
    said
}

fn read_page(is_big: bool, words: &[&str]) -> String {
    let (unit, n, lent) = (number(words[0]), number(words[1]), number(words[2]) as usize);
    let slash = words.iter().position(|w| *w == "/").unwrap();
    let (table, b) = (bytes(&words[3..slash]), bytes(&words[slash + 1..]));
    let (mut rows, mut specs, mut out) = ([0; 5 * 4], [0; 3 * 80], [0]);
    let (r, s) = (rows.as_mut_ptr(), specs.as_mut_ptr());
    let (rn, sn) = (rows.len(), specs.len());
    let mut page = [MARK; 2 * TEHKUMIR_PAGE_SIZE];
    let (given, past) = page.split_at_mut(lent);
    let (p, len) = (given.as_mut_ptr(), given.len());
    let o = out.as_mut_ptr();
    let mut refusal = unsafe { tehkumir_abbreviations(table.as_ptr(), table.len(), 0, r, rn, s, sn, o, 1) };
    if refusal == 0 {
        refusal = unsafe { tehkumir_sheet(b.as_ptr(), b.len(), unit, is_big, r, rn, s, sn, n, p, len) };
    }
    let past = if past.iter().all(|b| *b == MARK) { "" } else { "<past>" };
    format!("{refusal:x}: {}{past}", lines(given))
}

fn main() {
    let mut text = String::new();
    std::io::stdin().read_to_string(&mut text).unwrap();
    for line in text.lines() {
        let words: Vec<&str> = line.split(' ').collect();
        let (name, rest) = (words[0], &words[1..]);
        let said = match name {
            "uleb128" => read_number(tehkumir_read_uleb128, rest),
            "uleb128_u16" => read_number(tehkumir_read_uleb128_u16, rest),
            "sleb128" => read_number(tehkumir_read_sleb128, rest),
            "skip" => read_number(tehkumir_skip_leb128, rest),
            "attribute" => read_attribute(rest),
            "raw" | "raw_lent" | "cursor" | "tree" => read_marks(name, rest),
            "sheet" => read_page(false, rest),
            "sheet_big" => read_page(true, rest),
            _ => "no such call".to_string(),
        };
        println!("{said}");
    }
}
