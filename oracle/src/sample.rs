//! Cases with gimli's answers as data, the words of `rules` in them, for a program that replays them. The format is in
//! README.md.

use crate::case::*;
use crate::compare::{PaddedStats, expected};
use crate::generate;
use crate::known;
use crate::port::{self, Lent};
use crate::random::Rng;
use std::collections::BTreeSet;
use std::io::Write;
use std::sync::Arc;

const MOST_BYTES: usize = 6000;
const MOST_WORDS: usize = 700;
/// Rows that a replay has to lend.
const MOST_ROWS: usize = 64;
const MOST_SPECS: usize = 512;

fn put_bytes(out: &mut Vec<u8>, b: &[u8]) {
    out.extend((b.len() as u32).to_le_bytes());
    out.extend(b);
}

fn put_words(out: &mut Vec<u8>, w: &[u64]) {
    out.extend((w.len() as u32).to_le_bytes());
    for x in w {
        out.extend(x.to_le_bytes());
    }
}

fn encode(case: &Case, x: &Answer) -> Vec<u8> {
    let mut b = vec![case.kind];
    for n in case.n {
        b.extend(n.to_le_bytes());
    }
    put_bytes(&mut b, &case.bytes);
    put_bytes(&mut b, case.table.as_ref().map_or(&case.second, |t| &t.section));
    put_words(&mut b, &case.calls);
    let mut words = vec![x.status];
    words.extend(&x.words);
    put_words(&mut b, &words);
    let mut all = (b.len() as u32).to_le_bytes().to_vec();
    all.extend(b);
    all
}

/// A case with gimli's own answer, cut to what fits; none where the answer is not gimli's.
fn settle(case: &Case, x: Answer) -> Option<(Case, Answer)> {
    let mut case = case.clone();
    let mut x = x;
    if x.trouble.is_some() || case.kind == LIST || case.cut.is_some() {
        return None;
    }
    let bytes = case.bytes.len() + case.second.len() + case.table.as_ref().map_or(0, |t| t.section.len());
    if bytes >= MOST_BYTES {
        return None;
    }
    if let Some(t) = &case.table {
        if t.rows.len() > 5 * MOST_ROWS || t.specs.len() > 3 * MOST_SPECS {
            return None;
        }
    }
    if case.fills() {
        case.lent = (5 * MOST_ROWS, 3 * MOST_SPECS);
        x = expected(&case);
    }
    // calls up to the first refusal of a raw reader, and as many as there is room for
    let mut keep = x.said.len();
    if matches!(case.kind, RAW | RAW_LENT) {
        keep = x.said.iter().position(|s| *s != 0).map_or(keep, |i| i + 1);
    }
    while keep > 0 && x.ends[keep - 1] >= MOST_WORDS {
        keep -= 1;
    }
    if keep < x.said.len() {
        if keep == 0 {
            return None;
        }
        case.calls.truncate(keep);
        x = expected(&case);
    }
    // a tree's calls up to the first that gimli cannot be asked
    while case.kind == TREE && x.classes & (LEVEL | CLOSED) != 0 && case.calls.len() > 1 {
        case.calls.pop();
        x = expected(&case);
    }
    if x.words.len() >= MOST_WORDS || x.classes & !(RAW_KEPT | TREE_NEW | NO_TYPE) != 0 {
        return None;
    }
    Some((case, x))
}

/// What a case shows, so that each is shown at least a few times.
fn marks(case: &Case, x: &Answer) -> Vec<(u8, u64, u64)> {
    let mut m = vec![(case.kind, 1000 + case.is_big() as u64, 0), (case.kind, x.status, 1)];
    for s in &x.said {
        m.push((case.kind, *s, 2));
    }
    if case.kind == ATTRIBUTE {
        m.push((case.kind, case.n[7].min(0x2000), 3 + (x.status != 0) as u64));
        if x.status == 0 {
            m.push((case.kind, x.words[3], 5));
        }
    }
    if let Some((used, fewer)) = x.padded.number {
        m.push((case.kind, used as u64, 7 + fewer as u64));
    }
    for (form, named, own) in &x.padded.marked {
        // single attributes by their forms too
        let form = if case.kind == ATTRIBUTE { 4 * form } else { 0 };
        m.push((case.kind, form + 2 * *named as u64 + *own as u64, 9));
    }
    let header = match case.kind {
        HEADER | TYPE_ENTRY => &x.words[..],
        TYPES_NEXT => x.words.get(2..).unwrap_or(&[]),
        _ => &[],
    };
    if x.status == 0 && header.len() > 7 {
        m.push((case.kind, header[7] * 100 + header[2] * 10 + header[3], 6));
    }
    m.sort();
    m.dedup();
    m
}

/// The forms of the values that a raw reader's first call skips.
fn skipped(case: &Case, x: &Answer) -> Vec<u64> {
    let Some(t) = &case.table else { return Vec::new() };
    if case.kind != RAW || case.calls.first() != Some(&1) || x.said.first() != Some(&0) {
        return Vec::new();
    }
    let code = case.bytes[0] as u64;
    let Some(row) = t.rows.chunks(5).find(|row| row[0] == code) else { return Vec::new() };
    t.specs.chunks(3).skip(row[3] as usize).take(row[4] as usize).map(|spec| spec[1]).collect()
}

#[derive(Default)]
struct Taken {
    out: Vec<Vec<u8>>,
    shown: std::collections::BTreeMap<(u8, u64, u64), usize>,
    kinds: [usize; KINDS],
    statuses: BTreeSet<u64>,
    of_types: BTreeSet<u64>,
    forms: BTreeSet<u64>,
    skipped: BTreeSet<u64>,
    orders: BTreeSet<(u8, bool)>,
    padded: PaddedStats,
    seen: std::collections::HashSet<Vec<u8>>,
}

impl Taken {
    fn count(&self) -> usize {
        self.out.len()
    }

    /// Takes a case, or only one that shows something that was shown less than three times.
    fn put(&mut self, case: &Case, x: Answer, any: bool) -> bool {
        let Some((case, x)) = settle(case, x) else { return false };
        let m = marks(&case, &x);
        if !any && m.iter().all(|k| self.shown.get(k).copied().unwrap_or(0) >= 3) {
            return false;
        }
        let b = encode(&case, &x);
        if !self.seen.insert(b.clone()) {
            return false;
        }
        for k in m {
            *self.shown.entry(k).or_insert(0) += 1;
        }
        self.kinds[case.kind as usize] += 1;
        self.statuses.insert(x.status);
        self.statuses.extend(&x.said);
        if case.kind == TYPE_ENTRY {
            self.of_types.insert(x.status);
        }
        self.orders.insert((case.kind, case.is_big()));
        self.padded.count(case.kind, &x.padded);
        if case.kind == ATTRIBUTE && x.status == 0 {
            self.forms.insert(case.n[7]);
        }
        self.skipped.extend(skipped(&case, &x));
        self.out.push(b);
        true
    }
}

pub fn write(path: &str, count: usize, seed: u64) -> std::io::Result<bool> {
    let mut take = Taken::default();
    let mut left_out = 0;
    // gimli's tests and document 01's readings
    for case in known::cases() {
        let x = expected(&case);
        if !take.put(&case, x.clone(), true) {
            left_out += 1;
        } else if case.kind == RAW {
            take.put(&case.lent(), x, true);
        }
    }
    // then what shows something new, three times each, then as many of each kind
    let mut rng = Rng::new(seed, 0);
    let mut tries = 0;
    let mut have = take.count();
    let each = (count.saturating_sub(have) / 17).max(1);
    let mut taken = [0usize; KINDS];
    while have < count && tries < 400_000 {
        let of_units = rng.percent(20);
        let mut sink = |case: Case, x: Option<Answer>| {
            // scenes of units have tables in other layouts, unless they are made for a sample
            if case.table.is_some() && !of_units {
                return true;
            }
            tries += 1;
            let full = taken[case.kind as usize] >= each && tries < 300_000;
            if full && tries > 60_000 {
                return have < count;
            }
            let x = x.unwrap_or_else(|| expected(&case));
            if take.put(&case, x.clone(), !full && tries > 20_000) {
                taken[case.kind as usize] += 1;
                have += 1;
                if case.kind == RAW && take.put(&case.lent(), x, true) {
                    have += 1;
                }
            }
            have < count
        };
        if of_units {
            generate::units(&mut rng, &mut sink, true);
        } else {
            generate::scene(&mut rng, &mut sink);
        }
    }
    let Taken { out, kinds, statuses, of_types, forms, skipped, orders, padded, .. } = take;
    let mut f = std::io::BufWriter::new(std::fs::File::create(path)?);
    for b in &out {
        f.write_all(b)?;
    }
    f.flush()?;

    println!("{} cases in {path}, {} bytes", out.len(), out.iter().map(|b| b.len()).sum::<usize>());
    println!("the longest: {} bytes", out.iter().map(|b| b.len()).max().unwrap_or(0));
    println!("{left_out} of the known cases left out (repeated, too long, or not gimli's own answer)");
    let mut good = true;
    for k in 0..LIST as usize {
        println!("  {:20} {}", NAMES[k], kinds[k]);
        good &= kinds[k] != 0;
    }
    let refusals = [2, 3, 4, 5, 6, 7, 8, 9, 10, 11, 12, 14, 16, 17, 18, 19, 20];
    for n in refusals {
        if !statuses.contains(&n) {
            println!("  no case is refused with {n}");
            good = false;
        }
    }
    for n in refusals.into_iter().chain([22]) {
        if !of_types.contains(&n) {
            println!("  no type is refused with {n}");
            good = false;
        }
    }
    for f in generate::FORMS {
        if !forms.contains(&(f as u64)) {
            println!("  no value of form {f:#x}");
            good = false;
        }
        if !skipped.contains(&(f as u64)) {
            println!("  no skipped value of form {f:#x}");
            good = false;
        }
    }
    for k in [WORD, INITIAL, HEADER, NEXT_UNIT, ENTRY, ATTRIBUTE, RAW, CURSOR, TREE, RAW_LENT, TYPES_NEXT, TYPE_ENTRY] {
        for big in [false, true] {
            if !orders.contains(&(k, big)) {
                println!("  {}: not in both orders", NAMES[k as usize]);
                good = false;
            }
        }
    }
    padded.report();
    Ok(good && padded.lacks().is_empty())
}

/// Reads little-endian numbers.
struct Data<'a>(&'a [u8]);

impl<'a> Data<'a> {
    fn take(&mut self, n: usize) -> Option<&'a [u8]> {
        let (a, b) = self.0.split_at_checked(n)?;
        self.0 = b;
        Some(a)
    }
    fn count(&mut self) -> Option<usize> {
        Some(u32::from_le_bytes(self.take(4)?.try_into().ok()?) as usize)
    }
    fn bytes(&mut self) -> Option<Vec<u8>> {
        let n = self.count()?;
        Some(self.take(n)?.to_vec())
    }
    fn word(&mut self) -> Option<u64> {
        Some(u64::from_le_bytes(self.take(8)?.try_into().ok()?))
    }
    fn words(&mut self) -> Option<Vec<u64>> {
        let n = self.count()?;
        (0..n).map(|_| self.word()).collect()
    }
}

/// One case of a sample: whether the port answers it as the sample expects.
fn replay_one(b: &[u8]) -> Option<bool> {
    let mut d = Data(b);
    let kind = d.take(1)?[0];
    let mut n = [0; 10];
    for x in &mut n {
        *x = d.word()?;
    }
    let mut case = Case::new(kind, &Arc::new(d.bytes()?), &n);
    let section = d.bytes()?;
    case.calls = d.words()?;
    let words = d.words()?;
    let mut lent = Lent::default();
    lent.rows.renew(5 * MOST_ROWS);
    lent.specs.renew(3 * MOST_SPECS);
    if kind == TYPE_ENTRY {
        case.second = Arc::new(section);
    } else if matches!(kind, ENTRY | GET | RAW | CURSOR | TREE | RAW_LENT) {
        lent.out.renew(1);
        let table = Case::new(TABLE, &Arc::new(section.clone()), &[0]);
        if port::call(&table, &mut lent) != 0 {
            return Some(false);
        }
        let (rows, specs) = (lent.rows.to_vec(), lent.specs.to_vec());
        let table = Table { section, gimli: Default::default(), rows, specs, size: 0, padded: Default::default() };
        case.table = Some(Arc::new(table));
    }
    lent.out.renew(MOST_WORDS);
    let status = port::call(&case, &mut lent);
    let mut expected = words[1..].to_vec();
    expected.resize(MOST_WORDS, 0);
    Some(d.0.is_empty() && status == words[0] && lent.out[..] == expected[..])
}

/// Puts the cases of a sample to the port.
pub fn replay(path: &str) -> std::io::Result<bool> {
    let all = std::fs::read(path)?;
    let mut d = Data(&all);
    let (mut right, mut wrong) = (0, 0);
    while !d.0.is_empty() {
        match d.bytes().and_then(|b| replay_one(&b)) {
            Some(true) => right += 1,
            Some(false) => wrong += 1,
            None => {
                println!("the sample is damaged after {} cases", right + wrong);
                return Ok(false);
            }
        }
    }
    println!("{right} cases as expected, {wrong} not");
    Ok(wrong == 0)
}
