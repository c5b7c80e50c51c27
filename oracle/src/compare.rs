//! One case put to both sides, the counts of what was seen, and the smallest case of each difference.

use crate::case::*;
use crate::gimli_side;
use crate::port::{self, Lent};
use crate::random::Rng;
use std::collections::BTreeMap;
use std::sync::Arc;

pub struct Stats {
    pub cases: [u64; KINDS],
    /// calls of scripts, one for each other case
    pub calls: [u64; KINDS],
    /// by kind and number; 0 is no refusal
    pub said: Vec<[u64; 100]>,
    pub classes: [u64; CLASSES],
    /// by what differs: how often, and the smallest case
    pub faults: BTreeMap<String, (u64, usize, String)>,
    /// by kind: words changed on purpose, and noticed
    pub planted: [(u64, u64); KINDS],
    /// those of them that gimli does not have
    pub planted_added: [(u64, u64); KINDS],
    pub padded: PaddedStats,
    pub jumps: u64,
    /// cases that this build of gimli cannot be asked
    pub unasked: u64,
}

impl Default for Stats {
    fn default() -> Stats {
        Stats {
            cases: [0; KINDS],
            calls: [0; KINDS],
            said: vec![[0; 100]; KINDS],
            classes: [0; CLASSES],
            faults: BTreeMap::new(),
            planted: [(0, 0); KINDS],
            planted_added: [(0, 0); KINDS],
            padded: PaddedStats::default(),
            jumps: 0,
            unasked: 0,
        }
    }
}

impl Stats {
    pub fn add(&mut self, other: &Stats) {
        for k in 0..KINDS {
            self.cases[k] += other.cases[k];
            self.calls[k] += other.calls[k];
            for n in 0..100 {
                self.said[k][n] += other.said[k][n];
            }
            self.planted[k].0 += other.planted[k].0;
            self.planted[k].1 += other.planted[k].1;
            self.planted_added[k].0 += other.planted_added[k].0;
            self.planted_added[k].1 += other.planted_added[k].1;
        }
        self.padded.add(&other.padded);
        for c in 0..CLASSES {
            self.classes[c] += other.classes[c];
        }
        self.jumps += other.jumps;
        self.unasked += other.unasked;
        for (key, (count, size, text)) in &other.faults {
            self.fault(key.clone(), *count, *size, || text.clone());
        }
    }

    fn fault(&mut self, key: String, count: u64, size: usize, text: impl FnOnce() -> String) {
        let known = self.faults.entry(key).or_insert((0, usize::MAX, String::new()));
        known.0 += count;
        if size < known.1 {
            known.1 = size;
            known.2 = text();
        }
    }

    pub fn total(&self) -> u64 {
        self.cases.iter().sum()
    }

    /// Whether everything is as it should be.
    pub fn passed(&self) -> bool {
        self.faults.is_empty() && self.planted.iter().all(|(a, b)| a == b) && self.padded.lacks().is_empty()
    }

    pub fn report(&self) {
        println!("cases by function (calls: of scripts one by one)");
        for k in 0..KINDS {
            if self.cases[k] != 0 {
                println!("  {:20} {:>10} cases {:>11} calls", NAMES[k], self.cases[k], self.calls[k]);
            }
        }
        println!("  {:20} {:>10}", "all", self.total());
        if self.unasked != 0 {
            println!("  {} more could not be put to this build of gimli", self.unasked);
        }
        println!("  {} calls start with a jump by a sibling reference", self.jumps);
        println!("answers by number (0: no refusal)");
        for n in 0..100 {
            let all: u64 = self.said.iter().map(|x| x[n]).sum();
            if all != 0 {
                let kinds: Vec<String> = (0..KINDS)
                    .filter(|k| self.said[*k][n] != 0)
                    .map(|k| format!("{} {}", NAMES[k], self.said[k][n]))
                    .collect();
                println!("  {n:>2} {all:>11}  ({})", kinds.join(", "));
            }
        }
        println!("cases whose expected answer is not gimli's own, by class");
        for c in 0..CLASSES {
            println!("  {:>10}  {}", self.classes[c], CLASS_NAMES[c]);
        }
        self.padded.report();
        if self.planted.iter().any(|x| x.0 != 0) {
            println!("words changed on purpose, and noticed (of them those that gimli does not have)");
            for k in 0..KINDS {
                let (a, b) = self.planted[k];
                let (added, noticed) = self.planted_added[k];
                if a != 0 {
                    println!("  {:20} {a:>8} {b:>8}   ({added:>6} {noticed:>6})", NAMES[k]);
                }
            }
        }
        println!("differences: {}", self.faults.values().map(|x| x.0).sum::<u64>());
        for (key, (count, _, text)) in &self.faults {
            println!("- {key}: {count}; the smallest:\n{text}");
        }
    }
}

/// How often there were padded numbers. Raw runs count twice, as they are put twice.
#[derive(Default)]
pub struct PaddedStats {
    /// by kind and bytes used: numbers, and the padded ones among them
    numbers: BTreeMap<(u8, usize), (u64, u64)>,
    /// by kind: attributes read, and the marked ones among them
    attributes: [(u64, u64); KINDS],
    /// marked attributes by the form read in the end: by numbers that name a form, by its own number, by both
    forms: BTreeMap<u64, [u64; 3]>,
    /// without a mark: entries with a padded code, attributes with a padded name or form in the table, or constant
    codes: u64,
    pairs: u64,
    constants: u64,
}

impl PaddedStats {
    pub fn count(&mut self, kind: u8, x: &Padded) {
        if let Some((used, fewer)) = x.number {
            let n = self.numbers.entry((kind, used)).or_default();
            n.0 += 1;
            n.1 += fewer as u64;
        }
        let all = &mut self.attributes[kind as usize];
        all.0 += x.attributes;
        all.1 += x.marked.len() as u64;
        for (form, named, own) in &x.marked {
            self.forms.entry(*form).or_default()[*named as usize + 2 * *own as usize - 1] += 1;
        }
        self.codes += x.codes;
        self.pairs += x.pairs;
        self.constants += x.constants;
    }

    fn add(&mut self, other: &PaddedStats) {
        for (key, (all, fewer)) in &other.numbers {
            let n = self.numbers.entry(*key).or_default();
            n.0 += all;
            n.1 += fewer;
        }
        for (a, b) in self.attributes.iter_mut().zip(&other.attributes) {
            a.0 += b.0;
            a.1 += b.1;
        }
        for (form, counts) in &other.forms {
            let own = self.forms.entry(*form).or_default();
            own.iter_mut().zip(counts).for_each(|(a, b)| *a += b);
        }
        self.codes += other.codes;
        self.pairs += other.pairs;
        self.constants += other.constants;
    }

    /// What a run or a sample has to have and lacks: padded numbers of each length and others, marked attributes and
    /// others from each function, marks by each form that has a number, and what does not count.
    pub fn lacks(&self) -> Vec<String> {
        let mut all = Vec::new();
        for (kind, most) in [(ULEB, 10), (ULEB16, 3), (SLEB, 10)] {
            for used in 1..=most {
                let (n, fewer) = self.numbers.get(&(kind, used)).copied().unwrap_or_default();
                if n == fewer || (used > 1 && fewer == 0) {
                    all.push(format!("{}: of {n} numbers of {used} bytes {fewer} are padded", NAMES[kind as usize]));
                }
            }
        }
        for kind in [ENTRY, ATTRIBUTE, RAW, CURSOR, TREE, RAW_LENT, TYPE_ENTRY] {
            let (n, marked) = self.attributes[kind as usize];
            if n == marked || marked == 0 {
                all.push(format!("{}: of {n} attributes {marked} are marked", NAMES[kind as usize]));
            }
        }
        for form in crate::generate::NUMBERED {
            let counts = self.forms.get(&(form as u64)).copied().unwrap_or_default();
            if counts.contains(&0) {
                all.push(format!("form {form:#x}: marked {counts:?} times by form numbers, its own, both"));
            }
        }
        if [self.codes, self.pairs, self.constants].contains(&0) {
            all.push("no padded code, or pair, or constant of a table without a mark".into());
        }
        all
    }

    pub fn report(&self) {
        println!("padded numbers, of all with so many bytes");
        for kind in [ULEB, ULEB16, SLEB] {
            let own = self.numbers.iter().filter(|x| x.0.0 == kind);
            let text: Vec<String> = own.map(|((_, used), (n, fewer))| format!("{used}: {fewer} of {n}")).collect();
            println!("  {:20} {}", NAMES[kind as usize], text.join(", "));
        }
        println!("marked attributes, of all");
        for k in 0..KINDS {
            let (n, marked) = self.attributes[k];
            if n != 0 {
                println!("  {:20} {marked:>10} of {n:>10}", NAMES[k]);
            }
        }
        let text: Vec<String> = self.forms.iter().map(|(f, [a, b, c])| format!("{f:#x} {a}+{b}+{c}")).collect();
        println!("  by form (padded: numbers that name it + its own number or length + both)\n    {}", text.join(", "));
        println!(
            "  without a mark: {} entries with a padded code; {} attributes with a padded name or form in the table, \
             {} with a padded constant",
            self.codes, self.pairs, self.constants
        );
        for lack in self.lacks() {
            println!("  not enough: {lack}");
        }
    }
}

/// What the port answered, in the shape of what is expected.
fn ask(case: &Case, x: &Answer, slack: usize, lent: &mut Lent) -> u64 {
    let room = match case.cut {
        // few words, or all but a few of a part of them
        Some(k) if k % 2 == 0 || x.ends.is_empty() => k / 2,
        Some(k) => (x.words.len() * (k % 1000) / 1000).saturating_sub(k % 5),
        None => x.words.len() + slack,
    };
    lent.out.renew(room);
    if case.fills() {
        lent.rows.renew(case.lent.0);
        lent.specs.renew(case.lent.1);
    }
    if case.kind == LIST {
        lent.text.renew(case.n[3] as usize);
    }
    port::call(case, lent)
}

/// Said of a word that is not compared with gimli but with `rules`.
const ADDED: &str = ", which gimli does not have";

/// Where the port's answer is not what is expected.
fn differs(case: &Case, x: &Answer, status: u64, lent: &Lent) -> Option<String> {
    if status != x.status {
        return Some(format!("status {status}, expected {}", x.status));
    }
    for (i, w) in lent.out.iter().enumerate() {
        let expected = x.words.get(i).copied().unwrap_or(0);
        if *w != expected {
            let call = x.ends.iter().position(|e| i < *e);
            let said = match call {
                Some(c) => {
                    let from = if c == 0 { 0 } else { x.ends[c - 1] };
                    format!("call {c}, its word {}: {w}, expected {expected}", i - from)
                }
                None => format!("word {i}: {w}, expected {expected}"),
            };
            let is_added = x.added(case).contains(&i);
            return Some(said + if is_added { ADDED } else { "" });
        }
    }
    if !(lent.out.is_kept() && lent.rows.is_kept() && lent.specs.is_kept() && lent.text.is_kept()) {
        return Some("words behind what was lent".into());
    }
    if matches!(case.kind, TABLE | TYPE_ENTRY) {
        let mut rows: Vec<[u64; 5]> = lent.rows.chunks_exact(5).map(|r| r.try_into().unwrap()).collect();
        rows.sort();
        if rows != x.rows {
            return Some("the rows".into());
        }
        if lent.rows[lent.rows.len() / 5 * 5..].iter().any(|w| *w != 0) {
            return Some("words left over behind the rows".into());
        }
        if lent.specs[..] != x.specs[..] {
            return Some("the specification rows".into());
        }
    }
    if case.kind == LIST {
        if lent.text[..] != x.text[..] {
            return Some("the text".into());
        }
        if lent.rows.iter().chain(lent.specs.iter()).any(|w| *w != 0) {
            return Some("rows that are not zero after a listing".into());
        }
    }
    None
}

/// The kind of a difference, without its numbers where there are many.
fn key(case: &Case, said: &str) -> String {
    let name = NAMES[case.kind as usize];
    let short = if said.ends_with(ADDED) && !matches!(case.kind, ULEB | ULEB16 | SLEB) {
        "the mark of an attribute".to_string()
    } else if said.starts_with("call ") {
        let word = said.split("its word ").nth(1).unwrap_or("");
        let which = word.split(':').next().unwrap_or("");
        match which.parse::<usize>() {
            Ok(0) => format!("the status of a call: {}", word.split(": ").nth(1).unwrap_or("")),
            Ok(n) if n < 10 => format!("word {n} of a call"),
            _ => "a value of a call".to_string(),
        }
    } else if said.starts_with("word ") {
        said.split(':').next().unwrap_or("").to_string()
    } else {
        said.to_string()
    };
    format!("{name}: {short}")
}

fn describe(case: &Case, x: &Answer, said: &str, status: u64, lent: &Lent) -> String {
    let mut s = case.describe();
    s += &format!("\n    {said}");
    s += &format!("\n    expected {} : {}", x.status, list(&x.words));
    s += &format!("\n    port     {} : {}", status, list(&lent.out));
    if matches!(case.kind, TABLE | TYPE_ENTRY) {
        s += &format!("\n    expected rows {:?} specs {}", x.rows, list(&x.specs));
        s += &format!("\n    port     rows {} specs {}", list(&lent.rows), list(&lent.specs));
    }
    if case.kind == LIST {
        s += &format!("\n    expected {:?}", String::from_utf8_lossy(&x.text));
        s += &format!("\n    port     {:?}", String::from_utf8_lossy(&lent.text));
    }
    s
}

thread_local! {
    static CAUGHT: std::cell::Cell<bool> = const { std::cell::Cell::new(false) };
}

/// Runs something that may panic, without a word.
pub fn caught<T>(f: impl FnOnce() -> T) -> Option<T> {
    let before = CAUGHT.replace(true);
    let went = std::panic::catch_unwind(std::panic::AssertUnwindSafe(f)).ok();
    CAUGHT.set(before);
    went
}

/// What is not caught ends the program.
pub fn end_on_panic() {
    std::panic::set_hook(Box::new(|what| {
        if !CAUGHT.get() {
            eprintln!("oracle-compare: {what}");
            std::process::exit(4);
        }
    }));
}

/// An answer for a case in which gimli, or the harness around it, panicked.
pub fn panicked() -> Answer {
    Answer { trouble: Some("gimli or the harness panicked".into()), ..Answer::default() }
}

/// gimli's answer, where it does not panic.
pub fn expected(case: &Case) -> Answer {
    caught(|| gimli_side::answer(case)).unwrap_or_else(panicked)
}

/// Changes one word of the port's answer; whether it is one that gimli does not have.
fn plant(rng: &mut Rng, case: &Case, x: &Answer, status: &mut u64, lent: &mut Lent) -> bool {
    let change = 1 << rng.below(64);
    let added = x.added(case);
    if rng.percent(30) {
        let lent_ones: Vec<usize> = added.iter().copied().filter(|i| *i < lent.out.len()).collect();
        if !lent_ones.is_empty() {
            // mostly the other mark
            lent.out[rng.pick(&lent_ones)] ^= if rng.percent(70) { 1 } else { change };
            return true;
        }
    }
    let parts = [1, lent.out.len(), lent.rows.len(), lent.specs.len(), lent.text.len()];
    let parts = match case.kind {
        TABLE | TYPE_ENTRY => &parts[..4],
        LIST => &parts[..],
        _ => &parts[..2],
    };
    let mut i = rng.below(parts.iter().sum());
    // the status is one word among many
    if rng.percent(10) {
        i = 0;
    }
    if i == 0 {
        *status ^= change;
        return false;
    }
    i -= 1;
    let is_added = i < lent.out.len() && added.contains(&i);
    for list in [&mut lent.out, &mut lent.rows, &mut lent.specs] {
        if i < list.len() {
            list[i] ^= change;
            return is_added;
        }
        i -= list.len();
        if !case.fills() {
            return false;
        }
    }
    lent.text[i] ^= 1 << rng.below(8);
    false
}

pub struct Comparer {
    pub stats: Stats,
    pub planting: bool,
    /// ends the program at the first difference
    pub quick: bool,
    lent: Lent,
    rng: Rng,
    shrinking: bool,
}

impl Comparer {
    pub fn new(planting: bool, seed: u64) -> Comparer {
        Comparer {
            stats: Stats::default(),
            planting,
            quick: false,
            lent: Lent::default(),
            rng: Rng::new(seed, 0x5eed),
            shrinking: false,
        }
    }

    /// Puts a case to both sides, a raw run also on a lent state. The answer is given where gimli was asked already.
    pub fn put(&mut self, case: &Case, answer: Option<Answer>) {
        if !gimli_side::can_open(case) {
            self.stats.unasked += 1;
            return;
        }
        let x = answer.unwrap_or_else(|| expected(case));
        self.put_one(case, &x);
        if case.kind == RAW {
            self.put_one(&case.lent(), &x);
        }
    }

    fn put_one(&mut self, case: &Case, x: &Answer) {
        let k = case.kind as usize;
        self.stats.cases[k] += 1;
        self.stats.calls[k] += x.said.len().max(1) as u64;
        self.stats.jumps += x.jumps;
        self.stats.padded.count(case.kind, &x.padded);
        self.stats.said[k][x.status.min(99) as usize] += x.said.is_empty() as u64;
        for n in &x.said {
            self.stats.said[k][(*n).min(99) as usize] += 1;
        }
        for c in 0..CLASSES {
            self.stats.classes[c] += (x.classes >> c & 1) as u64;
        }
        let numberless = x.status == 99 || x.said.contains(&99);
        if let Some(trouble) = x.trouble.as_deref().or(numberless.then_some("a refusal of gimli without a number")) {
            let short = trouble.split(':').next().unwrap_or("").to_string();
            let text = || format!("{}\n    {trouble}", case.describe());
            self.stats.fault(format!("{}: (harness) {short}", NAMES[k]), 1, case.size(), text);
            return;
        }
        if !port::PRESENT {
            return;
        }
        let slack = self.rng.below(9);
        let mut status = ask(case, x, slack, &mut self.lent);
        if self.planting && self.rng.below(16) == 0 {
            // only an answer that is right before counts
            if differs(case, x, status, &self.lent).is_none() {
                let is_added = plant(&mut self.rng, case, x, &mut status, &mut self.lent);
                let is_noticed = differs(case, x, status, &self.lent).is_some() as u64;
                self.stats.planted[k].0 += 1;
                self.stats.planted[k].1 += is_noticed;
                if is_added {
                    self.stats.planted_added[k].0 += 1;
                    self.stats.planted_added[k].1 += is_noticed;
                }
                return;
            }
        }
        let Some(said) = differs(case, x, status, &self.lent) else { return };
        let key = key(case, &said);
        let text = describe(case, x, &said, status, &self.lent);
        if self.quick {
            println!("{key}\n{text}");
            std::process::exit(1);
        }
        let known = self.stats.faults.get(&key).map_or(0, |f| f.0);
        self.stats.fault(key.clone(), 1, case.size(), || text);
        if !self.shrinking && known < 3 && case.bytes.len() < 100_000 {
            self.shrinking = true;
            self.shrink(case, &key);
            self.shrinking = false;
        }
    }

    /// The difference of a case, as `put` would key it.
    fn difference(&mut self, case: &Case) -> Option<(String, String)> {
        let x = expected(case);
        if x.trouble.is_some() {
            return None;
        }
        let status = ask(case, &x, 4, &mut self.lent);
        let said = differs(case, &x, status, &self.lent)?;
        Some((key(case, &said), describe(case, &x, &said, status, &self.lent)))
    }

    /// Leaves out calls and bytes as long as the same difference stays.
    fn shrink(&mut self, case: &Case, key: &str) {
        let mut best = case.clone();
        let mut tries = 0;
        loop {
            let mut smaller = None;
            let mut next: Vec<Case> = Vec::new();
            for i in (0..best.calls.len()).rev() {
                let mut c = best.clone();
                c.calls.remove(i);
                next.push(c);
            }
            let n = best.bytes.len();
            for step in [n / 2, n / 4, 8, 3, 1] {
                if step == 0 {
                    continue;
                }
                for from in (0..n).step_by(step) {
                    let mut c = best.clone();
                    let mut b = (*c.bytes).clone();
                    b.drain(from..(from + step).min(n));
                    c.bytes = Arc::new(b);
                    next.push(c);
                }
            }
            let few = if best.second.len() < 2000 { best.second.len() } else { 0 };
            for i in 0..few {
                let mut c = best.clone();
                let mut b = (*c.second).clone();
                b.remove(i);
                c.second = Arc::new(b);
                next.push(c);
            }
            for c in next {
                tries += 1;
                if tries > 4000 {
                    break;
                }
                if let Some((k, text)) = self.difference(&c) {
                    if k == key && c.size() < best.size() {
                        smaller = Some((c, text));
                        break;
                    }
                }
            }
            let Some((c, text)) = smaller else { return };
            self.stats.fault(key.to_string(), 0, c.size(), || text);
            best = c;
        }
    }
}
