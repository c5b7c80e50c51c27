//! Measures the port and gimli side by side on the sections of a real build (README.md).

mod port;
mod theirs;

use gimli::{Abbreviations, DebugAbbrev, DebugInfo, Endianity, LittleEndian, RunTimeEndian, UnitHeader};
use port::{Part, TEHKUMIR_ATTRIBUTE_WORDS, TEHKUMIR_PAGE_SIZE, Table};
use std::collections::HashMap;
use std::hint::black_box;
use std::time::Instant;
use theirs::{ByHand, Die, Formatted, Lines, Opened, R};

/// What a pass counted: compared once between the two sides, before anything is measured.
#[derive(Default, Debug, PartialEq, Clone, Copy)]
struct Tally {
    units: u64,
    entries: u64,
    nulls: u64,
    refusals: u64,
    /// of offsets, depths, tags and counts of values, in their order
    digest: u64,
}

impl Tally {
    fn mix(&mut self, n: u64) {
        self.digest = (self.digest.rotate_left(5) ^ n).wrapping_mul(0x9e37_79b9_7f4a_7c15);
    }

    fn item(&mut self, place: u64, depth: u64, tag: u64, count: u64) {
        *if tag == 0 { &mut self.nulls } else { &mut self.entries } += 1;
        for n in [place, depth, tag, count] {
            self.mix(n);
        }
    }

    fn held<E: Endianity>(&mut self, e: &Die<E>) {
        self.item(e.offset().0 as u64, e.depth() as u64, e.tag().0 as u64, e.attrs().len() as u64);
        for a in e.attrs() {
            self.mix(a.name().0 as u64);
            self.mix(a.form().0 as u64);
        }
    }
}

struct Unit<'a, E: Endianity> {
    header: UnitHeader<R<'a, E>>,
    part: Part<'a>,
    /// place in the list of tables
    table: usize,
    /// entries and nulls, and the call that is refused
    items: usize,
    values: usize,
    entries: usize,
    siblings: Vec<u8>,
    children: Vec<u64>,
    whole: Vec<u64>,
}

struct Tabled {
    offset: usize,
    theirs: Abbreviations,
    ours: Table,
}

/// Both sections, their units, and each unit's table in both shapes.
struct Build<'a, E: Endianity> {
    abbrev: &'a [u8],
    info: &'a [u8],
    sections: (DebugAbbrev<R<'a, E>>, DebugInfo<R<'a, E>>),
    units: Vec<Unit<'a, E>>,
    tables: Vec<Tabled>,
    /// abbreviations and specifications of the largest tables
    largest: (usize, usize),
    zeros: Vec<u8>,
    ones: Vec<u8>,
    /// the one pass that is wanted
    only: Option<String>,
}

fn die(why: &str) -> ! {
    eprintln!("bench: {why}");
    std::process::exit(1)
}

/// How many rows a table takes: those that the port fills when it is lent enough.
fn table_of(section: &[u8], offset: usize) -> Option<Table> {
    let mut t = Table::with_room(1 << 13, 1 << 16);
    let mut out = [0];
    if port::abbreviations(section, offset as u64, &mut t, &mut out) != 0 {
        return None;
    }
    let n = out[0] as usize;
    t.rows.truncate(n * 5);
    t.rows.shrink_to_fit();
    let specs = t.rows.chunks(5).map(|r| (r[3] + r[4]) as usize).max().unwrap_or(0);
    t.specs.truncate(specs * 3);
    t.specs.shrink_to_fit();
    Some(t)
}

impl<'a, E: Endianity> Build<'a, E> {
    fn new(abbrev: &'a [u8], info: &'a [u8], endian: E, only: Option<String>) -> Build<'a, E> {
        let sections = (DebugAbbrev::from(R::new(abbrev, endian)), DebugInfo::from(R::new(info, endian)));
        let mut b = Build {
            abbrev,
            info,
            sections,
            units: vec![],
            tables: vec![],
            largest: (0, 0),
            zeros: vec![],
            ones: vec![],
            only,
        };
        let mut known = HashMap::new();
        let mut headers = b.sections.1.units();
        while let Ok(Some(header)) = headers.next() {
            let (from, size) = (header.offset().0, header.header_size());
            let bytes = &info[from + size..from + header.length_including_self()];
            if bytes.is_empty() {
                continue;
            }
            let offset = header.debug_abbrev_offset().0;
            let table = *known.entry(offset).or_insert_with(|| {
                let theirs = b.sections.0.abbreviations(gimli::DebugAbbrevOffset(offset));
                match (theirs, table_of(abbrev, offset)) {
                    (Ok(theirs), Some(ours)) => {
                        b.largest.0 = b.largest.0.max(ours.rows.len() / 5);
                        b.largest.1 = b.largest.1.max(ours.specs.len() / 3);
                        b.tables.push(Tabled { offset, theirs, ours });
                        b.tables.len() - 1
                    }
                    _ => die("a table is refused: take a whole build"),
                }
            });
            let part = Part {
                bytes,
                start: size,
                version: header.version(),
                is_64: header.format().word_size() == 8,
                width: header.address_size(),
            };
            let unit = b.planned(header, part, table);
            b.units.push(unit);
        }
        let most = b.units.iter().map(|u| u.items + 1).max().unwrap_or(0);
        b.zeros = vec![0; most];
        b.ones = vec![1; most];
        b
    }

    /// The calls that a unit takes, by what gimli reads in it.
    fn planned(&self, header: UnitHeader<R<'a, E>>, part: Part<'a>, table: usize) -> Unit<'a, E> {
        let mut u = Unit { header, part, table, items: 0, values: 0, entries: 0, siblings: vec![], children: vec![], whole: vec![] };
        let o = Opened { header: &header, table: &self.tables[table].theirs };
        let (mut items, mut values, mut entries) = (0, 0, 0);
        let refused = o.raw(&mut Die::null(), |e| {
            items += 1;
            values += e.attrs().len();
            entries += !e.is_null() as usize;
        });
        (u.items, u.values, u.entries) = (items + refused as usize, values, entries);
        // the root, its first child and each next sibling, up to the call that has no more
        let (mut reached, mut parent) = (0, false);
        o.siblings(|e| {
            parent |= reached == 0 && e.has_children();
            reached += 1;
        });
        u.siblings = vec![2; if parent { reached + 1 } else { 1 }];
        u.siblings[..if parent { 2 } else { 1 }].fill(0);
        let mut reached = 0;
        o.children(|_| reached += 1);
        u.children = vec![1; reached + 1];
        u.children[0] = 0;
        o.whole(|e| u.whole.push(e.depth() as u64));
        u.whole.push(1);
        u.whole[0] = 0;
        u
    }

    fn opened<'t>(&'t self, u: &'t Unit<'a, E>) -> Opened<'a, 't, E> {
        Opened { header: &u.header, table: &self.tables[u.table].theirs }
    }

    fn items(&self) -> usize {
        self.units.iter().map(|u| u.items).sum()
    }

    fn wants(&self, name: &str) -> bool {
        self.only.as_deref().is_none_or(|only| only == name)
    }
}

/// A walk of the port over a unit.
type Walk<'b, 'a, E> = &'b dyn Fn(&Unit<'a, E>, &mut [u64]) -> u64;

/// The words of the answers to a unit's calls, each with `head` words before its entry.
fn tally_words(words: &[u64], calls: usize, head: usize, values: bool, t: &mut Tally, nulls: bool) {
    let mut at = 0;
    for _ in 0..calls {
        let said = &words[at..];
        let entry = &said[head..];
        if said[0] != 0 {
            t.refusals += 1;
        } else if !values {
            // skipped: next place and depth, tag
            t.item(said[2], said[3], entry[0], 0);
        } else if said[1] != 0 || nulls {
            t.item(entry[0], entry[1], entry[2], entry[4]);
            for a in entry[5..][..TEHKUMIR_ATTRIBUTE_WORDS * entry[4] as usize].chunks(TEHKUMIR_ATTRIBUTE_WORDS) {
                t.mix(a[0]);
                t.mix(a[1]);
            }
        }
        at += head + if values { 5 + TEHKUMIR_ATTRIBUTE_WORDS * entry[4] as usize } else { 3 };
    }
}

struct Pass<'b> {
    name: &'static str,
    /// what the times are divided by
    per: &'static str,
    count: usize,
    port: Box<dyn FnMut() + 'b>,
    gimli: Box<dyn FnMut() + 'b>,
}

fn agree(name: &str, ours: Tally, theirs: Tally) {
    if ours != theirs {
        die(&format!("{name}: the sides differ: port {ours:?}, gimli {theirs:?}"));
    }
    let Tally { units, entries, nulls, refusals, .. } = ours;
    println!("{name:<12} both: {units} units, {entries} entries, {nulls} nulls, {refusals} refusals");
}

/// One walk over all units by both sides: agreed on once, then a pass.
fn walk<'b, 'a: 'b, E: Endianity>(
    b: &'b Build<'a, E>,
    (name, per, count): (&'static str, &'static str, usize),
    (calls, head, nulls): (fn(&Unit<'a, E>) -> usize, usize, bool),
    ours: impl Fn(&Unit<'a, E>, &mut [u64]) -> u64 + 'b,
    check: impl Fn(&Unit<'a, E>, &mut Tally) -> bool,
    theirs: impl FnMut() + 'b,
) -> Pass<'b> {
    let values = name != "skip";
    let (mut left, mut right) = (Tally::default(), Tally::default());
    for u in b.units.iter().filter(|_| b.wants(name)) {
        // an entry may be held by several calls: by its last one, where nothing more is reached
        let calls = calls(u);
        let mut out = vec![0; calls * (head + 5) + TEHKUMIR_ATTRIBUTE_WORDS * u.values + 64 * TEHKUMIR_ATTRIBUTE_WORDS * 4];
        left.units += 1;
        let ours: Walk<'_, 'a, E> = &ours;
        if ours(u, &mut out) != 0 {
            left.refusals += 1;
        } else {
            tally_words(&out, calls, head, values, &mut left, nulls);
        }
        right.units += 1;
        right.refusals += check(u, &mut right) as u64;
    }
    if b.wants(name) {
        agree(name, left, right);
    }
    let port = move || {
        let mut out = [0];
        for u in &b.units {
            black_box(ours(u, &mut out));
        }
        black_box(out);
    };
    Pass { name, per, count, port: Box::new(port), gimli: Box::new(theirs) }
}

fn walks<'b, 'a: 'b, E: Endianity + 'b>(b: &'b Build<'a, E>) -> Vec<Pass<'b>> {
    let items = b.items();
    let rows = |u: &Unit<'a, E>| &b.tables[u.table].ours;
    let every = move |f: fn(&Opened<'a, '_, E>)| move || b.units.iter().for_each(|u| f(&b.opened(u)));
    let mut held = Die::null();
    vec![
        walk(
            b,
            ("raw", "item", items),
            (|u| u.items, 4, true),
            move |u, out| port::raw(&u.part, rows(u), &b.zeros[..u.items], out),
            |u, t| b.opened(u).raw(&mut Die::null(), |e| t.held(e)),
            move || {
                for u in &b.units {
                    black_box(b.opened(u).raw(&mut held, |e| {
                        black_box(e);
                    }));
                }
            },
        ),
        walk(
            b,
            ("skip", "item", items),
            (|u| u.items, 4, true),
            move |u, out| port::raw(&u.part, rows(u), &b.ones[..u.items], out),
            |u, t| {
                let start = u.part.start;
                b.opened(u).skip(|next, depth, tag| t.item((next - start) as u64, depth as u64, tag as u64, 0))
            },
            every(|o| {
                black_box(o.skip(|next, depth, tag| {
                    black_box((next, depth, tag));
                }));
            }),
        ),
        walk(
            b,
            ("cursor", "item", items),
            (|u| u.entries + 1, 4, false),
            move |u, out| port::cursor(&u.part, rows(u), &b.ones[..u.entries + 1], out),
            |u, t| b.opened(u).dfs(|e| t.held(e)),
            every(|o| {
                black_box(o.dfs(|e| {
                    black_box(e);
                }));
            }),
        ),
        walk(
            b,
            ("siblings", "item", items),
            (|u| u.siblings.len(), 4, false),
            move |u, out| port::cursor(&u.part, rows(u), &u.siblings, out),
            |u, t| b.opened(u).siblings(|e| t.held(e)),
            every(|o| {
                black_box(o.siblings(|e| {
                    black_box(e);
                }));
            }),
        ),
        walk(
            b,
            ("children", "item", items),
            (|u| u.children.len(), 5, false),
            move |u, out| port::tree(&u.part, rows(u), &u.children, out),
            |u, t| b.opened(u).children(|e| t.held(e)),
            every(|o| {
                black_box(o.children(|e| {
                    black_box(e);
                }));
            }),
        ),
        walk(
            b,
            ("tree", "item", items),
            (|u| u.whole.len(), 5, false),
            move |u, out| port::tree(&u.part, rows(u), &u.whole, out),
            |u, t| b.opened(u).whole(|e| t.held(e)),
            every(|o| {
                black_box(o.whole(|e| {
                    black_box(e);
                }));
            }),
        ),
    ]
}

/// The words of a header as the port has them: offset, length, version, offset bytes, width, table, size.
fn header_words<E: Endianity>(h: &UnitHeader<R<E>>) -> [u64; 7] {
    [
        h.offset().0 as u64,
        h.unit_length() as u64,
        h.version() as u64,
        h.format().word_size() as u64,
        h.address_size() as u64,
        h.debug_abbrev_offset().0 as u64,
        h.header_size() as u64,
    ]
}

fn our_units(info: &[u8], mut see: impl FnMut(&[u64])) -> bool {
    let mut out = [0; 12];
    let mut at = 0;
    loop {
        if port::next_unit(info, at, &mut out) != 0 {
            return true;
        }
        if out[1] == 0 {
            return false;
        }
        see(&out[2..]);
        at = out[0] as usize;
    }
}

fn their_units<'a, E: Endianity>(info: &DebugInfo<R<'a, E>>, mut see: impl FnMut(&UnitHeader<R<'a, E>>)) -> bool {
    let mut units = info.units();
    loop {
        match units.next() {
            Ok(Some(unit)) => see(&unit),
            Ok(None) => return false,
            Err(_) => return true,
        }
    }
}

fn headers<'b, 'a: 'b, E: Endianity>(b: &'b Build<'a, E>) -> Pass<'b> {
    let (mut left, mut right) = (Tally::default(), Tally::default());
    let refused = our_units(b.info, |words| {
        left.units += 1;
        words[..7].iter().for_each(|n| left.mix(*n));
    });
    left.refusals += refused as u64;
    let refused = their_units(&b.sections.1, |h| {
        right.units += 1;
        header_words(h).iter().for_each(|n| right.mix(*n));
    });
    right.refusals += refused as u64;
    agree("headers", left, right);
    let port = || {
        black_box(our_units(b.info, |words| {
            black_box(words);
        }));
    };
    let gimli = || {
        black_box(their_units(&b.sections.1, |h| {
            black_box(h);
        }));
    };
    Pass { name: "headers", per: "header", count: left.units as usize, port: Box::new(port), gimli: Box::new(gimli) }
}

/// The port is lent either what the largest table needs, for every table, or what each needs.
fn tables<'b, 'a: 'b, E: Endianity>(b: &'b Build<'a, E>, largest: bool) -> Pass<'b> {
    let name = if largest { "tables" } else { "tables, own" };
    let (mut left, mut right) = (Tally::default(), Tally::default());
    for t in &b.tables {
        left.units += 1;
        right.units += 1;
        for row in t.ours.rows.chunks(5) {
            left.item(row[0], row[2], row[1], row[4]);
            let found = t.theirs.get(row[0]).unwrap_or_else(|| die("gimli's table lacks a code"));
            let count = found.attributes().len() as u64;
            right.item(found.code(), found.has_children() as u64, found.tag().0 as u64, count);
        }
        let (n, n1) = ((t.ours.rows.len() / 5) as u64, (t.ours.rows.len() / 5 + 1) as u64);
        if t.theirs.get(n1).is_some() && t.ours.rows.chunks(5).all(|r| r[0] <= n) {
            die("gimli's table has another code");
        }
    }
    agree(name, left, right);
    let mut lent: Vec<Table> = if largest {
        vec![Table::with_room(b.largest.0, b.largest.1)]
    } else {
        b.tables.iter().map(|t| Table::with_room(t.ours.rows.len() / 5, t.ours.specs.len() / 3)).collect()
    };
    let port = move || {
        let mut out = [0];
        for (i, t) in b.tables.iter().enumerate() {
            let at = if largest { 0 } else { i };
            black_box(port::abbreviations(b.abbrev, t.offset as u64, &mut lent[at], &mut out));
        }
    };
    let gimli = || {
        for t in &b.tables {
            let _ = black_box(b.sections.0.abbreviations(gimli::DebugAbbrevOffset(t.offset)));
        }
    };
    Pass { name, per: "table", count: b.tables.len(), port: Box::new(port), gimli: Box::new(gimli) }
}

/// The page in the middle of each unit's sheet.
fn sheet<'b, 'a: 'b, E: Endianity>(b: &'b Build<'a, E>) -> Pass<'b> {
    let page_of = |u: &Unit<'a, E>| u.items / 60 / 2;
    let ours = move |u: &Unit<'a, E>, page: &mut [u8]| {
        port::sheet(b.info, u.header.offset().0, &b.tables[u.table].ours, page_of(u), page)
    };
    let (mut page, mut text, mut held) = ([0; TEHKUMIR_PAGE_SIZE], String::new(), Die::null());
    let mut refusals = 0;
    for u in &b.units {
        let refused = b.opened(u).page(&mut held, page_of(u), &mut text);
        if (ours(u, &mut page) != 0) != refused || page != text.as_bytes() {
            die(&format!("sheet: the pages of the unit at {} differ", u.header.offset().0));
        }
        refusals += refused as u64;
    }
    println!("{:<12} both: the same {} pages, {refusals} refusals", "sheet", b.units.len());
    let port = move || {
        for u in &b.units {
            black_box(ours(u, &mut page));
        }
        black_box(&page);
    };
    let gimli = move || {
        for u in &b.units {
            black_box(b.opened(u).page(&mut held, page_of(u), &mut text));
        }
        black_box(&text);
    };
    Pass { name: "sheet", per: "item", count: b.items(), port: Box::new(port), gimli: Box::new(gimli) }
}

fn listing<'b, 'a: 'b, E: Endianity, L: Lines + Default + 'b>(b: &'b Build<'a, E>, name: &'static str) -> Pass<'b> {
    let mut lines = L::default();
    let mut held = Die::null();
    let refused = theirs::list(&b.sections.0, &b.sections.1, &mut held, &mut lines).is_err();
    // room for every line, and for one more of 72 bytes
    let mut text = vec![0; lines.text().len() + 72];
    let mut table = Table::with_room(b.largest.0, b.largest.1);
    let mut out = [0; 3];
    let status = port::list(b.abbrev, b.info, &mut table, &mut text, &mut out);
    let (theirs, ours) = (lines.text(), &text[..out[0] as usize]);
    if status != 0 || out[2] != 0 || refused || ours != theirs {
        die(&format!("{name}: the texts differ, of {} and {} bytes", ours.len(), theirs.len()));
    }
    println!("{name:<12} both: the same {} bytes in {} lines", out[0], out[1]);
    let port = move || {
        black_box(port::list(b.abbrev, b.info, &mut table, &mut text, &mut out));
    };
    let gimli = move || {
        let _ = black_box(theirs::list(&b.sections.0, &b.sections.1, &mut held, &mut lines));
        black_box(lines.text());
    };
    Pass { name, per: "item", count: b.items(), port: Box::new(port), gimli: Box::new(gimli) }
}

fn time(f: &mut dyn FnMut()) -> f64 {
    let start = Instant::now();
    f();
    start.elapsed().as_nanos() as f64
}

/// Median and least.
fn median(mut times: Vec<f64>) -> (f64, f64) {
    times.sort_by(f64::total_cmp);
    (times[times.len() / 2], times[0])
}

struct Options {
    rounds: usize,
    little: bool,
    only: Option<String>,
    /// one side alone, unmeasured: for a profile
    side: Option<String>,
    files: Vec<String>,
}

fn measure<E: Endianity>(abbrev: &[u8], info: &[u8], endian: E, o: &Options) {
    let b = Build::new(abbrev, info, endian, o.only.clone());
    let entries: usize = b.units.iter().map(|u| u.entries).sum();
    let values: usize = b.units.iter().map(|u| u.values).sum();
    let siblings: usize = b.units.iter().map(|u| u.siblings.len()).sum();
    let abbreviations: usize = b.tables.iter().map(|t| t.ours.rows.len() / 5).sum();
    println!(".debug_info {} bytes, .debug_abbrev {} bytes", info.len(), abbrev.len());
    println!(
        "{} units, {} items: {entries} entries with {values} values, {} nulls; {siblings} calls for siblings",
        b.units.len(),
        b.items(),
        b.items() - entries
    );
    println!(
        "{} tables, {abbreviations} abbreviations; rows lent for {} abbreviations and {} specifications\n",
        b.tables.len(),
        b.largest.0,
        b.largest.1
    );
    let mut passes = vec![headers(&b), tables(&b, true), tables(&b, false)];
    passes.extend(walks(&b));
    if b.wants("sheet") {
        passes.push(sheet(&b));
    }
    if b.wants("list, write!") {
        passes.push(listing::<E, Formatted>(&b, "list, write!"));
    }
    if b.wants("list, digits") {
        passes.push(listing::<E, ByHand>(&b, "list, digits"));
    }
    passes.retain(|p| b.wants(p.name));
    if let Some(side) = &o.side {
        for p in &mut passes {
            let f = if side == "port" { &mut p.port } else { &mut p.gimli };
            (0..o.rounds).for_each(|_| f());
        }
        return;
    }
    println!("\nns each: median (least) of {} rounds, the sides in turn", o.rounds);
    println!("{:<13} {:>8} {:>7}   {:>18} {:>18} {:>6}", "pass", "count", "of", "port", "gimli", "ratio");
    for p in &mut passes {
        // a short pass is repeated within a round, so that the clock's own time is small
        let once = time(&mut p.port).max(time(&mut p.gimli));
        let times = (2e6 / once).ceil().clamp(1.0, 1000.0) as usize;
        let round = |f: &mut dyn FnMut()| time(&mut || (0..times).for_each(|_| f())) / (times * p.count) as f64;
        round(&mut p.port);
        round(&mut p.gimli);
        let (ours, theirs): (Vec<f64>, Vec<f64>) = (0..o.rounds).map(|_| (round(&mut p.port), round(&mut p.gimli))).unzip();
        let (ours, theirs) = (median(ours), median(theirs));
        let both = |(m, l): (f64, f64)| format!("{m:.1} ({l:.1})");
        let ratio = ours.0 / theirs.0;
        println!("{:<13} {:>8} {:>7}   {:>18} {:>18} {ratio:>6.2}", p.name, p.count, p.per, both(ours), both(theirs));
    }
}

fn usage() -> ! {
    die("usage: bench ABBREV INFO [--rounds N] [--little] [--only PASS] [--side port|gimli]")
}

fn main() {
    let mut o = Options { rounds: 9, little: false, only: None, side: None, files: vec![] };
    let mut args = std::env::args().skip(1);
    while let Some(a) = args.next() {
        let mut value = || args.next().unwrap_or_else(|| usage());
        match a.as_str() {
            "--rounds" => o.rounds = value().parse().unwrap_or_else(|_| usage()),
            "--little" => o.little = true,
            "--only" => o.only = Some(value()),
            "--side" => o.side = Some(value()),
            _ => o.files.push(a),
        }
    }
    let [abbrev, info] = &o.files[..] else { usage() };
    let read = |name: &String| std::fs::read(name).unwrap_or_else(|e| die(&format!("{name}: {e}")));
    let (abbrev, info) = (read(abbrev), read(info));
    // the walk of a whole tree goes as deep as the tree
    let run = move || {
        if o.little {
            measure(&abbrev, &info, LittleEndian, &o);
        } else {
            measure(&abbrev, &info, RunTimeEndian::Little, &o);
        }
    };
    std::thread::Builder::new().stack_size(1 << 28).spawn(run).unwrap().join().unwrap();
}
