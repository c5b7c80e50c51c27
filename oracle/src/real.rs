//! The sections of real builds: every unit whole, and damaged copies.

use crate::case::*;
use crate::compare::{Comparer, expected};
use crate::generate::{Levels, Whole};
use crate::gimli_side;
use crate::known::table_of;
use crate::port;
use crate::random::Rng;
use std::collections::HashMap;
use std::sync::Arc;

#[derive(Clone)]
pub struct Pair {
    pub name: String,
    pub is_big: bool,
    pub abbrev: Arc<Vec<u8>>,
    pub info: Arc<Vec<u8>>,
    /// .debug_types in the place of .debug_info: the signatures of the undamaged section
    pub types: Option<Vec<u64>>,
}

/// Of a walk over a unit in one go.
const MOST_CALLS: usize = 400_000;

fn part(kind: u8, bytes: &Arc<Vec<u8>>, h: &[u64], start: u64, is_big: bool, t: &Arc<Table>) -> Case {
    let n = [start, h[2], (h[3] == 8) as u64, h[4], is_big as u64];
    Case::new(kind, bytes, &n).with(t)
}

/// All units of a pair. `most` bounds the calls of each walk.
pub fn pair(p: &Pair, c: &mut Comparer, rng: &mut Rng, most: usize) {
    let order = p.is_big as u64;
    if let Some(signatures) = &p.types {
        search(p, signatures, c, rng);
    }
    let list = if p.types.is_some() { TYPES_NEXT } else { NEXT_UNIT };
    let mut tables: HashMap<u64, Option<Arc<Table>>> = HashMap::new();
    let mut at = 0;
    loop {
        let case = Case::new(list, &p.info, &[at, order]);
        let x = expected(&case);
        let words = x.words.clone();
        let more = x.status == 0 && words.get(1) == Some(&1);
        c.put(&case, Some(x));
        if !more {
            return;
        }
        c.put(&Case::new(HEADER, &p.info, &[at, order]), None);
        let (next, h) = (words[0], &words[2..]);
        let (offset, table_at, size) = (h[0], h[5], h[6]);
        at = next;
        let table = tables.entry(table_at).or_insert_with(|| {
            let mut case = Case::new(TABLE, &p.abbrev, &[table_at]);
            let (_, all) = crate::rules::table(&p.abbrev, table_at, crate::rules::NO_LIMITS);
            let specs: usize = all.iter().map(|d| d.specs.len()).sum();
            case.lent = (all.len() * 5 + 7, specs * 3 + 4);
            c.put(&case, None);
            let section = p.abbrev.get(table_at as usize..)?;
            table_of(section)
        });
        let Some(t) = table.clone() else { continue };
        let bytes = Arc::new(p.info[(offset + size) as usize..next as usize].to_vec());
        unit(&bytes, h, size, p.is_big, &t, c, rng, most);
        if p.types.is_some() {
            // from the type on
            let inner = if h.len() == 10 { h[9] } else { size };
            if inner > size && inner < next - offset {
                let bytes = Arc::new(p.info[(offset + inner) as usize..next as usize].to_vec());
                unit(&bytes, h, inner, p.is_big, &t, c, rng, most);
            }
            continue;
        }
        // single entries of the unit, at random places
        for _ in 0..20 {
            let inner = rng.below((next - offset) as usize + 2) as u64;
            c.put(&Case::new(ENTRY, &p.info, &[offset, inner, order]).with(&t), None);
        }
        if t.rows.len() > 5 {
            for _ in 0..5 {
                let code = t.rows[rng.below(t.rows.len() / 5) * 5];
                c.put(&Case::new(GET, &bytes, &[code]).with(&t), None);
            }
        }
        if port::LISTS && !p.is_big {
            // in a section of its own, with its own table
            let mut case = Case::new(LIST, &p.info, &[0, 0, 0, 4000]);
            case.second = p.abbrev.clone();
            case.lent = (t.rows.len() + 5 * 300, t.specs.len() + 3 * 2000);
            if p.info.len() < 50_000 {
                let places = crate::gimli_side::places(&case);
                case.n[..3].copy_from_slice(&places[rng.below(places.len().min(40))]);
                c.put(&case, None);
            }
        }
    }
}

/// Each signature, one with another bit, and one that is in no unit.
fn search(p: &Pair, signatures: &[u64], c: &mut Comparer, rng: &mut Rng) {
    // no table of the section needs more
    let lent = (p.abbrev.len() + 7, p.abbrev.len() * 3 / 2 + 4);
    let near = signatures.first().map_or(0, |s| s ^ 1 << rng.below(64));
    for signature in signatures.iter().copied().chain([near, rng.word()]) {
        let mut case = Case::new(TYPE_ENTRY, &p.info, &[signature, p.is_big as u64]);
        case.second = p.abbrev.clone();
        case.lent = lent;
        c.put(&case, None);
    }
}

/// Walks over a part of a unit, from `start` on.
#[allow(clippy::too_many_arguments)]
fn unit(
    bytes: &Arc<Vec<u8>>,
    h: &[u64],
    start: u64,
    is_big: bool,
    t: &Arc<Table>,
    c: &mut Comparer,
    rng: &mut Rng,
    most: usize,
) {
    // how many items there are
    let mut probe = part(RAW, bytes, h, start, is_big, t);
    probe.calls = vec![1; bytes.len().min(most)];
    let x = expected(&probe);
    let items = x.said.iter().position(|s| *s != 0).unwrap_or(x.said.len()) + 1;
    for op in [0, 1, 2] {
        let mut case = part(RAW, bytes, h, start, is_big, t);
        case.calls = (0..items).map(|_| if op == 2 { rng.below(2) as u64 } else { op }).collect();
        c.put(&case, None);
    }
    for mode in 0..4 {
        let mut case = part(CURSOR, bytes, h, start, is_big, t);
        case.calls = (0..items + 1)
            .map(|i| match mode {
                0 => 0,
                1 => 1,
                2 if i < 2 => 0,
                2 => 2,
                _ => rng.pick(&[0, 0, 1, 2]),
            })
            .collect();
        c.put(&case, None);
    }
    for mode in 0..3 {
        let mut case = part(TREE, bytes, h, start, is_big, t);
        let (x, calls) = match mode {
            0 => gimli_side::tree(&case, &mut Whole { most: (items * 2 + 2).min(most) }),
            1 => gimli_side::tree(&case, &mut gimli_side::Fixed(&[vec![0], vec![1; items.min(2000)]].concat())),
            _ => {
                let count = items.min(300);
                gimli_side::tree(&case, &mut Levels { rng: &mut *rng, count, askable: false, failed_roots: 0 })
            }
        };
        case.calls = calls;
        c.put(&case, Some(x));
    }
}

/// A pair with some bytes changed.
pub fn damaged(p: &Pair, rng: &mut Rng) -> Pair {
    let mut abbrev = (*p.abbrev).clone();
    let mut info = (*p.info).clone();
    let turns = rng.within(1, 12);
    for _ in 0..turns {
        let b = if rng.percent(80) { &mut info } else { &mut abbrev };
        if b.is_empty() {
            continue;
        }
        let at = rng.below(b.len());
        match rng.below(5) {
            0 => b[at] = rng.byte(),
            1 => b[at] = rng.pick(&[0, 1, 0x7f, 0x80, 0xff]),
            2 => {
                b.remove(at);
            }
            3 if rng.percent(20) => b.truncate(at),
            _ => b[at] ^= 1 << rng.below(8),
        }
    }
    Pair { abbrev: Arc::new(abbrev), info: Arc::new(info), ..p.clone() }
}

pub fn whole(p: &Pair, c: &mut Comparer, rng: &mut Rng) {
    pair(p, c, rng, MOST_CALLS);
}
