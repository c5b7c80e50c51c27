//! Runs gimli and the port in one process on the same inputs and compares their answers call by call.
//! README.md has the usage.

mod case;
mod compare;
mod generate;
mod gimli_side;
mod known;
mod port;
mod probe;
mod random;
mod real;
mod rules;
mod sample;

use compare::{Comparer, Stats};
use random::Rng;
use real::Pair;
use std::sync::atomic::{AtomicU64, Ordering};
use std::sync::{Arc, Mutex};

/// Cases that are made from one stream of random numbers.
const BLOCK: u64 = 20_000;

fn usage() -> ! {
    eprintln!(
        "usage: oracle-compare [--cases N] [--seed S] [--threads T] [--copies N] [--plant] [--quick] [--pair le|be ABBREV INFO].. [--types le|be ABBREV TYPES]..\n\
         \x20      oracle-compare --sample N [--seed S] FILE\n\
         \x20      oracle-compare --replay FILE"
    );
    std::process::exit(2)
}

struct Options {
    cases: u64,
    seed: u64,
    threads: usize,
    copies: u64,
    plant: bool,
    quick: bool,
    sample: Option<usize>,
    replay: Option<String>,
    file: Option<String>,
    pairs: Vec<Pair>,
}

fn options() -> Options {
    let mut o = Options {
        cases: 10_000_000,
        seed: 1,
        threads: 2,
        copies: 20,
        plant: false,
        quick: false,
        sample: None,
        replay: None,
        file: None,
        pairs: Vec::new(),
    };
    let mut args = std::env::args().skip(1);
    while let Some(a) = args.next() {
        let mut arg = || args.next().unwrap_or_else(|| usage());
        fn number<T: std::str::FromStr>(s: String) -> T {
            s.parse().unwrap_or_else(|_| usage())
        }
        match a.as_str() {
            "--cases" => o.cases = number(arg()),
            "--seed" => o.seed = number(arg()),
            "--threads" => o.threads = number::<usize>(arg()).max(1),
            "--copies" => o.copies = number(arg()),
            "--plant" => o.plant = true,
            "--quick" => o.quick = true,
            "--sample" => o.sample = Some(number(arg())),
            "--replay" => o.replay = Some(arg()),
            "--pair" | "--types" => {
                let is_big = match arg().as_str() {
                    "le" => false,
                    "be" => true,
                    _ => usage(),
                };
                let (abbrev, info) = (arg(), arg());
                let read = |f: &str| match std::fs::read(f) {
                    Ok(b) => Arc::new(b),
                    Err(e) => {
                        eprintln!("oracle-compare: {f}: {e}");
                        std::process::exit(2)
                    }
                };
                let name = info.rsplit('/').next().unwrap_or(&info).to_string();
                let (abbrev, info) = (read(&abbrev), read(&info));
                let types = (a == "--types").then(|| gimli_side::signatures(&info, is_big));
                o.pairs.push(Pair { name, is_big, abbrev, info, types });
            }
            _ if a.starts_with("--") || o.file.is_some() => usage(),
            _ => o.file = Some(a),
        }
    }
    if o.sample.is_some() != o.file.is_some() {
        usage();
    }
    o
}

fn comparer(o: &Options, i: u64) -> Comparer {
    let mut c = Comparer::new(o.plant, o.seed ^ i);
    c.quick = o.quick;
    c
}

/// Runs a job for each number below `count`, on several threads.
fn spread(threads: usize, count: u64, job: &(dyn Fn(u64) -> Stats + Sync)) -> Stats {
    let next = AtomicU64::new(0);
    let all = Mutex::new(Stats::default());
    std::thread::scope(|s| {
        for _ in 0..threads {
            // trees are walked by recursion; the stack is only reserved
            let builder = std::thread::Builder::new().stack_size(1 << 29);
            let work = || loop {
                let i = next.fetch_add(1, Ordering::Relaxed);
                if i >= count {
                    return;
                }
                let stats = job(i);
                all.lock().unwrap().add(&stats);
            };
            builder.spawn_scoped(s, work).unwrap();
        }
    });
    all.into_inner().unwrap()
}

fn main() {
    compare::end_on_panic();
    let o = options();
    if let (Some(n), Some(file)) = (o.sample, &o.file) {
        let good = sample::write(file, n, o.seed);
        match good {
            Ok(true) => return,
            Ok(false) => std::process::exit(1),
            Err(e) => {
                eprintln!("oracle-compare: {file}: {e}");
                std::process::exit(2)
            }
        }
    }
    if let Some(file) = &o.replay {
        match sample::replay(file) {
            Ok(true) => return,
            Ok(false) => std::process::exit(1),
            Err(e) => {
                eprintln!("oracle-compare: {file}: {e}");
                std::process::exit(2)
            }
        }
    }
    if !port::PRESENT {
        println!("built without the port: only gimli's side runs, and nothing is compared");
    }
    // the model's own lengths, against a search
    match rules::search_shortest(3) {
        Ok(n) => println!("numbers' shortest lengths: as found among {n} lists of up to 3 bytes, by each reader"),
        Err(what) => {
            println!("numbers' shortest lengths: {what}");
            std::process::exit(1)
        }
    }
    let mut all = Stats::default();
    // what is known, and the sizes themselves
    all.add(&spread(1, 1, &|_| {
        let mut c = comparer(&o, 0);
        for case in known::cases().iter().chain(&known::more()) {
            c.put(case, None);
        }
        generate::long_sections(&mut |case, x| {
            c.put(&case, x);
            true
        });
        c.stats
    }));
    println!("known inputs: {} cases", all.total());
    // real builds, then damaged copies of them
    if !o.pairs.is_empty() {
        let n = o.pairs.len() as u64;
        let whole = spread(o.threads, n, &|i| {
            let p = &o.pairs[i as usize];
            let mut c = comparer(&o, i);
            let mut rng = Rng::new(o.seed, 1 << 40 | i);
            real::whole(p, &mut c, &mut rng);
            let calls: u64 = c.stats.calls.iter().sum();
            println!("  {}: {} bytes, {} cases, {calls} calls", p.name, p.info.len(), c.stats.total());
            c.stats
        });
        println!("real builds: {n} pairs of sections, {} cases", whole.total());
        all.add(&whole);
        let copies = spread(o.threads, n * o.copies, &|i| {
            let p = &o.pairs[(i % n) as usize];
            let mut c = comparer(&o, i);
            let mut rng = Rng::new(o.seed, 2 << 40 | i);
            let d = real::damaged(p, &mut rng);
            real::pair(&d, &mut c, &mut rng, 600);
            c.stats
        });
        println!("damaged copies: {}, {} cases", n * o.copies, copies.total());
        all.add(&copies);
    }
    let blocks = o.cases.div_ceil(BLOCK);
    let random = spread(o.threads, blocks, &|i| {
        let wanted = BLOCK.min(o.cases - i * BLOCK);
        let mut c = comparer(&o, i);
        let mut rng = Rng::new(o.seed, i);
        let mut done = 0;
        while done < wanted {
            generate::scene(&mut rng, &mut |case, x| {
                c.put(&case, x);
                done += 1;
                done < wanted
            });
        }
        c.stats
    });
    println!("random inputs: {} cases, seed {}", random.total() + random.unasked, o.seed);
    all.add(&random);
    all.report();
    if !all.passed() {
        println!("FAILED");
        std::process::exit(1);
    }
    println!("passed");
}
