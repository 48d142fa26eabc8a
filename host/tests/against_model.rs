//! The proved library against the Rust model: the same number, the same
//! written bytes and the same untouched rest of the buffer.
//!
//! Without flags: 20,000 generated seasons, 20,000 damaged scripts and every
//! stored vector. A longer run:
//!
//! ```text
//! cargo test --offline --test against_model -- --scripts 1000000 --from 20000
//! ```
//!
//! takes that many of both kinds, from that seed on. A difference is reported
//! with its kind and seed, which `--scripts 1 --from SEED` runs again.

use std::sync::atomic::{AtomicU64, Ordering};
use std::time::{Duration, Instant};

/// The byte that a lent buffer is full of.
const MARK: u8 = 0xA5;

/// How often a long run says how far it is.
const REPORT_EVERY: Duration = Duration::from_secs(20);

/// Seeds from `from`, so many of them.
struct Seeds {
    from: u64,
    scripts: u64,
}

/// The flags; words that are none of them are for other tests.
fn seeds() -> Seeds {
    let mut seeds = Seeds {
        from: 0,
        scripts: 20_000,
    };
    let words: Vec<String> = std::env::args().skip(1).collect();
    for pair in words.windows(2) {
        let number = || pair[1].replace([',', '_'], "").parse().expect("a number");
        match pair[0].as_str() {
            "--scripts" => seeds.scripts = number(),
            "--from" => seeds.from = number(),
            _ => {}
        }
    }
    seeds
}

/// One script through both, with so many bytes lent; says what differs.
fn compare_lent(script: &[u8], lent: usize) -> Result<(), String> {
    let mut wanted = vec![MARK; lent];
    let wanted_number = model::run(script, &mut wanted);
    let mut given = vec![MARK; lent];
    let given_number = season_book::run_number(script, &mut given);
    if given_number != wanted_number {
        return Err(format!(
            "{lent} bytes lent: number {given_number}, the model has {wanted_number}"
        ));
    }
    match (0..lent).find(|&at| given[at] != wanted[at]) {
        None => Ok(()),
        Some(at) => Err(format!(
            "{lent} bytes lent: byte {at} is {}, the model has {}",
            given[at], wanted[at]
        )),
    }
}

/// Exactly 16 bytes a line, one less and some more.
fn compare(script: &[u8]) -> Result<(), String> {
    let exact = season_book::output_bytes(script);
    let more = exact + 1 + script.len() % 50;
    for lent in [exact, exact.saturating_sub(1), more] {
        compare_lent(script, lent)?;
    }
    Ok(())
}

/// Compares the scripts of all seeds on as many threads as there are cores.
fn compare_seeds(kind: &str, seeds: &Seeds, script: fn(u64) -> Vec<u8>) {
    let started = Instant::now();
    let next = AtomicU64::new(0);
    let threads = std::thread::available_parallelism().map_or(1, |cores| cores.get());
    std::thread::scope(|scope| {
        for thread in 0..threads {
            let next = &next;
            scope.spawn(move || compare_some(kind, seeds, script, next, thread == 0));
        }
    });
    let seconds = started.elapsed().as_secs_f64();
    println!(
        "{} {kind} from seed {}: as the model, in {seconds:.1} s",
        seeds.scripts, seeds.from
    );
}

/// One thread's part; the first thread reports.
fn compare_some(
    kind: &str,
    seeds: &Seeds,
    script: fn(u64) -> Vec<u8>,
    next: &AtomicU64,
    reports: bool,
) {
    let mut reported = Instant::now();
    loop {
        let place = next.fetch_add(1, Ordering::Relaxed);
        if place >= seeds.scripts {
            return;
        }
        let seed = seeds.from + place;
        if let Err(difference) = compare(&script(seed)) {
            eprintln!("{kind}, seed {seed}: {difference}");
            std::process::exit(1);
        }
        if reports && reported.elapsed() > REPORT_EVERY {
            println!("{place} of {} {kind}", seeds.scripts);
            reported = Instant::now();
        }
    }
}

/// The stored vectors, with the buffer each one asks for and the usual three.
fn compare_vectors() {
    let path = concat!(env!("CARGO_MANIFEST_DIR"), "/../crates/vectors/stdin");
    let text = std::fs::read(path).expect("the stored vectors");
    let vectors = model::vectors::vectors(&text);
    let lines = text.split(|&byte| byte == b'\n');
    let named = lines.filter(|line| line.starts_with(b"# ")).count();
    assert_eq!(
        vectors.len(),
        named,
        "vectors read, and vectors that the text names"
    );
    for vector in &vectors {
        let compared = compare_lent(&vector.script, vector.lent);
        if let Err(difference) = compared.and_then(|()| compare(&vector.script)) {
            eprintln!("vector {:?}: {difference}", vector.name);
            std::process::exit(1);
        }
    }
    println!("{} stored vectors: as the model", vectors.len());
}

fn main() {
    let seeds = seeds();
    compare_vectors();
    compare_seeds("seasons", &seeds, model::generate::season);
    compare_seeds("damaged scripts", &seeds, model::generate::damaged);
}
