//! How fast the proved library answers, measured against the Rust model.
//!
//! Both answer the same scripts in one process, in turns, both built for
//! release. The output buffer is made once for each script and not cleared
//! between runs. A row's time is the median over many runs.

mod scripts;

use std::hint::black_box;
use std::time::{Duration, Instant};

/// How long each of the two is measured for a row.
const MEASURED: Duration = Duration::from_millis(1_500);

type Run = fn(&[u8], &mut [u8]) -> u64;

/// The time of one run, in nanoseconds.
fn time(run: Run, script: &[u8], out: &mut [u8]) -> f64 {
    let started = Instant::now();
    black_box(run(black_box(script), black_box(out)));
    started.elapsed().as_nanos() as f64
}

fn median(mut times: Vec<f64>) -> f64 {
    times.sort_by(f64::total_cmp);
    times[times.len() / 2]
}

/// The medians of the library and of the model, which run in turns.
fn measure(script: &[u8]) -> (f64, f64) {
    let mut out = vec![0; season_book::output_bytes(script)];
    let (mut book_times, mut model_times) = (Vec::new(), Vec::new());
    let started = Instant::now();
    while started.elapsed() < MEASURED || book_times.len() < 20 {
        book_times.push(time(season_book::run_number, script, &mut out));
        model_times.push(time(model::run, script, &mut out));
    }
    (median(book_times), median(model_times))
}

/// Both give the same answers, else their times say nothing.
fn agree(name: &str, script: &[u8]) {
    let mut wanted = vec![0; season_book::output_bytes(script)];
    let mut given = wanted.clone();
    let number = model::run(script, &mut wanted);
    assert_eq!(
        season_book::run_number(script, &mut given),
        number,
        "{name}"
    );
    assert!(given == wanted, "{name}: not the model's answers");
    assert!(number < 1_000_000, "{name}: it is not run");
}

/// One row of the table; returns the library's time a line.
fn row(name: &str, script: &[u8]) -> f64 {
    agree(name, script);
    let lines = season_book::count_lines(script) as f64;
    let (book, model) = measure(script);
    println!(
        "| {name} | {lines} | {} | {:.0} | {:.0} | {:.2} |",
        script.len(),
        book / lines,
        model / lines,
        book / model
    );
    book / lines
}

fn main() {
    println!("| script | lines | bytes | library, ns a line | model, ns a line | ratio |");
    println!("|---|---|---|---|---|---|");
    row("full season", &scripts::season(4_096));
    row("load of 2,208 blocks", &scripts::long_load());
    row("60 migrations of 64 lines", &scripts::migrations());
    row("refusals", &scripts::refusals());
    row("four lines", &scripts::four_lines());
    println!();
    println!("| season of so many lines | lines | bytes | library, ns a line | model, ns a line | ratio |");
    println!("|---|---|---|---|---|---|");
    let sizes = [256, 512, 1_024, 2_048, 4_096];
    let times: Vec<f64> = sizes
        .iter()
        .map(|&lines| row(&lines.to_string(), &scripts::season(lines)))
        .collect();
    let growth = times[times.len() - 1] / times[0];
    println!();
    println!("A line of 4,096 takes {growth:.2} times as long as one of 256.");
}
