//! The stored scripts of the program `vectors`, run by the model.
//!
//! `stdout` prints what the program has to print, to be held against the stored
//! lines by eye when a script is added: those are worked out from the paper.

use model::vectors::{vectors, Vector};
use std::io::Write;
use std::path::Path;

/// The bytes of a file of the program's crate.
pub fn of_the_crate(name: &str) -> Vec<u8> {
    let crate_ = Path::new(env!("CARGO_MANIFEST_DIR")).join("../crates/vectors");
    let bytes = std::fs::read(crate_.join(name));
    bytes.unwrap_or_else(|error| panic!("{name}: {error}"))
}

/// The bytes written by a run that gave this number: none if it is refused
/// whole.
pub fn written(number: u64) -> usize {
    match number {
        0..=999_999 => number as usize,
        _ => 0,
    }
}

/// What is printed for a vector, from the number its run gave and the output
/// buffer: the name, the number, and the bytes written.
pub fn printed(vector: &Vector, number: u64, out: &[u8]) -> Vec<u8> {
    let mut text = format!("# {}\n{number}\n", vector.name).into_bytes();
    text.extend_from_slice(&out[..written(number)]);
    text
}

/// What the program has to print, by the model.
pub fn stdout() -> Vec<u8> {
    let mut text = Vec::new();
    for vector in vectors(&of_the_crate("stdin")) {
        let mut out = vec![0; vector.lent];
        let number = model::run(&vector.script, &mut out);
        text.extend(printed(&vector, number, &out));
    }
    text
}

fn main() {
    match std::env::args().nth(1).as_deref() {
        Some("stdout") => {
            let written = std::io::stdout().write_all(&stdout());
            written.expect("standard output takes every byte");
        }
        _ => eprintln!("vectors stdout"),
    }
}
