//! Answers scripts from a Rust program: `answers FILE..`, or a script from
//! standard input.

use std::io::{self, Read, Write};
use std::process::ExitCode;

/// Prints the answers of a script; false if the whole script is refused.
fn show(name: &str, script: &[u8]) -> io::Result<bool> {
    match season_book::answers(script) {
        Ok(answers) => io::stdout().write_all(&answers).map(|()| true),
        Err(refusal) => {
            eprintln!("{name}: {refusal}");
            Ok(false)
        }
    }
}

fn show_all(names: &[String]) -> io::Result<bool> {
    if names.is_empty() {
        let mut script = Vec::new();
        io::stdin().lock().read_to_end(&mut script)?;
        return show("standard input", &script);
    }
    let mut all_run = true;
    for name in names {
        all_run &= show(name, &std::fs::read(name)?)?;
    }
    Ok(all_run)
}

fn main() -> ExitCode {
    let names: Vec<String> = std::env::args().skip(1).collect();
    match show_all(&names) {
        Ok(true) => ExitCode::SUCCESS,
        Ok(false) => ExitCode::FAILURE,
        Err(error) => {
            eprintln!("answers: {error}");
            ExitCode::FAILURE
        }
    }
}
