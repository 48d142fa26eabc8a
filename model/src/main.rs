//! The program: a script from standard input, its answers to standard output.

use std::io::{self, Read, Write};

fn main() -> io::Result<()> {
    let mut script = Vec::new();
    io::stdin().lock().read_to_end(&mut script)?;
    let mut out = io::stdout().lock();
    match model::answers(&script) {
        Ok(answers) => out.write_all(&answers)?,
        Err(refusal) => writeln!(out, "no,{refusal:02}")?,
    }
    out.flush()
}
