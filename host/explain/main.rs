//! Explains scripts: `explain FILE..`, or a script from standard input. Each
//! group of lines stands above its answer in words.

mod words;

use season_book::{answers, group_answers, script_lines, AnswerMismatch, GroupAnswer};
use std::error::Error;
use std::io::{self, ErrorKind, Read, Write};
use std::process::ExitCode;

/// The explanation of a script.
fn explanation(script: &[u8]) -> Result<String, AnswerMismatch> {
    let answers = match answers(script) {
        Ok(answers) => answers,
        Err(refusal) => return Ok(format!("The script is refused, {refusal}.\n")),
    };
    let lines = script_lines(script);
    let groups = group_answers(script, &answers)?;
    let mut text: String = groups.iter().map(|one| group_text(&lines, one)).collect();
    let answered: usize = groups.iter().map(|one| one.group.lines).sum();
    match lines.len() - answered {
        0 if lines.is_empty() => text.push_str("The script is empty and has no answers.\n"),
        0 => {}
        left => text.push_str(&format!("The run stops here; lines not run: {left}.\n")),
    }
    Ok(text)
}

/// A group's first line with its number, then its answer.
fn group_text(lines: &[&[u8]], one: &GroupAnswer) -> String {
    let number = one.group.first_line;
    let lines = &lines[number - 1..][..one.group.lines];
    let head = words::head(lines[0]);
    let counted = words::counted(&lines[1..]);
    let answer = words::answer(number, lines[0], &one.answer);
    format!("{number:4}  {head}{counted}\n      {answer}\n")
}

/// Prints the explanation of each script, under its name if there are several.
fn explain_all(names: &[String]) -> Result<(), Box<dyn Error>> {
    let mut out = io::stdout().lock();
    if names.is_empty() {
        let mut script = Vec::new();
        io::stdin().lock().read_to_end(&mut script)?;
        out.write_all(explanation(&script)?.as_bytes())?;
    }
    for name in names {
        let script = std::fs::read(name).map_err(|error| format!("{name}: {error}"))?;
        if names.len() > 1 {
            writeln!(out, "{name}")?;
        }
        out.write_all(explanation(&script)?.as_bytes())?;
    }
    Ok(out.flush()?)
}

/// A reader that stops early, as `head` does, is no failure.
fn stopped_reading(error: &(dyn Error + 'static)) -> bool {
    let error = error.downcast_ref::<io::Error>();
    error.is_some_and(|error| error.kind() == ErrorKind::BrokenPipe)
}

fn main() -> ExitCode {
    let names: Vec<String> = std::env::args().skip(1).collect();
    match explain_all(&names) {
        Ok(()) => ExitCode::SUCCESS,
        Err(error) if stopped_reading(error.as_ref()) => ExitCode::SUCCESS,
        Err(error) => {
            eprintln!("explain: {error}");
            ExitCode::FAILURE
        }
    }
}
