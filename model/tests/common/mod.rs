//! Scripts with their answers beside them.
#![allow(dead_code)]

pub mod step;

/// A book with both kinds of holder and all four kinds of sink.
///
/// Holders 0, 1 and 3 serve load, holder 2 is outside. Sink 0 is a Default
/// LAP, 1 its Sub-LAP, 2 a custom LAP, 3 a scheduling point. Paths 0 and 1 go
/// to the Default LAP, 2 to the Sub-LAP, 3 to the custom LAP, 4 and 5 to the
/// scheduling point; paths 1 and 5 start at source 1, the others at source 0.
pub const BOOK: &str = "
    book,4,2,4,6 => ok
    holder,1
    holder,1
    holder,2
    holder,1
    sink,1,0
    sink,2,0
    sink,3,2
    sink,4,3
    path,0,0
    path,1,0
    path,0,1
    path,0,2
    path,0,3
    path,1,3
";

/// Tiers 1 to 3, opened and closed with nothing in them.
pub const EMPTY_SEASON: &str = "
    open,1 => ok
    close => ok
    open,2 => ok
    close => ok
    open,3 => ok
    close => ok
";

/// Opens and closes tiers with nothing in them.
pub fn empty_tiers(tiers: std::ops::RangeInclusive<u64>) -> String {
    tiers
        .map(|tier| format!("open,{tier} => ok\nclose => ok\n"))
        .collect()
}

/// Splits lines such as `close => ok` into the script and its answers. Blanks
/// around a line are not part of the script, and blank lines are left out.
pub fn split(text: &str) -> (String, String) {
    let (mut script, mut answers) = (String::new(), String::new());
    for line in text.lines().map(str::trim).filter(|line| !line.is_empty()) {
        let (line, answer) = match line.split_once("=>") {
            Some((line, answer)) => (line.trim(), Some(answer.trim())),
            None => (line, None),
        };
        script.push_str(line);
        script.push('\n');
        if let Some(answer) = answer {
            answers.push_str(answer);
            answers.push('\n');
        }
    }
    (script, answers)
}

/// Runs a script and holds its answers against those beside the lines.
#[track_caller]
pub fn show(text: &str) {
    let (script, expected) = split(text);
    let answers = answers(&script);
    if answers != expected {
        let rows = answers.lines().zip(expected.lines());
        let first = rows.take_while(|(answer, wanted)| answer == wanted).count();
        panic!(
            "answer {first} differs\nscript:\n{script}\nanswers:\n{answers}\nexpected:\n{expected}"
        );
    }
}

/// The same after [`BOOK`].
#[track_caller]
pub fn show_in_book(text: &str) {
    show(&format!("{BOOK}{text}"));
}

/// The answers to a script, as text.
pub fn answers(script: &str) -> String {
    bytes_answered(script.as_bytes())
}

/// The answers to a script of any bytes, as text.
pub fn bytes_answered(script: &[u8]) -> String {
    let answers = model::answers(script).expect("a script within its limits");
    String::from_utf8(answers).expect("answers are ASCII")
}
