//! Running a script: groups, their answers, and the host's one number.

use crate::book::Book;
use crate::calls::{Answer, Block, Call, ClassLine, Load, Migrate};
use crate::opening::Opening;
use crate::refusals::{OUTPUT_TOO_SHORT, UNREADABLE};
use crate::script::{self, Head};
use crate::settings::Settings;
use crate::sizes::{MAX_SCRIPT_BYTES, MAX_SCRIPT_LINES, OUTPUT_BYTES_PER_LINE};
use std::io::Write;

/// The host's number counts refusals in millions.
const REFUSAL_UNIT: u64 = 1_000_000;

/// The host: reads a lent script, writes the answers to a lent buffer and
/// returns one number. A run gives the length of what was written.
///
/// A script over its limits gives a refusal of 1, else a buffer with less than
/// 16 bytes for each line one of 15, counted in millions and with no length;
/// then nothing is written. The buffer is left alone behind the answers.
pub fn run(script: &[u8], out: &mut [u8]) -> u64 {
    if too_long(script) {
        return UNREADABLE * REFUSAL_UNIT;
    }
    if out.len() < script::count_lines(script) * OUTPUT_BYTES_PER_LINE {
        return OUTPUT_TOO_SHORT * REFUSAL_UNIT;
    }
    let answers = answer_script(script);
    out[..answers.len()].copy_from_slice(&answers);
    answers.len() as u64
}

/// The answers as the program prints them; `Err(1)` for a script over its
/// limits.
pub fn answers(script: &[u8]) -> Result<Vec<u8>, u64> {
    if too_long(script) {
        Err(UNREADABLE)
    } else {
        Ok(answer_script(script))
    }
}

/// Script and host: more bytes, or more lines, than a script may have.
fn too_long(script: &[u8]) -> bool {
    script.len() > MAX_SCRIPT_BYTES || script::count_lines(script) > MAX_SCRIPT_LINES
}

/// The book group first; if it is refused the run stops. Then group by group.
fn answer_script(script: &[u8]) -> Vec<u8> {
    let lines = script::lines(script);
    let mut out = Vec::with_capacity(lines.len() * 4);
    if lines.is_empty() {
        return out;
    }
    match open_group(&lines) {
        Err(refusal) => Answer::Refused(refusal).write(&mut out),
        Ok((mut book, consumed)) => {
            Answer::Done.write(&mut out);
            answer_groups(&mut book, &lines[consumed..], &mut out);
        }
    }
    out
}

/// Answers groups of calls and queries until no line is left.
pub(crate) fn answer_groups(book: &mut Book, lines: &[&[u8]], out: &mut Vec<u8>) {
    let mut rest = lines;
    while !rest.is_empty() {
        let (answer, consumed) = answer_group(book, rest);
        answer.write(out);
        rest = &rest[consumed..];
    }
}

/// The book group: a readable head, the lines it counts and a `set` line if one
/// follows them, else 1; then the opening, which can only be 16.
fn open_group(lines: &[&[u8]]) -> Result<(Book, usize), u64> {
    let (opening, consumed) = read_opening(lines).ok_or(UNREADABLE)?;
    Ok((Book::open(&opening)?, consumed))
}

/// Reads the opening, and how many lines it is written on. Sources have no
/// lines of their own.
fn read_opening(lines: &[&[u8]]) -> Option<(Opening, usize)> {
    let (first, mut rest) = lines.split_first()?;
    let [holders, sources, sinks, paths] = script::book_head(first)?;
    let holder_lines = script::counted(rest, holders, script::holder_line)?;
    rest = &rest[holder_lines.len()..];
    let sink_lines = script::counted(rest, sinks, script::sink_line)?;
    rest = &rest[sink_lines.len()..];
    let path_lines = script::counted(rest, paths, script::path_line)?;
    rest = &rest[path_lines.len()..];
    let (settings, set_lines) = read_settings(rest)?;
    rest = &rest[set_lines..];
    let opening = Opening {
        holders,
        sources,
        sinks,
        paths,
        holder_kinds: holder_lines.iter().map(|&[kind]| kind).collect(),
        sink_kinds: sink_lines.iter().map(|&[kind, _]| kind).collect(),
        sink_parents: sink_lines.iter().map(|&[_, parent]| parent).collect(),
        path_sources: path_lines.iter().map(|&[source, _]| source).collect(),
        path_sinks: path_lines.iter().map(|&[_, sink]| sink).collect(),
        settings,
    };
    Some((opening, lines.len() - rest.len()))
}

/// Reads the settings from the lines behind the book lines, and how many lines
/// they are written on: one that begins with `set,` has to be readable, and
/// without it the present figures hold.
fn read_settings(lines: &[&[u8]]) -> Option<(Settings, usize)> {
    match lines.first() {
        Some(line) if script::begins_settings(line) => Some((script::set_line(line)?, 1)),
        _ => Some((Settings::PRESENT, 0)),
    }
}

/// One group: its answer and the number of lines it takes. A head takes the
/// lines it counts whatever they say; an unreadable head takes none but itself.
fn answer_group(book: &mut Book, lines: &[&[u8]]) -> (Answer, usize) {
    let rest = &lines[1..];
    let consumed = |count: u64| 1 + count.min(rest.len() as u64) as usize;
    match script::head(lines[0]) {
        None => (Answer::Refused(UNREADABLE), 1),
        Some(Head::Query(query)) => (Answer::from_query(book.query(&query)), 1),
        Some(Head::Call(call)) => (Answer::from_call(book.call(&call)), 1),
        Some(Head::Load(load, count)) => {
            let done = post_load(book, load, script::counted(rest, count, script::block_line));
            (Answer::from_call(done), consumed(count))
        }
        Some(Head::Migrate(migrate, count)) => {
            let done = post_migrate(
                book,
                migrate,
                script::counted(rest, count, script::class_line),
            );
            (Answer::from_call(done), consumed(count))
        }
    }
}

/// A load with the blocks its head counts; a group not wholly readable is 1.
fn post_load(book: &mut Book, load: Load, blocks: Option<Vec<Block>>) -> Result<(), u64> {
    let blocks = &blocks.ok_or(UNREADABLE)?[..];
    book.call(&Call::Load(Load { blocks, ..load }))
}

/// A migrate with the class lines its head counts; likewise.
fn post_migrate(
    book: &mut Book,
    migrate: Migrate,
    lines: Option<Vec<ClassLine>>,
) -> Result<(), u64> {
    let lines = &lines.ok_or(UNREADABLE)?[..];
    book.call(&Call::Migrate(Migrate { lines, ..migrate }))
}

impl Answer {
    /// A call answers `ok` or its refusal.
    pub fn from_call(done: Result<(), u64>) -> Answer {
        match done {
            Ok(()) => Answer::Done,
            Err(refusal) => Answer::Refused(refusal),
        }
    }

    /// A query answers its value or its refusal.
    pub fn from_query(value: Result<u64, u64>) -> Answer {
        match value {
            Ok(value) => Answer::Value(value),
            Err(refusal) => Answer::Refused(refusal),
        }
    }

    /// Writes `ok`, `ok,V` or `no,NN`, then LF. No answer is longer than 16
    /// bytes: a value has ten digits at most.
    pub fn write(&self, out: &mut Vec<u8>) {
        let written = match self {
            Answer::Done => out.write_all(b"ok\n"),
            Answer::Value(value) => writeln!(out, "ok,{value}"),
            Answer::Refused(refusal) => writeln!(out, "no,{refusal:02}"),
        };
        written.expect("a vector takes every byte");
    }
}
