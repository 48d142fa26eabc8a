//! Lines and answers in words.

use season_book::{cause, Answer};

/// Bytes of a line that are shown.
const MAX_SHOWN_BYTES: usize = 72;

/// The words of lines that stand in the group of a head before them.
const COUNTED_WORDS: [&str; 6] = ["holder", "sink", "path", "set", "block", "class"];

/// A group's first line, cut if it is long, with other bytes than ASCII's
/// printed ones escaped.
pub fn head(line: &[u8]) -> String {
    let shown = &line[..line.len().min(MAX_SHOWN_BYTES)];
    let cut = if shown.len() < line.len() { "..." } else { "" };
    format!("{}{cut}", shown.escape_ascii())
}

/// The other lines of a group, summed up by their word.
pub fn counted(lines: &[&[u8]]) -> String {
    let mut parts = Vec::new();
    let mut others = lines.len();
    for word in COUNTED_WORDS {
        let count = lines
            .iter()
            .filter(|line| first_word(line) == word.as_bytes());
        let count = count.count();
        others -= count;
        parts.push((word, count));
    }
    parts.push(("other", others));
    let parts = parts.iter().filter(|(_, count)| *count > 0);
    let parts: Vec<String> = parts
        .map(|(word, count)| some_lines(word, *count))
        .collect();
    match parts.is_empty() {
        true => String::new(),
        false => format!(" with {}", parts.join(", ")),
    }
}

fn first_word(line: &[u8]) -> &[u8] {
    line.split(|&byte| byte == b',').next().unwrap_or(line)
}

fn some_lines(word: &str, count: usize) -> String {
    let plural = if count == 1 { "" } else { "s" };
    format!("{count} {word} line{plural}")
}

/// The answer to the group whose head has this number and text.
pub fn answer(number: usize, head: &[u8], answer: &Answer) -> String {
    match answer {
        Answer::Refused(refusal) => {
            let cause = cause(*refusal).unwrap_or("a cause without words");
            format!("refused with {refusal}: {cause}")
        }
        Answer::Accepted(values) => match values[..] {
            [] if number == 1 => "accepted: the book is open".to_string(),
            [] => "accepted".to_string(),
            [kw] => format!("{kw} kW: {}", query_value(head)),
            _ => format!("{values:?}: {}", query_value(head)),
        },
    }
}

/// What the figure of an answered query is.
fn query_value(head: &[u8]) -> String {
    let head = String::from_utf8_lossy(head);
    let fields: Vec<&str> = head.split(',').collect();
    match fields[..] {
        ["limit", holder, sink] => {
            format!("limit of holder {holder} at sink {sink} in the open tier")
        }
        ["held", holder, path, month] => {
            format!("held by holder {holder} on path {path} in month {month}")
        }
        ["net", path, month] => {
            format!("net on path {path} in month {month}, the sum over all holders")
        }
        _ => "a figure without words".to_string(),
    }
}
