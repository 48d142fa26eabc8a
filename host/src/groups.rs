//! The groups of a script: a head and the lines that it counts get one answer.
//! To the book's group belongs a line directly after them that begins with `set,`.

/// Where a group stands in its script.
#[derive(Clone, Copy, Debug, PartialEq, Eq)]
pub struct Group {
    /// The line of its head, counted from 1.
    pub first_line: usize,
    /// How many lines it has, its head among them.
    pub lines: usize,
}

/// The lines of a script, without their LFs. Bytes after the last LF are one
/// more line.
pub fn script_lines(script: &[u8]) -> Vec<&[u8]> {
    let lines = script.split_inclusive(|&byte| byte == b'\n');
    lines
        .map(|line| line.strip_suffix(b"\n").unwrap_or(line))
        .collect()
}

/// The groups of a script, the book group first. Where the book group is
/// refused it is the only one that is answered.
pub fn groups(script: &[u8]) -> Vec<Group> {
    let lines = script_lines(script);
    let mut groups = Vec::new();
    let mut consumed = 0;
    while consumed < lines.len() {
        let rest = &lines[consumed..];
        let after_head = if consumed == 0 {
            book_lines(rest)
        } else {
            call_lines(rest[0])
        };
        let group = Group {
            first_line: consumed + 1,
            lines: (1 + after_head).min(rest.len()),
        };
        groups.push(group);
        consumed += group.lines;
    }
    groups
}

/// The lines of the book's group after its head: those that the head counts,
/// sources having none, and the `set` line if there is one. No LF has to end it.
fn book_lines(lines: &[&[u8]]) -> usize {
    let Some([holders, _sources, sinks, paths]) = numbers(lines[0], b"book") else {
        return 0;
    };
    let counted = holders + sinks + paths;
    let next = lines.get(1 + counted);
    counted + usize::from(next.is_some_and(|line| line.starts_with(b"set,")))
}

/// The lines that any other head counts: none unless it is a readable load or
/// migrate.
fn call_lines(head: &[u8]) -> usize {
    if let Some([_holder, _sink, _term, _contract, _hours, count]) = numbers(head, b"load") {
        return count;
    }
    if let Some([_term, _sink, count]) = numbers(head, b"migrate") {
        return count;
    }
    0
}

/// The numbers of a line with this word and exactly so many fields after it.
fn numbers<const FIELDS: usize>(line: &[u8], word: &[u8]) -> Option<[usize; FIELDS]> {
    let mut fields = line.split(|&byte| byte == b',');
    if fields.next()? != word {
        return None;
    }
    let mut numbers = [0; FIELDS];
    for place in &mut numbers {
        *place = number(fields.next()?)?;
    }
    fields.next().is_none().then_some(numbers)
}

/// A number has 1 to 9 digits and no leading zero, except in 0 itself.
fn number(field: &[u8]) -> Option<usize> {
    let readable = match field {
        [b'0'] => true,
        [first, ..] => *first != b'0' && field.len() <= 9 && field.iter().all(u8::is_ascii_digit),
        [] => false,
    };
    let digits = std::str::from_utf8(field).ok().filter(|_| readable)?;
    digits.parse().ok()
}
