//! Reading a script: lines, numbers, heads and the lines that heads count.

use crate::calls::{Block, Call, ClassLine, Load, Migrate, OnPath, Prior, Query, Verify};
use crate::settings::Settings;

/// The lines of a script, each with its LF. A last line that no LF ends counts,
/// but no one can read it.
pub(crate) fn lines(script: &[u8]) -> Vec<&[u8]> {
    script.split_inclusive(|&byte| byte == b'\n').collect()
}

/// The number of lines, counted without keeping them.
pub(crate) fn count_lines(script: &[u8]) -> usize {
    let ended = script.iter().filter(|&&byte| byte == b'\n').count();
    let unended = script.last().is_some_and(|&byte| byte != b'\n');
    ended + usize::from(unended)
}

/// A decimal number of at most nine digits; none but 0 starts with a 0.
fn number(field: &[u8]) -> Option<u64> {
    let digits = (1..=9).contains(&field.len()) && field.iter().all(u8::is_ascii_digit);
    let leading_zero = field.len() > 1 && field[0] == b'0';
    if !digits || leading_zero {
        return None;
    }
    let digit = |sum: u64, byte: &u8| sum * 10 + u64::from(byte - b'0');
    Some(field.iter().fold(0, digit))
}

/// The fields after the word: exactly N numbers, parted by commas, then LF.
fn fields<const N: usize>(line: &[u8], word: &[u8]) -> Option<[u64; N]> {
    let line = line.strip_suffix(b"\n")?;
    let mut parts = line.split(|&byte| byte == b',');
    if parts.next()? != word {
        return None;
    }
    let mut fields = [0; N];
    for field in &mut fields {
        *field = number(parts.next()?)?;
    }
    parts.next().is_none().then_some(fields)
}

/// The word a line begins with.
fn word(line: &[u8]) -> &[u8] {
    let end = |&byte: &u8| byte == b',' || byte == b'\n';
    line.split(end).next().unwrap_or(b"")
}

/// A head of a call or query. Load and migrate still lack the lines they count.
#[derive(Clone, Copy)]
pub(crate) enum Head {
    /// A call or query that is whole in one line.
    Call(Call<'static>),
    Query(Query),
    /// A load and its count of block lines.
    Load(Load<'static>, u64),
    /// A migrate and its count of class lines.
    Migrate(Migrate<'static>, u64),
}

/// Reads a head by its word. A second `book`, a `set` that does not stand behind
/// the book lines, and a line that only a head can count, are no heads.
pub(crate) fn head(line: &[u8]) -> Option<Head> {
    match word(line) {
        b"load" => load(line),
        b"carry" => Some(Head::Call(Call::Carry(on_path(line, b"carry")?))),
        b"prior" => prior(line),
        b"verify" => verify(line),
        b"migrate" => migrate(line),
        b"open" => fields(line, b"open").map(|[tier]| Head::Call(Call::Open { tier })),
        b"nominate" => Some(Head::Call(Call::Nominate(on_path(line, b"nominate")?))),
        b"award" => Some(Head::Call(Call::Award(on_path(line, b"award")?))),
        b"close" => fields(line, b"close").map(|[]| Head::Call(Call::Close)),
        b"limit" => limit(line),
        b"held" => held(line),
        b"net" => net(line),
        _ => None,
    }
}

fn load(line: &[u8]) -> Option<Head> {
    let [holder, sink, term, contract, hours, count] = fields(line, b"load")?;
    let load = Load {
        holder,
        sink,
        term,
        contract,
        hours,
        blocks: &[],
    };
    Some(Head::Load(load, count))
}

fn on_path(line: &[u8], word: &[u8]) -> Option<OnPath> {
    let [holder, path, kw] = fields(line, word)?;
    Some(OnPath { holder, path, kw })
}

fn prior(line: &[u8]) -> Option<Head> {
    let [holder, path, allocated, long_term] = fields(line, b"prior")?;
    Some(Head::Call(Call::Prior(Prior {
        holder,
        path,
        allocated,
        long_term,
    })))
}

fn verify(line: &[u8]) -> Option<Head> {
    let [holder, source, kind, capacity, right, first_month, last_month, ten_year] =
        fields(line, b"verify")?;
    Some(Head::Call(Call::Verify(Verify {
        holder,
        source,
        kind,
        capacity,
        right,
        first_month,
        last_month,
        ten_year,
    })))
}

fn migrate(line: &[u8]) -> Option<Head> {
    let [term, sink, count] = fields(line, b"migrate")?;
    let lines = &[];
    Some(Head::Migrate(Migrate { term, sink, lines }, count))
}

fn limit(line: &[u8]) -> Option<Head> {
    let [holder, sink] = fields(line, b"limit")?;
    Some(Head::Query(Query::Limit { holder, sink }))
}

fn held(line: &[u8]) -> Option<Head> {
    let [holder, path, month] = fields(line, b"held")?;
    Some(Head::Query(Query::Held {
        holder,
        path,
        month,
    }))
}

fn net(line: &[u8]) -> Option<Head> {
    let [path, month] = fields(line, b"net")?;
    Some(Head::Query(Query::Net { path, month }))
}

/// The head of the book group: holders, sources, sinks, paths.
pub(crate) fn book_head(line: &[u8]) -> Option<[u64; 4]> {
    fields(line, b"book")
}

/// A holder's kind.
pub(crate) fn holder_line(line: &[u8]) -> Option<[u64; 1]> {
    fields(line, b"holder")
}

/// A sink's kind and parent.
pub(crate) fn sink_line(line: &[u8]) -> Option<[u64; 2]> {
    fields(line, b"sink")
}

/// A path's source and sink.
pub(crate) fn path_line(line: &[u8]) -> Option<[u64; 2]> {
    fields(line, b"path")
}

/// Whether a line, ended or not, is the `set` line of the book group if it stands
/// directly behind the book lines.
pub(crate) fn begins_settings(line: &[u8]) -> bool {
    line.starts_with(b"set,")
}

/// The six fractions of a `set` line.
pub(crate) fn set_line(line: &[u8]) -> Option<Settings> {
    fields(line, b"set").map(Settings::from_numbers)
}

/// A block of a load.
pub(crate) fn block_line(line: &[u8]) -> Option<Block> {
    let [first, length, kw] = fields(line, b"block")?;
    Some(Block { first, length, kw })
}

/// A class line of a migration.
pub(crate) fn class_line(line: &[u8]) -> Option<ClassLine> {
    let [from, to, class, customers, watts] = fields(line, b"class")?;
    Some(ClassLine {
        from,
        to,
        class,
        customers,
        watts,
    })
}

/// The lines a head counts, read in their place; none if one of them is
/// unreadable or absent.
pub(crate) fn counted<T>(
    lines: &[&[u8]],
    count: u64,
    read: impl Fn(&[u8]) -> Option<T>,
) -> Option<Vec<T>> {
    let there = lines.len() as u64 >= count;
    let lines = there.then(|| &lines[..count as usize])?;
    lines.iter().map(|line| read(line)).collect()
}

#[cfg(test)]
mod tests {
    use super::*;

    /// Script: what a number looks like.
    #[test]
    fn a_number_has_1_to_9_digits_and_no_leading_zero() {
        assert_eq!(number(b"0"), Some(0));
        assert_eq!(number(b"7"), Some(7));
        assert_eq!(number(b"999999999"), Some(999_999_999));
        for bad in [
            "",
            "00",
            "01",
            "1000000000",
            "0000000001",
            "-1",
            "+1",
            " 1",
            "1 ",
            "1.0",
            "a",
        ] {
            assert_eq!(number(bad.as_bytes()), None, "{bad:?}");
        }
        assert_eq!(number("१".as_bytes()), None);
    }

    /// Script: a line ends in LF, and what is left over is one more line.
    #[test]
    fn lines_end_in_lf_and_bytes_left_over_are_one_more() {
        let none: [&[u8]; 0] = [];
        assert_eq!(lines(b""), none);
        assert_eq!(lines(b"a\n"), [b"a\n"]);
        assert_eq!(lines(b"a\n\nb\n"), [b"a\n" as &[u8], b"\n", b"b\n"]);
        assert_eq!(lines(b"a\nclose"), [b"a\n" as &[u8], b"close"]);
        assert!(head(b"close\n").is_some() && head(b"close").is_none());
        for script in ["", "a", "\n", "a\n", "a\n\n", "a\nb", "\n\nb"] {
            assert_eq!(
                count_lines(script.as_bytes()),
                lines(script.as_bytes()).len()
            );
        }
    }

    /// Script: a line has its word and its count of fields, no more, no less.
    #[test]
    fn fields_are_exactly_those_of_the_word() {
        assert_eq!(fields(b"close\n", b"close"), Some([]));
        assert_eq!(fields(b"open,3\n", b"open"), Some([3]));
        for bad in [
            "open", "open,", "open,3,", "open,3,4", "opens,3", "OPEN,3", ",3", "open,3\r",
        ] {
            let line = format!("{bad}\n");
            assert_eq!(fields::<1>(line.as_bytes(), b"open"), None, "{bad:?}");
        }
        assert_eq!(fields::<1>(b"open,3", b"open"), None);
        assert_eq!(fields::<0>(b"close,\n", b"close"), None);
    }

    /// 02, 3/14: a line is the book group's by its first four bytes, and read
    /// only if all of it can be.
    #[test]
    fn a_set_line_is_told_by_its_first_four_bytes() {
        for line in ["set,", "set,\n", "set,3", "set,x\n", "set,,\n"] {
            assert!(begins_settings(line.as_bytes()), "{line:?}");
            assert!(set_line(line.as_bytes()).is_none(), "{line:?}");
        }
        for line in [
            "set", "set\n", "sets,1\n", "Set,1\n", " set,1\n", "set 1\n", "",
        ] {
            assert!(!begins_settings(line.as_bytes()), "{line:?}");
        }
        let line = b"set,3,4,2,3,1,200,1,50,1,5,1,2\n";
        assert!(set_line(line) == Some(Settings::PRESENT) && head(line).is_none());
    }
}
