//! Stored scripts: the text that the program `vectors` reads.
//!
//! The text has lines, each ended by LF; its first 262,144 bytes are read. A
//! line that begins with `#` speaks to the reader. Any other line is, with its
//! LF, a line of the script as it stands, whatever bytes it has.
//!
//! - `# NAME` begins a vector.
//! - `#times N LINE` stands for N copies of LINE, each with its LF. LINE may be
//!   empty.
//! - `#cut N` takes the last N bytes off the script so far, so that `#cut 1`
//!   leaves its last line without LF.
//! - `#lend N` says that the output buffer has N bytes, at most 65,536. Without
//!   it all 65,536 are lent.
//! - Any other line that begins with `#`, as `#: text`, is a note.
//!
//! N has 1 to 9 digits, as a number of a script has.
//!
//! A script is built up in 65,600 bytes; what finds no room is left out. What
//! stands before the first vector belongs to none.

/// Bytes of the text that are read.
const MAX_TEXT_BYTES: usize = 262_144;
/// Room for a script: enough for one that is too long.
const SCRIPT_ROOM: usize = 65_600;
/// The most output that is lent: enough for every script.
const MAX_LENT: usize = 65_536;

/// A stored script, and how much output is lent to its run.
#[derive(Clone, Debug, PartialEq, Eq)]
pub struct Vector {
    /// What the script shows, in plain words.
    pub name: String,
    pub script: Vec<u8>,
    /// Bytes of the output buffer.
    pub lent: usize,
}

/// The vectors of a text, in their order.
pub fn vectors(text: &[u8]) -> Vec<Vector> {
    let text = &text[..text.len().min(MAX_TEXT_BYTES)];
    let mut vectors = Vec::new();
    for line in text.split_inclusive(|&byte| byte == b'\n') {
        if let Some(name) = line.strip_prefix(b"# ") {
            vectors.push(Vector::named(name));
        } else if let Some(vector) = vectors.last_mut() {
            vector.take(line);
        }
    }
    vectors
}

impl Vector {
    /// A vector with nothing in its script yet.
    fn named(name: &[u8]) -> Vector {
        let name = name.strip_suffix(b"\n").unwrap_or(name);
        Vector {
            name: String::from_utf8_lossy(name).into_owned(),
            script: Vec::new(),
            lent: MAX_LENT,
        }
    }

    /// Takes a line, with its LF, that begins no vector.
    fn take(&mut self, line: &[u8]) {
        if let Some(directive) = line.strip_prefix(b"#times ") {
            let (copies, copied) = number_and_rest(directive);
            // A line has a byte or more, so no more copies than this have room.
            for _ in 0..copies.min(SCRIPT_ROOM) {
                self.add(copied);
            }
        } else if let Some(directive) = line.strip_prefix(b"#cut ") {
            let (cut, _) = number_and_rest(directive);
            self.script.truncate(self.script.len().saturating_sub(cut));
        } else if let Some(directive) = line.strip_prefix(b"#lend ") {
            self.lent = number_and_rest(directive).0.min(MAX_LENT);
        } else if !line.starts_with(b"#") {
            self.add(line);
        }
    }

    /// Adds bytes to the script while there is room.
    fn add(&mut self, bytes: &[u8]) {
        let room = SCRIPT_ROOM - self.script.len();
        self.script.extend(bytes.iter().take(room));
    }
}

/// A decimal number, and what stands after the blank that ends it. A number
/// too large to be kept is as good as the largest.
fn number_and_rest(directive: &[u8]) -> (usize, &[u8]) {
    let digits = directive
        .iter()
        .take_while(|byte| byte.is_ascii_digit())
        .count();
    let (number, rest) = directive.split_at(digits);
    let digit = |sum: usize, byte: &u8| {
        let sum = sum.saturating_mul(10);
        sum.saturating_add(usize::from(byte - b'0'))
    };
    let number = number.iter().fold(0, digit);
    (number, rest.strip_prefix(b" ").unwrap_or(rest))
}

#[cfg(test)]
mod tests {
    use super::*;

    /// The scripts of a text, with what is lent to each.
    fn scripts(text: &[u8]) -> Vec<(Vec<u8>, usize)> {
        let vectors = vectors(text).into_iter();
        vectors.map(|one| (one.script, one.lent)).collect()
    }

    /// Vectors: names, lines as they stand, notes passed over.
    #[test]
    fn a_name_begins_a_vector_and_other_lines_are_its_script() {
        let text = b"#: note\nlost\n# one\na\r\n#: note\n\n\xff\n# two: 2\n";
        let names: Vec<String> = vectors(text).into_iter().map(|one| one.name).collect();
        assert_eq!(names, ["one", "two: 2"]);
        let lent_in_full = (b"a\r\n\n\xff\n".to_vec(), MAX_LENT);
        assert_eq!(scripts(text), [lent_in_full, (vec![], MAX_LENT)]);
    }

    /// Vectors: copies, cuts and what is lent, for the vector at hand alone.
    #[test]
    fn times_cut_and_lend_are_followed() {
        let text = b"# one\n#times 3 ab\n#times 2 \n#cut 1\n#lend 16\n# two\nx\n#cut 9\n";
        let first = (b"ab\nab\nab\n\n".to_vec(), 16);
        assert_eq!(scripts(text), [first, (vec![], MAX_LENT)]);
        assert_eq!(scripts(b"# one\n#lend 65537\n")[0].1, MAX_LENT);
    }

    /// Vectors: a script ends where its room ends.
    #[test]
    fn what_finds_no_room_is_left_out() {
        let (script, _) = &scripts(b"# one\n#times 99999999999999999999 abc\nde\n")[0];
        assert_eq!(script.len(), SCRIPT_ROOM);
        assert!(script.ends_with(b"abc\nabc\n"));
        let (script, _) = &scripts(b"# one\n#times 65599 \nabc\n")[0];
        assert!(script.ends_with(b"\n\na"));
    }
}
