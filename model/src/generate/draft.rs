//! A call or query before it is written down, easy to bend out of shape.

use std::fmt::Write;

/// A head with its fields, and the lines it counts. The count itself is not
/// among the fields; it is written from the lines there are.
#[derive(Clone, Debug)]
pub(crate) struct Draft {
    pub(crate) word: &'static str,
    pub(crate) fields: Vec<u64>,
    pub(crate) counted: &'static str,
    pub(crate) rows: Vec<Vec<u64>>,
}

impl Draft {
    /// A call or query of one line.
    pub(crate) fn line(word: &'static str, fields: &[u64]) -> Draft {
        Draft {
            word,
            fields: fields.to_vec(),
            counted: "",
            rows: Vec::new(),
        }
    }

    /// A load and its blocks.
    pub(crate) fn load(fields: [u64; 5], rows: Vec<Vec<u64>>) -> Draft {
        Draft {
            word: "load",
            fields: fields.to_vec(),
            counted: "block",
            rows,
        }
    }

    /// A migration and its class lines.
    pub(crate) fn migrate(term: u64, sink: u64, rows: Vec<Vec<u64>>) -> Draft {
        Draft {
            word: "migrate",
            fields: vec![term, sink],
            counted: "class",
            rows,
        }
    }

    /// The group as the script has it.
    pub(crate) fn text(&self) -> String {
        let mut text = String::new();
        let mut head = self.fields.clone();
        if !self.counted.is_empty() {
            head.push(self.rows.len() as u64);
        }
        write_line(&mut text, self.word, &head);
        for row in &self.rows {
            write_line(&mut text, self.counted, row);
        }
        text
    }
}

/// One line: its word, then its numbers, parted by commas.
pub(crate) fn write_line(text: &mut String, word: &str, fields: &[u64]) {
    text.push_str(word);
    for field in fields {
        write!(text, ",{field}").expect("a string takes every byte");
    }
    text.push('\n');
}
