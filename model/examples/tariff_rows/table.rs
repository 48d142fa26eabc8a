//! Tables of numbers as the program's source files have them.

use model::ClassLine;

/// A flat list of numbers, in runs that each have a comment.
pub struct Table {
    name: &'static str,
    about: &'static str,
    runs: Vec<(String, Vec<u64>)>,
}

impl Table {
    pub fn new(name: &'static str, about: &'static str) -> Table {
        Table {
            name,
            about,
            runs: Vec::new(),
        }
    }

    /// One run more; one without numbers leaves no trace.
    pub fn push(&mut self, about: String, numbers: Vec<u64>) {
        if !numbers.is_empty() {
            self.runs.push((about, numbers));
        }
    }

    /// How many numbers there are so far.
    pub fn len(&self) -> u64 {
        self.runs.iter().map(|(_, run)| run.len() as u64).sum()
    }

    fn text(&self) -> String {
        let (name, about, len) = (self.name, self.about, self.len());
        let mut text = format!("// {about}\npub const {name}: [u64; {len}] = [\n");
        let short = self.is_short();
        for (about, numbers) in &self.runs {
            text += &format!("    // {about}\n");
            for line in lines(numbers, short) {
                text += &format!("    {line}\n");
            }
        }
        text + "];\n"
    }

    /// Numbers of at most ten digits stand side by side in the layout that
    /// `rt fmt` gives a list; where one is longer, each has a line.
    fn is_short(&self) -> bool {
        let numbers = self.runs.iter().flat_map(|(_, run)| run);
        numbers.clone().all(|number| number.to_string().len() <= 10)
    }
}

/// A run's numbers as lines, of at most a hundred characters with the margin
/// where they stand side by side.
fn lines(numbers: &[u64], side_by_side: bool) -> Vec<String> {
    let mut lines: Vec<String> = Vec::new();
    for number in numbers {
        let written = format!("{number},");
        match lines.last_mut() {
            Some(line) if side_by_side && line.len() + written.len() < 96 => {
                line.push(' ');
                line.push_str(&written);
            }
            _ => lines.push(written),
        }
    }
    lines
}

/// A table file: what it is about, and its tables.
pub fn file(about: &str, tables: &[Table]) -> String {
    let mut text = format!("// {about}\n// Written by model/examples/tariff_rows.rs.\n");
    for table in tables {
        text += "\n";
        text += &table.text();
    }
    text
}

/// The class lines of all rows, a table to each of their five fields.
pub struct LineTables {
    tables: [Table; 5],
    /// The runs so far, with where each starts.
    runs: Vec<(u64, Vec<ClassLine>)>,
}

impl LineTables {
    pub fn new() -> LineTables {
        LineTables {
            tables: [
                Table::new("FROMS", "The holder that each class line leaves."),
                Table::new("TOS", "The holder that it goes to."),
                Table::new("CLASSES", "Its class."),
                Table::new("CUSTOMERS", "Its customers."),
                Table::new("WATTS", "Their average watts."),
            ],
            runs: Vec::new(),
        }
    }

    /// Where some lines start. Those that an earlier run begins with stand
    /// there already.
    pub fn push(&mut self, about: String, lines: &[ClassLine]) -> u64 {
        let known = self.runs.iter().find(|(_, run)| run.starts_with(lines));
        if let Some(&(start, _)) = known {
            return start;
        }
        let start = self.tables[0].len();
        self.runs.push((start, lines.to_vec()));
        let fields: [fn(&ClassLine) -> u64; 5] = [
            |line| line.from,
            |line| line.to,
            |line| line.class,
            |line| line.customers,
            |line| line.watts,
        ];
        for (table, field) in self.tables.iter_mut().zip(fields) {
            table.push(about.clone(), lines.iter().map(field).collect());
        }
        start
    }

    /// The table file.
    pub fn text(&self) -> String {
        let about = "The class lines of the rows of netting and of the transfers.";
        file(about, &self.tables)
    }
}

/// Fields after a word, parted by commas.
pub fn line(word: &str, fields: &[u64]) -> String {
    let fields = fields.iter().map(|field| format!(",{field}"));
    std::iter::once(word.to_string()).chain(fields).collect()
}
