//! Reads a season into typed calls, apart from the model's own reader.

use model::{
    Block, Call, ClassLine, Load, Migrate, OnPath, Opening, Prior, Query, Settings, Verify,
};

/// A group of a script, read.
pub enum Group {
    Unreadable,
    Query(Query),
    Call(Owned),
}

/// A call that owns its lines.
pub enum Owned {
    Plain(Call<'static>),
    Load([u64; 5], Vec<Block>),
    Migrate([u64; 2], Vec<ClassLine>),
}

impl Owned {
    /// The call, with its lines lent.
    pub fn lend(&self) -> Call<'_> {
        match self {
            Owned::Plain(call) => *call,
            Owned::Load([holder, sink, term, contract, hours], blocks) => Call::Load(Load {
                holder: *holder,
                sink: *sink,
                term: *term,
                contract: *contract,
                hours: *hours,
                blocks,
            }),
            Owned::Migrate([term, sink], lines) => Call::Migrate(Migrate {
                term: *term,
                sink: *sink,
                lines,
            }),
        }
    }
}

/// A season, read.
pub struct Season {
    /// The opening, if its group can be read.
    pub opening: Option<Opening>,
    /// Whether a line that begins with `set,` stands directly after the book
    /// lines.
    pub set: bool,
    /// The groups after it.
    pub groups: Vec<Group>,
}

/// Fields that each word has.
const WORDS: [(&str, usize); 19] = [
    ("book", 4),
    ("holder", 1),
    ("sink", 2),
    ("path", 2),
    ("set", 12),
    ("load", 6),
    ("block", 3),
    ("carry", 3),
    ("prior", 4),
    ("verify", 8),
    ("migrate", 3),
    ("class", 5),
    ("open", 1),
    ("nominate", 3),
    ("award", 3),
    ("close", 0),
    ("limit", 2),
    ("held", 3),
    ("net", 2),
];

type Line<'a> = Option<(&'a str, Vec<u64>)>;

/// A line's word and numbers, if it can be read.
fn read(line: &str) -> Line<'_> {
    let (word, rest) = match line.split_once(',') {
        Some((word, rest)) => (word, rest.split(',').collect()),
        None => (line, Vec::new()),
    };
    let &(_, count) = WORDS.iter().find(|known| known.0 == word)?;
    let numbers: Option<Vec<u64>> = rest.iter().map(|field| number(field)).collect();
    numbers.filter(|n| n.len() == count).map(|n| (word, n))
}

/// A number reads back as it was written, and has no more than nine digits.
fn number(field: &str) -> Option<u64> {
    let number: u64 = field.parse().ok()?;
    (number.to_string() == field && number < 1_000_000_000).then_some(number)
}

/// A season whose opening cannot be read.
fn unreadable(set: bool) -> Season {
    Season {
        opening: None,
        set,
        groups: Vec::new(),
    }
}

/// Reads a season.
pub fn season(text: &str) -> Season {
    let mut lines: Vec<Line> = text.split('\n').map(read).collect();
    // What stands after the last LF is a line only if there is something.
    if text.ends_with('\n') {
        lines.pop();
    } else if let Some(last) = lines.last_mut() {
        *last = None;
    }
    let Some(Some(("book", counts))) = lines.first() else {
        return unreadable(false);
    };
    let Some((mut opening, consumed)) = opening(counts, &lines[1..]) else {
        return unreadable(false);
    };
    let mut groups = Vec::new();
    let mut at = 1 + consumed;
    let after = text.split('\n').nth(at);
    let set = after.is_some_and(|line| line.starts_with("set,"));
    if set {
        let Some((_, numbers)) = &lines[at] else {
            return unreadable(true);
        };
        let numbers = numbers[..].try_into().expect("twelve numbers");
        opening.settings = Settings::from_numbers(numbers);
        at += 1;
    }
    while at < lines.len() {
        let (group, consumed) = group(&lines[at], &lines[at + 1..]);
        groups.push(group);
        at += 1 + consumed;
    }
    Season {
        opening: Some(opening),
        set,
        groups,
    }
}

fn opening(counts: &[u64], lines: &[Line]) -> Option<(Opening, usize)> {
    let [holders, sources, sinks, paths] = *counts else {
        return None;
    };
    let mut opening = Opening {
        holders,
        sources,
        sinks,
        paths,
        ..Opening::default()
    };
    let consumed = (holders + sinks + paths) as usize;
    for (place, line) in lines.get(..consumed)?.iter().enumerate() {
        let place = place as u64;
        let due = match place {
            _ if place < holders => "holder",
            _ if place < holders + sinks => "sink",
            _ => "path",
        };
        match line.as_ref().filter(|line| line.0 == due)? {
            ("holder", n) => opening.holder_kinds.push(n[0]),
            ("sink", n) => {
                opening.sink_kinds.push(n[0]);
                opening.sink_parents.push(n[1]);
            }
            (_, n) => {
                opening.path_sources.push(n[0]);
                opening.path_sinks.push(n[1]);
            }
        }
    }
    Some((opening, consumed))
}

/// A group, and the lines it takes after its head.
fn group(head: &Line, rest: &[Line]) -> (Group, usize) {
    let Some((word, n)) = head else {
        return (Group::Unreadable, 0);
    };
    if !["load", "migrate"].contains(word) {
        return (one_line(word, n), 0);
    }
    let count = n[n.len() - 1] as usize;
    let consumed = count.min(rest.len());
    let due = if *word == "load" { "block" } else { "class" };
    let complete = rest[..consumed]
        .iter()
        .all(|line| matches!(line, Some((w, _)) if *w == due));
    if !complete || consumed < count {
        return (Group::Unreadable, consumed);
    }
    let rows = rest[..consumed].iter().flatten().map(|line| &line.1);
    let call = if *word == "load" {
        let blocks = rows.map(|r| Block {
            first: r[0],
            length: r[1],
            kw: r[2],
        });
        Owned::Load([n[0], n[1], n[2], n[3], n[4]], blocks.collect())
    } else {
        Owned::Migrate([n[0], n[1]], rows.map(|row| class_line(row)).collect())
    };
    (Group::Call(call), consumed)
}

fn class_line(row: &[u64]) -> ClassLine {
    ClassLine {
        from: row[0],
        to: row[1],
        class: row[2],
        customers: row[3],
        watts: row[4],
    }
}

fn one_line(word: &str, n: &[u64]) -> Group {
    let on_path = || OnPath {
        holder: n[0],
        path: n[1],
        kw: n[2],
    };
    let call = match word {
        "carry" => Call::Carry(on_path()),
        "prior" => Call::Prior(Prior {
            holder: n[0],
            path: n[1],
            allocated: n[2],
            long_term: n[3],
        }),
        "verify" => Call::Verify(Verify {
            holder: n[0],
            source: n[1],
            kind: n[2],
            capacity: n[3],
            right: n[4],
            first_month: n[5],
            last_month: n[6],
            ten_year: n[7],
        }),
        "open" => Call::Open { tier: n[0] },
        "nominate" => Call::Nominate(on_path()),
        "award" => Call::Award(on_path()),
        "close" => Call::Close,
        _ => return query(word, n),
    };
    Group::Call(Owned::Plain(call))
}

fn query(word: &str, n: &[u64]) -> Group {
    Group::Query(match word {
        "limit" => Query::Limit {
            holder: n[0],
            sink: n[1],
        },
        "held" => Query::Held {
            holder: n[0],
            path: n[1],
            month: n[2],
        },
        "net" => Query::Net {
            path: n[0],
            month: n[1],
        },
        _ => return Group::Unreadable,
    })
}
