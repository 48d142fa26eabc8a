//! The `set` lines that seasons and damaged scripts are drawn with.

use model::generate::{damaged, season};

/// The lines of a script that are looked at.
struct Script {
    /// The lines that the head counts.
    book: Vec<String>,
    /// Those behind them.
    rest: Vec<String>,
}

impl Script {
    /// Reads a script whose head can be read.
    fn of(script: &[u8]) -> Option<Script> {
        let text = String::from_utf8_lossy(script);
        let mut lines = text.split_inclusive('\n').map(str::to_string);
        let head = lines.next()?;
        let counts = head.strip_prefix("book,")?.trim_end().split(',');
        let counts: Option<Vec<usize>> = counts.map(|count| count.parse().ok()).collect();
        let &[holders, _sources, sinks, paths] = counts?.as_slice() else {
            return None;
        };
        let book = lines.by_ref().take(holders + sinks + paths).collect();
        let rest = lines.collect();
        Some(Script { book, rest })
    }

    /// The line directly behind the book lines, if it is the group's.
    fn set_line(&self) -> Option<&str> {
        let line = self.rest.first().filter(|line| line.starts_with("set,"));
        line.map(String::as_str)
    }

    /// The fields of that line, if LF ends it.
    fn fields(&self) -> Option<Vec<&str>> {
        let line = self.set_line()?.strip_suffix('\n')?;
        Some(line.split(',').skip(1).collect())
    }

    /// Its pairs, if they are numbers.
    fn pairs(&self) -> Option<Vec<(u64, u64)>> {
        let numbers = self.fields()?.into_iter().map(|field| field.parse().ok());
        let numbers: Vec<u64> = numbers.collect::<Option<_>>()?;
        let pairs = numbers.chunks_exact(2).map(|pair| (pair[0], pair[1]));
        (numbers.len() == 12).then(|| pairs.collect())
    }

    fn any_field(&self, test: fn(&str) -> bool) -> bool {
        self.fields()
            .is_some_and(|fields| fields.into_iter().any(test))
    }

    fn any_pair(&self, test: fn(u64, u64) -> bool) -> bool {
        let pairs = self.pairs().unwrap_or_default();
        pairs
            .into_iter()
            .any(|(numerator, denominator)| test(numerator, denominator))
    }

    fn all_pairs(&self, test: fn(u64, u64) -> bool) -> bool {
        let pairs = self.pairs().unwrap_or_default();
        let all = pairs
            .iter()
            .all(|&(numerator, denominator)| test(numerator, denominator));
        !pairs.is_empty() && all
    }

    /// Whether a `set` line stands behind one that begins so, not directly behind
    /// the book lines.
    fn stray_behind(&self, words: &[&str]) -> bool {
        self.rest.windows(2).any(|two| {
            let behind = words.iter().any(|word| two[0].starts_with(word));
            behind && two[1].starts_with("set,")
        })
    }
}

/// What a drawn script can show.
type Form = (&'static str, fn(&Script) -> bool);

const FORMS: [Form; 22] = [
    ("legal", |s| {
        s.all_pairs(|n, d| n <= d && (1..=1_000).contains(&d))
    }),
    ("every pair 0", |s| s.all_pairs(|n, _| n == 0)),
    ("every pair 1", |s| s.all_pairs(|n, d| n == d && d > 0)),
    ("a pair 0/1", |s| s.any_pair(|n, d| (n, d) == (0, 1))),
    ("a pair 1/1", |s| s.any_pair(|n, d| (n, d) == (1, 1))),
    ("numerator above denominator", |s| {
        s.any_pair(|n, d| n > d && d > 0)
    }),
    ("denominator 0", |s| s.any_pair(|_, d| d == 0)),
    ("denominator 1,001", |s| s.any_pair(|_, d| d == 1_001)),
    ("nine digits", |s| {
        s.any_pair(|n, d| n.max(d) >= 100_000_000)
    }),
    ("eleven numbers", |s| {
        s.fields().is_some_and(|f| f.len() == 11)
    }),
    ("thirteen numbers", |s| {
        s.fields().is_some_and(|f| f.len() == 13)
    }),
    ("an empty field", |s| s.any_field(str::is_empty)),
    ("a leading zero", |s| {
        s.any_field(|f| f.len() > 1 && f.starts_with('0'))
    }),
    ("ten digits", |s| s.any_field(|f| f.len() > 9)),
    ("no LF", |s| {
        s.set_line().is_some_and(|line| !line.ends_with('\n'))
    }),
    ("set, alone", |s| s.set_line() == Some("set,\n")),
    ("bare", |s| {
        s.rest.first().is_some_and(|line| line == "set\n")
    }),
    ("behind a bare one", |s| s.stray_behind(&["set\n"])),
    ("a second one", |s| {
        s.set_line().is_some() && s.stray_behind(&["set,"])
    }),
    ("behind a call", |s| {
        s.stray_behind(&["carry,", "open,", "net,"])
    }),
    ("counted", |s| {
        s.stray_behind(&["load,", "block,", "migrate,", "class,"])
    }),
    ("in place of a book line", |s| {
        s.book.iter().any(|line| line.starts_with("set,"))
    }),
];

/// Each form is drawn in 4,000 seasons, and in 8,000 damaged scripts.
#[test]
fn set_lines_are_drawn_in_every_form() {
    let kinds: [(fn(u64) -> Vec<u8>, u64); 2] = [(season, 4_000), (damaged, 8_000)];
    for (script, count) in kinds {
        let mut drawn = [0; FORMS.len()];
        for script in (0..count).filter_map(|seed| Script::of(&script(seed))) {
            for (drawn, (_, form)) in drawn.iter_mut().zip(FORMS) {
                *drawn += u64::from(form(&script));
            }
        }
        for (drawn, (name, _)) in drawn.into_iter().zip(FORMS) {
            println!("{name}: {drawn}");
            assert!(drawn > 0, "{name} is never drawn");
        }
    }
}
