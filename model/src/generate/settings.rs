//! Settings of a season and its `set` line: mostly legal, and now and then wrong
//! in each way there is.

use super::draft::write_line;
use super::random::Random;
use crate::settings::{Fraction, Settings};

/// What stands directly behind the book lines.
pub(crate) enum BehindBook {
    /// No `set` line, or a bare `set`, which is none.
    NoSetLine { bare: bool },
    /// A line that can be read; a pair of it may be bad.
    SetLine(Settings),
    /// A line of the book group that cannot be read; no LF need end it.
    Unreadable(String),
    /// A line that stands in place of a book line.
    InPlaceOfBookLine(Settings),
}

/// Every other season has settings of its own; one in fifteen is refused for
/// them.
pub(crate) fn behind_book(random: &mut Random) -> BehindBook {
    match random.up_to(99) {
        0..=1 => BehindBook::NoSetLine { bare: true },
        2..=43 => BehindBook::NoSetLine { bare: false },
        44..=46 => BehindBook::SetLine(with_bad_pair(random)),
        47..=49 => BehindBook::Unreadable(unreadable_line(random)),
        50 => BehindBook::InPlaceOfBookLine(legal(random)),
        _ => BehindBook::SetLine(legal(random)),
    }
}

/// The line of settings.
pub(crate) fn line(settings: &Settings) -> String {
    let mut text = String::new();
    write_line(&mut text, "set", &settings.numbers());
    text
}

/// A line of the word `set`, with its LF, that can be read or not.
pub(crate) fn any_line(random: &mut Random) -> String {
    match random.up_to(5) {
        0 => "set\n".to_string(),
        1 => line(&with_bad_pair(random)),
        2 => unreadable_line(random).trim_end().to_string() + "\n",
        _ => line(&legal(random)),
    }
}

/// Settings without a bad pair.
pub(crate) fn legal(random: &mut Random) -> Settings {
    let mut settings = match random.up_to(39) {
        0 => every(Fraction::new(0, 1)),
        1 | 2 => every(Fraction::new(1, 1)),
        3 | 4 => Settings::PRESENT,
        5..=8 => p_least(random),
        9..=12 => last_year_least(random),
        13..=16 => cap_least(random),
        17..=21 => lowered_by_evidence(random),
        _ => usual(random),
    };
    // Now and then one pair is at an end of its range.
    if random.one_in(4) {
        let mut fractions = settings.in_order();
        fractions[random.below(6)] = end(random);
        settings = Settings::from_order(fractions);
    }
    settings
}

fn every(fraction: Fraction) -> Settings {
    Settings::from_order([fraction; 6])
}

/// Nothing or the whole, in small numbers and in large ones.
fn end(random: &mut Random) -> Fraction {
    let ends = [(0, 1), (0, 1_000), (1, 1), (1_000, 1_000), (999, 1_000)];
    let (numerator, denominator) = random.select(&ends);
    Fraction::new(numerator, denominator)
}

/// A fraction between two hundredths of the whole.
fn between(random: &mut Random, least: u64, most: u64) -> Fraction {
    let any = random.between(1, 1_000);
    let denominator = random.select(&[3, 4, 5, 7, 10, 100, 999, 1_000, any]);
    let parts = [least, most].map(|hundredths| denominator * hundredths / 100);
    Fraction::new(random.between(parts[0], parts[1]), denominator)
}

/// Six fractions on both sides of the present ones.
fn usual(random: &mut Random) -> Settings {
    let exceedance = match random.up_to(3) {
        0 => between(random, 0, 100),
        1 => Fraction::new(1, random.between(2, 1_000)),
        _ => between(random, 0, 4),
    };
    let missing = match random.up_to(3) {
        0 => between(random, 0, 100),
        1 => between(random, 60, 100),
        _ => between(random, 0, 8),
    };
    Settings {
        seasonal: between(random, 50, 100),
        priority: between(random, 40, 100),
        exceedance,
        missing,
        without_evidence: between(random, 2, 30),
        with_evidence: between(random, 30, 90),
    }
}

/// P below the cap of tier 1.
fn p_least(random: &mut Random) -> Settings {
    Settings {
        seasonal: between(random, 40, 70),
        priority: between(random, 40, 70),
        with_evidence: between(random, 60, 100),
        ..usual(random)
    }
}

/// P and the cap of tier 1 so high that last year's allocation is below both.
fn last_year_least(random: &mut Random) -> Settings {
    Settings {
        seasonal: between(random, 95, 100),
        priority: between(random, 95, 100),
        with_evidence: between(random, 90, 100),
        ..usual(random)
    }
}

/// The cap of tier 1 below P.
fn cap_least(random: &mut Random) -> Settings {
    Settings {
        seasonal: between(random, 80, 100),
        priority: between(random, 80, 100),
        with_evidence: between(random, 20, 50),
        ..usual(random)
    }
}

/// Less with ten-year evidence than without.
fn lowered_by_evidence(random: &mut Random) -> Settings {
    Settings {
        without_evidence: between(random, 40, 70),
        with_evidence: between(random, 10, 39),
        ..usual(random)
    }
}

/// Settings with a bad pair, or with several.
fn with_bad_pair(random: &mut Random) -> Settings {
    let mut fractions = legal(random).in_order();
    for _ in 0..random.between(1, 2) {
        let bad = [
            (0, 0),
            (1, 0),
            (2, 1),
            (1_000, 999),
            (0, 1_001),
            (1_001, 1_001),
            (1, 999_999_999),
            (999_999_999, 1_000),
            (123_456_789, 987_654_321),
        ];
        let (numerator, denominator) = random.select(&bad);
        fractions[random.below(6)] = Fraction::new(numerator, denominator);
    }
    Settings::from_order(fractions)
}

/// A line that begins with `set,` and cannot be read.
fn unreadable_line(random: &mut Random) -> String {
    let settings = match random.one_in(4) {
        true => with_bad_pair(random),
        false => legal(random),
    };
    let mut fields: Vec<String> = settings.numbers().iter().map(u64::to_string).collect();
    let place = random.below(12);
    match random.up_to(8) {
        0 => drop(fields.pop()),
        1 => fields.push(random.up_to(1_000).to_string()),
        2 => fields[place].clear(),
        3 => fields[place].insert(0, '0'),
        4 => fields[place].push_str("1234567890"),
        5 => fields[place].push(random.select(&[' ', '\r', '-', 'x'])),
        6 => fields.truncate(place),
        7 => return random.select(&["set,", "set,\n", "set,,\n"]).to_string(),
        // Every number is there, and no LF.
        _ => return format!("set,{}", fields.join(",")),
    }
    format!("set,{}\n", fields.join(","))
}
