//! Migrations: between holders with load, often of all that a loser has.

use super::draft::Draft;
use super::random::Random;
use super::writer::Writer;
use crate::sizes::MAX_CLASS_LINES;

/// Migrations that may run before a tier opens, and a few that come too late.
pub(crate) fn before_tier(writer: &mut Writer, tier: u64) {
    if tier == 1 {
        for _ in 0..writer.random.up_to(4) {
            write_migration(writer, 0);
        }
    }
    if tier >= 4 {
        for month in 1..=3 {
            for _ in 0..times(&mut writer.random, tier, month) {
                write_migration(writer, month);
            }
        }
    }
}

/// How often a month migrates before a tier; month 1 has time before tier 4
/// alone.
fn times(random: &mut Random, tier: u64, month: u64) -> u64 {
    if 2 * month + 2 < tier {
        return u64::from(random.percent(5));
    }
    match month {
        1 => random.up_to(4),
        _ => u64::from(random.percent(50)),
    }
}

/// A migration at a sink where some load-serving holder has load.
pub(crate) fn write_migration(writer: &mut Writer, term: u64) {
    let candidates = losers(writer, term);
    if candidates.is_empty() {
        return;
    }
    let (loser, sink) = writer.random.select(&candidates);
    let mut rows = Vec::new();
    lose(writer, loser, sink, term, &mut rows);
    if writer.random.one_in(3) {
        // Another loser at the same sink; it may gain from the first.
        let same_sink: Vec<_> = candidates
            .iter()
            .filter(|&&(other, at)| at == sink && other != loser)
            .collect();
        if let Some(&&(other, _)) = same_sink.first() {
            lose(writer, other, sink, term, &mut rows);
        }
    }
    writer.random.shuffle(&mut rows);
    rows.truncate(MAX_CLASS_LINES);
    writer.say(&Draft::migrate(term, sink as u64, rows));
}

/// Load-serving holders with load, and where; those that hold rights there
/// are named six times, to be picked more often.
fn losers(writer: &Writer, term: u64) -> Vec<(usize, usize)> {
    let book = &writer.book;
    let mut list = Vec::new();
    for holder in (0..book.holders).filter(|&holder| !book.is_obaalse(holder)) {
        for sink in 0..book.sinks {
            if book.load[holder][sink][term as usize] == 0 {
                continue;
            }
            let holds = book.paths_with_base(sink).any(|path| {
                let months = book.carried[holder][path].iter();
                months.chain(&book.awarded[holder][path]).any(|&kw| kw > 0)
            });
            let times = if holds { 6 } else { 1 };
            list.extend([(holder, sink)].repeat(times));
        }
    }
    list
}

/// Class lines by which a loser loses to one, two or three gainers.
fn lose(writer: &mut Writer, loser: usize, sink: usize, term: u64, rows: &mut Vec<Vec<u64>>) {
    let book = &writer.book;
    let load = book.load[loser][sink][term as usize];
    let mut gainers: Vec<usize> = (0..book.holders)
        .filter(|&holder| holder != loser && !book.is_obaalse(holder))
        .collect();
    let random = &mut writer.random;
    random.shuffle(&mut gainers);
    gainers.truncate(1 + random.below(3));
    let mut left = match random.up_to(9) {
        0..=2 => load,
        3 => load + 1,
        4 => load - 1,
        5 => 1,
        _ => random.up_to(load),
    };
    for (place, &gainer) in gainers.iter().enumerate() {
        let last = place + 1 == gainers.len();
        let m = if last { left } else { random.up_to(left) };
        left -= m;
        class_lines(random, loser as u64, gainer as u64, m, rows);
    }
}

/// Lines that net to m kW from loser to gainer, and up to 999 W more.
fn class_lines(random: &mut Random, loser: u64, gainer: u64, m: u64, rows: &mut Vec<Vec<u64>>) {
    let mut add = |from: u64, to: u64, class: u64, customers: u64, watts: u64| {
        rows.push(vec![from, to, class, customers, watts]);
    };
    let class = random.between(1, 8);
    match random.up_to(3) {
        0 if m.is_multiple_of(2) && m < 9_999_999 => {
            add(loser, gainer, class, m / 2, 1_000);
            add(loser, gainer, class, m / 2, 1_000);
        }
        1 if m < 9_999 => add(loser, gainer, class, 1_000, m),
        _ => {
            add(loser, gainer, class, m / 1_000, 1_000_000);
            add(loser, gainer, random.between(1, 8), m % 1_000, 1_000);
        }
    }
    if random.one_in(2) {
        let (customers, watts) = (random.up_to(900), random.up_to(3_000));
        add(loser, gainer, random.between(1, 8), customers, watts);
        add(gainer, loser, random.between(1, 8), customers, watts);
    }
    if random.one_in(2) {
        add(loser, gainer, random.between(1, 8), 1, random.up_to(999));
    }
}
