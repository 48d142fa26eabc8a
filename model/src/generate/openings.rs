//! Openings: mostly legal, of all sizes, now and then against one rule.

use super::draft::write_line;
use super::random::Random;
use crate::opening::{Opening, CUSTOM_LAP, DEFAULT_LAP, LSE, OBAALSE, SCHEDULING_POINT, SUB_LAP};

/// The four counts, by the size of the book.
fn counts(random: &mut Random) -> [u64; 4] {
    match random.up_to(9) {
        0 | 1 => [8, 16, 16, 16],
        2 | 3 => [
            2 + random.up_to(1),
            1,
            1 + random.up_to(1),
            1 + random.up_to(1),
        ],
        4 if random.one_in(8) => [
            random.up_to(2),
            random.up_to(2),
            random.up_to(2),
            random.up_to(2),
        ],
        _ => [
            random.between(2, 6),
            random.between(1, 5),
            random.between(1, 6),
            random.between(2, 10),
        ],
    }
}

/// An opening; one in 45 breaks a rule.
pub(crate) fn opening(random: &mut Random) -> Opening {
    let [holders, sources, sinks, paths] = counts(random);
    let mut opening = Opening {
        holders,
        sources,
        sinks,
        ..Opening::default()
    };
    for holder in 0..holders {
        // Mostly two holders at least that customers can move between.
        let likely = if holder < 2 { 95 } else { 65 };
        let lse = random.percent(likely);
        let kind = if lse { LSE } else { OBAALSE };
        opening.holder_kinds.push(kind);
    }
    random.shuffle(&mut opening.holder_kinds);
    for sink in 0..sinks {
        add_sink(random, &mut opening, sink);
    }
    add_paths(random, &mut opening, paths);
    if random.one_in(45) {
        break_a_rule(random, &mut opening);
    }
    opening
}

/// A sink of any kind; a Sub-LAP only where a Default LAP came before.
fn add_sink(random: &mut Random, opening: &mut Opening, sink: u64) {
    let default_laps: Vec<u64> = (0..sink)
        .filter(|&lap| opening.sink_kinds[lap as usize] == DEFAULT_LAP)
        .collect();
    let kinds = [
        DEFAULT_LAP,
        DEFAULT_LAP,
        SUB_LAP,
        SUB_LAP,
        CUSTOM_LAP,
        SCHEDULING_POINT,
    ];
    let mut kind = random.select(&kinds);
    if sink == 0 && random.percent(70) || kind == SUB_LAP && default_laps.is_empty() {
        kind = DEFAULT_LAP;
    }
    let parent = if kind == SUB_LAP {
        random.select(&default_laps)
    } else {
        sink
    };
    opening.sink_kinds.push(kind);
    opening.sink_parents.push(parent);
}

/// Paths, no two of them the same; fewer if there are not so many.
fn add_paths(random: &mut Random, opening: &mut Opening, paths: u64) {
    let mut all = Vec::new();
    for source in 0..opening.sources {
        for sink in 0..opening.sinks {
            all.push((source, sink));
        }
    }
    random.shuffle(&mut all);
    all.truncate(paths as usize);
    opening.paths = all.len() as u64;
    opening.path_sources = all.iter().map(|path| path.0).collect();
    opening.path_sinks = all.iter().map(|path| path.1).collect();
}

/// One thing wrong, if the opening has such a thing.
fn break_a_rule(random: &mut Random, opening: &mut Opening) {
    let list = match random.up_to(6) {
        0 => &mut opening.holder_kinds,
        1 => &mut opening.sink_kinds,
        2 => &mut opening.sink_parents,
        3 => &mut opening.path_sources,
        4 => &mut opening.path_sinks,
        5 => {
            opening.sources = random.select(&[17, 100]);
            return;
        }
        _ => return double_a_path(random, opening),
    };
    if !list.is_empty() {
        let place = random.below(list.len());
        list[place] = random.select(&[0, 3, 5, 16, 99]);
    }
}

fn double_a_path(random: &mut Random, opening: &mut Opening) {
    if opening.paths >= 2 {
        let last = opening.paths as usize - 1;
        let twin = random.below(last);
        opening.path_sources[last] = opening.path_sources[twin];
        opening.path_sinks[last] = opening.path_sinks[twin];
    }
}

/// Puts a line in place of one of the book lines, or of the head if it is alone.
pub(crate) fn replace_line(random: &mut Random, text: &mut String, line: &str) {
    let mut lines: Vec<&str> = text.split_inclusive('\n').collect();
    let place = match lines.len() {
        1 => 0,
        count => 1 + random.below(count - 1),
    };
    lines[place] = line;
    *text = lines.concat();
}

/// The book group of an opening, without its settings.
pub(crate) fn text(opening: &Opening) -> String {
    let mut text = String::new();
    let counts = [
        opening.holders,
        opening.sources,
        opening.sinks,
        opening.paths,
    ];
    write_line(&mut text, "book", &counts);
    for &kind in &opening.holder_kinds {
        write_line(&mut text, "holder", &[kind]);
    }
    for (&kind, &parent) in opening.sink_kinds.iter().zip(&opening.sink_parents) {
        write_line(&mut text, "sink", &[kind, parent]);
    }
    for (&source, &sink) in opening.path_sources.iter().zip(&opening.path_sinks) {
        write_line(&mut text, "path", &[source, sink]);
    }
    text
}
