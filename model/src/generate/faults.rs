//! Faulty calls of every kind, and lines that cannot be read.

use super::draft::Draft;
use super::random::Random;
use super::writer::Writer;
use super::{migrate, openings, posting, settings};
use crate::calendar::{first_tier_of, open_in_time, LONG_TERM_STEP};

/// Writes one call that is wrong in some way, or likely so.
pub(crate) fn fault(writer: &mut Writer) {
    let draft = match writer.random.up_to(13) {
        0 | 1 => bent(writer),
        2 => again(writer),
        3 | 4 => bad_blocks(writer),
        5 | 6 => bad_migration(writer),
        7 => ineligible_sink(writer),
        8 => return unreadable(writer),
        9 => untimely(writer),
        10 => return far_migration(writer),
        11 => bad_mark(writer),
        12 => return stray_set(writer),
        _ => Some(any_call(writer)),
    };
    if let Some(draft) = draft {
        writer.say(&draft);
    }
}

/// A number of a small book, or one just outside it.
fn near(random: &mut Random, count: usize) -> u64 {
    random.up_to(count as u64)
}

/// Any call or query, with numbers of the book or one beyond. Open and close
/// are drawn only where they are untimely, so that the season goes on.
fn any_call(writer: &mut Writer) -> Draft {
    let [holders, sources] = [writer.book.holders, writer.book.sources];
    let [sinks, paths] = [writer.book.sinks, writer.book.paths];
    let random = &mut writer.random;
    let holder = near(random, holders);
    let path = near(random, paths);
    let sink = near(random, sinks);
    let term = random.up_to(4);
    match random.up_to(9) {
        0 | 1 => posting::load(writer, holder, sink, term),
        2 => Draft::line("carry", &[holder, path, writer.kw(8)]),
        3 => {
            let allocated = writer.kw(2);
            Draft::line("prior", &[holder, path, allocated, allocated / 3])
        }
        4 => {
            let source = near(random, sources);
            let kind = random.between(1, 2);
            posting::verify(writer, holder, source, kind)
        }
        5 => Draft::line("nominate", &[holder, path, writer.kw(8)]),
        6 => Draft::line("award", &[holder, path, writer.kw(8)]),
        7 => Draft::line("limit", &[holder, sink]),
        8 => Draft::line("held", &[holder, path, term]),
        _ => Draft::line("net", &[path, term]),
    }
}

/// A call with one field, of its head or of its lines, set to an odd number.
fn bent(writer: &mut Writer) -> Option<Draft> {
    let mut draft = any_call(writer);
    let odd = [0, 4, 9, 10, 16, 2_209, 100_000_000, 999_999_999];
    let number = writer.random.select(&odd);
    let in_rows = !draft.rows.is_empty() && writer.random.one_in(2);
    let fields = if in_rows {
        let row = writer.random.below(draft.rows.len());
        &mut draft.rows[row]
    } else {
        &mut draft.fields
    };
    let place = writer.random.below(fields.len());
    fields[place] = number;
    Some(draft)
}

/// Something that was posted before.
fn again(writer: &mut Writer) -> Option<Draft> {
    if writer.posted.is_empty() {
        return None;
    }
    let place = writer.random.below(writer.posted.len());
    Some(writer.posted[place].clone())
}

/// A load in time whose blocks are broken, or leave out too many hours. At a
/// sink that is not for the holder the blocks are still looked at first.
fn bad_blocks(writer: &mut Writer) -> Option<Draft> {
    if writer.book.holders == 0 || writer.book.sinks == 0 {
        return None;
    }
    let holder = writer.random.below(writer.book.holders) as u64;
    let sink = writer.random.below(writer.book.sinks) as u64;
    let in_time = |term: &u64| first_tier_of(*term) > writer.book.last_closed;
    let term = (0..=3).find(in_time).unwrap_or(3);
    let mut draft = posting::load(writer, holder, sink, term);
    let hours = draft.fields[4];
    let random = &mut writer.random;
    let place = random.below(draft.rows.len());
    match random.up_to(7) {
        0 => draft.rows.clear(),
        1 => draft.rows[place][1] = 0,
        2 => draft.rows[place][1] = hours + 1,
        3 => draft.rows[place][0] = random.select(&[hours, 999_999_999]),
        4 => draft.rows.reverse(),
        5 => draft.rows.insert(place, draft.rows[place].clone()),
        _ => {
            // One hour more is missing than may be; no block where all may.
            let hours = hours.max(50);
            let most_missing = writer.book.settings.missing.of(hours);
            draft.fields[4] = hours;
            draft.rows = vec![vec![0, hours.saturating_sub(most_missing + 1), 1]];
        }
    }
    Some(draft)
}

/// A migration from a holder to itself, with a kind 2 holder, or of more than
/// anyone has, in a term that is in time.
fn bad_migration(writer: &mut Writer) -> Option<Draft> {
    if writer.book.holders == 0 || writer.book.sinks == 0 {
        return None;
    }
    let in_time = |term: &u64| first_tier_of(*term) > writer.book.last_closed;
    let term = (0..=3).find(in_time).unwrap_or(3);
    let random = &mut writer.random;
    let sink = random.below(writer.book.sinks) as u64;
    let from = random.below(writer.book.holders) as u64;
    let to = random.below(writer.book.holders) as u64;
    let watts = random.select(&[0, 1_000, 9_999_999, 10_000_000]);
    let class = random.select(&[1, 8, 8, 9]);
    let times = if random.one_in(10) { 65 } else { 1 };
    let rows = vec![vec![from, to, class, 9_999, watts]; times];
    Some(Draft::migrate(term, sink, rows))
}

/// A migration of a term taken at random, mostly at a bad time.
fn far_migration(writer: &mut Writer) {
    let term = writer.random.up_to(3);
    migrate::write_migration(writer, term);
}

/// A posting or nomination at a sink that is not for the holder.
fn ineligible_sink(writer: &mut Writer) -> Option<Draft> {
    let (book, random) = (&writer.book, &mut writer.random);
    let mut ineligible = Vec::new();
    for holder in 0..book.holders {
        for path in 0..book.paths {
            let sink = book.path_sink[path];
            if book.sink_ineligible(holder, sink) || book.is_sub_lap(sink) {
                ineligible.push([holder as u64, path as u64, sink as u64]);
            }
        }
    }
    if ineligible.is_empty() {
        return None;
    }
    let [holder, path, sink] = random.select(&ineligible);
    let word = if book.open_tier.is_some() {
        "nominate"
    } else {
        "carry"
    };
    Some(match random.up_to(3) {
        0 if book.open_tier.is_none() => posting::load(writer, holder, sink, 3),
        1 if book.open_tier.is_none() => Draft::line("prior", &[holder, path, 2, 1]),
        _ => Draft::line(word, &[holder, path, 1]),
    })
}

/// An opening or a close that is not due.
fn untimely(writer: &mut Writer) -> Option<Draft> {
    let tier = match writer.random.one_in(3) {
        true => LONG_TERM_STEP,
        false => writer.random.up_to(LONG_TERM_STEP + 1),
    };
    let open = writer.book.open_tier.is_some();
    match writer.random.one_in(3) {
        true if !open => Some(Draft::line("close", &[])),
        _ if !open_in_time(&writer.book, tier) => Some(Draft::line("open", &[tier])),
        _ => None,
    }
}

/// Evidence with a ten-year mark that is neither 0 nor 1, or with none at all.
fn bad_mark(writer: &mut Writer) -> Option<Draft> {
    if writer.book.holders == 0 || writer.book.sources == 0 {
        return None;
    }
    let holder = writer.random.below(writer.book.holders) as u64;
    let source = writer.random.below(writer.book.sources) as u64;
    let kind = writer.random.between(1, 2);
    let mut draft = posting::verify(writer, holder, source, kind);
    draft.fields.pop();
    if writer.random.one_in(2) {
        draft
            .fields
            .push(writer.random.select(&[2, 3, 10, 999_999_999]));
    }
    Some(draft)
}

/// A group with one line that cannot be read, or a line that no head counts.
fn unreadable(writer: &mut Writer) {
    let mut text = match writer.random.up_to(3) {
        0 => writer.random.select(&STRAY_LINES).to_string(),
        _ => any_call(writer).text(),
    };
    mangle_one_line(&mut writer.random, &mut text);
    writer.say_text(&text);
}

/// A line of the word `set` where none is read: by itself, or in place of a line
/// that a load or migrate counts.
fn stray_set(writer: &mut Writer) {
    if writer.takes_settings() {
        return;
    }
    let line = settings::any_line(&mut writer.random);
    let mut text = any_call(writer).text();
    let counted = text.lines().count() > 1;
    match counted && writer.random.one_in(2) {
        true => openings::replace_line(&mut writer.random, &mut text, &line),
        false => text = line,
    }
    writer.say_text(&text);
}

/// Directly behind the book group: a bare `set` where the group has none, and
/// now and then a second one or one that a bare one parts from the book lines.
pub(crate) fn behind_book(writer: &mut Writer, bare: bool) {
    if bare {
        writer.say_text("set\n");
    }
    let wanted = match bare {
        true => writer.random.one_in(2),
        false => writer.random.one_in(12),
    };
    if wanted {
        stray_set(writer);
    }
}

const STRAY_LINES: [&str; 6] = [
    "book,1,1,1,1\n",
    "holder,1\n",
    "sink,1,0\n",
    "path,0,0\n",
    "block,0,1,1\n",
    "class,0,1,1,1,1\n",
];

/// Makes one of the lines unreadable without changing what any head counts.
pub(crate) fn mangle_one_line(random: &mut Random, text: &mut String) {
    let mut lines: Vec<String> = text.lines().map(str::to_string).collect();
    let place = random.below(lines.len());
    let line = &mut lines[place];
    *line = match random.up_to(8) {
        0 => format!("{line},"),
        1 => format!("{line},1"),
        2 => line.replacen(',', ",0", 1) + "9,9,9,9,9,9,9,9",
        3 => format!("{line}\r"),
        4 => format!(" {line}"),
        5 => line.to_uppercase(),
        6 => line.replacen(',', ",123456789", 1) + "0",
        7 => String::new(),
        _ => line.replacen(',', ",-", 1) + " ",
    };
    *text = lines.join("\n") + "\n";
}

/// The end of the script: now and then a group that is not whole, or bytes
/// that no LF ends.
pub(crate) fn tail(writer: &mut Writer) {
    let tail = match writer.random.up_to(17) {
        0 => "load,0,0,3,0,10,3\nblock,0,9,5\nblock,9,1,5\n",
        1 => "migrate,3,0,2\nclass,0,1,1,1,1\n",
        2 => "net,0,1",
        3 => "load,0,0,3,0,10,1\nblock,0,10,5",
        4 => "\n",
        5 => "set,3,4,2,3,1,200,1,50,1,5,1,2",
        6 => "set",
        _ => "",
    };
    writer.text.push_str(tail);
}
