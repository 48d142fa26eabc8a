//! Whole seasons, and damaged ones, from a seed.
//!
//! A season is written call by call beside a book of its own, so that
//! nominations can go right up to the limit and migrations right up to the
//! load. The same seed always gives the same script.

mod damage;
mod draft;
mod faults;
mod migrate;
mod openings;
mod posting;
mod random;
mod settings;
mod tiers;
mod writer;

pub use damage::damaged;
pub use random::Random;

use crate::book::Book;
use crate::calendar::LONG_TERM_STEP;
use crate::opening::Opening;
use settings::BehindBook;
use writer::Writer;

/// A whole season: an opening, in every other season with a `set` line, postings,
/// nine tiers with migrations between them, the Long Term step, queries, and
/// faulty calls here and there.
///
/// Now and then the opening breaks the rules or cannot be read, now and then
/// the step is skipped, and now and then the season ends before tier 9.
pub fn season(seed: u64) -> Vec<u8> {
    let mut random = Random::new(seed);
    let mut opening = openings::opening(&mut random);
    let mut text = openings::text(&opening);
    let bare = match settings::behind_book(&mut random) {
        BehindBook::NoSetLine { bare } => bare,
        BehindBook::SetLine(settings) => {
            opening.settings = settings;
            text.push_str(&settings::line(&settings));
            false
        }
        BehindBook::Unreadable(line) => {
            text.push_str(&line);
            return refused(text);
        }
        BehindBook::InPlaceOfBookLine(settings) => {
            let line = settings::line(&settings);
            openings::replace_line(&mut random, &mut text, &line);
            return refused(text);
        }
    };
    if random.one_in(120) {
        faults::mangle_one_line(&mut random, &mut text);
        return refused(text);
    }
    open_season(random, &opening, text, bare)
}

/// A season that ends with a book group that cannot be read. Nothing behind it is
/// answered, but where it was the `set` line that became another line.
fn refused(mut text: String) -> Vec<u8> {
    if text.ends_with('\n') {
        text.push_str("close\nnet,0,1\n");
    }
    text.into_bytes()
}

/// The season behind a book group that can be read.
fn open_season(random: Random, opening: &Opening, mut text: String, bare: bool) -> Vec<u8> {
    match Book::open(opening) {
        Ok(book) => {
            let mut writer = Writer::new(random, book, text);
            faults::behind_book(&mut writer, bare);
            write_season(writer)
        }
        Err(_) => {
            // No line after a refused book group is answered.
            text.push_str("open,1\nclose\n");
            text.into_bytes()
        }
    }
}

fn write_season(mut writer: Writer) -> Vec<u8> {
    let last = match writer.random.one_in(12) {
        true => writer.random.up_to(9),
        false => 9,
    };
    let mut later = posting::plan(&mut writer);
    for tier in 1..=last {
        posting::before_tier(&mut writer, tier, &mut later);
        migrate::before_tier(&mut writer, tier);
        tiers::hold(&mut writer, tier);
        if tier == 1 {
            hold_step(&mut writer, &mut later);
        }
    }
    faults::tail(&mut writer);
    writer.text.into_bytes()
}

/// What is posted between tier 1 and the Long Term step, and mostly the step.
fn hold_step(writer: &mut Writer, later: &mut posting::Later) {
    posting::before_tier(writer, LONG_TERM_STEP, later);
    if writer.random.percent(85) {
        tiers::hold(writer, LONG_TERM_STEP);
    }
}
