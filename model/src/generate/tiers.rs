//! Tiers and the Long Term step: nominations at the limit, one above it and
//! below, and awards.

use super::draft::Draft;
use super::faults;
use super::writer::Writer;
use crate::calendar::LONG_TERM_STEP;
use crate::sizes::MAX_KW;
use crate::tiers::{
    awarded_in, limit_room, nominated_in, prior_room, ten_year_room, tier_1_award_room,
    verified_room,
};

/// Opens a tier, nominates, awards, asks and closes it.
pub(crate) fn hold(writer: &mut Writer, tier: u64) {
    writer.say_surely("open", &[tier]);
    let mut pairs = writer.fitting_paths();
    match tier {
        // Where last year and the limit leave room, for the step to have awards.
        1 => pairs.sort_by_key(|&(holder, path)| {
            let prior = prior_room(&writer.book, holder, path, tier);
            prior.min(limit_room(&writer.book, holder, path, tier)) == 0
        }),
        // Where tier 1 awarded; the others have nothing to renew.
        LONG_TERM_STEP => {
            pairs.sort_by_key(|&(holder, path)| awarded_in(&writer.book, holder, path, 1) == 0)
        }
        _ => {}
    }
    pairs.truncate(4 + writer.random.below(14));
    for (holder, path) in pairs {
        while nominate(writer, holder, path, tier) && writer.random.one_in(3) {}
        if writer.random.one_in(3) {
            award(writer, holder, path, tier);
        }
        if writer.random.one_in(12) {
            faults::fault(writer);
        }
        if writer.random.one_in(6) {
            query(writer);
        }
    }
    for (holder, path) in writer.fitting_paths() {
        if writer.random.percent(65) {
            award(writer, holder, path, tier);
        }
    }
    writer.say_surely("close", &[]);
}

/// A nomination, most often at one of the bounds it has to keep. Where there
/// is no room at all most are left out, fewer where it is the evidence that
/// leaves none.
fn nominate(writer: &mut Writer, holder: usize, path: usize, tier: u64) -> bool {
    let rooms = [
        verified_room,
        prior_room,
        tier_1_award_room,
        ten_year_room,
        limit_room,
    ]
    .map(|room| room(&writer.book, holder, path, tier));
    let room = rooms.into_iter().fold(u64::MAX, u64::min);
    let awarded = tier == LONG_TERM_STEP && rooms[2] > 0;
    let no_verified_room = rooms[0] == 0;
    let left_out = match (awarded, no_verified_room) {
        (true, _) => 30,
        (_, true) => 50,
        _ => 92,
    };
    if room == 0 && writer.random.percent(left_out) {
        return false;
    }
    // Bounds that this tier and this holder do not have are left out.
    let bounds: Vec<u64> = rooms.into_iter().filter(|&kw| kw < u64::MAX).collect();
    let kw = match writer.random.up_to(9) {
        // Tier 1 often leaves room for more paths, which the step then takes up.
        0 | 1 if tier == 1 => room / 3,
        0..=2 => room,
        3 => room + 1,
        4 | 5 => writer.random.select(&bounds) + 1,
        6 => writer.random.select(&bounds),
        _ => writer.random.up_to(room),
    };
    let fields = [holder as u64, path as u64, kw.clamp(1, MAX_KW)];
    writer.say(&Draft::line("nominate", &fields))
}

/// An award of what is left, of a part of it, or of one more.
fn award(writer: &mut Writer, holder: usize, path: usize, tier: u64) {
    let nominated = nominated_in(&writer.book, holder, path, tier);
    let left = nominated - awarded_in(&writer.book, holder, path, tier);
    if left == 0 && writer.random.percent(99) {
        return;
    }
    let kw = match writer.random.up_to(9) {
        0..=4 => left,
        5 => left + 1,
        _ => writer.random.up_to(left),
    };
    let fields = [holder as u64, path as u64, kw.clamp(1, MAX_KW)];
    writer.say(&Draft::line("award", &fields));
}

/// Any of the three queries; the limit mostly while a tier is open.
pub(crate) fn query(writer: &mut Writer) {
    let book = &writer.book;
    if book.holders == 0 || book.paths == 0 {
        return;
    }
    let random = &mut writer.random;
    let holder = random.below(book.holders) as u64;
    let sink = random.below(book.sinks) as u64;
    let path = random.below(book.paths) as u64;
    let month = random.between(1, 3);
    let draft = match random.up_to(2) {
        0 if book.open_tier.is_some() || random.one_in(5) => Draft::line("limit", &[holder, sink]),
        1 => Draft::line("held", &[holder, path, month]),
        _ => Draft::line("net", &[path, month]),
    };
    writer.say(&draft);
}
