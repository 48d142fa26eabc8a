//! Postings of a season: loads, carries, priors and evidence.

use super::draft::Draft;
use super::random::Random;
use super::writer::Writer;
use super::{faults, migrate, tiers};
use crate::calendar::{first_tier_of, LONG_TERM_STEP};
use crate::settings::Settings;
use crate::sizes::MAX_KW;

/// A posting and the tier before which it is to be posted.
pub(crate) type Later = Vec<(u64, Draft)>;

/// All postings of the season, in any order.
pub(crate) fn plan(writer: &mut Writer) -> Later {
    let mut later = Vec::new();
    plan_loads(writer, &mut later);
    plan_rights(writer, &mut later);
    plan_evidence(writer, &mut later);
    writer.random.shuffle(&mut later);
    later
}

/// Loads of the season and of its months, mostly at sinks that paths go to.
fn plan_loads(writer: &mut Writer, later: &mut Later) {
    let mut pairs = Vec::new();
    for holder in 0..writer.book.holders {
        for sink in 0..writer.book.sinks {
            let consumed = writer.book.paths_with_base(sink).next().is_some();
            let fits = writer.fits(holder, sink) && !writer.book.is_sub_lap(sink);
            if fits && (consumed || writer.random.one_in(8)) {
                pairs.push((holder as u64, sink as u64));
            }
        }
    }
    writer.random.shuffle(&mut pairs);
    pairs.truncate(4 + writer.random.below(10));
    for (holder, sink) in pairs {
        for term in 0..=3 {
            if writer.random.percent(85) {
                let draft = load(writer, holder, sink, term);
                let before = writer.random.between(1, first_tier_of(term));
                later.push((before, draft));
            }
        }
    }
}

/// Carries and priors, on paths whose sink is for the holder, mostly where it
/// has load in the season.
fn plan_rights(writer: &mut Writer, later: &mut Later) {
    let mut pairs = writer.fitting_paths();
    if writer.random.percent(70) {
        pairs.sort_by_key(|&(holder, path)| {
            let base = writer.book.base_of_path(path) as u64;
            let load = [holder as u64, base, 0];
            !later
                .iter()
                .any(|(_, draft)| draft.fields.starts_with(&load))
        });
    }
    pairs.truncate(24);
    for (holder, path) in pairs {
        let on_path = [holder as u64, path as u64];
        if writer.random.percent(35) {
            let part = writer.random.select(&[1, 6, 12, 12, 30, 60]);
            let kw = match writer.random.percent(80) {
                true => writer.kw_of_rights(part),
                false => writer.kw(part),
            };
            later.push((1, Draft::line("carry", &[on_path[0], on_path[1], kw])));
        }
        if writer.random.percent(70) {
            let part = writer.random.select(&[1, 2, 4]);
            let allocated = writer.kw(part);
            let long_term = match writer.random.up_to(4) {
                0 => allocated,
                1 => writer.random.up_to(allocated),
                2 => allocated / 4,
                _ => 0,
            };
            let fields = [on_path[0], on_path[1], allocated, long_term];
            later.push((1, Draft::line("prior", &fields)));
        }
    }
}

/// Evidence: mostly of kind 2 holders, at sources of paths for them; the others
/// bring theirs for the Long Term step.
fn plan_evidence(writer: &mut Writer, later: &mut Later) {
    for (holder, path) in writer.fitting_paths() {
        let outside = writer.book.is_obaalse(holder);
        let source = match writer.random.one_in(12) {
            // No path has to start there.
            true => writer.random.below(writer.book.sources) as u64,
            false => writer.book.path_source[path] as u64,
        };
        for kind in 1..=2 {
            let wanted = if outside { 60 } else { 40 };
            if writer.random.percent(wanted) && later.len() < 160 {
                let before = match writer.random.up_to(9) {
                    0 => writer.random.between(1, 9),
                    1 | 2 => LONG_TERM_STEP,
                    _ => 1,
                };
                let draft = verify(writer, holder as u64, source, kind);
                later.push((before, draft));
            }
        }
    }
}

/// Evidence that is in range; it may have been filed before.
pub(crate) fn verify(writer: &mut Writer, holder: u64, source: u64, kind: u64) -> Draft {
    let part = writer.random.select(&[1, 1, 2, 8, 40]);
    let capacity = writer.kw(part);
    let right = match kind {
        1 => writer.random.select(&[1, 3_333, 5_000, 9_999, 10_000]),
        _ => writer.random.between(1, capacity),
    };
    let first = if writer.random.percent(75) {
        1
    } else {
        writer.random.between(1, 3)
    };
    let last = if writer.random.percent(75) {
        3
    } else {
        writer.random.between(first, 3)
    };
    let ten_year = u64::from(writer.random.percent(70));
    let fields = [holder, source, kind, capacity, right, first, last, ten_year];
    Draft::line("verify", &fields)
}

/// A load that is in range, with sound blocks.
pub(crate) fn load(writer: &mut Writer, holder: u64, sink: u64, term: u64) -> Draft {
    let random_hours = writer.random.between(1, 2_208);
    let choices = [1, 50, 100, 199, 200, 400, 720, 2_208, random_hours];
    let hours = writer.random.select(&choices);
    let usual = writer.kw(1);
    let contract = match writer.random.up_to(9) {
        0 => usual + writer.random.up_to(3),
        1 | 2 => writer.kw(4),
        _ => 0,
    };
    let contract = contract.min(MAX_KW);
    let rows = match writer.random.one_in(400) {
        true => hourly(&mut writer.random, hours, usual),
        false => blocks(&mut writer.random, &writer.book.settings, hours, usual),
    };
    Draft::load([holder, sink, term, contract, hours], rows)
}

/// Blocks that cover the hours but for missing ones, as many as may be or fewer,
/// with peaks around what the metric lets pass, short ones with the present
/// settings.
fn blocks(random: &mut Random, settings: &Settings, hours: u64, usual: u64) -> Vec<Vec<u64>> {
    let peak_hours = settings.exceedance.of(hours);
    // One hour at least has a block.
    let most_missing = settings.missing.of(hours).min(hours - 1);
    let mut missing = match random.up_to(3) {
        0 | 1 => 0,
        2 => random.up_to(most_missing),
        _ => most_missing,
    };
    // All of them before the first block, or some before each.
    let all_at_once = random.one_in(2);
    let mut rows = Vec::new();
    let mut pieces = if random.one_in(60) {
        40
    } else {
        random.up_to(3)
    };
    let mut hour = 0;
    while hour < hours {
        let gap = match random.one_in(2) {
            _ if all_at_once => missing,
            true => random.up_to(missing.min(hours - hour)),
            false => 0,
        };
        missing -= gap;
        hour += gap;
        let left = hours - hour;
        if left == 0 {
            break;
        }
        let peak = random.one_in(2);
        let length = match (pieces, peak) {
            (0, _) => left,
            (_, true) => (peak_hours + random.up_to(1)).clamp(1, left),
            (_, false) => random.between(1, left.div_ceil(2)),
        };
        pieces = pieces.saturating_sub(1);
        rows.push(vec![hour, length, block_kw(random, usual, peak)]);
        hour += length;
    }
    rows
}

/// A block for each hour, of any kW up to the usual.
fn hourly(random: &mut Random, hours: u64, usual: u64) -> Vec<Vec<u64>> {
    let block = |hour| vec![hour, 1, random.up_to(usual)];
    (0..hours).map(block).collect()
}

fn block_kw(random: &mut Random, usual: u64, peak: bool) -> u64 {
    match peak {
        true => (usual * 2).min(MAX_KW),
        false if random.one_in(12) => random.up_to(usual),
        false => usual,
    }
}

/// Posts what is due before a tier, with a little of everything in between.
pub(crate) fn before_tier(writer: &mut Writer, tier: u64, later: &mut Later) {
    let (due, kept): (Later, Later) = later.drain(..).partition(|one| one.0 == tier);
    *later = kept;
    for (_, draft) in due {
        writer.say(&draft);
        if tier == 1 && writer.random.one_in(14) {
            migrate::write_migration(writer, 0);
        }
        if writer.random.one_in(9) {
            faults::fault(writer);
        }
        if writer.random.one_in(20) {
            tiers::query(writer);
        }
    }
    while writer.random.one_in(2) {
        faults::fault(writer);
    }
}
