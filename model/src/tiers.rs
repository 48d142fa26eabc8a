//! The tiers and the Long Term step: open, nominate, award, close.

use crate::book::Book;
use crate::calendar::{open_in_time, term_of, LONG_TERM_STEP};
use crate::calls::OnPath;
use crate::evidence::{has_evidence, has_ten_year, verified};
use crate::limit::{left_without_evidence, limit};
use crate::refusals::{
    refuse_if, ABOVE_LIMIT, ABOVE_NOMINATED, ABOVE_PRIOR, ABOVE_TIER_1_AWARD, ABOVE_VERIFIED,
    NOT_AT_THIS_TIME, NOT_IN_BOOK, NO_TEN_YEAR_EVIDENCE, OUT_OF_RANGE, SINK_INELIGIBLE, UNVERIFIED,
};
use crate::sizes::MAX_KW;

/// Open: a tier there is, or the Long Term step, else 3; the next one, while
/// none is open, else 4.
pub(crate) fn open(book: &mut Book, tier: u64) -> Result<(), u64> {
    refuse_if(!(1..=LONG_TERM_STEP).contains(&tier), OUT_OF_RANGE)?;
    refuse_if(!open_in_time(book, tier), NOT_AT_THIS_TIME)?;
    book.open_tier = Some(tier);
    if tier == LONG_TERM_STEP {
        book.step_held = true;
    }
    Ok(())
}

/// Nominate: causes 2 to 4, 10, 19, 11, 12, 17, 18 and 13; then the kW is added
/// to what the holder nominated on the path in this tier.
pub(crate) fn nominate(book: &mut Book, nominate: &OnPath) -> Result<(), u64> {
    refuse_if(!known(book, nominate), NOT_IN_BOOK)?;
    refuse_if(!in_range(nominate), OUT_OF_RANGE)?;
    let tier = book.open_tier.ok_or(NOT_AT_THIS_TIME)?;
    let (holder, path) = (nominate.holder as usize, nominate.path as usize);
    let kw = nominate.kw;
    let sink = book.path_sink[path];
    let too_early = tier == 1 && book.is_sub_lap(sink);
    let not_for_it = book.sink_ineligible(holder, sink) || too_early;
    refuse_if(not_for_it, SINK_INELIGIBLE)?;
    refuse_if(lacks_evidence(book, holder, path, tier), UNVERIFIED)?;
    refuse_if(kw > verified_room(book, holder, path, tier), ABOVE_VERIFIED)?;
    refuse_if(kw > prior_room(book, holder, path, tier), ABOVE_PRIOR)?;
    let awarded = tier_1_award_room(book, holder, path, tier);
    refuse_if(kw > awarded, ABOVE_TIER_1_AWARD)?;
    let shown = ten_year_room(book, holder, path, tier);
    refuse_if(kw > shown, NO_TEN_YEAR_EVIDENCE)?;
    refuse_if(kw > limit_room(book, holder, path, tier), ABOVE_LIMIT)?;

    match tier {
        LONG_TERM_STEP => book.step_nominated[holder][path] += kw,
        _ => book.nominated[holder][path][tier as usize - 1] += kw,
    }
    Ok(())
}

/// Award: causes 2 to 4 and 14; then the kW enters the tier's awards and the
/// awarded holding of the month, or of all three for the season's tiers. In the
/// Long Term step it enters the step's own record and no holding.
pub(crate) fn award(book: &mut Book, award: &OnPath) -> Result<(), u64> {
    refuse_if(!known(book, award), NOT_IN_BOOK)?;
    refuse_if(!in_range(award), OUT_OF_RANGE)?;
    let tier = book.open_tier.ok_or(NOT_AT_THIS_TIME)?;
    let (holder, path) = (award.holder as usize, award.path as usize);
    let unawarded = nominated_in(book, holder, path, tier) - awarded_in(book, holder, path, tier);
    refuse_if(award.kw > unawarded, ABOVE_NOMINATED)?;

    if tier == LONG_TERM_STEP {
        book.step_awards[holder][path] += award.kw;
        return Ok(());
    }
    book.tier_awards[holder][path][tier as usize - 1] += award.kw;
    let holding = &mut book.awarded[holder][path];
    match term_of(tier) {
        0 => holding.iter_mut().for_each(|month| *month += award.kw),
        month => holding[month - 1] += award.kw,
    }
    Ok(())
}

/// Close: cause 4; then nominations go down to the awarded kW. The Long Term
/// step does not count as last closed.
pub(crate) fn close(book: &mut Book) -> Result<(), u64> {
    let tier = book.open_tier.ok_or(NOT_AT_THIS_TIME)?;
    book.open_tier = None;
    if tier == LONG_TERM_STEP {
        book.step_nominated = book.step_awards;
        return Ok(());
    }
    let index = tier as usize - 1;
    for holder in 0..book.holders {
        for path in 0..book.paths {
            let awarded = book.tier_awards[holder][path][index];
            book.nominated[holder][path][index] = awarded;
        }
    }
    book.last_closed = tier;
    Ok(())
}

/// Cause 2 of nominate and award.
fn known(book: &Book, on_path: &OnPath) -> bool {
    book.has_holder(on_path.holder) && book.has_path(on_path.path)
}

/// Cause 3 of nominate and award.
fn in_range(on_path: &OnPath) -> bool {
    (1..=MAX_KW).contains(&on_path.kw)
}

pub(crate) fn nominated_in(book: &Book, holder: usize, path: usize, tier: u64) -> u64 {
    match tier {
        LONG_TERM_STEP => book.step_nominated[holder][path],
        _ => book.nominated[holder][path][tier as usize - 1],
    }
}

pub(crate) fn awarded_in(book: &Book, holder: usize, path: usize, tier: u64) -> u64 {
    match tier {
        LONG_TERM_STEP => book.step_awards[holder][path],
        _ => book.tier_awards[holder][path][tier as usize - 1],
    }
}

/// To whom and when causes 19 and 11 apply: a kind 2 holder, in every tier but
/// the Long Term step.
fn needs_verification(book: &Book, holder: usize, tier: u64) -> bool {
    book.is_obaalse(holder) && tier != LONG_TERM_STEP
}

/// Cause 19: the path's source has no evidence for the tier's term.
fn lacks_evidence(book: &Book, holder: usize, path: usize, tier: u64) -> bool {
    let source = book.path_source[path];
    needs_verification(book, holder, tier) && !has_evidence(book, holder, source, term_of(tier))
}

/// Cause 11, as the kW still free: verified kW at a source has to cover what
/// a holder nominates from there in this tier, and what it was awarded from
/// there in the earlier tiers that serve the term.
pub(crate) fn verified_room(book: &Book, holder: usize, path: usize, tier: u64) -> u64 {
    if !needs_verification(book, holder, tier) {
        return u64::MAX;
    }
    let source = book.path_source[path];
    let mut taken = 0;
    for other in (0..book.paths).filter(|&other| book.path_source[other] == source) {
        taken += nominated_in(book, holder, other, tier);
        for earlier in earlier_tiers(tier) {
            taken += awarded_in(book, holder, other, earlier);
        }
    }
    verified(book, holder, source, term_of(tier)).saturating_sub(taken)
}

/// The earlier tiers that verified kW also has to serve: those of the same
/// term, and for a month the season's three as well.
fn earlier_tiers(tier: u64) -> impl Iterator<Item = u64> {
    let term = term_of(tier);
    (1..tier).filter(move |&earlier| earlier <= 3 || term_of(earlier) == term)
}

/// Cause 12, as the kW still free: in tier 1 each path is held to its a - l.
pub(crate) fn prior_room(book: &Book, holder: usize, path: usize, tier: u64) -> u64 {
    match tier {
        1 => book.prior_remaining[holder][path].saturating_sub(nominated_in(book, holder, path, 1)),
        _ => u64::MAX,
    }
}

/// Cause 17, as the kW still free: in the Long Term step each path is held to
/// the holder's own tier 1 award there.
pub(crate) fn tier_1_award_room(book: &Book, holder: usize, path: usize, tier: u64) -> u64 {
    match tier {
        LONG_TERM_STEP => {
            awarded_in(book, holder, path, 1) - nominated_in(book, holder, path, tier)
        }
        _ => u64::MAX,
    }
}

/// Cause 18, as the kW still free: in the Long Term step the source of this
/// nomination, and of each earlier one at the base, has ten-year evidence.
/// Where one has none a kind 2 holder has no room, and any other has what LT
/// and its nominations at the base leave of what the step gives without it.
pub(crate) fn ten_year_room(book: &Book, holder: usize, path: usize, tier: u64) -> u64 {
    let base = book.base_of_path(path);
    let nominated = |other: usize| nominated_in(book, holder, other, tier) > 0;
    let shown = book
        .paths_with_base(base)
        .filter(|&other| other == path || nominated(other))
        .all(|other| has_ten_year(book, holder, book.path_source[other]));
    if tier != LONG_TERM_STEP || shown {
        u64::MAX
    } else if book.is_obaalse(holder) {
        0
    } else {
        let nominated = nominated_at(book, holder, base, tier);
        left_without_evidence(book, holder, base).saturating_sub(nominated)
    }
}

/// Cause 13, as the kW still free: per base the nominations of the tier stay
/// within the limit.
pub(crate) fn limit_room(book: &Book, holder: usize, path: usize, tier: u64) -> u64 {
    let base = book.base_of_path(path);
    let nominated = nominated_at(book, holder, base, tier);
    limit(book, holder, base, tier).saturating_sub(nominated)
}

/// The kW a holder has nominated in a tier on all paths of a base.
fn nominated_at(book: &Book, holder: usize, base: usize, tier: u64) -> u64 {
    book.paths_with_base(base)
        .map(|other| nominated_in(book, holder, other, tier))
        .sum()
}
