//! The calendar: which term a tier serves and what runs before it opens.

use crate::book::Book;

/// The Long Term step, by the number that opens it. It is held like a tier, and
/// is none of the nine.
pub const LONG_TERM_STEP: u64 = 10;

/// The last tier of the season; two tiers for each month follow it.
const LAST_SEASON_TIER: u64 = 3;

/// The term of a tier: 0, the season, up to tier 3 and for the Long Term step,
/// else floor(tier / 2) - 1.
pub(crate) fn term_of(tier: u64) -> usize {
    match tier {
        0..=LAST_SEASON_TIER | LONG_TERM_STEP => 0,
        _ => tier as usize / 2 - 1,
    }
}

/// Open: no tier is open, and this one is the next. The Long Term step comes
/// between tiers 1 and 2, and once; it may be left out.
pub(crate) fn open_in_time(book: &Book, tier: u64) -> bool {
    let next = match tier {
        LONG_TERM_STEP => book.last_closed == 1 && !book.step_held,
        _ => tier == book.last_closed + 1,
    };
    book.open_tier.is_none() && next
}

/// The first tier of a term: 1 for the season, 2k + 2 for month k.
pub(crate) fn first_tier_of(term: u64) -> u64 {
    match term {
        0 => 1,
        month => 2 * month + 2,
    }
}

/// A tier that is still to come: it was never opened. An open tier, whichever
/// it is, lets no posting and no migration through, so that is no time either.
pub(crate) fn before_tier(book: &Book, tier: u64) -> bool {
    book.open_tier.is_none() && book.last_closed < tier
}

/// Posting of load: before the first tier of its term opens.
pub(crate) fn load_in_time(book: &Book, term: u64) -> bool {
    before_tier(book, first_tier_of(term))
}

/// Migration: the season's before tier 1 opens; a month's between the close of
/// tier 3 and the opening of the month's first tier.
pub(crate) fn migration_in_time(book: &Book, term: u64) -> bool {
    before_tier(book, first_tier_of(term)) && (term == 0 || book.last_closed >= 3)
}

#[cfg(test)]
mod tests {
    use super::*;

    /// 02, 4/14: the formula is the table of nine, and the step is the season's.
    #[test]
    fn terms_are_those_of_the_table() {
        let terms: Vec<usize> = (1..=9).map(term_of).collect();
        assert_eq!(terms, [0, 0, 0, 1, 1, 2, 2, 3, 3]);
        assert_eq!(term_of(LONG_TERM_STEP), 0);
    }
}
