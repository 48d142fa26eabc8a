//! Limits on a holder's nominations at a base, by tier.

use crate::book::Book;
use crate::calendar::{term_of, LONG_TERM_STEP};
use crate::evidence::ten_year_kw;
use crate::settings::Settings;

/// The limit of a holder at a base in a tier 1 to 9 or in the Long Term step,
/// chosen by tier number.
pub(crate) fn limit(book: &Book, holder: usize, base: usize, tier: u64) -> u64 {
    let at = AtBase {
        book,
        holder,
        base,
        term: term_of(tier),
    };
    match tier {
        1 => at.tier_1(),
        2..=3 => at.tier_2_or_3(tier),
        LONG_TERM_STEP => at.long_term_step(),
        even if even % 2 == 0 => at.month_left(),
        odd => at.month_left().saturating_sub(at.awards(odd - 1)),
    }
}

/// S, what the season gives: three quarters of load A today, rounded down.
pub(crate) fn seasonal_eligible(settings: &Settings, load: u64) -> u64 {
    settings.seasonal.of(load)
}

/// P, what the first two tiers give: two thirds of S today, rounded down.
pub(crate) fn priority_eligible(settings: &Settings, load: u64) -> u64 {
    settings.priority.of(seasonal_eligible(settings, load))
}

/// What the Long Term step gives without ten-year evidence above it: a fifth of
/// load A today, rounded down.
pub(crate) fn eligible_without_evidence(settings: &Settings, load: u64) -> u64 {
    settings.without_evidence.of(load)
}

/// The most that the Long Term step gives for ten-year evidence, and that tier 1
/// gives: half of load A today, rounded down.
pub(crate) fn eligible_with_evidence(settings: &Settings, load: u64) -> u64 {
    settings.with_evidence.of(load)
}

/// What LT leaves of what the Long Term step gives a holder at a base without
/// ten-year evidence.
pub(crate) fn left_without_evidence(book: &Book, holder: usize, base: usize) -> u64 {
    let at = AtBase {
        book,
        holder,
        base,
        term: term_of(LONG_TERM_STEP),
    };
    eligible_without_evidence(&book.settings, at.load()).saturating_sub(at.long_term())
}

/// What one holder has at one base, seen from a tier's term.
struct AtBase<'a> {
    book: &'a Book,
    holder: usize,
    base: usize,
    term: usize,
}

impl AtBase<'_> {
    /// Tier 1: the least of P, last year's allocation and the most that ten-year
    /// evidence gives of A, each less LT.
    fn tier_1(&self) -> u64 {
        let (settings, load) = (&self.book.settings, self.load());
        let allocated = self.sum(|path| self.book.prior_allocated[self.holder][path]);
        let most = priority_eligible(settings, load)
            .min(allocated)
            .min(eligible_with_evidence(settings, load));
        most.saturating_sub(self.long_term())
    }

    /// Tier 2: P less tier 1's awards and LT. Tier 3: S less both tiers' awards
    /// and LT.
    fn tier_2_or_3(&self, tier: u64) -> u64 {
        let (settings, load) = (&self.book.settings, self.load());
        let (most, taken) = match tier {
            2 => (priority_eligible(settings, load), self.awards(1)),
            _ => (
                seasonal_eligible(settings, load),
                self.awards(1) + self.awards(2),
            ),
        };
        most.saturating_sub(taken + self.long_term())
    }

    /// The Long Term step, with today's fractions: half of A for a kind 2 holder.
    /// For any other a fifth of A, unless its ten-year evidence is above that;
    /// then the evidence, but no more than half of A, be that less than the
    /// fifth. Each less LT.
    fn long_term_step(&self) -> u64 {
        let (settings, load) = (&self.book.settings, self.load());
        let without = eligible_without_evidence(settings, load);
        let with = eligible_with_evidence(settings, load);
        let ten_year = ten_year_kw(self.book, self.holder);
        let most = if self.book.is_obaalse(self.holder) {
            with
        } else if ten_year > without {
            ten_year.min(with)
        } else {
            without
        };
        most.saturating_sub(self.long_term())
    }

    /// A month's first tier: A less the season's awards and the month's LT.
    fn month_left(&self) -> u64 {
        let season = self.awards(1) + self.awards(2) + self.awards(3);
        self.load().saturating_sub(season + self.long_term())
    }

    /// A: the load at the base in the tier's term.
    fn load(&self) -> u64 {
        self.book.load[self.holder][self.base][self.term]
    }

    /// LT: the carried holding at the base; the season looks at month 1's.
    fn long_term(&self) -> u64 {
        let month = self.term.max(1);
        self.sum(|path| self.book.carried[self.holder][path][month - 1])
    }

    /// Tn: the holder's own awards in tier n at the base, wherever migration
    /// has taken them since.
    fn awards(&self, tier: u64) -> u64 {
        self.sum(|path| self.book.tier_awards[self.holder][path][tier as usize - 1])
    }

    fn sum(&self, on_path: impl Fn(usize) -> u64) -> u64 {
        self.book.paths_with_base(self.base).map(on_path).sum()
    }
}

#[cfg(test)]
mod tests {
    use super::*;
    use crate::settings::Fraction;

    const PRESENT: Settings = Settings::PRESENT;

    fn s_and_p(settings: &Settings, load: u64) -> (u64, u64) {
        let s = seasonal_eligible(settings, load);
        (s, priority_eligible(settings, load))
    }

    /// Limits: S and P are rounded down one after the other (marked case 5).
    #[test]
    fn s_and_p_are_rounded_down_one_after_the_other() {
        assert_eq!(s_and_p(&PRESENT, 3), (2, 1));
        assert_eq!(s_and_p(&PRESENT, 0), (0, 0));
        assert_eq!(s_and_p(&PRESENT, 1_000), (750, 500));
        assert_eq!(s_and_p(&PRESENT, 7), (5, 3));
        // Half of A would be 1 and 3 here.
        assert_eq!(s_and_p(&PRESENT, 2), (1, 0));
        assert_eq!(s_and_p(&PRESENT, 6), (4, 2));
    }

    /// 02, 3/14: with other fractions P is still of the rounded S.
    #[test]
    fn p_is_of_the_rounded_s_with_other_fractions() {
        let settings = Settings {
            seasonal: Fraction::new(5, 7),
            priority: Fraction::new(7, 10),
            ..PRESENT
        };
        assert_eq!(s_and_p(&settings, 14), (10, 7));
        // 5/7 of 13 is 9.3, and 7/10 of that 6.5; of the rounded 9 it is 6.3.
        assert_eq!(s_and_p(&settings, 13), (9, 6));
        // 5/7 of 12 is 8.6, and 7/10 of that 6.0; of the rounded 8 it is 5.6.
        assert_eq!(s_and_p(&settings, 12), (8, 5));
    }

    /// 02, 1/14: a fifth and a half are rounded down.
    #[test]
    fn fifth_and_half_are_rounded_down() {
        let both = |load| {
            let without = eligible_without_evidence(&PRESENT, load);
            (without, eligible_with_evidence(&PRESENT, load))
        };
        assert_eq!(both(0), (0, 0));
        assert_eq!(both(1), (0, 0));
        assert_eq!(both(4), (0, 2));
        assert_eq!(both(5), (1, 2));
        assert_eq!(both(1_009), (201, 504));
    }
}
