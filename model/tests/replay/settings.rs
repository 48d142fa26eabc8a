//! The fractions of a season, and the figures that 7, 13 and 18 are held to.

use super::tally::Tally;
use model::{Book, Fraction, Load, OnPath};

/// A fraction of a quantity, rounded down.
pub fn part(fraction: Fraction, quantity: i64) -> i64 {
    let Fraction {
        numerator,
        denominator,
    } = fraction;
    (quantity * numerator as i64).div_euclid(denominator as i64)
}

/// Whether more hours of a load, whose blocks are sound, are missing than may be.
/// Hours are marked one by one.
fn too_many_missing(fraction: Fraction, load: &Load) -> bool {
    let mut covered = vec![false; load.hours as usize];
    for block in load.blocks {
        covered[block.first as usize..][..block.length as usize].fill(true);
    }
    let missing = covered.iter().filter(|&&hour| !hour).count() as u64;
    missing * fraction.denominator > load.hours * fraction.numerator
}

/// The first of P, the sum of a and the sixth fraction of A that is below both
/// others.
pub fn strictly_least(three: [i64; 3]) -> Option<usize> {
    (0..3).find(|&one| (0..3).all(|other| other == one || three[one] < three[other]))
}

impl Tally {
    /// A load is refused with 7 where too many hours are missing, and accepted
    /// only where they are not.
    pub fn check_missing(&self, load: &Load, refused: bool, seed: u64) {
        let missing = too_many_missing(self.settings.missing, load);
        assert_eq!(missing, refused, "seed {seed}");
    }

    /// A nomination refused with 13 would go above the limit, which it does not
    /// without it.
    pub fn check_above_limit(&self, nominate: &OnPath, book: &Book, seed: u64) {
        let (holder, path) = (nominate.holder as usize, nominate.path as usize);
        let base = book.base(book.path_sink(path));
        let nominated = self.nominated_at(book, holder, base);
        let limit = self.limits[holder][base];
        assert!(
            nominated <= limit && limit < nominated + nominate.kw,
            "seed {seed}"
        );
    }

    /// A nomination refused with 18 is of a kind 2 holder or would go, with LT,
    /// above what the step gives without evidence; and its source, or that of
    /// an earlier nomination at the base, has no ten-year evidence.
    pub fn check_no_ten_year(&self, nominate: &OnPath, book: &Book, seed: u64) {
        let (holder, path) = (nominate.holder as usize, nominate.path as usize);
        let base = book.base(book.path_sink(path));
        let asked = self.asks_for_evidence(book, holder, path, nominate.kw);
        let lacking = (0..book.paths())
            .filter(|&other| book.base(book.path_sink(other)) == base)
            .filter(|&other| other == path || self.nominated[holder][other] > 0)
            .any(|other| !self.evidence.ten_year_at[holder][book.path_source(other)]);
        assert!(asked && lacking, "seed {seed}");
    }
}
