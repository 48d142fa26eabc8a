//! Evidence of ownership or contract, and the kW it verifies.

use crate::book::Book;
use crate::calls::Verify;
use crate::refusals::{refuse_if, NOT_AT_THIS_TIME, NOT_IN_BOOK, OUT_OF_RANGE, POSTED_BEFORE};
use crate::sizes::{FULL_OWNERSHIP, MAX_KW};

/// What was shown for one holder, source and kind.
#[derive(Clone, Copy, Debug, PartialEq, Eq)]
pub enum Evidence {
    Empty,
    /// Ownership of so many ten-thousandths of the capacity.
    Ownership {
        capacity: u64,
        right: u64,
    },
    /// A contract for so many kW of the capacity.
    Contract {
        capacity: u64,
        right: u64,
    },
}

/// An entry of evidence beside its first and last month and its ten-year mark.
#[derive(Clone, Copy, Debug, PartialEq, Eq)]
pub struct Entry {
    pub evidence: Evidence,
    pub first_month: u64,
    pub last_month: u64,
    /// Whether it is marked ten-year.
    pub ten_year: bool,
}

impl Evidence {
    /// Verify: an ownership gives its share of the capacity, rounded down; a
    /// contract gives its right.
    pub fn kw(&self) -> u64 {
        match *self {
            Evidence::Empty => 0,
            Evidence::Ownership { capacity, right } => capacity * right / FULL_OWNERSHIP,
            Evidence::Contract { right, .. } => right,
        }
    }
}

impl Entry {
    pub(crate) const EMPTY: Entry = Entry {
        evidence: Evidence::Empty,
        first_month: 0,
        last_month: 0,
        ten_year: false,
    };

    /// Verify: an entry counts for the months it runs through, and for the
    /// season (term 0) only if it runs through all three.
    pub fn counts_for(&self, term: usize) -> bool {
        match term {
            0 => self.first_month == 1 && self.last_month == 3,
            month => (self.first_month..=self.last_month).contains(&(month as u64)),
        }
    }

    /// Term 0 ten-year evidence: marked, and for the whole season. It may come
    /// to 0 kW.
    pub fn is_ten_year(&self) -> bool {
        self.ten_year && self.counts_for(0)
    }
}

/// Verify: causes 2 to 5; then the entry is filed. The kind of the holder is
/// not asked for.
pub(crate) fn verify(book: &mut Book, verify: &Verify) -> Result<(), u64> {
    let known = book.has_holder(verify.holder) && book.has_source(verify.source);
    refuse_if(!known, NOT_IN_BOOK)?;
    refuse_if(!in_range(verify), OUT_OF_RANGE)?;
    refuse_if(book.open_tier.is_some(), NOT_AT_THIS_TIME)?;
    let (holder, source) = (verify.holder as usize, verify.source as usize);
    let entry = &mut book.evidence[holder][source][verify.kind as usize - 1];
    refuse_if(entry.evidence != Evidence::Empty, POSTED_BEFORE)?;

    let (capacity, right) = (verify.capacity, verify.right);
    *entry = Entry {
        evidence: match verify.kind {
            1 => Evidence::Ownership { capacity, right },
            _ => Evidence::Contract { capacity, right },
        },
        first_month: verify.first_month,
        last_month: verify.last_month,
        ten_year: verify.ten_year == 1,
    };
    Ok(())
}

/// Cause 3 of verify: the kind, the capacity, the right by kind, the months,
/// the ten-year mark.
fn in_range(verify: &Verify) -> bool {
    let max_right = match verify.kind {
        1 => FULL_OWNERSHIP,
        2 => verify.capacity,
        _ => return false,
    };
    (1..=MAX_KW).contains(&verify.capacity)
        && (1..=max_right).contains(&verify.right)
        && verify.first_month >= 1
        && verify.first_month <= verify.last_month
        && verify.last_month <= 3
        && verify.ten_year <= 1
}

/// The kW verified for a holder at a source in a term: both kinds add.
pub(crate) fn verified(book: &Book, holder: usize, source: usize, term: usize) -> u64 {
    book.evidence[holder][source]
        .iter()
        .filter(|entry| entry.counts_for(term))
        .map(|entry| entry.evidence.kw())
        .sum()
}

/// Whether a holder has evidence at a source that counts for a term, of either
/// kind. It may come to 0 kW.
pub(crate) fn has_evidence(book: &Book, holder: usize, source: usize, term: usize) -> bool {
    let entries = &book.evidence[holder][source];
    entries.iter().any(|entry| entry.counts_for(term))
}

/// The kW of a holder's term 0 ten-year evidence: both kinds, each rounded by
/// itself, summed over the sources of the book, whether a path starts there or
/// not.
pub(crate) fn ten_year_kw(book: &Book, holder: usize) -> u64 {
    book.evidence[holder][..book.sources]
        .iter()
        .flatten()
        .filter(|entry| entry.is_ten_year())
        .map(|entry| entry.evidence.kw())
        .sum()
}

/// Whether a holder has term 0 ten-year evidence at a source, of either kind.
pub(crate) fn has_ten_year(book: &Book, holder: usize, source: usize) -> bool {
    book.evidence[holder][source].iter().any(Entry::is_ten_year)
}

#[cfg(test)]
mod tests {
    use super::*;

    /// Verify: ownership rounds its share down, a contract gives its right.
    #[test]
    fn ownership_rounds_down_and_contract_gives_its_right() {
        let owned = |capacity, right| Evidence::Ownership { capacity, right }.kw();
        assert_eq!(owned(1_000, 3_333), 333);
        assert_eq!(owned(1, 9_999), 0);
        assert_eq!(owned(MAX_KW, FULL_OWNERSHIP), MAX_KW);
        let contract = Evidence::Contract {
            capacity: 1_000,
            right: 3,
        };
        assert_eq!(contract.kw(), 3);
        assert_eq!(Evidence::Empty.kw(), 0);
    }

    /// Verify: which terms an entry counts for, for each run of months.
    #[test]
    fn evidence_counts_for_its_months_and_for_the_season_only_if_whole() {
        for first_month in 1..=3 {
            for last_month in first_month..=3 {
                let entry = Entry {
                    evidence: Evidence::Empty,
                    first_month,
                    last_month,
                    ten_year: false,
                };
                for month in 1..=3u64 {
                    let runs = first_month <= month && month <= last_month;
                    assert_eq!(entry.counts_for(month as usize), runs);
                }
                assert_eq!(entry.counts_for(0), (first_month, last_month) == (1, 3));
            }
        }
        for term in 0..=3 {
            assert!(!Entry::EMPTY.counts_for(term));
        }
    }

    /// 02, 1/14: ten-year evidence is marked and runs through the season, of
    /// whatever kW; each of the two alone is not enough.
    #[test]
    fn ten_year_evidence_is_marked_and_runs_through_the_season() {
        for first_month in 1..=3 {
            for last_month in first_month..=3 {
                for ten_year in [false, true] {
                    let entry = Entry {
                        evidence: Evidence::Ownership {
                            capacity: 1,
                            right: 1,
                        },
                        first_month,
                        last_month,
                        ten_year,
                    };
                    let season = (first_month, last_month) == (1, 3);
                    assert_eq!(entry.is_ten_year(), season && ten_year);
                    assert_eq!(entry.counts_for(0), season);
                }
            }
        }
        assert!(!Entry::EMPTY.is_ten_year());
    }
}
