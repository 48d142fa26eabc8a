//! Evidence from the accepted calls, and what it comes to in a term.

use model::Verify;

/// Evidence that was filed, by holder, source and term.
#[derive(Default)]
pub struct EvidenceTally {
    /// Whether there is evidence for the term.
    counts: [[[bool; 4]; 16]; 8],
    /// kW of that evidence.
    kw: [[[u64; 4]; 16]; 8],
    /// kW of the ten-year evidence for the season, by holder.
    pub ten_year_kw: [u64; 8],
    /// Whether there is such evidence, by holder and source.
    pub ten_year_at: [[bool; 16]; 8],
}

/// What a holder's evidence at a source comes to in a term.
#[derive(Clone, Copy, Debug, PartialEq, Eq)]
pub enum EvidenceState {
    /// No evidence of any term.
    Nothing,
    /// Evidence of other terms alone.
    OtherTerms,
    /// Evidence of 0 kW.
    ZeroKw,
    /// Evidence of some kW, all of it taken.
    UsedUp,
    /// Evidence with kW left.
    KwLeft,
}

impl EvidenceState {
    pub const ALL: [EvidenceState; 5] = [
        EvidenceState::Nothing,
        EvidenceState::OtherTerms,
        EvidenceState::ZeroKw,
        EvidenceState::UsedUp,
        EvidenceState::KwLeft,
    ];

    /// Whether there is evidence for the term.
    pub fn for_the_term(self) -> bool {
        !matches!(self, EvidenceState::Nothing | EvidenceState::OtherTerms)
    }
}

impl EvidenceTally {
    /// Evidence is for its months, and for the season if it runs through all
    /// three. Ten-year evidence is marked and for the season.
    pub fn accept(&mut self, verify: &Verify) {
        let (holder, source) = (verify.holder as usize, verify.source as usize);
        let kw = match verify.kind {
            1 => verify.capacity * verify.right / 10_000,
            _ => verify.right,
        };
        let months = verify.first_month as usize..=verify.last_month as usize;
        let season = months == (1..=3);
        for term in months.chain(season.then_some(0)) {
            self.counts[holder][source][term] = true;
            self.kw[holder][source][term] += kw;
        }
        if verify.ten_year == 1 && season {
            self.ten_year_at[holder][source] = true;
            self.ten_year_kw[holder] += kw;
        }
    }

    /// What the evidence comes to where so many kW of it are taken, and the kW
    /// left; none where more is taken than there is.
    pub fn state(
        &self,
        holder: usize,
        source: usize,
        term: usize,
        taken: u64,
    ) -> Option<(EvidenceState, u64)> {
        let (terms, kw) = (self.counts[holder][source], self.kw[holder][source][term]);
        let left = kw.checked_sub(taken)?;
        let state = match (terms[term], left) {
            (false, _) if terms.contains(&true) => EvidenceState::OtherTerms,
            (false, _) => EvidenceState::Nothing,
            (true, 0) if kw == 0 => EvidenceState::ZeroKw,
            (true, 0) => EvidenceState::UsedUp,
            (true, _) => EvidenceState::KwLeft,
        };
        Some((state, left))
    }
}
