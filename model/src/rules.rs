//! Single rules on plain numbers, for those who hold other code against them.
//!
//! Nothing is reckoned here: each function puts its numbers before the same
//! functions that the calls go through.

use crate::book::Book;
use crate::calls::{Block, Call, ClassLine, Load, Migrate, Verify};
use crate::migrate::{all_known, any_loss_exceeds_load, in_range, net, shared_out};
use crate::opening::{Opening, DEFAULT_LAP, LSE};
use crate::settings::Settings;
use crate::sizes::{MAX_HOLDERS, TERMS};
use crate::{calendar, evidence, limit, load};

/// The sums that a limit is made of, for one holder and base.
#[derive(Clone, Copy, Debug, Default, PartialEq, Eq)]
pub struct Sums {
    /// A: the load at the tier's term.
    pub load: u64,
    /// LT: the carried holding.
    pub carried: u64,
    /// The sum of prior's a.
    pub prior: u64,
    /// T1, T2 and T3: the awards in tiers 1 to 3.
    pub season: [u64; 3],
    /// The awards in the tier just before, asked for by tiers 5, 7 and 9.
    pub before: u64,
}

/// The load posted, or the refusal: causes 6 and 7.
///
/// Hours and contract may be of any size, as long as the hours times each
/// numerator, and the missing hours times their denominator, fit 64 bits.
pub fn posted(
    settings: &Settings,
    blocks: &[Block],
    hours: u64,
    contract: u64,
) -> Result<u64, u64> {
    let load = Load {
        holder: 0,
        sink: 0,
        term: 0,
        contract,
        hours,
        blocks,
    };
    load::metered(settings, &load)
}

/// S of a load.
pub fn seasonal_eligible(settings: &Settings, load: u64) -> u64 {
    limit::seasonal_eligible(settings, load)
}

/// P of a load.
pub fn priority_eligible(settings: &Settings, load: u64) -> u64 {
    limit::priority_eligible(settings, load)
}

/// What the Long Term step gives of a load without ten-year evidence.
pub fn eligible_without_evidence(settings: &Settings, load: u64) -> u64 {
    limit::eligible_without_evidence(settings, load)
}

/// The most that it gives with such evidence.
pub fn eligible_with_evidence(settings: &Settings, load: u64) -> u64 {
    limit::eligible_with_evidence(settings, load)
}

/// The term of a tier 1 to 9, or of the Long Term step.
pub fn term_of(tier: u64) -> usize {
    calendar::term_of(tier)
}

/// The limit of an LSE in a tier 1 to 9, or in the Long Term step without
/// ten-year evidence, from a book of one path with these sums.
///
/// The load times each numerator, and the awards with LT, have to fit 64 bits.
pub fn limit(settings: &Settings, tier: u64, sums: &Sums) -> u64 {
    let mut book = book_of(1);
    book.settings = *settings;
    book.load[0][0] = [sums.load; TERMS];
    book.carried[0][0] = [sums.carried; 3];
    book.prior_allocated[0][0] = sums.prior;
    let awards = &mut book.tier_awards[0][0];
    awards[..3].copy_from_slice(&sums.season);
    if tier >= 5 {
        awards[tier as usize - 2] = sums.before;
    }
    limit::limit(&book, 0, 0, tier)
}

/// The evidence that is filed, or the refusal.
pub fn entry(verify: &Verify) -> Result<evidence::Entry, u64> {
    let book = verified_book(verify)?;
    Ok(book.evidence(0, 0, verify.kind as usize))
}

/// The kW verified in each term by one entry, or the refusal.
pub fn verified(verify: &Verify) -> Result<[u64; TERMS], u64> {
    let book = verified_book(verify)?;
    let mut by_term = [0; TERMS];
    for (term, kw) in by_term.iter_mut().enumerate() {
        *kw = evidence::verified(&book, 0, 0, term);
    }
    Ok(by_term)
}

fn verified_book(verify: &Verify) -> Result<Book, u64> {
    let mut book = book_of(1);
    book.call(&Call::Verify(*verify))?;
    Ok(book)
}

/// Loser, gainer and m of each pair that class lines move kW between, in a
/// book of eight holders; none of it where a line meets cause 2 or 3.
pub fn netted(lines: &[ClassLine]) -> Option<Vec<(usize, usize, u64)>> {
    let migrate = Migrate {
        term: 0,
        sink: 0,
        lines,
    };
    let fit = all_known(&book_of(MAX_HOLDERS), &migrate) && in_range(&migrate);
    let transfers = fit.then(|| net(lines))?;
    Some(transfers.iter().map(|o| (o.loser, o.gainer, o.m)).collect())
}

/// A column of records after the migration of class lines that are fit; none
/// where cause 9 refuses it. Each record times an m has to fit 64 bits.
pub fn transferred(
    column: &[u64; MAX_HOLDERS],
    load: &[u64; MAX_HOLDERS],
    lines: &[ClassLine],
) -> Option<[u64; MAX_HOLDERS]> {
    let transfers = net(lines);
    let refused = any_loss_exceeds_load(&transfers, load);
    (!refused).then(|| shared_out(column, &transfers, load))
}

/// What a holder keeps of a column of records in a migration that cause 9
/// does not refuse: the column shared out by its own losses alone.
pub fn kept(
    column: &[u64; MAX_HOLDERS],
    load: &[u64; MAX_HOLDERS],
    lines: &[ClassLine],
    holder: usize,
) -> u64 {
    let mut transfers = net(lines);
    transfers.retain(|one| one.loser == holder);
    shared_out(column, &transfers, load)[holder]
}

/// A book of load-serving holders with one source, one Default LAP and the
/// path between them.
fn book_of(holders: usize) -> Book {
    let opening = Opening {
        holders: holders as u64,
        sources: 1,
        sinks: 1,
        paths: 1,
        holder_kinds: vec![LSE; holders],
        sink_kinds: vec![DEFAULT_LAP],
        sink_parents: vec![0],
        path_sources: vec![0],
        path_sinks: vec![0],
        settings: Settings::PRESENT,
    };
    Book::open(&opening).expect("an opening that keeps the rules")
}
