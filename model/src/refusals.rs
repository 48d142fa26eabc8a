//! The nineteen numbers a refusal can have, one for each cause.

/// Script writer: a line, or a line its head counts, cannot be read.
pub const UNREADABLE: u64 = 1;
/// Script writer: a holder, source, sink or path that the book does not have.
pub const NOT_IN_BOOK: u64 = 2;
/// Script writer: any other field outside its range.
pub const OUT_OF_RANGE: u64 = 3;
/// Calendar: the call does not run at this time.
pub const NOT_AT_THIS_TIME: u64 = 4;
/// Calendar: the same thing was posted before.
pub const POSTED_BEFORE: u64 = 5;
/// Meter feed: no block, or blocks that break their order or their end.
pub const BROKEN_BLOCKS: u64 = 6;
/// Meter feed: more hours are missing than may be, one in fifty today.
pub const HOURS_MISSING: u64 = 7;
/// Distribution company: customers moved to their own holder, or a kind 2 holder.
pub const NOT_BETWEEN_LSES: u64 = 8;
/// Distribution company: a holder loses more than its load.
pub const LOSS_ABOVE_LOAD: u64 = 9;
/// Holder: the sink is not for it.
pub const SINK_INELIGIBLE: u64 = 10;
/// Holder: above the kW that the source's evidence for the term verifies.
pub const ABOVE_VERIFIED: u64 = 11;
/// Holder: above last year's allocation left on the path, in tier 1.
pub const ABOVE_PRIOR: u64 = 12;
/// Holder: above the limit.
pub const ABOVE_LIMIT: u64 = 13;
/// Feasibility run: an award of more kW than are nominated and still open.
pub const ABOVE_NOMINATED: u64 = 14;
/// Host: the output buffer is too short.
pub const OUTPUT_TOO_SHORT: u64 = 15;
/// Whoever draws up the book: an opening that no book can be made from.
pub const BREAKS_RULES: u64 = 16;
/// Holder: in the Long Term step, above its own tier 1 award on the path.
pub const ABOVE_TIER_1_AWARD: u64 = 17;
/// Holder: in the Long Term step, a source without term 0 ten-year evidence.
pub const NO_TEN_YEAR_EVIDENCE: u64 = 18;
/// Holder: a source without evidence for the tier's term.
pub const UNVERIFIED: u64 = 19;

/// One cause, looked for: the calls list these in ascending number, 19 directly
/// before 11 and 17 and 18 straight after 12, so the first cause met is the one
/// returned.
pub(crate) fn refuse_if(met: bool, cause: u64) -> Result<(), u64> {
    if met {
        Err(cause)
    } else {
        Ok(())
    }
}
