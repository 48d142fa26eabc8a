//! Rights posted before tier 1 opens: carry and prior.

use crate::book::Book;
use crate::calendar::before_tier;
use crate::calls::{OnPath, Prior};
use crate::refusals::{
    refuse_if, NOT_AT_THIS_TIME, NOT_IN_BOOK, OUT_OF_RANGE, POSTED_BEFORE, SINK_INELIGIBLE,
};
use crate::sizes::MAX_KW;

/// Carry: causes 2 to 5 and 10; then Long Term rights are held in each month,
/// on top of what migration has brought.
pub(crate) fn carry(book: &mut Book, carry: &OnPath) -> Result<(), u64> {
    let known = book.has_holder(carry.holder) && book.has_path(carry.path);
    refuse_if(!known, NOT_IN_BOOK)?;
    refuse_if(!(1..=MAX_KW).contains(&carry.kw), OUT_OF_RANGE)?;
    refuse_if(!before_tier(book, 1), NOT_AT_THIS_TIME)?;
    let (holder, path) = (carry.holder as usize, carry.path as usize);
    refuse_if(book.carry_posted[holder][path], POSTED_BEFORE)?;
    let not_for_it = book.sink_ineligible(holder, book.path_sink[path]);
    refuse_if(not_for_it, SINK_INELIGIBLE)?;

    for month in &mut book.carried[holder][path] {
        *month += carry.kw;
    }
    book.carry_posted[holder][path] = true;
    Ok(())
}

/// Prior: causes 2 to 5 and 10; then a and a - l are added, each a record of
/// its own, on top of what migration has brought.
pub(crate) fn prior(book: &mut Book, prior: &Prior) -> Result<(), u64> {
    let known = book.has_holder(prior.holder) && book.has_path(prior.path);
    refuse_if(!known, NOT_IN_BOOK)?;
    let in_range = (1..=MAX_KW).contains(&prior.allocated) && prior.long_term <= prior.allocated;
    refuse_if(!in_range, OUT_OF_RANGE)?;
    refuse_if(!before_tier(book, 1), NOT_AT_THIS_TIME)?;
    let (holder, path) = (prior.holder as usize, prior.path as usize);
    refuse_if(book.prior_posted[holder][path], POSTED_BEFORE)?;
    let not_for_it = book.sink_ineligible(holder, book.path_sink[path]);
    refuse_if(not_for_it, SINK_INELIGIBLE)?;

    book.prior_allocated[holder][path] += prior.allocated;
    book.prior_remaining[holder][path] += prior.allocated - prior.long_term;
    book.prior_posted[holder][path] = true;
    Ok(())
}
