//! The three queries; none of them changes the book.

use crate::book::Book;
use crate::limit;
use crate::refusals::{refuse_if, NOT_AT_THIS_TIME, NOT_IN_BOOK, OUT_OF_RANGE};

/// Limit: of the sink's base, in the open tier, else 4.
pub(crate) fn limit(book: &Book, holder: u64, sink: u64) -> Result<u64, u64> {
    refuse_if(
        !book.has_holder(holder) || !book.has_sink(sink),
        NOT_IN_BOOK,
    )?;
    let tier = book.open_tier.ok_or(NOT_AT_THIS_TIME)?;
    let base = book.base[sink as usize];
    Ok(limit::limit(book, holder as usize, base, tier))
}

/// Held: the holder's holding on a path in a month, carried plus awarded.
pub(crate) fn held(book: &Book, holder: u64, path: u64, month: u64) -> Result<u64, u64> {
    refuse_if(
        !book.has_holder(holder) || !book.has_path(path),
        NOT_IN_BOOK,
    )?;
    refuse_if(!(1..=3).contains(&month), OUT_OF_RANGE)?;
    Ok(holding(
        book,
        holder as usize,
        path as usize,
        month as usize - 1,
    ))
}

/// Net: the holdings on a path in a month, summed over all holders.
pub(crate) fn net(book: &Book, path: u64, month: u64) -> Result<u64, u64> {
    refuse_if(!book.has_path(path), NOT_IN_BOOK)?;
    refuse_if(!(1..=3).contains(&month), OUT_OF_RANGE)?;
    let holders = 0..book.holders;
    let held = holders.map(|holder| holding(book, holder, path as usize, month as usize - 1));
    Ok(held.sum())
}

fn holding(book: &Book, holder: usize, path: usize, month: usize) -> u64 {
    book.carried[holder][path][month] + book.awarded[holder][path][month]
}
