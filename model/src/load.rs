//! Posting of load: the block list, the metric and what is added.

use crate::book::Book;
use crate::calendar::load_in_time;
use crate::calls::{Block, Load};
use crate::refusals::{
    refuse_if, BROKEN_BLOCKS, HOURS_MISSING, NOT_AT_THIS_TIME, NOT_IN_BOOK, OUT_OF_RANGE,
    POSTED_BEFORE, SINK_INELIGIBLE,
};
use crate::settings::{Fraction, Settings};
use crate::sizes::{MAX_BLOCKS, MAX_HOURS, MAX_KW};

/// Load: causes 2 to 7 and 10, then the load posted is added.
pub(crate) fn post(book: &mut Book, load: &Load) -> Result<(), u64> {
    let known = book.has_holder(load.holder) && book.has_sink(load.sink);
    refuse_if(!known, NOT_IN_BOOK)?;
    refuse_if(!in_range(load), OUT_OF_RANGE)?;
    refuse_if(!load_in_time(book, load.term), NOT_AT_THIS_TIME)?;
    let (holder, sink) = (load.holder as usize, load.sink as usize);
    let term = load.term as usize;
    refuse_if(book.load_posted[holder][sink][term], POSTED_BEFORE)?;
    let kw = metered(&book.settings, load)?;
    let not_for_it = book.sink_ineligible(holder, sink) || book.is_sub_lap(sink);
    refuse_if(not_for_it, SINK_INELIGIBLE)?;

    book.load[holder][sink][term] += kw;
    book.load_posted[holder][sink][term] = true;
    Ok(())
}

/// What the meter feed gives: causes 6 and 7, and then the load posted.
pub(crate) fn metered(settings: &Settings, load: &Load) -> Result<u64, u64> {
    refuse_if(blocks_broken(load.blocks, load.hours), BROKEN_BLOCKS)?;
    refuse_if(too_many_missing(settings.missing, load), HOURS_MISSING)?;
    Ok(load_posted(settings.exceedance, load))
}

/// Cause 3 of a load. First hours and lengths are left to cause 6.
fn in_range(load: &Load) -> bool {
    load.term <= 3
        && load.contract <= MAX_KW
        && (1..=MAX_HOURS).contains(&load.hours)
        && load.blocks.len() <= MAX_BLOCKS
        && load.blocks.iter().all(|block| block.kw <= MAX_KW)
}

/// Cause 6: no block, or one that has no hour, starts before the one before
/// it ends, or ends after hour n.
fn blocks_broken(blocks: &[Block], hours: u64) -> bool {
    let mut free_from = 0;
    for block in blocks {
        let end = block.first.checked_add(block.length);
        match end {
            Some(end) if block.first >= free_from && block.length >= 1 && end <= hours => {
                free_from = end;
            }
            _ => return true,
        }
    }
    blocks.is_empty()
}

/// Hours that a block covers; the blocks are sound when this is asked.
fn present_hours(blocks: &[Block]) -> u64 {
    blocks.iter().map(|block| block.length).sum()
}

/// Cause 7: more of the hours are missing than the share that may be, which is
/// not rounded.
fn too_many_missing(share: Fraction, load: &Load) -> bool {
    share.passed_by(load.hours - present_hours(load.blocks), load.hours)
}

/// The load posted: the metric less contract load, not below 0.
fn load_posted(exceedance: Fraction, load: &Load) -> u64 {
    metric(load.blocks, exceedance).saturating_sub(load.contract)
}

/// The lowest block kW that no more present hours lie above than the exceedance
/// lets, rounded down: one in 200 today. Hours count, not blocks. With no block
/// it is 0.
///
/// The blocks must be in range: no more hours than a load can have.
pub(crate) fn metric(blocks: &[Block], exceedance: Fraction) -> u64 {
    let allowed = exceedance.of(present_hours(blocks));
    let mut falling: Vec<(u64, u64)> = blocks.iter().map(|b| (b.kw, b.length)).collect();
    falling.sort_unstable_by_key(|&(kw, _)| std::cmp::Reverse(kw));

    let mut smallest = 0;
    // Hours above the kW at hand; equal kW do not exceed each other.
    let mut exceeding = 0;
    let mut rest = falling.as_slice();
    while let Some(&(kw, _)) = rest.first() {
        if exceeding > allowed {
            break;
        }
        smallest = kw;
        let equal = rest.iter().take_while(|&&(other, _)| other == kw).count();
        exceeding += rest[..equal].iter().map(|&(_, hours)| hours).sum::<u64>();
        rest = &rest[equal..];
    }
    smallest
}

#[cfg(test)]
mod tests {
    use super::*;
    use crate::generate::Random;

    fn blocks(list: &[(u64, u64)]) -> Vec<Block> {
        let mut first = 0;
        list.iter()
            .map(|&(length, kw)| {
                first += length;
                Block {
                    first: first - length,
                    length,
                    kw,
                }
            })
            .collect()
    }

    /// The metric with the exceedance of today.
    fn metric_today(blocks: &[Block]) -> u64 {
        metric(blocks, Settings::PRESENT.exceedance)
    }

    /// Load, metric: said over again hour by hour, as slowly as it reads.
    fn metric_hour_by_hour(blocks: &[Block], exceedance: Fraction) -> u64 {
        let hours: Vec<u64> = blocks
            .iter()
            .flat_map(|b| vec![b.kw; b.length as usize])
            .collect();
        let product = hours.len() * exceedance.numerator as usize;
        let allowed = product / exceedance.denominator as usize;
        let fits = |kw: &u64| hours.iter().filter(|&&h| h > *kw).count() <= allowed;
        blocks.iter().map(|b| b.kw).filter(fits).min().unwrap_or(0)
    }

    /// Load, metric: the sorted reckoning agrees with the one hour by hour.
    #[test]
    fn metric_is_the_smallest_block_kw_exceeded_in_so_few_hours() {
        let mut random = Random::new(1);
        for _ in 0..3_000 {
            let count = random.up_to(12);
            let ceiling = if random.one_in(2) { 3 } else { 1_000 };
            let list: Vec<(u64, u64)> = (0..count)
                .map(|_| (1 + random.up_to(180), random.up_to(ceiling)))
                .collect();
            let blocks = blocks(&list);
            let denominator = random.select(&[1, 2, 7, 100, 200, 1_000]);
            let any = Fraction::new(random.up_to(denominator), denominator);
            for exceedance in [Settings::PRESENT.exceedance, any] {
                let slow = metric_hour_by_hour(&blocks, exceedance);
                let fast = metric(&blocks, exceedance);
                assert_eq!(fast, slow, "{list:?} {exceedance:?}");
            }
        }
    }

    /// Load, metric: one hour above is allowed from 200 present hours on.
    #[test]
    fn metric_allows_one_hour_above_from_200_present_hours() {
        assert_eq!(metric_today(&blocks(&[(198, 7), (1, 9)])), 9);
        assert_eq!(metric_today(&blocks(&[(199, 7), (1, 9)])), 7);
        assert_eq!(metric_today(&blocks(&[(197, 7), (1, 8), (2, 9)])), 9);
        assert_eq!(metric_today(&blocks(&[(198, 7), (1, 8), (1, 9)])), 8);
        assert_eq!(metric_today(&blocks(&[(397, 7), (2, 8), (1, 9)])), 8);
        assert_eq!(metric_today(&blocks(&[(398, 7), (1, 8), (1, 9)])), 7);
    }

    /// Load, metric: with no block there is nothing to meter.
    #[test]
    fn metric_of_no_block_is_0() {
        assert_eq!(metric_today(&[]), 0);
    }

    /// Load, blocks: first hours and lengths of any size end in cause 6.
    #[test]
    fn blocks_of_any_size_are_broken_without_overflow() {
        let huge = [Block {
            first: u64::MAX,
            length: u64::MAX,
            kw: 0,
        }];
        assert!(blocks_broken(&huge, 2_208));
        assert!(blocks_broken(&[], 2_208));
    }
}
