//! Migration of customers: netting by pair of holders, and what goes along.

use crate::book::Book;
use crate::calendar::migration_in_time;
use crate::calls::{ClassLine, Migrate};
use crate::refusals::{
    refuse_if, LOSS_ABOVE_LOAD, NOT_AT_THIS_TIME, NOT_BETWEEN_LSES, NOT_IN_BOOK, OUT_OF_RANGE,
};
use crate::sizes::{MAX_CLASS_LINES, MAX_HOLDERS, MAX_PER_CLASS};

/// m kW from a loser to a gainer.
pub(crate) struct Transfer {
    pub(crate) loser: usize,
    pub(crate) gainer: usize,
    pub(crate) m: u64,
}

/// One record of a holder on a path, of those that migration shares out.
#[derive(Clone, Copy)]
enum Record {
    /// The carried holding of a month, by index.
    Carried(usize),
    /// The awarded holding of a month, by index.
    Awarded(usize),
    /// Prior's a.
    Allocated,
    /// Prior's a - l.
    Remaining,
}

/// Migration: causes 2 to 4, 8 and 9; then load and records move, all shares
/// being reckoned from the values before the call.
pub(crate) fn migrate(book: &mut Book, migrate: &Migrate) -> Result<(), u64> {
    refuse_if(!all_known(book, migrate), NOT_IN_BOOK)?;
    refuse_if(!in_range(migrate), OUT_OF_RANGE)?;
    refuse_if(!migration_in_time(book, migrate.term), NOT_AT_THIS_TIME)?;
    refuse_if(any_not_between_lses(book, migrate.lines), NOT_BETWEEN_LSES)?;
    let (sink, term) = (migrate.sink as usize, migrate.term as usize);
    let load = column(|holder| book.load[holder][sink][term]);
    let transfers = net(migrate.lines);
    refuse_if(any_loss_exceeds_load(&transfers, &load), LOSS_ABOVE_LOAD)?;

    transfer_load(book, sink, term, &transfers);
    transfer_records(book, sink, term, &transfers, &load);
    Ok(())
}

/// Cause 2: the sink, and both holders of every line.
pub(crate) fn all_known(book: &Book, migrate: &Migrate) -> bool {
    let line_known = |line: &ClassLine| book.has_holder(line.from) && book.has_holder(line.to);
    book.has_sink(migrate.sink) && migrate.lines.iter().all(line_known)
}

/// Cause 3: the term, the number of lines, and every line's other fields.
pub(crate) fn in_range(migrate: &Migrate) -> bool {
    let line_in_range = |line: &ClassLine| {
        (1..=8).contains(&line.class)
            && line.customers <= MAX_PER_CLASS
            && line.watts <= MAX_PER_CLASS
    };
    migrate.term <= 3
        && migrate.lines.len() <= MAX_CLASS_LINES
        && migrate.lines.iter().all(line_in_range)
}

/// Cause 8: customers that stay where they are, or a kind 2 holder.
fn any_not_between_lses(book: &Book, lines: &[ClassLine]) -> bool {
    lines.iter().any(|line| {
        line.from == line.to
            || book.is_obaalse(line.from as usize)
            || book.is_obaalse(line.to as usize)
    })
}

/// For each pair of holders: the watts are summed each way over all classes,
/// the smaller sum comes off the larger, and only then the rest is rounded
/// down to kW. A pair with nothing left moves nothing.
pub(crate) fn net(lines: &[ClassLine]) -> Vec<Transfer> {
    let mut watts = [[0; MAX_HOLDERS]; MAX_HOLDERS];
    for line in lines {
        watts[line.from as usize][line.to as usize] += line.customers * line.watts;
    }
    let pairs =
        (0..MAX_HOLDERS).flat_map(|loser| (0..MAX_HOLDERS).map(move |gainer| (loser, gainer)));
    let rest = pairs.map(|(loser, gainer)| {
        let lost: u64 = watts[loser][gainer];
        let m = lost.saturating_sub(watts[gainer][loser]) / 1_000;
        Transfer { loser, gainer, m }
    });
    rest.filter(|one| one.m > 0).collect()
}

/// Cause 9: what a loser loses to all gainers is more than its load. At a
/// Sub-LAP no load is ever posted, so every m is more than that.
pub(crate) fn any_loss_exceeds_load(transfers: &[Transfer], load: &[u64; MAX_HOLDERS]) -> bool {
    let lost_by = |holder| -> u64 {
        let own = transfers.iter().filter(|one| one.loser == holder);
        own.map(|one| one.m).sum()
    };
    (0..MAX_HOLDERS).any(|holder| lost_by(holder) > load[holder])
}

/// Load m moves from loser to gainer, at the sink and term of the call.
fn transfer_load(book: &mut Book, sink: usize, term: usize, transfers: &[Transfer]) {
    // In any order: a holder's losses are within its load before the call.
    for one in transfers {
        book.load[one.loser][sink][term] -= one.m;
        book.load[one.gainer][sink][term] += one.m;
    }
}

/// The records of a term, each of them shared out apart from the others.
fn records_of(term: usize) -> &'static [Record] {
    use Record::{Allocated, Awarded, Carried, Remaining};
    match term {
        0 => &[Carried(0), Carried(1), Carried(2), Allocated, Remaining],
        1 => &[Carried(0), Awarded(0)],
        2 => &[Carried(1), Awarded(1)],
        _ => &[Carried(2), Awarded(2)],
    }
}

/// Every record of the term on every path with this base is shared out.
fn transfer_records(
    book: &mut Book,
    base: usize,
    term: usize,
    transfers: &[Transfer],
    load: &[u64; MAX_HOLDERS],
) {
    if transfers.is_empty() {
        return;
    }
    for path in 0..book.paths {
        if book.base_of_path(path) != base {
            continue;
        }
        for &record in records_of(term) {
            let before = column(|holder| *record_of(book, holder, path, record));
            let after = shared_out(&before, transfers, load);
            for (holder, value) in after.into_iter().enumerate() {
                *record_of(book, holder, path, record) = value;
            }
        }
    }
}

/// A gainer gets m out of L of the loser's value, rounded down, the value
/// being the one before the call. What is gained is not shared out again.
///
/// v and m stay below 2^31, so the product fits; and since a loser's m
/// together are within L, its shares together are within v.
pub(crate) fn shared_out(
    before: &[u64; MAX_HOLDERS],
    transfers: &[Transfer],
    load: &[u64; MAX_HOLDERS],
) -> [u64; MAX_HOLDERS] {
    let mut after = *before;
    for one in transfers {
        let share = before[one.loser] * one.m / load[one.loser];
        after[one.loser] -= share;
        after[one.gainer] += share;
    }
    after
}

/// One value for each holder.
fn column(mut value: impl FnMut(usize) -> u64) -> [u64; MAX_HOLDERS] {
    let mut values = [0; MAX_HOLDERS];
    for (holder, slot) in values.iter_mut().enumerate() {
        *slot = value(holder);
    }
    values
}

/// Where the book keeps a record.
fn record_of(book: &mut Book, holder: usize, path: usize, record: Record) -> &mut u64 {
    match record {
        Record::Carried(month) => &mut book.carried[holder][path][month],
        Record::Awarded(month) => &mut book.awarded[holder][path][month],
        Record::Allocated => &mut book.prior_allocated[holder][path],
        Record::Remaining => &mut book.prior_remaining[holder][path],
    }
}

#[cfg(test)]
mod tests {
    use super::*;

    fn line(from: u64, to: u64, customers: u64, watts: u64) -> ClassLine {
        ClassLine {
            from,
            to,
            class: 1,
            customers,
            watts,
        }
    }

    fn netted(lines: &[ClassLine]) -> Vec<(usize, usize, u64)> {
        let transfers = net(lines);
        transfers.iter().map(|o| (o.loser, o.gainer, o.m)).collect()
    }

    /// Migration: netting comes before rounding (marked case 10).
    #[test]
    fn netting_comes_before_rounding() {
        assert_eq!(netted(&[line(0, 1, 1, 1_500), line(1, 0, 1, 501)]), []);
        assert_eq!(
            netted(&[line(0, 1, 1, 1_500), line(1, 0, 1, 500)]),
            [(0, 1, 1)]
        );
    }

    /// Migration: equal lines add, and so do unlike lines of a pair.
    #[test]
    fn lines_of_a_pair_add() {
        assert_eq!(netted(&[line(2, 1, 3, 500); 2]), [(2, 1, 3)]);
        assert_eq!(
            netted(&[line(2, 1, 3, 500), line(2, 1, 1, 499)]),
            [(2, 1, 1)]
        );
    }

    /// Migration: pairs are netted each on its own, not around a ring.
    #[test]
    fn each_pair_is_netted_on_its_own() {
        let ring = [
            line(0, 1, 1, 1_000),
            line(1, 2, 1, 1_000),
            line(2, 0, 1, 1_000),
        ];
        assert_eq!(netted(&ring), [(0, 1, 1), (1, 2, 1), (2, 0, 1)]);
    }

    /// Migration: the largest lines there can be still fit the sums.
    #[test]
    fn the_largest_lines_fit() {
        let lines = [line(0, 1, MAX_PER_CLASS, MAX_PER_CLASS); MAX_CLASS_LINES];
        assert_eq!(netted(&lines), [(0, 1, 6_399_998_720_000)]);
    }
}
