//! 02, 1/14: when the Long Term step opens, its limit, and its record.

mod common;
use common::step::{awarded, load, show_step, LSE, OBAALSE};
use common::{empty_tiers, show, show_in_book};
use model::Call::{self, Award, Close, Nominate, Open};
use model::{Block, Book, Load, OnPath, Opening, Prior};

/// Open: after tier 1 closes and before tier 2 opens; before, in between and
/// at any time after it is 4.
#[test]
fn the_step_opens_between_tiers_1_and_2() {
    show_in_book(
        "open,10 => no,04
        open,1 => ok
        open,10 => no,04
        close => ok
        open,10 => ok
        close => ok",
    );
    for last in 2..=9 {
        let before = empty_tiers(1..=last - 1);
        show_in_book(&format!(
            "{before}open,{last} => ok
            open,10 => no,04
            close => ok
            open,10 => no,04"
        ));
    }
}

/// Open: a second time is 4, while the step is open and after its close.
#[test]
fn the_step_opens_once() {
    show_in_book(
        "open,1 => ok
        close => ok
        open,10 => ok
        open,10 => no,04
        close => ok
        open,10 => no,04
        open,2 => ok
        open,10 => no,04
        close => ok
        open,10 => no,04",
    );
}

/// Open: a refused try is no first time.
#[test]
fn a_refused_try_is_no_first_time() {
    show_in_book(
        "open,10 => no,04
        open,1 => ok
        open,10 => no,04
        close => ok
        open,10 => ok",
    );
}

/// The step may be skipped; open,2 follows with or without it, and the step
/// does not count as last closed.
#[test]
fn the_step_may_be_skipped_and_is_never_last_closed() {
    let others = empty_tiers(2..=9);
    show_in_book(&format!("open,1 => ok\nclose => ok\n{others}"));
    show_in_book(&format!(
        "open,1 => ok
        close => ok
        open,10 => ok
        close => ok
        open,1 => no,04
        open,3 => no,04
        open,11 => no,03
        {others}"
    ));
}

/// Until its close the step is an open tier to every other call.
#[test]
fn the_step_is_an_open_tier_to_every_other_call() {
    show_in_book(
        "open,1 => ok
        close => ok
        open,10 => ok
        load,0,0,1,0,1,1 => no,04
        block,0,1,1
        carry,0,0,1 => no,04
        prior,0,0,1,0 => no,04
        verify,0,0,2,1,1,1,3,1 => no,04
        migrate,0,0,0 => no,04
        migrate,1,0,0 => no,04
        open,1 => no,04
        open,2 => no,04
        open,10 => no,04
        held,0,0,1 => ok,0
        net,0,1 => ok,0
        limit,0,0 => ok,0
        close => ok
        limit,0,0 => no,04
        nominate,0,0,1 => no,04
        award,0,0,1 => no,04
        close => no,04
        load,0,0,1,0,1,1 => ok
        block,0,1,1
        verify,0,0,2,1,1,1,3,1 => ok",
    );
}

/// The step's close does not bring a month's migration forward: that waits for
/// tier 3.
#[test]
fn the_steps_close_lets_no_migration_through() {
    show_in_book(
        "open,1 => ok
        close => ok
        open,10 => ok
        close => ok
        migrate,0,0,0 => no,04
        migrate,1,0,0 => no,04
        load,0,0,0,0,1,1 => no,04
        block,0,1,1
        carry,0,0,1 => no,04",
    );
}

/// Verify: eight numbers; seven, and nine, are unreadable.
#[test]
fn verify_has_eight_numbers() {
    show_in_book(
        "verify,0,0,1,1,1,1,3 => no,01
        verify,0,0,1,1,1,1,3,0,0 => no,01
        verify,0,0,1,1,1,1,3, => no,01
        verify,0,0,1,1,1,1,3,00 => no,01
        verify,0,0,1,1,1,1,3,1 => ok",
    );
}

/// Limit, no ten-year evidence: floor(A / 5), rounded down, less LT and not
/// below 0.
#[test]
fn limit_is_a_fifth_less_lt() {
    for (a, fifth) in [(0, 0), (4, 0), (5, 1), (9, 1), (10, 2), (1_009, 201)] {
        let tier_1 = awarded(a, [0, 0]);
        show(&format!(
            "{LSE}{tier_1}open,10 => ok\nlimit,0,0 => ok,{fifth}"
        ));
    }
    for (lt, limit) in [(1, 199), (199, 1), (200, 0), (201, 0), (999, 0)] {
        let tier_1 = awarded(1000, [0, 0]);
        show(&format!(
            "{LSE}carry,0,1,{lt} => ok
            {tier_1}open,10 => ok
            limit,0,0 => ok,{limit}"
        ));
    }
}

/// Limit: LT is of the base, its Sub-LAPs with it, and of no other.
#[test]
fn limit_takes_off_lt_of_the_base_alone() {
    let tier_1 = awarded(1000, [0, 0]);
    let other = load(0, 2, 0, 100);
    show(&format!(
        "{LSE}carry,0,2,30 => ok
        carry,0,3,7 => ok
        {other}{tier_1}open,10 => ok
        limit,0,0 => ok,170
        limit,0,1 => ok,170
        limit,0,2 => ok,13"
    ));
}

/// Limit: LT is what migration left of it.
#[test]
fn limit_takes_off_lt_after_migration() {
    let loads = load(0, 0, 0, 1000);
    show_in_book(&format!(
        "{loads}carry,0,0,100 => ok
        migrate,0,0,1 => ok
        class,0,1,1,500,1000
        open,1 => ok
        close => ok
        open,10 => ok
        limit,0,0 => ok,50
        limit,1,0 => ok,50"
    ));
}

/// Limit: A is the season's load, no month's.
#[test]
fn limit_looks_at_the_seasons_load() {
    let months: String = (1..=3).map(|term| load(0, 0, term, 9999)).collect();
    let tier_1 = awarded(100, [0, 0]);
    show(&format!(
        "{LSE}{months}{tier_1}open,10 => ok\nlimit,0,0 => ok,20"
    ));
}

/// Limit: evidence of a fifth does not pass it, one kW more does; from half of
/// A on the limit is half.
#[test]
fn limit_by_ten_year_evidence() {
    for (kw, limit) in [
        (199, 200),
        (200, 200),
        (201, 201),
        (350, 350),
        (499, 499),
        (500, 500),
        (501, 500),
        (99_999_999, 500),
    ] {
        show_step(
            &format!("verify,0,0,2,{kw},{kw},1,3,1 => ok\n"),
            &format!("limit,0,0 => ok,{limit}"),
        );
    }
}

/// Limit: half is rounded down, and LT comes off the lesser of the two.
#[test]
fn limit_of_half_is_rounded_down_and_less_lt() {
    let tier_1 = awarded(1009, [0, 0]);
    for (lt, kw, limit) in [
        (4, 9_999, 500),
        (504, 9_999, 0),
        (505, 9_999, 0),
        (100, 350, 250),
        (350, 350, 0),
        (351, 350, 0),
    ] {
        show(&format!(
            "{LSE}carry,0,0,{lt} => ok
            verify,0,0,2,{kw},{kw},1,3,1 => ok
            {tier_1}open,10 => ok
            limit,0,0 => ok,{limit}"
        ));
    }
}

/// Limit: with a load so small that a fifth is 0 one kW of evidence passes it.
#[test]
fn limit_where_a_fifth_is_0() {
    for (a, limit) in [(0, 0), (1, 0), (2, 1), (3, 1), (4, 1)] {
        let tier_1 = awarded(a, [0, 0]);
        show(&format!(
            "{LSE}verify,0,0,2,1,1,1,3,1 => ok
            {tier_1}open,10 => ok
            limit,0,0 => ok,{limit}"
        ));
    }
}

/// Limit: both kinds add, each rounded by itself, over every source of the
/// book, and one without a path is one.
#[test]
fn ten_year_evidence_is_summed_over_all_sources_and_kinds() {
    show_step(
        "verify,0,0,2,100,100,1,3,1 => ok
        verify,0,0,1,1000,555,1,3,1 => ok
        verify,0,1,1,1000,555,1,3,1 => ok
        verify,0,2,2,90,80,1,3,1 => ok\n",
        "limit,0,0 => ok,290",
    );
    show_step("verify,0,2,2,201,201,1,3,1 => ok\n", "limit,0,0 => ok,201");
}

/// Limit: the sum of evidence is the holder's, the same at each base, and no
/// other holder's.
#[test]
fn ten_year_evidence_serves_every_base_of_its_holder() {
    let loads = [load(0, 0, 0, 1000), load(0, 2, 0, 700), load(1, 0, 0, 1000)].concat();
    show_in_book(&format!(
        "{loads}verify,0,0,2,300,300,1,3,1 => ok
        open,1 => ok
        close => ok
        open,10 => ok
        limit,0,0 => ok,300
        limit,0,2 => ok,300
        limit,1,0 => ok,200
        limit,3,0 => ok,0"
    ));
}

/// Limit: evidence that is not marked, or does not run from month 1 to 3, does
/// not count.
#[test]
fn limit_leaves_out_unmarked_and_shorter_evidence() {
    for entry in ["1,3,0", "1,2,1", "2,3,1", "1,1,1", "3,3,1"] {
        show_step(
            &format!("verify,0,0,2,400,400,{entry} => ok\n"),
            "limit,0,0 => ok,200",
        );
    }
    show_step(
        "verify,0,0,2,300,300,1,3,1 => ok
        verify,0,0,1,100,10000,1,3,0 => ok
        verify,0,1,2,100,100,1,2,1 => ok\n",
        "limit,0,0 => ok,300",
    );
}

/// Limit: half of A for a kind 2 holder, less LT, whatever its evidence.
#[test]
fn limit_of_a_kind_2_holder_is_half_less_lt() {
    for (a, lt, limit) in [
        (1_000, 1, 499),
        (1_000, 499, 1),
        (1_000, 500, 0),
        (1_000, 501, 0),
        (1_009, 4, 500),
        (1, 1, 0),
    ] {
        let tier_1 = awarded(a, [0, 0]);
        let rest = format!("carry,0,0,{lt} => ok\n{tier_1}open,10 => ok\nlimit,0,0 => ok,{limit}");
        show(&format!("{OBAALSE}{rest}"));
        for kw in [1, 250, 9_999] {
            show(&format!(
                "{OBAALSE}verify,0,0,2,{kw},{kw},1,3,1 => ok\n{rest}"
            ));
        }
    }
}

/// A nomination of the step leaves tier 1's and tier 2's records alone.
#[test]
fn the_steps_record_is_its_own() {
    let mut book = book();
    assert!(!book.step_held());
    run(&mut book, &[Open { tier: 1 }]);
    run(&mut book, &[on(Nominate, 300), on(Award, 250), Close]);
    run(
        &mut book,
        &[Open { tier: 10 }, on(Nominate, 200), on(Award, 120)],
    );
    assert_eq!(book.open_tier(), Some(10));
    assert_eq!(
        (book.step_nominated(0, 0), book.step_awards(0, 0)),
        (200, 120)
    );
    run(&mut book, &[Close]);
    assert_eq!(
        (book.step_nominated(0, 0), book.step_awards(0, 0)),
        (120, 120)
    );
    assert!(book.step_held());
    assert_eq!((book.open_tier(), book.last_closed()), (None, 1));
    for tier in 1..=9 {
        let kw = if tier == 1 { 250 } else { 0 };
        assert_eq!(book.nominated(0, 0, tier), kw);
        assert_eq!(book.tier_awards(0, 0, tier), kw);
    }
    for month in 1..=3 {
        assert_eq!(book.awarded(0, 0, month), 250);
    }
}

/// A nomination or an award on path 0.
fn on(call: fn(OnPath) -> Call<'static>, kw: u64) -> Call<'static> {
    call(OnPath {
        holder: 0,
        path: 0,
        kw,
    })
}

fn run(book: &mut Book, calls: &[Call]) {
    for call in calls {
        assert_eq!(book.call(call), Ok(()), "{call:?}");
    }
}

/// A load-serving holder with a load of 1000 and 300 kW of last year.
fn book() -> Book {
    let mut book = Book::open(&Opening {
        holders: 1,
        sources: 1,
        sinks: 1,
        paths: 1,
        holder_kinds: vec![1],
        sink_kinds: vec![1],
        sink_parents: vec![0],
        path_sources: vec![0],
        path_sinks: vec![0],
        ..Opening::default()
    })
    .expect("a book that keeps the rules");
    let block = Block {
        first: 0,
        length: 1,
        kw: 1000,
    };
    let load = Load {
        holder: 0,
        sink: 0,
        term: 0,
        contract: 0,
        hours: 1,
        blocks: &[block],
    };
    let prior = Prior {
        holder: 0,
        path: 0,
        allocated: 300,
        long_term: 0,
    };
    run(&mut book, &[Call::Load(load), Call::Prior(prior)]);
    book
}
