//! 02, 2/14: nominations of a kind 2 holder at a source without evidence for the
//! term are 19, those with too little of it 11, on both sides of each edge.

mod common;
use common::step::{awarded, load, show_obaalse, LSE, OBAALSE};
use common::{empty_tiers, show, show_in_book, BOOK};

/// The nine tiers with their terms.
const TIERS: [(u64, u64); 9] = [
    (1, 0),
    (2, 0),
    (3, 0),
    (4, 1),
    (5, 1),
    (6, 2),
    (7, 2),
    (8, 3),
    (9, 3),
];

/// A load of 1000 in every term, and last year's 500 on paths 0 and 1.
fn loads_and_priors() -> String {
    let loads: String = (0..=3).map(|term| load(0, 0, term, 1000)).collect();
    loads + "prior,0,0,500,0 => ok\nprior,0,1,500,0 => ok\n"
}

/// An OBAALSE with room under every bound but its evidence, which is posted
/// before tier 1; then a tier, those before it empty, and what runs in it.
#[track_caller]
fn show_tier(evidence: &str, tier: u64, calls: &str) {
    let (posted, before) = (loads_and_priors(), empty_tiers(1..=tier - 1));
    show(&format!(
        "{OBAALSE}{posted}{evidence}{before}open,{tier} => ok\n{calls}"
    ));
}

/// 19: no entry of either kind, in every tier but the step, at any kW.
#[test]
fn no_entry_is_19_in_every_tier() {
    for (tier, _) in TIERS {
        let calls = "nominate,0,0,1 => no,19\nnominate,0,0,99999999 => no,19\n";
        show_tier("", tier, calls);
        show_tier(
            "verify,0,0,2,1,1,1,3,0 => ok\n",
            tier,
            "nominate,0,0,1 => ok",
        );
    }
}

/// 19: the evidence has to be at the path's own source.
#[test]
fn evidence_at_another_source_is_none() {
    for (tier, _) in TIERS {
        show_tier(
            "verify,0,1,1,500,10000,1,3,0 => ok\nverify,0,1,2,500,500,1,3,0 => ok\n",
            tier,
            "nominate,0,0,1 => no,19
            nominate,0,1,500 => ok
            nominate,0,0,1 => no,19",
        );
    }
}

/// 19: the evidence has to be the holder's own.
#[test]
fn evidence_of_another_holder_is_none() {
    let loads = [load(0, 0, 0, 1000), load(1, 0, 0, 1000)].concat();
    let book = OBAALSE.replace("book,1,2,1,2", "book,2,2,1,2");
    let book = book.replace("holder,2", "holder,2\nholder,2");
    show(&format!(
        "{book}{loads}verify,1,0,2,10,10,1,3,0 => ok
        open,1 => ok
        close => ok
        open,2 => ok
        nominate,0,0,1 => no,19
        nominate,1,0,11 => no,11
        nominate,1,0,10 => ok
        nominate,0,0,1 => no,19"
    ));
}

/// 19: evidence for other months alone, for each run of months in each tier. For
/// the season only one that runs 1 to 3 counts.
#[test]
fn evidence_of_other_months_alone_is_19() {
    for entry in ["verify,0,0,1,500,10000", "verify,0,0,2,500,500"] {
        for (first, last) in [(1, 1), (1, 2), (1, 3), (2, 2), (2, 3), (3, 3)] {
            for (tier, term) in TIERS {
                let counts = match term {
                    0 => (first, last) == (1, 3),
                    month => first <= month && month <= last,
                };
                let calls = if counts {
                    "nominate,0,0,501 => no,11\nnominate,0,0,500 => ok\n"
                } else {
                    "nominate,0,0,501 => no,19\nnominate,0,0,1 => no,19\n"
                };
                show_tier(&format!("{entry},{first},{last},0 => ok\n"), tier, calls);
            }
        }
    }
}

/// 11: evidence for the term that comes to 0 kW, in every tier.
#[test]
fn evidence_of_0_kw_for_the_term_is_11() {
    for (tier, _) in TIERS {
        let evidence = "verify,0,0,1,1,1,1,3,0 => ok\n";
        show_tier(evidence, tier, "nominate,0,0,1 => no,11");
    }
    for (tier, term) in TIERS {
        let number = if term == 2 { 11 } else { 19 };
        let evidence = "verify,0,0,1,1,9999,2,2,0 => ok\n";
        show_tier(evidence, tier, &format!("nominate,0,0,1 => no,{number}"));
    }
}

/// 11: evidence for the term that nominations of the tier, or awards of earlier
/// ones, have used up.
#[test]
fn evidence_that_is_used_up_is_11() {
    let used_up = "nominate,0,0,10 => ok\nnominate,0,0,1 => no,11\n";
    let mut script = format!("{used_up}award,0,0,10 => ok\nclose => ok\n");
    for tier in 2..=9 {
        script.push_str(&format!(
            "open,{tier} => ok\nnominate,0,0,1 => no,11\nclose => ok\n"
        ));
    }
    show_tier("verify,0,0,2,10,10,1,3,0 => ok\n", 1, &script);
    let season = "
        nominate,0,0,10 => ok
        award,0,0,10 => ok
        close => ok
        open,5 => ok
        nominate,0,0,1 => no,11
        close => ok
        open,6 => ok
        nominate,0,0,1 => no,19
    ";
    show_tier("verify,0,0,2,10,10,1,1,0 => ok\n", 4, season);
}

/// Either kind of evidence is enough by itself, with a ten-year mark or without.
#[test]
fn one_entry_of_either_kind_is_no_19() {
    for mark in [0, 1] {
        for entry in ["verify,0,0,1,10,10000", "verify,0,0,2,10,10"] {
            for tier in [1, 3, 4, 9] {
                let calls = "nominate,0,0,11 => no,11\nnominate,0,0,10 => ok\n";
                show_tier(&format!("{entry},1,3,{mark} => ok\n"), tier, calls);
            }
        }
    }
}

/// Of two entries at a source one for the term is enough, of either kind, also
/// one of 0 kW beside a large one for other months.
#[test]
fn of_two_entries_one_for_the_term_is_enough() {
    let months = "verify,0,0,2,500,500,2,3,0 => ok\nverify,0,0,1,1,1,1,3,0 => ok\n";
    show_tier(months, 2, "nominate,0,0,1 => no,11");
    show_tier(months, 4, "nominate,0,0,1 => no,11");
    show_tier(months, 6, "nominate,0,0,500 => ok");
    let apart = "verify,0,0,1,500,10000,1,1,0 => ok\nverify,0,0,2,7,7,3,3,0 => ok\n";
    show_tier(apart, 3, "nominate,0,0,1 => no,19");
    show_tier(apart, 5, "nominate,0,0,500 => ok");
    show_tier(apart, 7, "nominate,0,0,1 => no,19");
    show_tier(apart, 9, "nominate,0,0,8 => no,11\nnominate,0,0,7 => ok\n");
}

/// Months 1 and 2 by contract and 3 by ownership: no entry runs 1 to 3, so the
/// season has none though every month has.
#[test]
fn entries_for_all_months_together_are_none_for_the_season() {
    let evidence = "verify,0,0,2,9,9,1,2,0 => ok\nverify,0,0,1,9,10000,3,3,0 => ok\n";
    for (tier, term) in TIERS {
        let answer = if term == 0 { "no,19" } else { "ok" };
        show_tier(evidence, tier, &format!("nominate,0,0,9 => {answer}"));
    }
}

/// Evidence filed between tiers ends 19: the source is then held to its kW. A
/// verify that is refused files nothing.
#[test]
fn evidence_filed_between_tiers_ends_19() {
    for (evidence, calls) in [
        ("verify,0,0,2,5,5,1,3,0", "nominate,0,0,5 => ok\n"),
        ("verify,0,0,1,1,1,1,3,0", "nominate,0,0,1 => no,11\n"),
        ("verify,0,0,2,5,5,1,2,0", "nominate,0,0,1 => no,19\n"),
    ] {
        show_tier(
            "",
            2,
            &format!(
                "nominate,0,0,1 => no,19
                {evidence} => no,04
                nominate,0,0,1 => no,19
                close => ok
                {evidence} => ok
                open,3 => ok
                {calls}"
            ),
        );
    }
    show_tier(
        "",
        4,
        "nominate,0,0,1 => no,19
        close => ok
        verify,0,0,2,5,5,1,1,0 => ok
        open,5 => ok
        nominate,0,0,6 => no,11
        nominate,0,0,5 => ok",
    );
}

/// A load-serving holder needs no evidence in any tier.
#[test]
fn a_kind_1_holder_is_never_19() {
    let mut script = loads_and_priors();
    for (tier, _) in TIERS {
        script.push_str(&format!(
            "open,{tier} => ok\nnominate,0,0,500 => ok\nclose => ok\n"
        ));
    }
    show(&format!("{LSE}{script}"));
}

/// In the step neither 19 nor 11: a source without evidence has no tier 1 award,
/// so 17; one whose evidence has no mark is 18; used up evidence is taken again.
#[test]
fn the_step_has_neither_19_nor_11() {
    let loads = load(0, 0, 0, 1000);
    show(&format!(
        "{OBAALSE}{loads}open,1 => ok
        nominate,0,0,1 => no,19
        close => ok
        open,10 => ok
        nominate,0,0,1 => no,17
        close => ok
        open,2 => ok
        nominate,0,0,1 => no,19"
    ));
    let evidence = "verify,0,0,2,300,300,1,3,0 => ok\nverify,0,1,2,200,200,1,3,1 => ok\n";
    show_obaalse(
        evidence,
        "nominate,0,0,1 => no,18
        nominate,0,1,200 => ok
        award,0,1,200 => ok
        close => ok
        open,2 => ok
        nominate,0,0,1 => no,11
        nominate,0,1,1 => no,11",
    );
}

/// Evidence for the season counts for each month, less the season's awards; a
/// source without evidence is 19 in all of them.
#[test]
fn evidence_of_the_season_counts_for_every_month() {
    let months: String = (1..=3).map(|term| load(0, 0, term, 1000)).collect();
    let tier_1 = awarded(1000, [300, 0]);
    let mut script = String::new();
    for tier in 2..=9 {
        script.push_str(&format!(
            "open,{tier} => ok
            nominate,0,0,51 => no,11
            nominate,0,0,50 => ok
            nominate,0,1,1 => no,19
            close => ok\n"
        ));
    }
    show(&format!(
        "{OBAALSE}{months}verify,0,0,2,350,350,1,3,0 => ok\n{tier_1}{script}"
    ));
}

/// 2, 3, 4 and 10 before 19, one after another mended.
#[test]
fn order_2_3_4_and_10_before_19() {
    show_in_book(
        "nominate,4,4,0 => no,02
        nominate,2,6,0 => no,02
        nominate,2,4,0 => no,03
        nominate,2,4,100000000 => no,03
        nominate,2,4,1 => no,04
        open,1 => ok
        nominate,2,6,1 => no,02
        nominate,2,4,0 => no,03
        nominate,2,0,1 => no,10
        nominate,2,2,1 => no,10
        nominate,2,3,1 => no,10
        nominate,2,4,1 => no,19
        close => ok
        nominate,2,4,1 => no,04
        open,2 => ok
        nominate,2,0,1 => no,10
        nominate,2,4,1 => no,19",
    );
}

/// 19 before 11, 12 and 13: a nomination of 10 that is above all of them, with
/// one cause after another mended.
#[test]
fn order_19_before_11_before_12_before_13() {
    let answered = |posted: &str, number: u64| {
        show(&format!(
            "{OBAALSE}{posted}open,1 => ok\nnominate,0,0,10 => no,{number}"
        ));
    };
    let other_source = "verify,0,1,2,10,10,1,3,0 => ok\n";
    let too_little = "verify,0,0,2,9,9,1,3,0 => ok\nprior,0,0,9,0 => ok\n";
    let enough = "verify,0,0,2,10,10,1,3,0 => ok\nprior,0,0,9,0 => ok\n";
    answered(other_source, 19);
    answered(too_little, 11);
    answered(enough, 12);
    answered(&enough.replace("0,0,9,0", "0,0,10,0"), 13);
}

/// 19 before 11 and 13 in the other tiers, where the limit is 0.
#[test]
fn order_19_before_11_before_13_in_later_tiers() {
    for tier in 2..=9 {
        let before = empty_tiers(1..=tier - 1);
        show(&format!(
            "{OBAALSE}verify,0,1,2,9,9,1,3,0 => ok
            {before}open,{tier} => ok
            limit,0,0 => ok,0
            nominate,0,0,10 => no,19
            nominate,0,1,10 => no,11
            nominate,0,1,9 => no,13"
        ));
    }
}

/// A nomination that 19 refuses is none: nothing of it can be awarded, and it
/// takes nothing off the limit.
#[test]
fn a_refusal_with_19_changes_nothing() {
    show_tier(
        "verify,0,1,2,500,500,1,3,0 => ok\n",
        2,
        "nominate,0,0,500 => no,19
        award,0,0,1 => no,14
        limit,0,0 => ok,500
        nominate,0,1,500 => ok",
    );
    let (loads, book) = (load(2, 3, 0, 1000), BOOK);
    show(&format!(
        "{book}{loads}open,1 => ok
        nominate,2,4,1 => no,19
        close => ok
        held,2,4,1 => ok,0"
    ));
}
