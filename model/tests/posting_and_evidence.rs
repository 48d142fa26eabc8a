//! Posting: loads, carries, priors and evidence, and what they do.

mod common;
use common::{show_in_book, EMPTY_SEASON};

/// Load: added to what migration has already brought, in either order.
#[test]
fn load_adds_to_what_migration_brought() {
    show_in_book(&format!(
        "load,0,0,1,0,1,1 => ok
        block,0,1,100
        {EMPTY_SEASON}
        migrate,1,0,1 => ok
        class,0,1,1,40,1000
        load,1,0,1,0,1,1 => ok
        block,0,1,7
        open,4 => ok
        limit,0,0 => ok,60
        limit,1,0 => ok,47"
    ));
}

/// Load: holder, sink and term each keep their own.
#[test]
fn load_is_kept_by_holder_sink_and_term() {
    show_in_book(&format!(
        "load,0,0,1,0,1,1 => ok
        block,0,1,11
        load,0,2,1,0,1,1 => ok
        block,0,1,12
        load,1,0,1,0,1,1 => ok
        block,0,1,13
        load,0,0,2,0,1,1 => ok
        block,0,1,14
        {EMPTY_SEASON}
        open,4 => ok
        limit,0,0 => ok,11
        limit,0,2 => ok,12
        limit,1,0 => ok,13
        limit,3,0 => ok,0"
    ));
}

/// Load: contract load above the metric leaves 0 load, and the load counts as
/// posted all the same.
#[test]
fn contract_above_metric_gives_0_load() {
    show_in_book(
        "load,0,0,0,1001,1,1 => ok
        block,0,1,1000
        load,0,0,0,0,1,1 => no,05
        block,0,1,1000
        migrate,0,0,1 => no,09
        class,0,1,1,1,1000",
    );
}

/// Load: among equal kW none exceeds the other, and blocks of one kW that lie
/// apart are counted together.
#[test]
fn metric_counts_the_hours_of_equal_blocks_together() {
    show_in_book(&format!(
        "load,0,0,1,0,400,4 => ok
        block,0,1,50
        block,1,397,10
        block,398,1,50
        block,399,1,50
        load,1,0,1,0,400,3 => ok
        block,0,1,50
        block,1,398,10
        block,399,1,50
        {EMPTY_SEASON}
        open,4 => ok
        limit,0,0 => ok,50
        limit,1,0 => ok,10"
    ));
}

/// Carry: held in each of the three months, and added to what migration
/// brought.
#[test]
fn carry_is_held_in_each_month_and_adds_to_migration() {
    show_in_book(
        "load,0,0,0,0,1,1 => ok
        block,0,1,10
        carry,0,0,100 => ok
        migrate,0,0,1 => ok
        class,0,1,1,3,1000
        carry,1,0,5 => ok
        held,1,0,1 => ok,35
        held,1,0,2 => ok,35
        held,1,0,3 => ok,35
        held,0,0,3 => ok,70
        net,0,2 => ok,105",
    );
}

/// Prior: a and a - l are added to what migration brought.
#[test]
fn prior_adds_to_what_migration_brought() {
    show_in_book(
        "load,0,0,0,0,1,1 => ok
        block,0,1,100
        load,1,0,0,0,1,1 => ok
        block,0,1,1000
        prior,0,0,100,60 => ok
        migrate,0,0,1 => ok
        class,0,1,1,50,1000
        prior,1,0,10,4 => ok
        open,1 => ok
        limit,1,0 => ok,60
        nominate,1,0,27 => no,12
        nominate,1,0,26 => ok",
    );
}

/// Verify: both kinds of evidence add, for a kind 2 holder.
#[test]
fn both_kinds_of_evidence_add() {
    show_in_book(
        "verify,2,0,1,1000,1250,1,3,0 => ok
        verify,2,0,2,30,7,1,3,0 => ok
        load,2,3,0,0,1,1 => ok
        block,0,1,1000
        open,1 => ok
        close => ok
        open,2 => ok
        nominate,2,4,133 => no,11
        nominate,2,4,132 => ok",
    );
}

/// Verify: evidence for months 1 to 2 counts for these months and not for the
/// season.
#[test]
fn evidence_for_two_months_does_not_count_for_the_season() {
    let loads: String = (0..=3)
        .map(|term| format!("load,2,3,{term},0,1,1 => ok\nblock,0,1,1000\n"))
        .collect();
    let mut script = format!("{loads}verify,2,0,2,30,30,1,2,0 => ok\n");
    for tier in 1..=9 {
        let counts = (4..=7).contains(&tier);
        let [above, answer] = if counts {
            ["no,11", "ok"]
        } else {
            ["no,19", "no,19"]
        };
        let path = 4;
        script.push_str(&format!(
            "open,{tier} => ok
            nominate,2,{path},31 => {above}
            nominate,2,{path},30 => {answer}
            close => ok\n"
        ));
    }
    // Tier 1 asks for evidence before it asks for last year's allocation.
    show_in_book(&script);
}

/// Verify: an entry that starts after month 1 does not count before.
#[test]
fn evidence_for_the_last_month_counts_there_alone() {
    show_in_book(&format!(
        "verify,2,0,2,30,30,3,3,0 => ok
        load,2,3,2,0,1,1 => ok
        block,0,1,1000
        load,2,3,3,0,1,1 => ok
        block,0,1,1000
        {EMPTY_SEASON}
        open,4 => ok
        close => ok
        open,5 => ok
        close => ok
        open,6 => ok
        nominate,2,4,1 => no,19
        close => ok
        open,7 => ok
        close => ok
        open,8 => ok
        nominate,2,4,31 => no,11
        nominate,2,4,30 => ok"
    ));
}

/// Verify: evidence of a load-serving entity is filed, and no tier reads it.
#[test]
fn evidence_of_a_load_serving_holder_is_not_read() {
    show_in_book(
        "verify,0,0,2,5,5,1,3,0 => ok
        load,0,0,0,0,1,1 => ok
        block,0,1,100
        open,1 => ok
        close => ok
        open,2 => ok
        nominate,0,0,50 => ok",
    );
}

/// Verify: between tiers evidence can still be filed, and counts from then.
#[test]
fn evidence_filed_between_tiers_counts_from_then() {
    show_in_book(
        "load,2,3,0,0,1,1 => ok
        block,0,1,100
        open,1 => ok
        close => ok
        open,2 => ok
        nominate,2,4,1 => no,19
        close => ok
        verify,2,0,2,5,5,1,3,0 => ok
        open,3 => ok
        nominate,2,4,6 => no,11
        nominate,2,4,5 => ok",
    );
}
