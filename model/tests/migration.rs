//! Migration: netting, shares, and what moves in which term.

mod common;
use common::{show_in_book, EMPTY_SEASON};

/// A load of one hour.
fn load(holder: u64, sink: u64, term: u64, kw: u64) -> String {
    format!("load,{holder},{sink},{term},0,1,1 => ok\nblock,0,1,{kw}\n")
}

/// Equal lines add: twice 5 kW are 10.
#[test]
fn equal_class_lines_add() {
    let loads = load(0, 0, 0, 10);
    show_in_book(&format!(
        "{loads}carry,0,0,100 => ok
        migrate,0,0,2 => ok
        class,0,1,1,5,1000
        class,0,1,1,5,1000
        held,0,0,1 => ok,0
        held,1,0,1 => ok,100"
    ));
}

/// Netting is by pair of holders over all classes, not by class.
#[test]
fn classes_of_a_pair_are_netted_together() {
    let loads = load(0, 0, 0, 10);
    show_in_book(&format!(
        "{loads}carry,0,0,100 => ok
        migrate,0,0,3 => ok
        class,0,1,1,4,1000
        class,0,1,8,3,1000
        class,1,0,3,2,1000
        held,0,0,1 => ok,50
        held,1,0,1 => ok,50"
    ));
}

/// A pair that nets to nothing moves nothing and needs no load.
#[test]
fn pair_that_nets_to_nothing_moves_nothing() {
    show_in_book(
        "carry,0,0,100 => ok
        migrate,0,0,2 => ok
        class,0,1,1,9999999,9999999
        class,1,0,2,9999999,9999999
        held,0,0,1 => ok,100
        held,1,0,1 => ok,0",
    );
}

/// The loser is whoever has the larger sum against it.
#[test]
fn netting_goes_either_way() {
    let loads = [load(0, 0, 0, 10), load(1, 0, 0, 20)].concat();
    show_in_book(&format!(
        "{loads}carry,1,0,100 => ok
        migrate,0,0,2 => ok
        class,0,1,1,4,1000
        class,1,0,1,6,1000
        held,0,0,1 => ok,10
        held,1,0,1 => ok,90"
    ));
}

/// A holder that loses and gains in one call: both go by the values before
/// the call, and nothing gained moves on.
#[test]
fn holder_that_loses_and_gains_in_one_call() {
    let loads = [load(0, 0, 0, 10), load(1, 0, 0, 10)].concat();
    show_in_book(&format!(
        "{loads}carry,0,0,100 => ok
        carry,1,0,60 => ok
        migrate,0,0,2 => ok
        class,0,1,1,10,1000
        class,1,3,1,5,1000
        held,0,0,1 => ok,0
        held,1,0,1 => ok,130
        held,3,0,1 => ok,30
        migrate,0,0,1 => ok
        class,1,3,1,15,1000
        held,1,0,1 => ok,0
        held,3,0,1 => ok,160"
    ));
}

/// What a holder gains in a call is no load to lose in the same call.
#[test]
fn gained_load_cannot_be_lost_in_the_same_call() {
    let loads = load(0, 0, 0, 10);
    show_in_book(&format!(
        "{loads}migrate,0,0,2 => no,09
        class,0,1,1,10,1000
        class,1,3,1,1,1000
        migrate,0,0,1 => ok
        class,0,1,1,10,1000
        migrate,0,0,1 => ok
        class,1,3,1,1,1000"
    ));
}

/// Round a ring every pair moves its own m.
#[test]
fn ring_of_three_moves_every_pair() {
    let loads = [load(0, 0, 0, 10), load(1, 0, 0, 10), load(3, 0, 0, 10)].concat();
    show_in_book(&format!(
        "{loads}carry,0,0,30 => ok
        carry,1,0,20 => ok
        carry,3,0,10 => ok
        migrate,0,0,3 => ok
        class,0,1,1,5,1000
        class,1,3,1,5,1000
        class,3,0,1,5,1000
        held,0,0,1 => ok,20
        held,1,0,1 => ok,25
        held,3,0,1 => ok,15"
    ));
}

/// Term 0 moves the carried holdings of all three months.
#[test]
fn term_0_moves_carried_holdings_of_all_months() {
    let loads = load(0, 0, 0, 4);
    show_in_book(&format!(
        "{loads}carry,0,0,10 => ok
        migrate,0,0,1 => ok
        class,0,1,1,1,1000
        held,1,0,1 => ok,2
        held,1,0,2 => ok,2
        held,1,0,3 => ok,2
        held,0,0,1 => ok,8
        held,0,0,2 => ok,8
        held,0,0,3 => ok,8"
    ));
}

/// Term 0 moves prior's a and a - l, each rounded down by itself.
#[test]
fn term_0_moves_prior_a_and_a_less_l_each_apart() {
    let loads = [load(0, 0, 0, 40), load(1, 0, 0, 400)].concat();
    show_in_book(&format!(
        "{loads}prior,0,0,7,4 => ok
        migrate,0,0,1 => ok
        class,0,1,1,20,1000
        open,1 => ok
        limit,0,0 => ok,4
        nominate,0,0,3 => no,12
        nominate,0,0,2 => ok
        limit,1,0 => ok,3
        nominate,1,0,2 => no,12
        nominate,1,0,1 => ok"
    ));
}

/// Load m moves with the term's limit.
#[test]
fn load_moves_in_its_term_alone() {
    let loads = [load(0, 0, 0, 100), load(0, 0, 1, 100)].concat();
    show_in_book(&format!(
        "{loads}migrate,0,0,1 => ok
        class,0,1,1,60,1000
        open,1 => ok
        close => ok
        open,2 => ok
        limit,0,0 => ok,20
        limit,1,0 => ok,30
        close => ok
        open,3 => ok
        close => ok
        open,4 => ok
        limit,0,0 => ok,100
        limit,1,0 => ok,0"
    ));
}

/// A month moves that month's carried and awarded holdings, each rounded down
/// by itself, and no other month's.
#[test]
fn month_moves_its_carried_and_awarded_holdings_each_apart() {
    let loads = [load(0, 0, 0, 100), load(0, 0, 2, 2)].concat();
    show_in_book(&format!(
        "{loads}carry,0,0,7 => ok
        open,1 => ok
        close => ok
        open,2 => ok
        nominate,0,0,5 => ok
        award,0,0,5 => ok
        close => ok
        open,3 => ok
        close => ok
        held,0,0,2 => ok,12
        migrate,2,0,1 => ok
        class,0,1,1,1,1000
        held,0,0,2 => ok,7
        held,1,0,2 => ok,5
        held,0,0,1 => ok,12
        held,0,0,3 => ok,12
        held,1,0,1 => ok,0
        held,1,0,3 => ok,0
        net,0,2 => ok,12"
    ));
}

/// A month that is still to come can be migrated between later tiers, with
/// the season's awards in it.
#[test]
fn month_3_migrates_between_tiers_6_and_7() {
    let loads = [load(0, 0, 0, 100), load(0, 0, 3, 10)].concat();
    show_in_book(&format!(
        "{loads}open,1 => ok
        close => ok
        open,2 => ok
        nominate,0,0,50 => ok
        award,0,0,50 => ok
        close => ok
        open,3 => ok
        close => ok
        open,4 => ok
        close => ok
        open,5 => ok
        close => ok
        open,6 => ok
        close => ok
        migrate,3,0,1 => ok
        class,0,1,1,10,1000
        held,0,0,3 => ok,0
        held,1,0,3 => ok,50
        held,1,0,2 => ok,0"
    ));
}

/// All paths with the base take part, Sub-LAP paths too; other bases do not.
#[test]
fn paths_with_the_base_take_part_and_no_others() {
    let loads = [load(0, 0, 0, 10), load(0, 2, 0, 10)].concat();
    show_in_book(&format!(
        "{loads}carry,0,0,10 => ok
        carry,0,1,20 => ok
        carry,0,2,30 => ok
        carry,0,3,40 => ok
        migrate,0,0,1 => ok
        class,0,1,1,5,1000
        held,1,0,1 => ok,5
        held,1,1,1 => ok,10
        held,1,2,1 => ok,15
        held,1,3,1 => ok,0
        held,0,3,1 => ok,40"
    ));
}

/// A migration at a Sub-LAP moves nothing, not even the base's records.
#[test]
fn migration_at_a_sub_lap_moves_nothing() {
    let loads = load(0, 0, 0, 10);
    show_in_book(&format!(
        "{loads}carry,0,2,30 => ok
        migrate,0,1,1 => ok
        class,0,1,1,1,999
        migrate,0,1,1 => no,09
        class,0,1,1,1,1000
        held,0,2,1 => ok,30"
    ));
}

/// Several migrations of one term go one after the other, each from the book
/// the one before handed back.
#[test]
fn migrations_follow_one_another() {
    let loads = load(0, 0, 0, 4);
    let one = "migrate,0,0,1 => ok\nclass,0,1,1,1,1000\n";
    show_in_book(&format!(
        "{loads}carry,0,0,100 => ok
        {one}held,0,0,1 => ok,75
        {one}held,0,0,1 => ok,50
        {one}held,0,0,1 => ok,25
        {one}held,0,0,1 => ok,0
        held,1,0,1 => ok,100"
    ));
}

/// A refused migration moves nothing, of any of its pairs.
#[test]
fn refused_migration_moves_nothing() {
    let loads = [load(0, 0, 0, 10), load(1, 0, 0, 10)].concat();
    show_in_book(&format!(
        "{loads}carry,0,0,10 => ok
        migrate,0,0,2 => no,09
        class,0,3,1,5,1000
        class,1,3,1,11,1000
        held,0,0,1 => ok,10
        held,3,0,1 => ok,0"
    ));
}

/// Awards that moved stay the loser's awards in its tier: its limit does not
/// grow back, and the gainer's is not cut.
#[test]
fn moved_awards_still_count_for_whoever_was_awarded() {
    let loads = [load(0, 0, 0, 100), load(0, 0, 1, 100)].concat();
    show_in_book(&format!(
        "{loads}open,1 => ok
        close => ok
        open,2 => ok
        nominate,0,0,40 => ok
        award,0,0,40 => ok
        close => ok
        open,3 => ok
        close => ok
        migrate,1,0,1 => ok
        class,0,1,1,50,1000
        held,0,0,1 => ok,20
        held,1,0,1 => ok,20
        open,4 => ok
        limit,0,0 => ok,10
        limit,1,0 => ok,50"
    ));
}

/// Carried rights that moved do count where they are now.
#[test]
fn moved_carried_rights_count_where_they_are() {
    let loads = load(0, 0, 1, 100);
    show_in_book(&format!(
        "{loads}carry,0,0,40 => ok
        {EMPTY_SEASON}
        migrate,1,0,1 => ok
        class,0,1,1,50,1000
        open,4 => ok
        limit,0,0 => ok,30
        limit,1,0 => ok,30"
    ));
}
