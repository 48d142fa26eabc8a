//! Limits by tier, nominations, awards, closing, and the queries.

mod common;
use common::{show_in_book, EMPTY_SEASON};

/// A load of one hour.
fn load(holder: u64, sink: u64, term: u64, kw: u64) -> String {
    format!("load,{holder},{sink},{term},0,1,1 => ok\nblock,0,1,{kw}\n")
}

/// Tier 1: P or the sum of a, whichever is less, without LT; either can be it.
#[test]
fn tier_1_is_the_lesser_of_p_and_last_year() {
    let loads = [load(0, 0, 0, 1000), load(1, 0, 0, 1000)].concat();
    show_in_book(&format!(
        "{loads}prior,0,0,300,0 => ok
        prior,0,1,120,0 => ok
        prior,0,2,30,0 => ok
        prior,0,3,999,0 => ok
        carry,0,0,50 => ok
        carry,0,2,10 => ok
        prior,1,0,600,0 => ok
        carry,1,1,1 => ok
        open,1 => ok
        limit,0,0 => ok,390
        limit,1,0 => ok,499"
    ));
}

/// S and P are rounded down one after the other, for each rest of A by 4.
#[test]
fn s_and_p_are_rounded_down_one_after_the_other() {
    for (kw, p, s) in [
        (4, 2, 3),
        (5, 2, 3),
        (6, 2, 4),
        (7, 3, 5),
        (2, 0, 1),
        (1, 0, 0),
    ] {
        let loads = load(0, 0, 0, kw);
        show_in_book(&format!(
            "{loads}open,1 => ok
            close => ok
            open,2 => ok
            limit,0,0 => ok,{p}
            close => ok
            open,3 => ok
            limit,0,0 => ok,{s}"
        ));
    }
}

/// Tier 1: a holder without an allocation last year has limit 0.
#[test]
fn tier_1_without_last_year_is_0() {
    let loads = load(0, 0, 0, 1000);
    show_in_book(&format!("{loads}open,1 => ok\nlimit,0,0 => ok,0"));
}

/// Tiers 2 and 3: P and S less the awards before and LT.
#[test]
fn tiers_2_and_3_take_off_earlier_awards_and_lt() {
    let loads = load(0, 0, 0, 1000);
    show_in_book(&format!(
        "{loads}carry,0,1,20 => ok
        prior,0,0,300,0 => ok
        open,1 => ok
        nominate,0,0,200 => ok
        award,0,0,150 => ok
        close => ok
        open,2 => ok
        limit,0,0 => ok,330
        nominate,0,2,330 => ok
        award,0,2,100 => ok
        close => ok
        open,3 => ok
        limit,0,0 => ok,480"
    ));
}

/// Month tiers: A less the season's awards and LT; the second tier also less
/// the first's awards, and no other month's.
#[test]
fn month_tiers_take_off_the_season_and_the_tier_before() {
    let mut script: String = (0..=3).map(|term| load(0, 0, term, 1000)).collect();
    script.push_str("carry,0,1,20 => ok\nprior,0,0,300,0 => ok\n");
    for (tier, limit, award) in [
        (1, 280, 100),
        (2, 380, 100),
        (3, 530, 100),
        (4, 680, 10),
        (5, 670, 7),
        (6, 680, 20),
        (7, 660, 7),
        (8, 680, 30),
        (9, 650, 7),
    ] {
        script.push_str(&format!(
            "open,{tier} => ok
            limit,0,0 => ok,{limit}
            nominate,0,0,{award} => ok
            award,0,0,{award} => ok
            limit,0,0 => ok,{limit}
            close => ok\n"
        ));
    }
    script.push_str("held,0,0,1 => ok,317\nheld,0,0,2 => ok,327\nheld,0,0,3 => ok,337\n");
    show_in_book(&script);
}

/// Month tiers look at the month's own LT, the season's tiers at month 1's.
#[test]
fn lt_is_of_the_month_or_of_month_1_for_the_season() {
    let loads: String = (1..=3).map(|term| load(0, 0, term, 100)).collect();
    show_in_book(&format!(
        "{loads}carry,0,0,40 => ok
        {EMPTY_SEASON}
        migrate,2,0,1 => ok
        class,0,1,1,50,1000
        open,4 => ok
        limit,0,0 => ok,60
        close => ok
        open,5 => ok
        close => ok
        open,6 => ok
        limit,0,0 => ok,30
        limit,1,0 => ok,30
        close => ok
        open,7 => ok
        close => ok
        open,8 => ok
        limit,0,0 => ok,60"
    ));
}

/// Carried rights above P leave a limit of 0, not below.
#[test]
fn carried_rights_above_p_give_limit_0() {
    let loads = load(0, 0, 0, 1000);
    show_in_book(&format!(
        "{loads}carry,0,0,501 => ok
        prior,0,0,900,0 => ok
        open,1 => ok
        limit,0,0 => ok,0
        nominate,0,0,1 => no,13
        close => ok
        open,2 => ok
        limit,0,0 => ok,0
        close => ok
        open,3 => ok
        limit,0,0 => ok,249"
    ));
}

/// Per base: nominations on all its paths share one limit, Sub-LAP paths too.
#[test]
fn nominations_of_a_base_share_its_limit() {
    let loads = [load(0, 0, 0, 100), load(0, 2, 0, 100)].concat();
    show_in_book(&format!(
        "{loads}open,1 => ok
        close => ok
        open,2 => ok
        nominate,0,0,20 => ok
        nominate,0,1,20 => ok
        nominate,0,2,11 => no,13
        nominate,0,2,10 => ok
        nominate,0,0,1 => no,13
        nominate,0,3,50 => ok
        nominate,0,3,1 => no,13
        limit,0,0 => ok,50"
    ));
}

/// A Sub-LAP path is refused in tier 1 and taken in tier 2.
#[test]
fn sub_lap_path_in_tier_1_and_in_tier_2() {
    let loads = load(0, 0, 0, 100);
    show_in_book(&format!(
        "{loads}prior,0,2,50,0 => ok
        open,1 => ok
        nominate,0,2,5 => no,10
        nominate,0,0,5 => no,12
        close => ok
        open,2 => ok
        nominate,0,2,5 => ok
        award,0,2,5 => ok
        held,0,2,3 => ok,5"
    ));
}

/// The limit of a Sub-LAP is its base's; of a sink without load it is 0.
#[test]
fn limit_of_a_sub_lap_is_its_bases() {
    let loads = load(0, 0, 0, 100);
    show_in_book(&format!(
        "{loads}open,1 => ok
        close => ok
        open,2 => ok
        limit,0,0 => ok,50
        limit,0,1 => ok,50
        limit,0,2 => ok,0
        limit,0,3 => ok,0
        limit,2,0 => ok,0"
    ));
}

/// Awards of tiers 1 to 3 enter all three months, a month's only its own.
#[test]
fn season_awards_enter_all_months_and_month_awards_their_own() {
    let loads: String = (0..=3).map(|term| load(0, 0, term, 1000)).collect();
    let mut script = format!("{loads}prior,0,0,300,0 => ok\n");
    for tier in 1..=9u64 {
        let kw = 1 << (tier - 1);
        script.push_str(&format!(
            "open,{tier} => ok\nnominate,0,0,{kw} => ok\naward,0,0,{kw} => ok\nclose => ok\n"
        ));
    }
    let months = [7 + 8 + 16, 7 + 32 + 64, 7 + 128 + 256];
    for (month, kw) in (1..).zip(months) {
        script.push_str(&format!(
            "held,0,0,{month} => ok,{kw}\nnet,0,{month} => ok,{kw}\n"
        ));
    }
    show_in_book(&script);
}

/// Close drops what was not awarded: it neither counts against the next
/// tier's limit nor can be awarded later.
#[test]
fn close_drops_the_unawarded() {
    let loads = load(0, 0, 0, 100);
    show_in_book(&format!(
        "{loads}prior,0,0,50,0 => ok
        open,1 => ok
        nominate,0,0,50 => ok
        award,0,0,10 => ok
        close => ok
        open,2 => ok
        award,0,0,1 => no,14
        limit,0,0 => ok,40
        nominate,0,0,40 => ok
        held,0,0,1 => ok,10"
    ));
}

/// Nominations add up in a tier, and awards do not make room for more.
#[test]
fn awards_make_no_room_for_more_nominations() {
    let loads = load(0, 0, 0, 100);
    show_in_book(&format!(
        "{loads}open,1 => ok
        close => ok
        open,2 => ok
        nominate,0,0,30 => ok
        award,0,0,30 => ok
        nominate,0,0,21 => no,13
        nominate,0,0,20 => ok
        award,0,0,20 => ok
        nominate,0,0,1 => no,13"
    ));
}

/// Verified kW: nominations from one source on all its paths count together,
/// other sources do not.
#[test]
fn verified_kw_is_per_source() {
    let book = "
        book,1,2,2,3 => ok
        holder,2
        sink,4,0
        sink,4,1
        path,0,0
        path,0,1
        path,1,0
    ";
    common::show(&format!(
        "{book}{}{}verify,0,0,2,10,10,1,3,0 => ok
        verify,0,1,2,4,4,1,3,0 => ok
        open,1 => ok
        close => ok
        open,2 => ok
        nominate,0,0,6 => ok
        nominate,0,1,5 => no,11
        nominate,0,1,4 => ok
        nominate,0,0,1 => no,11
        nominate,0,2,5 => no,11
        nominate,0,2,4 => ok",
        load(0, 0, 0, 100),
        load(0, 1, 0, 100)
    ));
}

/// Verified kW: awards in earlier tiers of the term count, and for a month
/// those of tiers 1 to 3; another month's do not. Unawarded kW does not count.
#[test]
fn verified_kw_serves_earlier_tiers_of_the_term_and_the_season() {
    let loads: String = (0..=3).map(|term| load(2, 3, term, 1000)).collect();
    let mut script = format!("{loads}prior,2,4,100,0 => ok\nverify,2,0,2,100,100,1,3,0 => ok\n");
    for (tier, room, award) in [
        (1, 100, 10),
        (2, 90, 10),
        (3, 80, 10),
        (4, 70, 5),
        (5, 65, 5),
        (6, 70, 20),
        (7, 50, 1),
        (8, 70, 70),
        (9, 0, 0),
    ] {
        script.push_str(&format!(
            "open,{tier} => ok\nnominate,2,4,{} => no,11\n",
            room + 1
        ));
        if room > 0 {
            script.push_str(&format!(
                "nominate,2,4,{room} => ok\naward,2,4,{award} => ok\n"
            ));
            script.push_str("nominate,2,4,1 => no,11\n");
        }
        script.push_str("close => ok\n");
    }
    show_in_book(&script);
}

/// Open, nominate, award, close: nine tiers in turn, and nothing after them.
#[test]
fn nine_tiers_in_order() {
    let tiers = common::empty_tiers(1..=9);
    show_in_book(&format!(
        "{tiers}open,9 => no,04\nopen,10 => no,04\nopen,11 => no,03"
    ));
}

/// Held and net answer at any time; net is the sum over all holders.
#[test]
fn net_is_the_sum_over_holders_at_any_time() {
    let tiers = common::empty_tiers(2..=9);
    show_in_book(&format!(
        "carry,0,0,3 => ok
        carry,1,0,4 => ok
        carry,3,0,5 => ok
        carry,3,1,9 => ok
        net,0,1 => ok,12
        open,1 => ok
        net,0,2 => ok,12
        held,3,1,3 => ok,9
        close => ok
        {tiers}
        net,0,3 => ok,12
        net,1,1 => ok,9
        held,1,0,1 => ok,4"
    ));
}
