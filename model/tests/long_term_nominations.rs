//! 02, 1/14: nominations and awards in the Long Term step, on both sides of each
//! edge, and what the later tiers see of them.

mod common;
use common::step::{awarded, load, show_obaalse, show_step, LSE, OBAALSE};
use common::{show, show_in_book};

/// Nominate: 2, 3, 4 and 10 as in any tier. A Sub-LAP is no 10 in the step; it
/// has no tier 1 award, so it is 17.
#[test]
fn nominate_in_the_step_meets_2_3_and_10_first() {
    show_in_book(
        "open,1 => ok
        close => ok
        open,10 => ok
        nominate,4,0,0 => no,02
        nominate,0,6,1 => no,02
        nominate,0,0,0 => no,03
        nominate,0,0,100000000 => no,03
        nominate,0,4,1 => no,10
        nominate,2,0,1 => no,10
        nominate,2,2,1 => no,10
        nominate,2,3,1 => no,10
        nominate,0,2,1 => no,17
        nominate,0,0,1 => no,17
        nominate,2,4,1 => no,17",
    );
}

/// 17: the nominations on a path, this one with them, up to the tier 1 award
/// there and not above; what was nominated in tier 1 and not awarded does not
/// count.
#[test]
fn nominations_on_a_path_stay_within_the_tier_1_award() {
    let loads = load(0, 0, 0, 1000);
    show(&format!(
        "{LSE}{loads}prior,0,0,300,0 => ok
        open,1 => ok
        nominate,0,0,300 => ok
        award,0,0,50 => ok
        close => ok
        open,10 => ok
        nominate,0,0,51 => no,17
        nominate,0,0,30 => ok
        nominate,0,0,21 => no,17
        nominate,0,0,20 => ok
        nominate,0,0,1 => no,17
        award,0,0,50 => ok
        nominate,0,0,1 => no,17"
    ));
}

/// 17 is by path and not by base, and the award has to be the holder's own.
#[test]
fn a_tier_1_award_serves_its_own_path_and_holder() {
    let tier_1 = awarded(1000, [300, 0]);
    show(&format!(
        "{LSE}{tier_1}open,10 => ok
        nominate,0,1,1 => no,17
        nominate,0,2,1 => no,17
        nominate,0,3,1 => no,17
        nominate,0,0,200 => ok"
    ));
    let other_load = load(1, 0, 0, 1000);
    let tier_1 = awarded(1000, [300, 0]);
    show_in_book(&format!(
        "{other_load}{tier_1}open,10 => ok
        nominate,1,0,1 => no,17
        nominate,0,0,1 => ok"
    ));
}

/// 18: up to a fifth of A with LT nothing has to be shown; one kW more needs
/// evidence at its source.
#[test]
fn above_a_fifth_needs_evidence() {
    show_step(
        "",
        "nominate,0,0,201 => no,18
        nominate,0,0,200 => ok
        nominate,0,0,1 => no,18
        nominate,0,1,1 => no,18",
    );
    let tier_1 = awarded(1000, [300, 0]);
    show(&format!(
        "{LSE}carry,0,2,50 => ok
        {tier_1}open,10 => ok
        nominate,0,0,151 => no,18
        nominate,0,0,150 => ok
        nominate,0,0,1 => no,18"
    ));
}

/// 18: LT of another base does not count towards a fifth.
#[test]
fn lt_of_another_base_does_not_ask_for_evidence() {
    let tier_1 = awarded(1000, [300, 0]);
    show(&format!(
        "{LSE}carry,0,3,999 => ok\n{tier_1}open,10 => ok\nnominate,0,0,200 => ok"
    ));
}

/// 18: LT above a fifth asks for evidence from the first kW, also where the
/// limit is 0.
#[test]
fn lt_above_a_fifth_needs_evidence_at_once() {
    let tier_1 = awarded(1000, [250, 0]);
    let carried = |lt: u64| format!("{LSE}carry,0,1,{lt} => ok\n{tier_1}");
    show(&format!(
        "{}open,10 => ok
        limit,0,0 => ok,0
        nominate,0,0,1 => no,18",
        carried(200)
    ));
    show(&format!(
        "{}open,10 => ok\nnominate,0,0,2 => no,18\nnominate,0,0,1 => ok",
        carried(199)
    ));
    show(&format!(
        "{}verify,0,0,2,201,201,1,3,1 => ok
        open,10 => ok
        limit,0,0 => ok,1
        nominate,0,0,2 => no,13
        nominate,0,0,1 => ok",
        carried(200)
    ));
}

/// 18: an earlier nomination's source counts too, and one without a nomination
/// there does not.
#[test]
fn sources_of_earlier_nominations_need_evidence_too() {
    show_step(
        "verify,0,1,2,500,500,1,3,1 => ok\n",
        "nominate,0,0,100 => ok
        nominate,0,1,100 => ok
        nominate,0,1,1 => no,18",
    );
    show_step(
        "verify,0,1,2,500,500,1,3,1 => ok\n",
        "nominate,0,1,200 => ok
        nominate,0,0,1 => no,18",
    );
    let tier_1 = awarded(1000, [200, 300]);
    show(&format!(
        "{LSE}{tier_1}verify,0,1,2,500,500,1,3,1 => ok
        open,10 => ok
        nominate,0,1,201 => ok
        nominate,0,0,1 => no,18
        nominate,0,1,99 => ok"
    ));
}

/// 18: a nomination that was refused leaves no source behind.
#[test]
fn a_refused_nomination_is_no_earlier_one() {
    show_step(
        "verify,0,0,2,300,300,1,3,1 => ok\n",
        "nominate,0,1,201 => no,17
        nominate,0,0,201 => ok
        nominate,0,1,1 => no,18
        nominate,0,0,99 => ok",
    );
}

/// 18: neither nominations nor sources of another base count.
#[test]
fn nominations_of_another_base_do_not_count_for_18() {
    let loads = [load(0, 0, 0, 1000), load(0, 2, 0, 1000)].concat();
    let tier_1 = "
        prior,0,0,300,0 => ok
        prior,0,3,300,0 => ok
        open,1 => ok
        nominate,0,0,300 => ok
        nominate,0,3,300 => ok
        award,0,0,300 => ok
        award,0,3,300 => ok
        close => ok
    ";
    show(&format!(
        "{LSE}{loads}{tier_1}open,10 => ok
        nominate,0,0,200 => ok
        nominate,0,3,200 => ok
        nominate,0,0,1 => no,18
        nominate,0,3,1 => no,18"
    ));
    show(&format!(
        "{LSE}{loads}{tier_1}verify,0,1,2,500,500,1,3,1 => ok
        open,10 => ok
        nominate,0,0,200 => ok
        nominate,0,3,300 => ok
        nominate,0,0,1 => no,18"
    ));
}

/// 18: an entry of either kind that is marked and runs from month 1 to 3, also
/// one that comes to 0 kW; no other, and no other holder's.
#[test]
fn which_evidence_18_takes() {
    let more = "verify,0,2,2,400,400,1,3,1 => ok\n";
    let asked = |entry: &str, answer: &str| {
        show_step(
            &format!("{more}{entry} => ok\n"),
            &format!("limit,0,1 => ok,400\nnominate,0,0,300 => {answer}"),
        );
    };
    asked("verify,0,0,1,1,9999,1,3,1", "ok");
    asked("verify,0,0,1,1,9999,1,3,0", "no,18");
    asked("verify,0,0,1,1,9999,1,2,1", "no,18");
    asked("verify,0,0,1,1,9999,2,3,1", "no,18");
    show_step(
        "verify,0,0,2,400,400,1,2,1 => ok
        verify,0,0,1,10000,300,1,3,1 => ok\n",
        "nominate,0,0,300 => ok",
    );
    show_step(
        "verify,0,0,1,400,10000,1,3,0 => ok
        verify,0,0,2,300,300,1,3,1 => ok\n",
        "nominate,0,0,300 => ok",
    );
    let loads = load(0, 0, 0, 1000);
    show_in_book(&format!(
        "{loads}prior,0,0,300,0 => ok
        verify,1,0,2,300,300,1,3,1 => ok
        verify,0,1,2,300,300,1,3,1 => ok
        open,1 => ok
        nominate,0,0,300 => ok
        award,0,0,300 => ok
        close => ok
        open,10 => ok
        nominate,0,0,201 => no,18"
    ));
}

/// 18: a kind 2 holder needs ten-year evidence from the first kW.
#[test]
fn a_kind_2_holder_needs_evidence_from_the_first_kw() {
    let evidence = "
        verify,0,0,2,300,300,1,3,1 => ok
        verify,0,1,2,200,200,1,3,0 => ok
    ";
    show_obaalse(
        evidence,
        "nominate,0,1,1 => no,18
        nominate,0,0,1 => ok
        nominate,0,1,1 => no,18
        nominate,0,0,299 => ok",
    );
    show_obaalse(
        &evidence.replace("1,3,0", "1,3,1"),
        "nominate,0,0,300 => ok
        nominate,0,1,200 => ok",
    );
}

/// 11 does not apply in the step: tier 1 has used up the evidence, and the
/// step takes as much again.
#[test]
fn the_step_has_no_11() {
    show_obaalse(
        "verify,0,0,1,1,9999,1,3,1 => ok
        verify,0,0,2,300,300,1,3,0 => ok
        verify,0,1,2,200,200,1,3,1 => ok\n",
        "nominate,0,0,300 => ok
        award,0,0,300 => ok
        nominate,0,1,200 => ok",
    );
}

/// 12 does not apply in the step: tier 1 has used up a - l, and the step takes
/// as much again.
#[test]
fn the_step_has_no_12() {
    let loads = load(0, 0, 0, 1000);
    show(&format!(
        "{LSE}{loads}prior,0,0,100,60 => ok
        open,1 => ok
        nominate,0,0,40 => ok
        award,0,0,40 => ok
        close => ok
        open,10 => ok
        nominate,0,0,40 => ok
        nominate,0,0,1 => no,17"
    ));
}

/// 13: per base, at the limit and one above, for either kind of holder.
#[test]
fn nominations_of_a_base_stay_within_the_steps_limit() {
    let evidence = "
        verify,0,0,2,201,201,1,3,1 => ok
        verify,0,1,1,1,9999,1,3,1 => ok
    ";
    show_step(
        evidence,
        "nominate,0,0,150 => ok
        nominate,0,1,52 => no,13
        nominate,0,1,51 => ok
        nominate,0,0,1 => no,13
        limit,0,0 => ok,201",
    );
    let tier_1 = awarded(1000, [300, 170]);
    show(&format!(
        "{OBAALSE}carry,0,0,30 => ok
        verify,0,0,2,900,900,1,3,1 => ok
        verify,0,1,2,900,900,1,3,1 => ok
        {}open,10 => ok
        limit,0,0 => ok,470
        nominate,0,0,300 => ok
        nominate,0,1,170 => ok
        nominate,0,1,1 => no,17",
        tier_1
    ));
}

/// 17 before 18 before 13: taken away one after another. A kind 2 holder never
/// comes to 13, since its tier 1 awards with LT are within P, which is within
/// half of A.
#[test]
fn order_17_before_18_before_13() {
    show_step(
        "",
        "nominate,0,0,301 => no,17
        nominate,0,0,300 => no,18
        nominate,0,0,201 => no,18
        nominate,0,0,200 => ok",
    );
    show_step(
        "verify,0,0,2,200,200,1,3,1 => ok\n",
        "nominate,0,0,301 => no,17
        nominate,0,0,300 => no,13
        nominate,0,1,200 => ok
        nominate,0,0,300 => no,18
        nominate,0,0,301 => no,17",
    );
    show_obaalse(
        "verify,0,0,2,300,300,1,3,1 => ok\nverify,0,1,2,200,200,1,3,0 => ok\n",
        "nominate,0,1,201 => no,17
        nominate,0,1,200 => no,18
        nominate,0,0,301 => no,17",
    );
}

/// 10 before 17: a sink that is not for the holder, where it has no award.
#[test]
fn order_10_before_17() {
    show_in_book(
        "open,1 => ok
        close => ok
        open,10 => ok
        nominate,0,4,1 => no,10
        nominate,2,0,1 => no,10",
    );
}

/// 3 and 4 before 17: 0 kW on a path without an award, and the step not open.
#[test]
fn order_3_and_4_before_17() {
    show_in_book(
        "open,1 => ok
        close => ok
        nominate,0,0,1 => no,04
        open,10 => ok
        nominate,0,0,0 => no,03
        nominate,0,0,1 => no,17",
    );
}

/// 17 and 18 are the step's alone.
#[test]
fn no_tier_has_17_or_18() {
    let loads: String = (0..=3).map(|term| load(0, 0, term, 1000)).collect();
    let mut script = format!("{loads}prior,0,0,500,0 => ok\n");
    for (tier, kw) in (1..).zip([500, 500, 750, 1000, 1000, 1000, 1000, 1000, 1000]) {
        script.push_str(&format!(
            "open,{tier} => ok\nnominate,0,0,{kw} => ok\nclose => ok\n"
        ));
    }
    show(&format!("{LSE}{script}"));
}

/// Award: held to the step's nominations, by holder and path.
#[test]
fn awards_of_the_step_stay_within_its_nominations() {
    show_step(
        "",
        "award,0,0,1 => no,14
        nominate,0,0,100 => ok
        award,0,0,101 => no,14
        award,0,1,1 => no,14
        award,0,0,60 => ok
        award,0,0,41 => no,14
        award,0,0,40 => ok
        award,0,0,1 => no,14
        award,0,0,0 => no,03
        award,1,0,1 => no,02",
    );
}

/// Close drops the unawarded: it can not be awarded in tier 2.
#[test]
fn the_steps_close_drops_the_unawarded() {
    show_step(
        "",
        "nominate,0,0,200 => ok
        award,0,0,150 => ok
        close => ok
        award,0,0,1 => no,04
        open,2 => ok
        award,0,0,1 => no,14",
    );
}

/// Awards of the step enter no holding, while it is open and after its close.
#[test]
fn awards_of_the_step_enter_no_holding() {
    let asked = "
        held,0,0,1 => ok,300
        held,0,0,2 => ok,300
        held,0,0,3 => ok,300
        net,0,1 => ok,300
        net,0,3 => ok,300
    ";
    show_step(
        "",
        &format!("{asked}nominate,0,0,200 => ok\naward,0,0,200 => ok\n{asked}close => ok\n{asked}"),
    );
}

/// T1 to T3 leave the step's awards out: the limits of tiers 2 to 9 are those
/// of a season that skips it.
#[test]
fn limits_of_later_tiers_leave_the_steps_awards_out() {
    let months: String = (1..=3).map(|term| load(0, 0, term, 1000)).collect();
    let mut tiers = String::new();
    for (tier, limit) in (2..).zip([200, 450, 700, 700, 700, 700, 700, 700]) {
        tiers.push_str(&format!(
            "open,{tier} => ok\nlimit,0,0 => ok,{limit}\nclose => ok\n"
        ));
    }
    let tier_1 = awarded(1000, [300, 0]);
    let step = "
        open,10 => ok
        nominate,0,0,200 => ok
        award,0,0,200 => ok
        close => ok
    ";
    show(&format!("{LSE}{months}{tier_1}{tiers}"));
    show(&format!("{LSE}{months}{tier_1}{step}{tiers}"));
}

/// The sums of 11 leave the step's awards out, in the season and in a month.
#[test]
fn the_sums_of_11_leave_the_steps_awards_out() {
    let months = load(0, 0, 1, 1000);
    let tier_1 = awarded(1000, [300, 0]);
    show(&format!(
        "{OBAALSE}{months}verify,0,0,2,350,350,1,3,1 => ok
        {tier_1}open,10 => ok
        nominate,0,0,300 => ok
        award,0,0,300 => ok
        close => ok
        open,2 => ok
        nominate,0,0,51 => no,11
        nominate,0,0,50 => ok
        close => ok
        open,3 => ok
        nominate,0,0,51 => no,11
        close => ok
        open,4 => ok
        nominate,0,0,51 => no,11
        nominate,0,0,50 => ok"
    ));
}

/// The step's awards do not migrate, and a migration does not see them.
#[test]
fn awards_of_the_step_do_not_migrate() {
    let month_load = load(0, 0, 1, 1000);
    let tier_1 = awarded(1000, [300, 0]);
    show_in_book(&format!(
        "{month_load}{tier_1}open,10 => ok
        nominate,0,0,200 => ok
        award,0,0,200 => ok
        close => ok
        open,2 => ok
        close => ok
        open,3 => ok
        close => ok
        migrate,1,0,1 => ok
        class,0,1,1,500,1000
        held,0,0,1 => ok,150
        held,1,0,1 => ok,150
        net,0,1 => ok,300"
    ));
}
