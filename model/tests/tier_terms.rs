//! 02, 4/14: what a call reads by its tier's term, in each of the nine tiers and
//! in the Long Term step.

mod common;
use common::step::load;
use common::{show, show_in_book, EMPTY_SEASON};

/// Each tier with its query's answer, opened and closed in turn.
fn limits_in(tiers: &[(u64, u64)]) -> String {
    tiers
        .iter()
        .map(|(tier, kw)| format!("open,{tier} => ok\nlimit,0,0 => ok,{kw}\nclose => ok\n"))
        .collect()
}

/// A is the load of the tier's term: of the season up to tier 3 and in the step,
/// then of one month for each two tiers.
#[test]
fn each_tier_takes_the_load_of_its_term() {
    let loads: String = (0..=3)
        .map(|term| load(0, 0, term, 1000 * (term + 1)))
        .collect();
    let season = limits_in(&[(1, 500), (10, 200), (2, 500), (3, 750)]);
    let months = [
        (4, 2000),
        (5, 2000),
        (6, 3000),
        (7, 3000),
        (8, 4000),
        (9, 4000),
    ];
    show_in_book(&format!(
        "{loads}prior,0,0,2000,0 => ok\n{season}{}",
        limits_in(&months)
    ));
}

/// LT is the carried holding of the term's month, and of month 1 in the season
/// and in the step: a tenth, a fifth and three tenths of load and holding leave
/// in the three months.
#[test]
fn each_tier_takes_off_lt_of_its_terms_month() {
    let loads: String = (0..=3).map(|term| load(0, 0, term, 1000)).collect();
    let season = limits_in(&[(1, 400), (10, 100), (2, 400), (3, 650)]);
    let migrations: String = (1..=3)
        .map(|month| {
            format!(
                "migrate,{month},0,1 => ok\nclass,0,1,1,{},1000\n",
                100 * month
            )
        })
        .collect();
    let months = [(4, 810), (5, 810), (6, 720), (7, 720), (8, 630), (9, 630)];
    show_in_book(&format!(
        "{loads}carry,0,0,100 => ok\nprior,0,0,2000,0 => ok\n{season}{migrations}{}",
        limits_in(&months)
    ));
}

/// Evidence of three sources, for one month each: a source is taken in the two
/// tiers of its month and is 19 in every other.
#[test]
fn evidence_for_one_month_counts_in_its_two_tiers() {
    let book = "
        book,1,3,1,3 => ok
        holder,2
        sink,4,0
        path,0,0
        path,1,0
        path,2,0
    ";
    let loads: String = (0..=3).map(|term| load(0, 0, term, 1000)).collect();
    let evidence: String = (1..=3)
        .map(|month| format!("verify,0,{},2,10,10,{month},{month},0 => ok\n", month - 1))
        .collect();
    let mut tiers = String::new();
    for (tier, month) in [(4, 1), (5, 1), (6, 2), (7, 2), (8, 3), (9, 3)] {
        tiers.push_str(&format!("open,{tier} => ok\n"));
        for path in 0..3 {
            let answer = if path + 1 == month { "ok" } else { "no,19" };
            tiers.push_str(&format!("nominate,0,{path},1 => {answer}\n"));
        }
        tiers.push_str("close => ok\n");
    }
    let in_season = EMPTY_SEASON.replace(
        "close => ok",
        "nominate,0,0,1 => no,19\nnominate,0,1,1 => no,19\nnominate,0,2,1 => no,19\nclose => ok",
    );
    show(&format!("{book}{loads}{evidence}{in_season}{tiers}"));
}
