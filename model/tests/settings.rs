//! Limits, load and evidence with other fractions than the present ones (02,
//! 3/14).

mod common;
use common::show;
use common::step::{awarded, load, LSE, OBAALSE};

/// One load-serving holder with a path.
const ONE: &str = "
    book,1,1,1,1 => ok
    holder,1
    sink,1,0
    path,0,0
";

/// The set line of six pairs.
fn set(pairs: [(u64, u64); 6]) -> String {
    let numbers = pairs.map(|(numerator, denominator)| format!(",{numerator},{denominator}"));
    format!("set{}\n", numbers.concat())
}

const PRESENT: [(u64, u64); 6] = [(3, 4), (2, 3), (1, 200), (1, 50), (1, 5), (1, 2)];

/// The present figures with one pair in place of another.
fn set_pair(place: usize, pair: (u64, u64)) -> String {
    let mut pairs = PRESENT;
    pairs[place] = pair;
    set(pairs)
}

/// S = floor(n × A / d), and P = floor(n × S / d) of the rounded S: 2/3 of 5/7
/// would be 10/21 of A.
#[test]
fn s_and_p_are_of_the_first_two_pairs() {
    let line = set([(5, 7), (2, 3), (1, 200), (1, 50), (1, 5), (1, 2)]);
    for (a, s, p) in [
        (7, 5, 3),
        (13, 9, 6),
        (1, 0, 0),
        // 10/21 of 1000 is 476.2, of 22 is 10.5, of 19 is 9.0.
        (1_000, 714, 476),
        (22, 15, 10),
        (19, 13, 8),
        (99_999_999, 71_428_570, 47_619_046),
    ] {
        let loads = load(0, 0, 0, a);
        show(&format!(
            "{ONE}{line}{loads}open,1 => ok
            close => ok
            open,2 => ok
            limit,0,0 => ok,{p}
            close => ok
            open,3 => ok
            limit,0,0 => ok,{s}"
        ));
    }
}

/// The metric is exceeded in at most floor(n × present / d) present hours, hours
/// that are missing not counted.
#[test]
fn exceedance_is_of_the_third_pair() {
    // Of 400 hours: 4 above by 1/100, and 5.
    for (pair, hours, above, metric) in [
        ((1, 100), 400, 4, 1_000),
        ((1, 100), 400, 5, 5_000),
        ((1, 100), 399, 3, 1_000),
        ((1, 100), 399, 4, 5_000),
        ((3, 7), 9, 3, 1_000),
        ((3, 7), 9, 4, 5_000),
        ((3, 7), 10, 4, 1_000),
        // 0: no hour may be above. 1: all of them may.
        ((0, 1), 400, 1, 5_000),
        ((0, 1_000), 2_208, 1, 5_000),
        ((1, 1), 400, 399, 1_000),
        ((999, 1_000), 999, 998, 1_000),
        ((1, 1_000), 999, 1, 5_000),
        ((1, 1_000), 1_000, 1, 1_000),
    ] {
        let line = set_pair(2, pair);
        let low = hours - above;
        show(&format!(
            "{ONE}{line}load,0,0,1,0,{hours},2 => ok
            block,0,{low},1000
            block,{low},{above},5000
            open,1 => ok
            close => ok
            open,2 => ok
            close => ok
            open,3 => ok
            close => ok
            open,4 => ok
            limit,0,0 => ok,{metric}"
        ));
    }
    // 200 of 400 hours present: floor(200 / 100) may be above.
    for (above, p) in [(2, 500), (3, 2_500)] {
        let line = set([(3, 4), (2, 3), (1, 100), (1, 2), (1, 5), (1, 2)]);
        let low = 200 - above;
        show(&format!(
            "{ONE}{line}load,0,0,0,0,400,2 => ok
            block,0,{low},1000
            block,{low},{above},5000
            open,1 => ok
            close => ok
            open,2 => ok
            limit,0,0 => ok,{p}"
        ));
    }
}

/// 7 where missing × d > hours × n, with no rounding.
#[test]
fn missing_share_is_of_the_fourth_pair() {
    for (pair, hours, most) in [
        ((3, 7), 7, 3),
        // 3/7 of 6 is 2.57, of 8 is 3.43, of 13 is 5.57.
        ((3, 7), 6, 2),
        ((3, 7), 8, 3),
        ((3, 7), 13, 5),
        ((0, 1), 2_208, 0),
        ((0, 1_000), 1, 0),
        ((1, 2), 2_208, 1_104),
        ((999, 1_000), 1_000, 999),
        ((999, 1_000), 2_208, 2_205),
        ((1, 1_000), 999, 0),
        ((1, 1_000), 1_000, 1),
    ] {
        let line = set_pair(3, pair);
        let (least, fewer) = (hours - most, hours - most - 1);
        let refused = match fewer {
            0 => String::new(),
            _ => format!("load,0,0,0,0,{hours},1 => no,07\nblock,0,{fewer},5\n"),
        };
        show(&format!(
            "{ONE}{line}{refused}load,0,0,0,0,{hours},1 => ok\nblock,{most},{least},5\n"
        ));
    }
}

/// With 1/1 all hours may be missing but those of a block; no block is still 6.
#[test]
fn missing_share_of_1_leaves_6_alone() {
    let line = set_pair(3, (1, 1));
    show(&format!(
        "{ONE}{line}load,0,0,0,0,2208,0 => no,06
        load,0,0,0,0,2208,1 => no,06
        block,2208,1,5
        load,0,0,0,0,2208,1 => ok
        block,2207,1,5
        load,0,0,1,0,2208,2 => ok
        block,0,1,5
        block,2207,1,7"
    ));
}

/// Tier 1: the least of P, the sum of a and the sixth pair's part of A, each
/// less LT; each can be strictly the least, with 13 from one kW above it on.
#[test]
fn tier_1_is_the_least_of_three() {
    // P, a and the sixth of A = 1000.
    for (pairs, a, least) in [
        ([(1, 2), (1, 2), (3, 10)], 280, 250),
        ([(1, 2), (1, 2), (251, 1_000)], 251, 250),
        ([(1, 1), (1, 1), (3, 10)], 280, 280),
        ([(281, 1_000), (1, 1), (281, 1_000)], 280, 280),
        ([(1, 1), (1, 1), (1, 4)], 280, 250),
        ([(251, 1_000), (1, 1), (1, 4)], 251, 250),
        // All three the same.
        ([(1, 4), (1, 1), (1, 4)], 250, 250),
        ([(0, 1), (1, 1), (1, 1)], 250, 0),
        ([(1, 1), (1, 1), (0, 1)], 250, 0),
    ] {
        let [seasonal, priority, sixth] = pairs;
        let line = set([seasonal, priority, (1, 200), (1, 50), (1, 5), sixth]);
        let loads = load(0, 0, 0, 1_000);
        for carried in [0, 1, 100, 250, 300] {
            let carry = match carried {
                0 => String::new(),
                _ => format!("carry,0,0,{carried} => ok\n"),
            };
            let limit = u64::saturating_sub(least, carried);
            let above = limit + 1;
            let nominate = match limit {
                0 => String::new(),
                _ => format!("nominate,0,0,{limit} => ok\nnominate,0,0,1 => {}\n", {
                    // Above the path's a - l 12 comes first.
                    if limit == a {
                        "no,12"
                    } else {
                        "no,13"
                    }
                }),
            };
            let refused = if above > a { "no,12" } else { "no,13" };
            show(&format!(
                "{ONE}{line}{loads}{carry}prior,0,0,{a},0 => ok
                open,1 => ok
                limit,0,0 => ok,{limit}
                nominate,0,0,{above} => {refused}
                {nominate}"
            ));
        }
    }
}

/// The sixth pair's part of A is rounded down, in tier 1 as in the step.
#[test]
fn sixth_of_a_is_rounded_down_in_tier_1() {
    let line = set([(1, 1), (1, 1), (1, 200), (1, 50), (1, 5), (2, 7)]);
    for (a, limit) in [(13, 3), (14, 4), (1_000, 285)] {
        let loads = load(0, 0, 0, a);
        show(&format!(
            "{ONE}{line}{loads}prior,0,0,900,0 => ok
            open,1 => ok
            limit,0,0 => ok,{limit}"
        ));
    }
}

/// The sixth pair is no cap in tiers 2 and 3, nor is any pair one in a month.
#[test]
fn sixth_pair_caps_no_later_tier() {
    let line = set([(1, 1), (1, 1), (1, 200), (1, 50), (1, 5), (0, 1)]);
    let loads: String = (0..=3).map(|term| load(0, 0, term, 1_000)).collect();
    let tiers: String = (2..=9)
        .map(|tier| format!("open,{tier} => ok\nlimit,0,0 => ok,990\nclose => ok\n"))
        .collect();
    show(&format!(
        "{ONE}{line}{loads}carry,0,0,10 => ok
        prior,0,0,900,0 => ok
        open,1 => ok
        limit,0,0 => ok,0
        close => ok
        {tiers}"
    ));
}

/// The step's limit of a load-serving holder for its ten-year evidence: the
/// fifth pair's part of A up to that, then the lesser of the evidence and the
/// sixth's, each less LT.
#[test]
fn step_limit_is_of_the_fifth_and_the_sixth_pair() {
    // 2/7 of 1000 is 285, 5/9 is 555.
    let upward = ((2, 7), (5, 9));
    // 5/9 without evidence, 2/7 with: passing evidence lowers the limit.
    let downward = ((5, 9), (2, 7));
    let equal = ((2, 7), (2, 7));
    for ((fifth, sixth), evidence, most) in [
        (upward, 0, 285),
        (upward, 284, 285),
        (upward, 285, 285),
        (upward, 286, 286),
        (upward, 554, 554),
        (upward, 555, 555),
        (upward, 556, 555),
        (downward, 0, 555),
        (downward, 285, 555),
        (downward, 555, 555),
        (downward, 556, 285),
        (downward, 1_000, 285),
        (equal, 285, 285),
        (equal, 286, 285),
        (((0, 1), (1, 2)), 0, 0),
        (((0, 1), (1, 2)), 1, 1),
        (((0, 1), (1, 2)), 501, 500),
        (((1, 1), (1, 2)), 1_000, 1_000),
        (((1, 1), (1, 2)), 1_001, 500),
        (((1, 5), (0, 1)), 200, 200),
        (((1, 5), (0, 1)), 201, 0),
    ] {
        let line = set([(3, 4), (2, 3), (1, 200), (1, 50), fifth, sixth]);
        let loads = load(0, 0, 0, 1_000);
        let verify = match evidence {
            0 => String::new(),
            kw => format!("verify,0,2,2,{kw},{kw},1,3,1 => ok\n"),
        };
        for carried in [0, 100] {
            let carry = match carried {
                0 => String::new(),
                kw => format!("carry,0,0,{kw} => ok\n"),
            };
            let limit = u64::saturating_sub(most, carried);
            show(&format!(
                "{LSE}{line}{loads}{carry}{verify}open,1 => ok
                close => ok
                open,10 => ok
                limit,0,0 => ok,{limit}"
            ));
        }
    }
}

/// An OBAALSE's limit in the step is the sixth pair's part of A less LT,
/// whatever its evidence and the fifth pair.
#[test]
fn step_limit_of_an_obaalse_is_of_the_sixth_pair() {
    for (fifth, sixth, most) in [
        ((1, 5), (1, 3), 333),
        ((1, 2), (1, 3), 333),
        ((1, 5), (0, 1), 0),
        ((0, 1), (1, 1), 1_000),
    ] {
        let line = set([(3, 4), (2, 3), (1, 200), (1, 50), fifth, sixth]);
        let loads = load(0, 0, 0, 1_000);
        for verify in ["", "verify,0,0,2,900,900,1,3,1 => ok\n"] {
            let limit = u64::saturating_sub(most, 10);
            show(&format!(
                "{OBAALSE}{line}{loads}{verify}carry,0,0,10 => ok
                open,1 => ok
                close => ok
                open,10 => ok
                limit,0,0 => ok,{limit}"
            ));
        }
    }
}

/// 18 from one kW above the fifth pair's part of A on, LT counted.
#[test]
fn ten_year_evidence_is_asked_for_above_the_fifth_pair() {
    for (fifth, free) in [((2, 7), 285), ((1, 4), 250), ((299, 1_000), 299)] {
        let line = set_pair(4, fifth);
        let tier_1 = awarded(1_000, [300, 200]);
        let above = free + 1;
        show(&format!(
            "{LSE}{line}{tier_1}open,10 => ok
            nominate,0,0,{above} => no,18
            nominate,0,0,{free} => ok
            nominate,0,1,1 => no,18"
        ));
        let tier_1 = awarded(1_000, [300, 100]);
        let left = free - 40;
        let above = left + 1;
        show(&format!(
            "{LSE}{line}carry,0,1,40 => ok
            {tier_1}open,10 => ok
            limit,0,0 => ok,{left}
            nominate,0,0,{above} => no,18
            nominate,0,0,{left} => ok"
        ));
    }
}

/// 0/1 asks for evidence from the first kW on; 1/1 never does, of a
/// load-serving holder. Of an OBAALSE 18 asks in any case.
#[test]
fn fifth_pair_of_0_and_of_1() {
    let tier_1 = awarded(1_000, [300, 200]);
    let zero = set_pair(4, (0, 1));
    show(&format!(
        "{LSE}{zero}{tier_1}verify,0,1,2,1,1,1,3,1 => ok
        open,10 => ok
        limit,0,0 => ok,1
        nominate,0,0,1 => no,18
        nominate,0,1,2 => no,13
        nominate,0,1,1 => ok"
    ));
    let one = set_pair(4, (1, 1));
    show(&format!(
        "{LSE}{one}{tier_1}open,10 => ok
        limit,0,0 => ok,1000
        nominate,0,0,301 => no,17
        nominate,0,0,300 => ok
        nominate,0,1,200 => ok"
    ));
    let evidence = "verify,0,0,2,500,500,1,3,0 => ok\nverify,0,1,2,500,500,1,3,0 => ok\n";
    show(&format!(
        "{OBAALSE}{one}{evidence}{tier_1}open,10 => ok
        nominate,0,0,1 => no,18"
    ));
}

/// 18 comes before 13: both are met above the fifth pair's part; where all
/// sources have evidence that does not pass it, 13 is left.
#[test]
fn no_evidence_comes_before_the_limit_with_other_pairs() {
    let line = set_pair(4, (2, 7));
    let tier_1 = awarded(1_000, [300, 200]);
    show(&format!(
        "{LSE}{line}{tier_1}verify,0,0,2,100,100,1,3,1 => ok
        open,10 => ok
        limit,0,0 => ok,285
        nominate,0,0,286 => no,13
        nominate,0,0,285 => ok
        nominate,0,1,1 => no,18
        nominate,0,0,1 => no,13"
    ));
}

/// A whole season with A = 1000 in each term, a = 400 and LT = 40: the limit in
/// each tier, with 10 kW awarded in tier 1, 20 in tier 2, 30 in tier 3 and 1 in
/// each month's tiers, or as much of it as the limit lets.
#[track_caller]
fn show_season(pairs: [(u64, u64); 6], tier_1: u64, step: u64, tiers_2_and_3: [u64; 2]) {
    let line = set(pairs);
    let loads: String = (0..=3).map(|term| load(0, 0, term, 1_000)).collect();
    let mut script = format!("{ONE}{line}{loads}carry,0,0,40 => ok\nprior,0,0,400,0 => ok\n");
    let mut season = 0;
    let mut hold = |tier: u64, limit: u64, kw: u64, refused: &str| {
        script += &format!("open,{tier} => ok\nlimit,0,0 => ok,{limit}\n");
        let above = limit + 1;
        script += &format!("nominate,0,0,{above} => {refused}\n");
        let kw = kw.min(limit);
        if kw > 0 {
            script += &format!("nominate,0,0,{kw} => ok\naward,0,0,{kw} => ok\n");
        }
        script += "close => ok\n";
        kw
    };
    season += hold(1, tier_1, 10, "no,13");
    hold(10, step, 5, "no,17");
    season += hold(2, tiers_2_and_3[0], 20, "no,13");
    season += hold(3, tiers_2_and_3[1], 30, "no,13");
    for month in 1..=3 {
        let first = 1_000 - season - 40;
        hold(2 * month + 2, first, 1, "no,13");
        hold(2 * month + 3, first - 1, 1, "no,13");
    }
    let held = 40 + season + 2;
    for month in 1..=3 {
        script += &format!("held,0,0,{month} => ok,{held}\n");
    }
    show(&script);
}

/// Every pair 0/1: the season's tiers give nothing, the months' all of A.
#[test]
fn season_with_every_pair_0() {
    show_season([(0, 1); 6], 0, 0, [0, 0]);
}

/// Every pair 1/1: the season gives all of A but what was awarded.
#[test]
fn season_with_every_pair_1() {
    show_season([(1, 1); 6], 360, 960, [950, 930]);
}

/// P strictly the least in tier 1: 250, before 300 and 400.
#[test]
fn season_with_p_the_least() {
    let pairs = [(1, 2), (1, 2), (1, 200), (1, 50), (1, 10), (3, 10)];
    show_season(pairs, 210, 60, [200, 430]);
}

/// The sum of a strictly the least in tier 1: 400, before 500 and 800.
#[test]
fn season_with_last_year_the_least() {
    let pairs = [(9, 10), (8, 9), (1, 100), (1, 10), (2, 7), (1, 2)];
    show_season(pairs, 360, 245, [750, 830]);
}

/// The sixth pair's part strictly the least in tier 1: 250, before 400 and
/// 1000; without evidence the step gives half.
#[test]
fn season_with_the_sixth_the_least() {
    let pairs = [(1, 1), (1, 1), (1, 1), (1, 1), (1, 2), (1, 4)];
    show_season(pairs, 210, 460, [950, 930]);
}

/// The present figures, said by the line.
#[test]
fn season_with_the_present_figures() {
    show_season(PRESENT, 360, 160, [450, 680]);
}

/// A load larger than any that a field gives: eight times the most, by
/// migration, with the largest numerators.
#[test]
fn largest_load_with_the_largest_numerators() {
    let most = 99_999_999u64;
    let line = set([
        (999, 1_000),
        (1_000, 1_000),
        (1, 200),
        (1, 50),
        (1, 5),
        (998, 1_000),
    ]);
    let mut script = String::from("book,8,1,1,1 => ok\n");
    script += &"holder,1\n".repeat(8);
    script += "sink,1,0\npath,0,0\n";
    script += &line;
    for holder in 0..8 {
        script += &load(holder, 0, 0, most);
    }
    for loser in 1..8 {
        script += &format!(
            "migrate,0,0,2 => ok
            class,{loser},0,1,99999,1000000
            class,{loser},0,1,999,1000\n"
        );
    }
    let a = 8 * most;
    let s = a * 999 / 1_000;
    script += &format!(
        "open,1 => ok
        close => ok
        open,2 => ok
        limit,0,0 => ok,{s}
        close => ok
        open,3 => ok
        limit,0,0 => ok,{s}"
    );
    show(&script);
}
