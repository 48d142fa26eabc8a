//! Each cause by its number, from every call and query that can meet it.

mod common;
use common::{bytes_answered, empty_tiers, show, show_in_book, BOOK, EMPTY_SEASON};

/// A load of one hour, for calls that need one.
fn load(holder: u64, sink: u64, term: u64, kw: u64) -> String {
    format!("load,{holder},{sink},{term},0,1,1 => ok\nblock,0,1,{kw}\n")
}

/// 1: unreadable heads are passed over by themselves, each call's in turn.
#[test]
fn refusal_01_from_each_head() {
    show_in_book(
        "load,0,0,0,0,400 => no,01
        load,0,0,0,0,400,1,1 => no,01
        carry,0,0 => no,01
        prior,0,0,1 => no,01
        verify,0,0,1,1,1,1,3 => no,01
        verify,0,0,1,1,1,1,3,0,0 => no,01
        migrate,0,0 => no,01
        open => no,01
        nominate,0,0 => no,01
        award,0,0,1,1 => no,01
        close, => no,01
        limit,0 => no,01
        held,0,0 => no,01
        net,0 => no,01
        closed => no,01
        Close => no,01
        net,0,1 => ok,0",
    );
}

/// 1: one line that is missing or cannot be read spoils its whole group.
#[test]
fn refusal_01_from_a_counted_line() {
    show_in_book(
        "load,0,0,0,0,2,2 => no,01
        block,0,1,1
        block,1,1
        migrate,0,0,2 => no,01
        class,0,1,1,0,0
        block,0,1,1
        migrate,0,0,1 => no,01
        open,1
        load,0,0,0,0,2,2 => no,01
        block,0,2,1",
    );
}

/// 1: a book group that is not all there, or not all legible, ends the run; so
/// does a script that starts with anything else.
#[test]
fn refusal_01_from_the_book_group() {
    show("book,1,0,0,0 => no,01\nholder,1,1\nclose");
    show("book,1,0,0,0 => no,01\nsink,1,0\nclose");
    show("book,1,0,0,0 => no,01");
    show("book,1,0,0 => no,01\nclose");
    show("close => no,01\nbook,0,0,0,0");
}

/// 2: a holder, source, sink or path not in the book, from each call and query
/// that names one.
#[test]
fn refusal_02_from_each_call() {
    show_in_book(
        "load,4,0,0,0,1,1 => no,02
        block,0,1,1
        load,0,4,0,0,1,1 => no,02
        block,0,1,1
        carry,4,0,1 => no,02
        carry,0,6,1 => no,02
        prior,4,0,1,0 => no,02
        prior,0,6,1,0 => no,02
        verify,4,0,2,1,1,1,3,0 => no,02
        verify,0,2,2,1,1,1,3,0 => no,02
        migrate,0,4,0 => no,02
        migrate,0,0,1 => no,02
        class,4,0,1,0,0
        migrate,0,0,1 => no,02
        class,0,4,1,0,0
        held,4,0,1 => no,02
        held,0,6,1 => no,02
        net,6,1 => no,02
        limit,4,0 => no,02
        limit,0,4 => no,02
        open,1 => ok
        nominate,4,0,1 => no,02
        nominate,0,6,1 => no,02
        award,4,0,1 => no,02
        award,0,6,1 => no,02
        limit,4,0 => no,02
        limit,0,4 => no,02",
    );
}

/// 3: another field outside its range, from each call and query that has one.
#[test]
fn refusal_03_from_each_call() {
    show_in_book(
        "load,0,0,4,0,1,1 => no,03
        block,0,1,1
        load,0,0,0,100000000,1,1 => no,03
        block,0,1,1
        load,0,0,0,0,0,1 => no,03
        block,0,1,1
        load,0,0,0,0,1,1 => no,03
        block,0,1,100000000
        carry,0,0,0 => no,03
        prior,0,0,0,0 => no,03
        prior,0,0,1,2 => no,03
        verify,0,0,3,1,1,1,3,0 => no,03
        verify,0,0,1,0,1,1,3,0 => no,03
        verify,0,0,1,1,0,1,3,0 => no,03
        verify,0,0,2,1,2,1,3,0 => no,03
        verify,0,0,1,1,1,0,3,0 => no,03
        verify,0,0,1,1,1,1,4,0 => no,03
        verify,0,0,1,1,1,3,2,0 => no,03
        verify,0,0,1,1,1,1,3,2 => no,03
        migrate,4,0,0 => no,03
        migrate,0,0,1 => no,03
        class,0,1,9,0,0
        open,0 => no,03
        open,11 => no,03
        held,0,0,0 => no,03
        held,0,0,4 => no,03
        net,0,0 => no,03
        net,0,4 => no,03
        nominate,0,0,0 => no,03
        award,0,0,0 => no,03
        open,1 => ok
        nominate,0,0,0 => no,03
        award,0,0,0 => no,03",
    );
}

/// 4: an open tier lets no posting, migration or other opening through.
#[test]
fn refusal_04_while_a_tier_is_open() {
    show_in_book(
        "open,1 => ok
        load,0,0,0,0,1,1 => no,04
        block,0,1,1
        load,0,0,3,0,1,1 => no,04
        block,0,1,1
        carry,0,0,1 => no,04
        prior,0,0,1,0 => no,04
        verify,0,0,2,1,1,1,3,0 => no,04
        migrate,0,0,0 => no,04
        migrate,1,0,0 => no,04
        open,1 => no,04
        open,2 => no,04
        limit,0,0 => ok,0
        held,0,0,1 => ok,0
        net,0,1 => ok,0
        close => ok",
    );
}

/// 4: nominate, award, close and the limit query run in an open tier only:
/// not before the first, not between two, not after the last.
#[test]
fn refusal_04_while_no_tier_is_open() {
    let asked = "
        nominate,0,0,1 => no,04
        award,0,0,1 => no,04
        close => no,04
        limit,0,0 => no,04
    ";
    let first = empty_tiers(1..=1);
    let others = empty_tiers(2..=9);
    show_in_book(&format!("{asked}{first}{asked}{others}{asked}"));
}

/// 4: load of a term is too late once the term's first tier has been opened.
#[test]
fn refusal_04_load_after_its_first_tier() {
    let late = |term| format!("load,0,0,{term},0,1,1 => no,04\nblock,0,1,1\n");
    for (term, first_tier) in [(0, 1), (1, 4), (2, 6), (3, 8)] {
        let in_time = load(0, 0, term, 1);
        let before = empty_tiers(1..=first_tier - 1);
        show_in_book(&format!("{before}{in_time}"));
        let after = empty_tiers(1..=first_tier);
        show_in_book(&format!("{after}{}", late(term)));
        let rest = empty_tiers(first_tier + 1..=9);
        show_in_book(&format!("{after}{rest}{}", late(term)));
    }
}

/// 4: carry and prior are too late once tier 1 has been opened.
#[test]
fn refusal_04_carry_and_prior_after_tier_1() {
    let tiers = empty_tiers(1..=1);
    show_in_book(&format!(
        "{tiers}carry,0,0,1 => no,04
        prior,0,0,1,0 => no,04"
    ));
}

/// 4 never comes from verify while no tier is open, not even after tier 9.
#[test]
fn refusal_04_verify_only_in_an_open_tier() {
    let tiers = empty_tiers(1..=9);
    show_in_book(
        "verify,2,0,1,1,1,1,3,0 => ok
        open,1 => ok
        verify,2,0,2,1,1,1,3,0 => no,04
        close => ok
        verify,2,0,2,1,1,1,3,0 => ok",
    );
    show_in_book(&format!("{tiers}verify,2,0,2,1,1,1,3,0 => ok"));
}

/// 4: the season's migration is too late after tier 1; a month's is too early
/// before tier 3 is closed and too late once its first tier has been opened.
#[test]
fn refusal_04_migration_before_and_after_its_time() {
    let tier_1 = empty_tiers(1..=1);
    show_in_book(&format!(
        "migrate,0,0,0 => ok\n{tier_1}migrate,0,0,0 => no,04"
    ));
    for (month, first_tier) in [(1, 4), (2, 6), (3, 8)] {
        let call = format!("migrate,{month},0,0");
        let early = empty_tiers(1..=2);
        show_in_book(&format!("{call} => no,04\n{early}{call} => no,04"));
        let from = empty_tiers(1..=3);
        show_in_book(&format!(
            "{from}{call} => ok\nopen,4 => ok\n{call} => no,04"
        ));
        let until = empty_tiers(1..=first_tier - 1);
        show_in_book(&format!("{until}{call} => ok"));
        let after = empty_tiers(1..=first_tier);
        show_in_book(&format!("{after}{call} => no,04"));
    }
}

/// 4: a tier opens only as the last closed + 1, the first one being 1.
#[test]
fn refusal_04_open_out_of_order() {
    let rest = empty_tiers(3..=9);
    show_in_book(&format!(
        "open,2 => no,04
        open,9 => no,04
        open,1 => ok
        open,2 => no,04
        close => ok
        open,1 => no,04
        open,3 => no,04
        open,2 => ok
        close => ok
        {rest}
        open,9 => no,04
        open,1 => no,04
        open,10 => no,04
        open,11 => no,03"
    ));
}

/// 5: load once per holder, sink and term.
#[test]
fn refusal_05_load() {
    let first = load(0, 0, 0, 5);
    let others = [load(1, 0, 0, 5), load(0, 2, 0, 5), load(0, 0, 1, 5)].concat();
    show_in_book(&format!(
        "{first}load,0,0,0,0,1,1 => no,05
        block,0,1,6
        {others}load,0,0,1,0,1,1 => no,05
        block,0,1,6"
    ));
}

/// 5: carry and prior once per holder and path, each apart.
#[test]
fn refusal_05_carry_and_prior() {
    show_in_book(
        "carry,0,0,5 => ok
        carry,0,0,6 => no,05
        carry,0,1,5 => ok
        carry,1,0,5 => ok
        prior,0,0,5,0 => ok
        prior,0,0,6,0 => no,05
        prior,0,1,5,0 => ok
        prior,1,0,5,0 => ok
        held,0,0,1 => ok,5",
    );
}

/// 5: verify once per holder, source and kind, whatever its months and mark.
#[test]
fn refusal_05_verify() {
    show_in_book(
        "verify,2,0,1,5,1,1,1,0 => ok
        verify,2,0,1,5,1,2,2,0 => no,05
        verify,2,0,1,5,1,1,1,1 => no,05
        verify,2,0,2,5,1,1,1,0 => ok
        verify,2,0,2,5,1,3,3,0 => no,05
        verify,2,1,1,5,1,1,1,0 => ok
        verify,0,0,1,5,1,1,1,0 => ok",
    );
}

/// A load that was refused is not posted and can come again.
#[test]
fn refusal_06_leaves_the_load_to_be_posted() {
    show_in_book(
        "load,0,0,0,0,1,0 => no,06
        load,0,0,0,0,1,1 => ok
        block,0,1,1
        load,0,0,0,0,1,0 => no,05",
    );
}

/// 6: no block, no hour in a block, an end after hour n, blocks out of order,
/// blocks that overlap, enormous first hours and lengths.
#[test]
fn refusal_06_each_way_to_break_the_list() {
    show_in_book(
        "load,0,0,0,0,10,0 => no,06
        load,0,0,0,0,10,2 => no,06
        block,0,10,1
        block,10,0,1
        load,0,0,0,0,10,1 => no,06
        block,0,11,1
        load,0,0,0,0,10,1 => no,06
        block,1,10,1
        load,0,0,0,0,10,2 => no,06
        block,5,5,1
        block,0,5,1
        load,0,0,0,0,10,2 => no,06
        block,0,6,1
        block,5,5,1
        load,0,0,0,0,10,2 => no,06
        block,0,10,1
        block,0,10,1
        load,0,0,0,0,10,1 => no,06
        block,999999999,1,1
        load,0,0,0,0,10,1 => no,06
        block,0,999999999,1
        load,0,0,0,0,10,1 => no,06
        block,0,0,1
        load,0,0,0,0,10,2 => ok
        block,0,5,1
        block,5,5,1",
    );
}

/// 7: missing hours times 50 above n, at the start, in between or at the end.
#[test]
fn refusal_07_wherever_the_hours_are_missing() {
    show_in_book(
        "load,0,0,0,0,50,1 => no,07
        block,2,48,1
        load,0,0,0,0,50,1 => no,07
        block,0,48,1
        load,0,0,0,0,50,2 => no,07
        block,0,20,1
        block,22,28,1
        load,0,0,0,0,49,1 => no,07
        block,0,48,1
        load,0,0,0,0,50,2 => ok
        block,0,20,1
        block,21,29,1",
    );
}

/// 8: from equals to, or a kind 2 holder on either side, in any of the lines.
#[test]
fn refusal_08_each_way() {
    show_in_book(
        "migrate,0,0,1 => no,08
        class,0,0,1,0,0
        migrate,0,0,1 => no,08
        class,2,0,1,0,0
        migrate,0,0,1 => no,08
        class,0,2,1,0,0
        migrate,0,0,2 => no,08
        class,0,1,1,0,0
        class,3,3,1,0,0
        migrate,0,0,1 => ok
        class,0,1,1,0,0",
    );
}

/// 9: a loser's m to one gainer, or to all of them together, exceed L.
#[test]
fn refusal_09_alone_and_together() {
    let loads = load(0, 0, 0, 10);
    show_in_book(&format!(
        "{loads}migrate,0,0,1 => no,09
        class,0,1,1,11,1000
        migrate,0,0,2 => no,09
        class,0,1,1,6,1000
        class,0,3,1,5,1000
        migrate,0,0,2 => ok
        class,0,1,1,6,1000
        class,0,3,1,4,1000
        migrate,0,0,1 => no,09
        class,0,1,1,1,1000"
    ));
}

/// 9: a Sub-LAP, a scheduling point, another sink or another term have no
/// load of this holder, so any m is too much there.
#[test]
fn refusal_09_where_there_is_no_load() {
    let loads = load(0, 0, 0, 10);
    show_in_book(&format!(
        "{loads}migrate,0,1,1 => no,09
        class,0,1,1,1,1000
        migrate,0,2,1 => no,09
        class,0,1,1,1,1000
        migrate,0,3,1 => no,09
        class,0,1,1,1,1000
        migrate,0,1,1 => ok
        class,0,1,1,1,999
        {EMPTY_SEASON}
        migrate,1,0,1 => no,09
        class,0,1,1,1,1000"
    ));
}

/// 10: load at a scheduling point for kind 1, at any other sink for kind 2,
/// and at a Sub-LAP for either.
#[test]
fn refusal_10_load() {
    let refused = |holder, sink| {
        let call = load(holder, sink, 0, 1);
        call.replace("=> ok", "=> no,10")
    };
    let mut script = String::new();
    for (holder, sink) in [(0, 3), (0, 1), (2, 0), (2, 1), (2, 2)] {
        script.push_str(&refused(holder, sink));
    }
    script.push_str(&[load(0, 0, 0, 1), load(0, 2, 0, 1), load(2, 3, 0, 1)].concat());
    show_in_book(&script);
}

/// 10: carry and prior to a scheduling point for kind 1, to any other sink for
/// kind 2; a Sub-LAP is for kind 1.
#[test]
fn refusal_10_carry_and_prior() {
    show_in_book(
        "carry,0,4,1 => no,10
        carry,2,0,1 => no,10
        carry,2,2,1 => no,10
        carry,2,3,1 => no,10
        carry,0,0,1 => ok
        carry,0,2,1 => ok
        carry,0,3,1 => ok
        carry,2,4,1 => ok
        prior,0,4,1,0 => no,10
        prior,2,0,1,0 => no,10
        prior,2,2,1,0 => no,10
        prior,2,3,1,0 => no,10
        prior,0,0,1,0 => ok
        prior,0,2,1,0 => ok
        prior,0,3,1,0 => ok
        prior,2,4,1,0 => ok",
    );
}

/// 10: nominate by kind in every tier, and to a Sub-LAP in tier 1 only.
#[test]
fn refusal_10_nominate() {
    let mut script = String::new();
    for tier in 1..=9 {
        let sub_lap = if tier == 1 { 10 } else { 13 };
        script.push_str(&format!(
            "open,{tier} => ok
            nominate,0,4,1 => no,10
            nominate,2,0,1 => no,10
            nominate,2,2,1 => no,10
            nominate,2,3,1 => no,10
            nominate,0,2,1 => no,{sub_lap}
            close => ok\n"
        ));
    }
    show_in_book(&script);
}

/// 11: above verified kW, with evidence of 0 kW and with too little.
#[test]
fn refusal_11() {
    let loads = load(2, 3, 0, 1000);
    show_in_book(&format!(
        "{loads}prior,2,4,500,0 => ok
        prior,2,5,500,0 => ok
        verify,2,0,1,1,1,1,3,0 => ok
        verify,2,1,2,50,40,1,3,0 => ok
        open,1 => ok
        nominate,2,4,1 => no,11
        nominate,2,5,41 => no,11
        nominate,2,5,40 => ok
        nominate,2,5,1 => no,11"
    ));
}

/// 12: above a - l in tier 1; with no prior nothing can be nominated.
#[test]
fn refusal_12() {
    let loads = load(0, 0, 0, 1000);
    show_in_book(&format!(
        "{loads}prior,0,0,100,90 => ok
        prior,0,1,100,0 => ok
        open,1 => ok
        nominate,0,0,11 => no,12
        nominate,0,0,6 => ok
        nominate,0,0,5 => no,12
        nominate,0,0,4 => ok
        nominate,0,0,1 => no,12
        nominate,1,0,1 => no,12
        close => ok
        open,2 => ok
        nominate,0,0,11 => ok"
    ));
}

/// 13: above the limit, in each of the nine tiers.
#[test]
fn refusal_13_in_each_tier() {
    let mut script = [load(0, 0, 0, 100), load(0, 0, 1, 101)].concat();
    script.push_str(&[load(0, 0, 2, 102), load(0, 0, 3, 103)].concat());
    script.push_str("prior,0,0,60,0 => ok\n");
    let limits = [50, 50, 75, 101, 101, 102, 102, 103, 103];
    for (tier, limit) in (1..).zip(limits) {
        script.push_str(&format!(
            "open,{tier} => ok
            limit,0,0 => ok,{limit}
            nominate,0,0,{} => no,13
            nominate,0,0,{limit} => ok
            nominate,0,0,1 => no,13
            close => ok\n",
            limit + 1
        ));
    }
    show_in_book(&script);
}

/// 14: more than is left of the nominations, by holder, path and tier.
#[test]
fn refusal_14() {
    let loads = [load(0, 0, 0, 100), load(1, 0, 0, 100)].concat();
    show_in_book(&format!(
        "{loads}open,1 => ok
        award,0,0,1 => no,14
        close => ok
        open,2 => ok
        nominate,0,0,10 => ok
        award,0,0,11 => no,14
        award,0,0,6 => ok
        award,0,0,5 => no,14
        award,0,1,1 => no,14
        award,1,0,1 => no,14
        award,0,0,4 => ok
        award,0,0,1 => no,14
        nominate,0,0,3 => ok
        close => ok
        open,3 => ok
        award,0,0,1 => no,14"
    ));
}

/// 15: the host lends less than 16 bytes a line.
#[test]
fn refusal_15() {
    let mut out = [7; 31];
    assert_eq!(model::run(b"close\nclose\n", &mut out), 15_000_000);
    assert_eq!(out, [7; 31]);
}

/// 16: each rule of the opening, broken in turn; the run stops there.
#[test]
fn refusal_16_each_rule_of_the_opening() {
    let (book, _) = common::split(BOOK);
    let broken = [
        ("holder,2", "holder,0"),
        ("holder,2", "holder,3"),
        ("sink,1,0", "sink,0,0"),
        ("sink,4,3", "sink,5,3"),
        ("sink,1,0", "sink,1,1"),
        ("sink,3,2", "sink,3,0"),
        ("sink,4,3", "sink,4,0"),
        ("sink,2,0", "sink,2,1"),
        ("sink,2,0", "sink,2,2"),
        ("sink,2,0", "sink,2,4"),
        ("sink,3,2", "sink,2,1"),
        ("sink,4,3", "sink,2,2"),
        ("path,1,0", "path,2,0"),
        ("path,0,3", "path,0,4"),
        ("path,1,3", "path,0,0"),
        ("book,4,2,4,6", "book,4,17,4,6"),
        ("book,4,2,4,6", "book,4,1,4,6"),
    ];
    for (good, bad) in broken {
        assert!(book.contains(good));
        let script = format!("{}close\n", book.replacen(good, bad, 1));
        assert_eq!(bytes_answered(script.as_bytes()), "no,16\n", "{bad}");
    }
}

/// 16: a Sub-LAP's parent is a Default LAP with a lower number, not a higher.
#[test]
fn refusal_16_parents_of_a_sub_lap() {
    let sinks = |lines: &str| {
        let count = lines.lines().count();
        bytes_answered(format!("book,0,0,{count},0\n{lines}").as_bytes())
    };
    assert_eq!(sinks("sink,1,0\nsink,2,0\nsink,2,0\n"), "ok\n");
    assert_eq!(sinks("sink,3,0\nsink,1,1\nsink,2,1\n"), "ok\n");
    assert_eq!(sinks("sink,2,1\nsink,1,1\n"), "no,16\n");
    assert_eq!(sinks("sink,2,0\n"), "no,16\n");
    assert_eq!(sinks("sink,1,0\nsink,2,0\nsink,2,1\n"), "no,16\n");
    assert_eq!(sinks("sink,3,0\nsink,2,0\n"), "no,16\n");
    assert_eq!(sinks("sink,4,0\nsink,2,0\n"), "no,16\n");
    assert_eq!(sinks("sink,1,0\nsink,1,0\n"), "no,16\n");
}

/// 16: one more of a kind than a book holds, with all its lines there.
#[test]
fn refusal_16_counts_above_the_sizes() {
    let holders = |count: usize| format!("book,{count},0,0,0\n{}", "holder,1\n".repeat(count));
    assert_eq!(bytes_answered(holders(8).as_bytes()), "ok\n");
    assert_eq!(bytes_answered(holders(9).as_bytes()), "no,16\n");
    let sinks = |count: usize| -> String {
        let lines: String = (0..count).map(|s| format!("sink,1,{s}\n")).collect();
        format!("book,0,0,{count},0\n{lines}")
    };
    assert_eq!(bytes_answered(sinks(16).as_bytes()), "ok\n");
    assert_eq!(bytes_answered(sinks(17).as_bytes()), "no,16\n");
    let paths = |count: usize| -> String {
        let lines: String = (0..count)
            .map(|p| format!("path,{},{}\n", p / 2, p % 2))
            .collect();
        format!("book,0,16,2,{count}\nsink,1,0\nsink,3,1\n{lines}")
    };
    assert_eq!(bytes_answered(paths(16).as_bytes()), "ok\n");
    assert_eq!(bytes_answered(paths(17).as_bytes()), "no,16\n");
    assert_eq!(bytes_answered(b"book,0,16,0,0\n"), "ok\n");
    assert_eq!(bytes_answered(b"book,0,17,0,0\n"), "no,16\n");
}

/// 19: a source without evidence for the term, at any kW; the other source's
/// evidence does not serve it.
#[test]
fn refusal_19() {
    let loads = load(2, 3, 0, 1000);
    show_in_book(&format!(
        "{loads}prior,2,4,500,0 => ok
        prior,2,5,500,0 => ok
        verify,2,1,2,50,40,1,3,0 => ok
        open,1 => ok
        nominate,2,4,1 => no,19
        nominate,2,4,99999999 => no,19
        nominate,2,5,40 => ok
        nominate,2,4,1 => no,19"
    ));
}
