//! The ends of every range, on both sides.

mod common;
use common::{bytes_answered, empty_tiers, show, show_in_book, BOOK, EMPTY_SEASON};

/// Kilowatts: 1 to 99,999,999 for carry, prior's a and a contract's capacity.
#[test]
fn kw_of_carry_prior_and_capacity() {
    show_in_book(
        "carry,0,0,0 => no,03
        carry,0,0,100000000 => no,03
        carry,0,0,99999999 => ok
        carry,0,1,1 => ok
        prior,0,0,0,0 => no,03
        prior,0,0,100000000,0 => no,03
        prior,0,0,99999999,99999999 => ok
        prior,0,1,1,0 => ok
        verify,2,0,2,0,1,1,3,0 => no,03
        verify,2,0,2,100000000,1,1,3,0 => no,03
        verify,2,0,2,99999999,99999999,1,3,0 => ok
        verify,2,1,2,1,1,1,3,0 => ok",
    );
}

/// Kilowatts: 1 to 99,999,999 for nominate and award.
#[test]
fn kw_of_nominate_and_award() {
    show_in_book(&format!(
        "load,0,0,1,0,1,1 => ok
        block,0,1,99999999
        {EMPTY_SEASON}
        open,4 => ok
        nominate,0,0,0 => no,03
        nominate,0,0,100000000 => no,03
        nominate,0,0,99999999 => ok
        award,0,0,0 => no,03
        award,0,0,100000000 => no,03
        award,0,0,99999998 => ok
        award,0,0,1 => ok
        held,0,0,1 => ok,99999999"
    ));
}

/// Kilowatts of a block: 0 to 99,999,999.
#[test]
fn kw_of_a_block() {
    show_in_book(
        "load,0,0,0,0,1,1 => ok
        block,0,1,0
        load,0,0,1,0,1,1 => ok
        block,0,1,99999999
        load,0,0,2,0,1,1 => no,03
        block,0,1,100000000
        load,0,0,2,0,1,1 => no,03
        block,0,1,999999999",
    );
}

/// Contract load: 0 to 99,999,999; above the metric it leaves 0 load.
#[test]
fn contract_load() {
    show_in_book(&format!(
        "load,0,0,1,99999999,1,1 => ok
        block,0,1,99999999
        load,0,0,2,100000000,1,1 => no,03
        block,0,1,5
        load,0,0,2,4,1,1 => ok
        block,0,1,5
        load,0,0,3,6,1,1 => ok
        block,0,1,5
        {EMPTY_SEASON}
        open,4 => ok
        limit,0,0 => ok,0
        close => ok
        open,5 => ok
        close => ok
        open,6 => ok
        limit,0,0 => ok,1
        close => ok
        open,7 => ok
        close => ok
        open,8 => ok
        limit,0,0 => ok,0"
    ));
}

/// Load hours: 1 to 2,208.
#[test]
fn hours_of_a_load() {
    show_in_book(
        "load,0,0,0,0,0,1 => no,03
        block,0,0,1
        load,0,0,0,0,1,1 => ok
        block,0,1,1
        load,0,0,1,0,2208,1 => ok
        block,0,2208,1
        load,0,0,2,0,2209,1 => no,03
        block,0,2209,1
        load,0,0,2,0,2208,1 => no,06
        block,0,2209,1
        load,0,0,2,0,2208,1 => no,06
        block,2208,1,1",
    );
}

/// Load blocks: up to 2,208; one more is 3 and not 6.
#[test]
fn blocks_of_a_load() {
    let blocks =
        |count: u64| -> String { (0..count).map(|h| format!("block,{h},1,7\n")).collect() };
    let full = blocks(2_208);
    show_in_book(&format!(
        "load,0,0,0,0,2208,2208 => ok\n{full}net,0,1 => ok,0"
    ));
    let over = blocks(2_209);
    show_in_book(&format!(
        "load,0,0,0,0,2208,2209 => no,03\n{over}net,0,1 => ok,0"
    ));
}

/// Class lines: up to 64, and none at all; one more is 3.
#[test]
fn class_lines_of_a_migration() {
    let load = "load,0,0,0,0,1,1 => ok\nblock,0,1,64\n";
    let lines = |count: usize| "class,0,1,1,1,1000\n".repeat(count);
    show_in_book(&format!("{load}migrate,0,0,65 => no,03\n{}", lines(65)));
    show_in_book(&format!(
        "{load}migrate,0,0,64 => ok
        {}migrate,0,0,1 => no,09
        class,0,1,1,1,1000",
        lines(64)
    ));
    show_in_book("migrate,0,0,0 => ok");
}

/// Class 1 to 8; customers and watts 0 to 9,999,999.
#[test]
fn fields_of_a_class_line() {
    let line = |class: u64, customers: u64, watts: u64, answer: &str| {
        format!("migrate,0,0,1 => {answer}\nclass,0,1,{class},{customers},{watts}\n")
    };
    let mut script = String::new();
    for (class, answer) in [(0, "no,03"), (1, "ok"), (8, "ok"), (9, "no,03")] {
        script.push_str(&line(class, 0, 0, answer));
    }
    for (number, answer) in [(0, "ok"), (9_999_999, "ok"), (10_000_000, "no,03")] {
        script.push_str(&line(1, number, 0, answer));
        script.push_str(&line(1, 0, number, answer));
    }
    script.push_str(&line(1, 9_999_999, 9_999_999, "no,09"));
    show_in_book(&script);
}

/// Terms 0 to 3 for load and migrate; term 4 is 3.
#[test]
fn terms_of_load_and_migrate() {
    let mut script = String::new();
    for term in 0..=4 {
        let answer = if term == 4 { "no,03" } else { "ok" };
        script.push_str(&format!("load,0,0,{term},0,1,1 => {answer}\nblock,0,1,1\n"));
    }
    script.push_str("migrate,0,0,0 => ok\nmigrate,4,0,0 => no,03\n");
    script.push_str(EMPTY_SEASON);
    script.push_str("migrate,3,0,0 => ok\nmigrate,4,0,0 => no,03\n");
    show_in_book(&script);
}

/// Months 1 to 3 for held, net and verify; months 0 and 4 are 3.
#[test]
fn months_of_queries_and_evidence() {
    let mut script = String::new();
    for month in 0..=4 {
        let answer = if (1..=3).contains(&month) {
            "ok,0"
        } else {
            "no,03"
        };
        script.push_str(&format!(
            "held,0,0,{month} => {answer}\nnet,0,{month} => {answer}\n"
        ));
    }
    let mut source = 0;
    for first in 0..=4 {
        for last in 0..=4 {
            let fits = (1..=3).contains(&first) && (first..=3).contains(&last);
            let answer = if fits { "ok" } else { "no,03" };
            script.push_str(&format!(
                "verify,0,{source},1,1,1,{first},{last},0 => {answer}\n"
            ));
            source += u64::from(fits);
        }
    }
    let book = "book,1,16,1,1 => ok\nholder,1\nsink,1,0\npath,0,0\n";
    show(&format!("{book}{script}"));
}

/// Tiers 1 to 9 and the Long Term step, 10; 0 and 11 are 3, whatever is open.
#[test]
fn tiers_0_and_11() {
    let beyond = "open,0 => no,03\nopen,11 => no,03\nopen,999999999 => no,03\n";
    let others = empty_tiers(2..=9);
    show_in_book(&format!(
        "{beyond}open,1 => ok\n{beyond}close => ok
        open,10 => ok\n{beyond}close => ok
        {others}{beyond}"
    ));
}

/// The ten-year mark: 0 or 1, for either kind of evidence.
#[test]
fn ten_year_mark() {
    show_in_book(
        "verify,0,0,1,1,1,1,3,2 => no,03
        verify,0,0,1,1,1,1,3,999999999 => no,03
        verify,0,0,2,1,1,1,3,2 => no,03
        verify,0,0,1,1,1,1,3,0 => ok
        verify,0,0,2,1,1,1,3,1 => ok",
    );
}

/// Right of an ownership: 1 to 10,000, whatever the capacity.
#[test]
fn right_of_an_ownership() {
    show_in_book(
        "verify,0,0,1,1,0,1,3,0 => no,03
        verify,0,0,1,1,10001,1,3,0 => no,03
        verify,0,0,1,1,10000,1,3,0 => ok
        verify,0,1,1,1,1,1,3,0 => ok",
    );
}

/// Right of a contract: 1 to its capacity, above 10,000 too.
#[test]
fn right_of_a_contract() {
    show_in_book(
        "verify,0,0,2,20000,0,1,3,0 => no,03
        verify,0,0,2,20000,20001,1,3,0 => no,03
        verify,0,0,2,20000,20000,1,3,0 => ok
        verify,0,1,2,1,1,1,3,0 => ok",
    );
}

/// Kinds of evidence: 1 and 2.
#[test]
fn kind_of_evidence() {
    show_in_book(
        "verify,0,0,0,1,1,1,3,0 => no,03
        verify,0,0,3,1,1,1,3,0 => no,03
        verify,0,0,1,1,1,1,3,0 => ok
        verify,0,0,2,1,1,1,3,0 => ok",
    );
}

/// Missing hours × 50 = n is still allowed, for n with and without a rest.
#[test]
fn missing_hours_at_one_in_fifty() {
    show_in_book(
        "load,0,0,0,0,50,1 => ok
        block,1,49,1
        load,0,0,1,0,99,1 => no,07
        block,2,97,1
        load,0,0,1,0,99,1 => ok
        block,1,98,1
        load,0,0,2,0,2200,1 => ok
        block,0,2156,1
        load,0,0,3,0,2200,1 => no,07
        block,0,2155,1
        load,1,0,0,0,49,1 => no,07
        block,0,48,1",
    );
}

/// The metric at 0.5% of the present hours: missing hours do not count.
#[test]
fn metric_at_half_a_percent_of_present_hours() {
    show_in_book(&format!(
        "load,0,0,1,0,200,2 => ok
        block,0,199,10
        block,199,1,90
        load,1,0,1,0,200,2 => ok
        block,0,198,10
        block,199,1,90
        load,3,0,1,0,200,2 => ok
        block,0,198,10
        block,198,2,90
        {EMPTY_SEASON}
        open,4 => ok
        limit,0,0 => ok,10
        limit,1,0 => ok,90
        limit,3,0 => ok,90"
    ));
}

/// Holder 7 and path 15 of a full book are in it; 8 and 16 are not.
#[test]
fn last_holder_source_sink_and_path() {
    let mut book = String::from("book,8,16,16,16 => ok\n");
    book.push_str(&"holder,1\n".repeat(8));
    (0..16).for_each(|sink| book.push_str(&format!("sink,1,{sink}\n")));
    (0..16).for_each(|path| book.push_str(&format!("path,{path},{path}\n")));
    show(&format!(
        "{book}
        carry,7,15,5 => ok
        carry,8,15,5 => no,02
        carry,7,16,5 => no,02
        verify,7,15,1,1,1,1,1,0 => ok
        verify,7,16,1,1,1,1,1,0 => no,02
        load,7,15,3,0,1,1 => ok
        block,0,1,5
        load,7,16,3,0,1,1 => no,02
        block,0,1,5
        held,7,15,3 => ok,5
        net,15,3 => ok,5
        net,16,3 => no,02
        open,1 => ok
        limit,7,15 => ok,0
        limit,7,16 => no,02"
    ));
}

/// The book: there may be none of a kind, and nothing at all.
#[test]
fn zero_of_a_kind() {
    let tiers = empty_tiers(1..=9);
    show(&format!(
        "book,0,0,0,0 => ok
        net,0,1 => no,02
        carry,0,0,1 => no,02
        migrate,0,0,0 => no,02
        {tiers}"
    ));
    show("book,1,0,1,0 => ok\nholder,1\nsink,4,0\nverify,0,0,1,1,1,1,1,0 => no,02");
    show("book,0,1,1,1 => ok\nsink,1,0\npath,0,0\nnet,0,1 => ok,0\nheld,0,0,1 => no,02");
    show("book,0,0,1,1 => no,16\nsink,1,0\npath,0,0\nnet,0,1");
    assert_eq!(bytes_answered(b"book,1,0,0,0\nholder,2\n"), "ok\n");
}

/// m = L empties the loser; L = 0 lets nothing move, but m = 0 is no fault.
#[test]
fn m_at_l_and_l_at_0() {
    show_in_book(
        "load,0,0,0,0,1,1 => ok
        block,0,1,10
        carry,0,0,3 => ok
        migrate,0,0,1 => ok
        class,0,1,1,10,1000
        held,0,0,1 => ok,0
        held,1,0,1 => ok,3
        migrate,0,0,1 => no,09
        class,0,1,1,1,1000
        migrate,0,0,1 => ok
        class,0,1,1,1,999
        migrate,0,0,1 => ok
        class,1,3,8,1,10999
        held,3,0,2 => ok,3",
    );
}

/// The largest answer still has room in 16 bytes: all carried holdings are
/// moved to one holder, so that the others' limits are whole again.
#[test]
fn the_largest_net_fits_its_answer() {
    let mut script = String::from("book,8,1,1,1 => ok\n");
    script.push_str(&"holder,1\n".repeat(8));
    script.push_str("sink,1,0\npath,0,0\n");
    for holder in 0..8 {
        script.push_str(&format!(
            "carry,{holder},0,99999999 => ok
            load,{holder},0,0,0,1,1 => ok
            block,0,1,1
            load,{holder},0,1,0,1,1 => ok
            block,0,1,99999999\n"
        ));
    }
    for holder in 0..7 {
        script.push_str(&format!("migrate,0,0,1 => ok\nclass,{holder},7,1,1,1000\n"));
    }
    script.push_str(&format!("{EMPTY_SEASON}open,4 => ok\n"));
    for holder in 0..7 {
        script.push_str(&format!("nominate,{holder},0,99999999 => ok\n"));
        script.push_str(&format!("award,{holder},0,99999999 => ok\n"));
    }
    show(&format!(
        "{script}net,0,1 => ok,1499999985\nnet,0,2 => ok,799999992"
    ));
}

/// The standing book of these tests opens with nothing in it.
#[test]
fn every_figure_starts_at_0() {
    let mut script = String::from(BOOK);
    for month in 1..=3 {
        for path in 0..6 {
            script.push_str(&format!("net,{path},{month} => ok,0\n"));
            for holder in 0..4 {
                script.push_str(&format!("held,{holder},{path},{month} => ok,0\n"));
            }
        }
    }
    show(&script);
}
