//! The `set` line (02, 3/14): where it stands, how it is read, and what refuses
//! it.

mod common;
use common::bytes_answered;

const OPEN_BOOK: &str = "book,1,1,1,1\nholder,1\nsink,1,0\npath,0,0\n";
/// The figures that hold without the line.
const PRESENT: &str = "set,3,4,2,3,1,200,1,50,1,5,1,2\n";
/// Settings under which tier 2 gives nothing.
const NOTHING: &str = "set,0,1,2,3,1,200,1,50,1,5,1,2\n";

/// The answers to the open book and more lines.
fn after_book(more: &str) -> String {
    bytes_answered(format!("{OPEN_BOOK}{more}").as_bytes())
}

/// The line of twelve numbers.
fn set_line(numbers: &[u64]) -> String {
    let numbers: String = numbers.iter().map(|number| format!(",{number}")).collect();
    format!("set{numbers}\n")
}

/// The present figures with one pair in place of another.
fn with_pair(place: usize, numerator: u64, denominator: u64) -> String {
    let mut numbers = [3, 4, 2, 3, 1, 200, 1, 50, 1, 5, 1, 2];
    numbers[2 * place] = numerator;
    numbers[2 * place + 1] = denominator;
    set_line(&numbers)
}

/// A load of 1000 and the limit in tier 2: P.
const LIMIT_IN_TIER_2: &str =
    "load,0,0,0,0,1,1\nblock,0,1,1000\nopen,1\nclose\nopen,2\nlimit,0,0\n";

/// Directly after the book lines the line is of their group: one answer for
/// both. A book without lines has it after its head.
#[test]
fn set_line_is_of_the_book_group() {
    assert_eq!(after_book(&format!("{PRESENT}net,0,1\n")), "ok\nok,0\n");
    assert_eq!(after_book(PRESENT), "ok\n");
    let empty = format!("book,0,0,0,0\n{PRESENT}close\n");
    assert_eq!(bytes_answered(empty.as_bytes()), "ok\nno,04\n");
}

/// Without the line the present figures hold; the line that says them changes
/// nothing, and another one does.
#[test]
fn without_the_line_the_present_figures_hold() {
    let limit = |set: &str| {
        let answers = after_book(&format!("{set}{LIMIT_IN_TIER_2}"));
        answers.lines().last().map(str::to_string)
    };
    assert_eq!(limit("").as_deref(), Some("ok,500"));
    assert_eq!(limit(PRESENT).as_deref(), Some("ok,500"));
    assert_eq!(limit(NOTHING).as_deref(), Some("ok,0"));
}

/// There, a wrong count of fields, a field that is no number or no LF makes the
/// group 1, and the run stops.
#[test]
fn unreadable_set_line_makes_the_group_1() {
    for line in [
        "set,",
        "set,,",
        "set,3",
        "set,3,4,2,3,1,200,1,50,1,5,1",
        "set,3,4,2,3,1,200,1,50,1,5,1,2,1",
        "set,3,4,2,3,1,200,1,50,1,5,1,2,1,2",
        "set,3,4,2,3,1,200,1,50,1,5,1,2,",
        "set,3,4,2,3,1,200,1,50,1,5,1,",
        "set,,4,2,3,1,200,1,50,1,5,1,2",
        "set,03,4,2,3,1,200,1,50,1,5,1,2",
        "set,3,4,2,3,1,200,1,50,1,5,1,02",
        "set,3,4,2,3,1,200,1,50,1,5,00,2",
        "set,3,4,2,3,1,0000000200,1,50,1,5,1,2",
        "set,3,4,2,3,1,1000000000,1,50,1,5,1,2",
        "set,-3,4,2,3,1,200,1,50,1,5,1,2",
        "set,3,4,2,3,1,200,1,50,1,5,1,+2",
        "set,3/4,2/3,1/200,1/50,1/5,1/2",
        "set,3,4,2,3,1,200,1,50,1,5,1,2\r",
        "set,3,4,2,3,1,200,1,50,1,5,1,2 ",
        "set, 3,4,2,3,1,200,1,50,1,5,1,2",
        "set,set,3,4,2,3,1,200,1,50,1,5,1,2",
        "set,\u{e9}",
    ] {
        let answers = after_book(&format!("{line}\nclose\nnet,0,1\n"));
        assert_eq!(answers, "no,01\n", "{line:?}");
        assert_eq!(after_book(&format!("{line}\n")), "no,01\n", "{line:?}");
    }
}

/// The first four bytes decide, ended by LF or not; no LF is 1.
#[test]
fn set_line_that_no_lf_ends_is_1() {
    for line in [PRESENT.trim_end(), "set,", "set,3", "set,0,0", "set,x"] {
        assert_eq!(after_book(line), "no,01\n", "{line:?}");
    }
    // What begins otherwise is one more line, unreadable by itself.
    for line in ["set", "se", "sets,1", "set;", " set,", "Set,"] {
        assert_eq!(after_book(line), "ok\nno,01\n", "{line:?}");
    }
}

/// A line `set` without a comma is not of the group, nor is one that begins in
/// another way: each is unreadable by itself, and the present figures hold.
#[test]
fn bare_set_is_unreadable_by_itself() {
    for line in [
        "set",
        "set\r",
        "set ",
        " set,3,4,2,3,1,200,1,50,1,5,1,2",
        "SET,3,4,2,3,1,200,1,50,1,5,1,2",
        "Set,0,1,2,3,1,200,1,50,1,5,1,2",
        "sets,0,1,2,3,1,200,1,50,1,5,1,2",
        "set;0,1,2,3,1,200,1,50,1,5,1,2",
        "settings,0,1",
        "",
    ] {
        let answers = after_book(&format!("{line}\n{LIMIT_IN_TIER_2}"));
        let wanted = "ok\nno,01\nok\nok\nok\nok\nok,500\n";
        assert_eq!(answers, wanted, "{line:?}");
    }
}

/// A bare `set` is another line: what stands behind it stands elsewhere.
#[test]
fn set_line_behind_a_bare_set_is_elsewhere() {
    let answers = after_book(&format!("set\n{NOTHING}{LIMIT_IN_TIER_2}"));
    assert_eq!(answers, "ok\nno,01\nno,01\nok\nok\nok\nok\nok,500\n");
    let answers = after_book(&format!("\n{NOTHING}{LIMIT_IN_TIER_2}"));
    assert_eq!(answers, "ok\nno,01\nno,01\nok\nok\nok\nok\nok,500\n");
}

/// A second one is unreadable by itself, however it is written; the first holds.
#[test]
fn second_set_line_is_unreadable_by_itself() {
    for second in [PRESENT, NOTHING, "set,\n", "set\n", "set,1,0\n"] {
        let answers = after_book(&format!("{NOTHING}{second}{LIMIT_IN_TIER_2}"));
        let wanted = "ok\nno,01\nok\nok\nok\nok\nok,0\n";
        assert_eq!(answers, wanted, "{second:?}");
    }
    let third = after_book(&format!("{NOTHING}{PRESENT}{PRESENT}{LIMIT_IN_TIER_2}"));
    assert_eq!(third, "ok\nno,01\nno,01\nok\nok\nok\nok\nok,0\n");
    // One that no LF ends, at the end of the script.
    let unended = after_book(&format!("{NOTHING}{}", PRESENT.trim_end()));
    assert_eq!(unended, "ok\nno,01\n");
}

/// Behind a call or a query, read or not, it is unreadable by itself.
#[test]
fn set_line_behind_another_line_is_unreadable_by_itself() {
    for line in ["net,0,1\n", "held,0,0,2\n"] {
        let answers = after_book(&format!("{line}{NOTHING}{LIMIT_IN_TIER_2}"));
        assert_eq!(answers, "ok\nok,0\nno,01\nok\nok\nok\nok\nok,500\n");
    }
    for line in ["close\n", "carry,0,0,0\n", "carry,0\n", "block,0,1,1\n"] {
        let answers = after_book(&format!("{line}{NOTHING}net,0,1\n"));
        let refused = answers.lines().nth(1).expect("an answer");
        assert!(refused.starts_with("no,"), "{line:?}");
        assert_eq!(answers, format!("ok\n{refused}\nno,01\nok,0\n"));
    }
    // Between the lines of a season, and at its end without LF.
    let answers = after_book(&format!(
        "{LIMIT_IN_TIER_2}{NOTHING}limit,0,0\nclose\nset,3"
    ));
    assert_eq!(
        answers,
        "ok\nok\nok\nok\nok\nok,500\nno,01\nok,500\nok\nno,01\n"
    );
}

/// One that a load or migrate counts is unreadable with its group.
#[test]
fn counted_set_line_is_unreadable_with_its_group() {
    let answers = after_book(&format!("load,0,0,0,0,1,1\n{PRESENT}net,0,1\n"));
    assert_eq!(answers, "ok\nno,01\nok,0\n");
    let answers = after_book(&format!(
        "load,0,0,0,0,2,2\nblock,0,2,5\n{PRESENT}net,0,1\n"
    ));
    assert_eq!(answers, "ok\nno,01\nok,0\n");
    let answers = after_book(&format!("migrate,0,0,1\n{PRESENT}net,0,1\n"));
    assert_eq!(answers, "ok\nno,01\nok,0\n");
    let answers = after_book(&format!("load,0,0,0,0,1,0\n{PRESENT}net,0,1\n"));
    assert_eq!(answers, "ok\nno,06\nno,01\nok,0\n");
    let answers = after_book(&format!("migrate,0,0,0\n{PRESENT}net,0,1\n"));
    assert_eq!(answers, "ok\nok\nno,01\nok,0\n");
}

/// In place of a book line, or before the book, it is the group's unreadable
/// line.
#[test]
fn set_line_in_place_of_a_book_line_is_1() {
    let lines = ["book,1,1,1,1\n", "holder,1\n", "sink,1,0\n", "path,0,0\n"];
    for place in 0..lines.len() {
        let mut replaced = lines;
        replaced[place] = PRESENT;
        let script = format!("{}close\n", replaced.concat());
        assert_eq!(bytes_answered(script.as_bytes()), "no,01\n", "{place}");
        let mut inserted = lines.to_vec();
        inserted.insert(place, PRESENT);
        let script = format!("{}close\n", inserted.concat());
        assert_eq!(bytes_answered(script.as_bytes()), "no,01\n", "{place}");
    }
    // The last book line is absent, and the set line stands in its place.
    let script = format!("{}{PRESENT}", lines[..3].concat());
    assert_eq!(bytes_answered(script.as_bytes()), "no,01\n");
}

/// A pair: numerator 0 to 1,000, denominator 1 to 1,000, the numerator not above
/// it. A bad one is 16, in whichever of the six places, and the run stops.
#[test]
fn bad_pair_is_16_in_every_place() {
    for place in 0..6 {
        for (numerator, denominator) in [(0, 1), (1, 1), (0, 1_000), (999, 1_000), (1_000, 1_000)] {
            let line = with_pair(place, numerator, denominator);
            assert_eq!(
                after_book(&format!("{line}close\n")),
                "ok\nno,04\n",
                "{line}"
            );
        }
        for (numerator, denominator) in [
            (0, 0),
            (1, 0),
            (2, 1),
            (1_000, 999),
            (0, 1_001),
            (1, 1_001),
            (1_000, 1_001),
            (1_001, 1_001),
            (1_001, 1_000),
            (0, 999_999_999),
            (999_999_999, 999_999_999),
            (999_999_999, 1),
        ] {
            let line = with_pair(place, numerator, denominator);
            assert_eq!(after_book(&format!("{line}close\n")), "no,16\n", "{line}");
        }
    }
    assert_eq!(after_book(&set_line(&[0; 12])), "no,16\n");
    assert_eq!(after_book(&set_line(&[1; 12])), "ok\n");
}

/// 1 comes before 16: an unreadable set line before a bad book and before a bad
/// pair of its own, an unreadable book line before a bad pair.
#[test]
fn unreadable_comes_before_16() {
    let answers = |script: &str| bytes_answered(script.as_bytes());
    let bad_book = "book,1,1,1,1\nholder,3\nsink,1,0\npath,0,0\n";
    // A bad book: 16 without the line, with a legal one and with a bad pair.
    for line in ["", PRESENT, "set,1,0,2,3,1,200,1,50,1,5,1,2\n"] {
        assert_eq!(answers(&format!("{bad_book}{line}close\n")), "no,16\n");
    }
    // An unreadable line after it is 1.
    for line in [
        "set,\n",
        "set,3,4\n",
        "set,3,4,2,3,1,200,1,50,1,5,1,x\n",
        "set,3",
    ] {
        assert_eq!(answers(&format!("{bad_book}{line}")), "no,01\n", "{line:?}");
    }
    // A bare set is not of the group, which is 16 as it is.
    assert_eq!(answers(&format!("{bad_book}set\n")), "no,16\n");
    // A bad pair in a line that cannot be read, before and after the fault.
    for line in [
        "set,1,0,2,3,1,200,1,50,1,5,1,\n",
        "set,1,0,2,3,1,200,1,50,1,5,1\n",
        "set,03,4,2,3,1,200,1,50,1,5,2,1\n",
        "set,3,4,2,3,1,200,1,50,1,5,2,1,0\n",
        "set,1,0,2,3,1,200,1,50,1,5,1,2",
    ] {
        assert_eq!(after_book(line), "no,01\n", "{line:?}");
    }
    // Book lines that cannot be read, or are not there.
    let bad_pair = "set,1,0,2,3,1,200,1,50,1,5,1,2\n";
    for book in [
        "book,1,1,1,1\nholder\nsink,1,0\npath,0,0\n",
        "book,1,1,1,1\nholder,1\nsink,1,0\n",
        "book,1,1,1\nholder,1\nsink,1,0\npath,0,0\n",
    ] {
        assert_eq!(answers(&format!("{book}{bad_pair}")), "no,01\n", "{book:?}");
        assert_eq!(answers(&format!("{book}{PRESENT}")), "no,01\n", "{book:?}");
    }
}

/// The line counts among the script's lines, and so among the output's 16 bytes
/// a line.
#[test]
fn set_line_counts_among_the_lines() {
    let script = format!("{OPEN_BOOK}{PRESENT}net,0,1\n");
    let needed = 16 * 6;
    let mut out = vec![9; needed];
    assert_eq!(model::run(script.as_bytes(), &mut out), 8);
    assert_eq!(&out[..8], b"ok\nok,0\n");
    assert!(out[8..].iter().all(|&byte| byte == 9));
    let mut out = vec![9; needed - 1];
    assert_eq!(model::run(script.as_bytes(), &mut out), 15_000_000);
    assert!(out.iter().all(|&byte| byte == 9));

    let mut script = format!("{OPEN_BOOK}{PRESENT}");
    script.push_str(&"close\n".repeat(4_091));
    let mut out = vec![0; 65_536];
    assert!(model::run(script.as_bytes(), &mut out) < 1_000_000);
    script.push_str("close\n");
    assert_eq!(model::run(script.as_bytes(), &mut out), 1_000_000);
}

/// A refused book group is a run with one answer, its set line too.
#[test]
fn refused_set_line_is_a_run() {
    for (line, answer) in [
        ("set,\n", b"no,01\n"),
        ("set,1,0,2,3,1,200,1,50,1,5,1,2\n", b"no,16\n"),
    ] {
        let script = format!("{OPEN_BOOK}{line}");
        let mut out = [9; 80];
        assert_eq!(model::run(script.as_bytes(), &mut out), 6);
        assert_eq!(&out[..6], answer);
        assert_eq!(out[6..], [9; 74]);
    }
}
