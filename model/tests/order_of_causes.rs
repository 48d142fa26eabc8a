//! Refusals by cause: a call that meets two causes gets the lower number, and
//! all its lines are searched for one cause before any is for the next.
//!
//! Pairs that no call can meet both of (5 and 10, 7 and 8, 9 and 10, 13 and 14,
//! 14 and 15) are shown by the neighbours that one call can meet. The numbers
//! that stand out of their order, 17, 18 and 19, are shown with their requests.

mod common;
use common::{bytes_answered, show_in_book};

/// 1 before 2: an unreadable line under a head that names no holder of ours.
#[test]
fn order_1_before_2() {
    show_in_book(
        "load,9,0,0,0,1,1 => no,01
        block,0,1
        migrate,0,9,2 => no,01
        class,9,0,1,0,0
        class,0,1,1,0",
    );
}

/// 1 before 3: a count above its range with too few lines left.
#[test]
fn order_1_before_3_for_counts() {
    show_in_book("migrate,0,0,65 => no,01\nclass,0,1,1,0,0");
    show_in_book("load,0,0,0,0,1,2209 => no,01\nblock,0,1,1");
}

/// 2 before 3, from each call and query that can meet both.
#[test]
fn order_2_before_3() {
    show_in_book(
        "load,9,0,4,0,0,1 => no,02
        block,0,1,100000000
        carry,9,0,0 => no,02
        prior,9,0,0,1 => no,02
        verify,0,9,3,0,0,0,0,0 => no,02
        migrate,4,9,0 => no,02
        held,9,0,0 => no,02
        net,9,4 => no,02
        nominate,0,9,0 => no,02
        award,9,0,0 => no,02",
    );
}

/// 2 over all lines before 3: the second line names a missing holder, the
/// first has class 9.
#[test]
fn order_2_in_the_second_line_before_3_in_the_first() {
    show_in_book(
        "migrate,4,0,2 => no,02
        class,0,1,9,10000000,10000000
        class,0,9,1,0,0",
    );
}

/// 3 before 4, from each call.
#[test]
fn order_3_before_4() {
    show_in_book(
        "nominate,0,0,0 => no,03
        award,0,0,0 => no,03
        migrate,1,0,1 => no,03
        class,0,0,0,0,0
        open,1 => ok
        load,0,0,4,0,1,1 => no,03
        block,0,1,1
        carry,0,0,0 => no,03
        prior,0,0,0,0 => no,03
        verify,0,0,0,1,1,1,1,0 => no,03
        migrate,4,0,0 => no,03
        verify,0,0,1,1,1,1,1,2 => no,03
        open,0 => no,03
        open,11 => no,03",
    );
}

/// 2 before 4 for the limit query, which has no other field.
#[test]
fn order_2_before_4_for_limit() {
    show_in_book("limit,9,0 => no,02\nlimit,0,9 => no,02\nlimit,0,0 => no,04");
}

/// 4 before 5, from each posting.
#[test]
fn order_4_before_5() {
    show_in_book(
        "load,0,0,0,0,1,1 => ok
        block,0,1,1
        carry,0,0,1 => ok
        prior,0,0,1,0 => ok
        verify,0,0,2,1,1,1,3,0 => ok
        open,1 => ok
        load,0,0,0,0,1,1 => no,04
        block,0,1,1
        carry,0,0,1 => no,04
        prior,0,0,1,0 => no,04
        verify,0,0,2,1,1,1,3,0 => no,04",
    );
}

/// 5 before 6: a second load with a broken list.
#[test]
fn order_5_before_6() {
    show_in_book(
        "load,0,0,0,0,1,1 => ok
        block,0,1,1
        load,0,0,0,0,1,1 => no,05
        block,5,0,1",
    );
}

/// 3 over all blocks before 6: a kW out of range in a broken list.
#[test]
fn order_3_in_a_block_before_6() {
    show_in_book(
        "load,0,0,0,0,10,2 => no,03
        block,9,9,1
        block,0,1,100000000",
    );
}

/// 6 before 7: a broken list that also leaves hours out.
#[test]
fn order_6_before_7() {
    show_in_book(
        "load,0,0,0,0,100,2 => no,06
        block,10,5,1
        block,12,5,1
        load,0,0,0,0,100,0 => no,06",
    );
}

/// 6 and 7 before 10: blocks are looked at before the sink's kind.
#[test]
fn order_6_and_7_before_10() {
    show_in_book(
        "load,0,1,0,0,100,0 => no,06
        load,0,3,0,0,100,1 => no,07
        block,0,1,1
        load,2,0,0,0,100,1 => no,07
        block,0,1,1
        load,2,0,0,0,100,1 => no,10
        block,0,100,1",
    );
}

/// 4 before 8: an untimely migration to the holder itself.
#[test]
fn order_4_before_8() {
    show_in_book("migrate,1,0,1 => no,04\nclass,0,0,1,1,1000");
}

/// 3 in the second line before 8 in the first.
#[test]
fn order_3_in_the_second_line_before_8_in_the_first() {
    show_in_book(
        "migrate,0,0,2 => no,03
        class,0,0,1,0,0
        class,0,1,0,0,0",
    );
}

/// 8 before 9: a line with a kind 2 holder and one that takes too much.
#[test]
fn order_8_before_9() {
    show_in_book(
        "migrate,0,0,2 => no,08
        class,0,1,1,1,1000
        class,1,2,1,0,0
        migrate,0,0,1 => no,09
        class,0,1,1,1,1000",
    );
}

/// 5 and 10 never meet in one call: what was posted before was accepted at that
/// sink, and a refusal with 10 posts nothing.
#[test]
fn order_a_refusal_with_10_is_not_posted() {
    show_in_book("carry,0,4,1 => no,10\ncarry,0,4,1 => no,10\nprior,2,0,1,0 => no,10");
}

/// 4 before 10 and 3 before 10: the sink's kind comes last in a posting.
#[test]
fn order_3_and_4_before_10() {
    show_in_book(
        "carry,0,4,0 => no,03
        prior,2,0,1,2 => no,03
        nominate,2,0,1 => no,04
        open,1 => ok
        carry,0,4,1 => no,04
        prior,2,0,1,0 => no,04",
    );
}

/// 10 before 11: a kind 2 holder with evidence of 0 kW at a sink not for it.
#[test]
fn order_10_before_11() {
    show_in_book(
        "verify,2,0,1,1,1,1,3,0 => ok
        open,1 => ok
        nominate,2,0,1 => no,10
        nominate,2,4,1 => no,11",
    );
}

/// 10 before 12 and 13: a kind 1 holder with nothing at a scheduling point or,
/// in tier 1, at a Sub-LAP.
#[test]
fn order_10_before_12_and_13() {
    show_in_book(
        "open,1 => ok
        nominate,0,4,1 => no,10
        nominate,0,2,1 => no,10
        nominate,0,0,1 => no,12
        close => ok
        open,2 => ok
        nominate,0,4,1 => no,10
        nominate,0,0,1 => no,13",
    );
}

/// 11 before 12 and 12 before 13: taken away one after another.
#[test]
fn order_11_before_12_before_13() {
    show_in_book(
        "verify,2,0,2,9,9,1,3,0 => ok
        prior,2,4,8,0 => ok
        open,1 => ok
        nominate,2,4,10 => no,11
        nominate,2,4,9 => no,12
        nominate,2,4,8 => no,13",
    );
}

/// 11 before 13 in a later tier.
#[test]
fn order_11_before_13() {
    show_in_book(
        "verify,2,0,2,9,9,1,3,0 => ok
        open,1 => ok
        close => ok
        open,2 => ok
        nominate,2,4,10 => no,11
        nominate,2,4,9 => no,13",
    );
}

/// 3 and 4 before 14: an award of 0 kW, and one with no tier open.
#[test]
fn order_3_and_4_before_14() {
    show_in_book(
        "award,0,0,1 => no,04
        open,1 => ok
        award,0,0,0 => no,03
        award,0,0,1 => no,14",
    );
}

/// 1 before 15: a script that is too long for a buffer that is too short.
#[test]
fn order_1_before_15() {
    assert_eq!(model::run(&[b'\n'; 4_097], &mut []), 1_000_000);
    assert_eq!(model::run(&[b'\n'; 4_096], &mut []), 15_000_000);
}

/// 15 before 16, and before any answer: the text is not looked at.
#[test]
fn order_15_before_16() {
    let script = b"book,0,17,0,0\n";
    assert_eq!(model::run(script, &mut [0; 15]), 15_000_000);
    let mut out = [0; 16];
    assert_eq!(model::run(script, &mut out), 6);
    assert_eq!(&out[..6], b"no,16\n");
}

/// 1 before 16: an absent line in a book group that also breaks a rule.
#[test]
fn order_1_before_16() {
    assert_eq!(bytes_answered(b"book,9,17,0,0\n"), "no,01\n");
    assert_eq!(
        bytes_answered(b"book,2,0,0,0\nholder,3\nholder\n"),
        "no,01\n"
    );
    assert_eq!(
        bytes_answered(b"book,2,0,0,0\nholder,3\nholder,1\n"),
        "no,16\n"
    );
}
