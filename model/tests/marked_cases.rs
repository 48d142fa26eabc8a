//! The twelve marked cases of the paper, each as a script. Where the paper
//! rules a reading out, the value that reading would give is named.

mod common;
use common::{answers, show, EMPTY_SEASON};

const CASE_1: &str = "book,1,2,1,2
holder,1
sink,1,0
path,0,0
path,1,0
load,0,0,0,0,400,2
block,0,398,1000
block,398,2,5000
carry,0,0,100
prior,0,1,300,20
open,1
limit,0,0
nominate,0,1,201
nominate,0,1,200
award,0,1,150
award,0,1,51
close
net,1,2
";

const CASE_1_ANSWERS: &str = "ok
ok
ok
ok
ok
ok,200
no,13
ok
ok
no,14
ok
ok,150
";

/// One load-serving holder at a Default LAP with one path.
const SMALL_BOOK: &str = "
    book,1,1,1,1 => ok
    holder,1
    sink,1,0
    path,0,0
";

/// Three load-serving holders at a Default LAP with one path.
const THREE_HOLDERS: &str = "
    book,3,1,1,1 => ok
    holder,1
    holder,1
    holder,1
    sink,1,0
    path,0,0
";

/// Case 1, whole and byte for byte; from the program's side and the host's.
#[test]
fn case_01() {
    assert_eq!(answers(CASE_1), CASE_1_ANSWERS);
    let mut out = [0; 16 * 18];
    let number = model::run(CASE_1.as_bytes(), &mut out);
    assert_eq!(number, CASE_1_ANSWERS.len() as u64);
    assert_eq!(&out[..CASE_1_ANSWERS.len()], CASE_1_ANSWERS.as_bytes());
}

/// Case 2: 3 hours of 400 are more than 0.5%, so the metric is 5000. Ruled
/// out: one exceeding block being counted for one hour (1000).
#[test]
fn case_02() {
    show(&format!(
        "{SMALL_BOOK}
        load,0,0,1,0,400,2 => ok
        block,0,397,1000
        block,397,3,5000
        {EMPTY_SEASON}
        open,4 => ok
        limit,0,0 => ok,5000"
    ));
}

/// Case 3: of 100 hours 2 may be missing, and 3 may not.
#[test]
fn case_03() {
    show(&format!(
        "{SMALL_BOOK}
        load,0,0,0,0,100,1 => ok
        block,0,98,10
        load,0,0,1,0,100,1 => no,07
        block,0,97,10
        load,0,0,1,0,100,2 => ok
        block,1,50,10
        block,52,48,10"
    ));
}

/// Case 4: contract load above the metric leaves 0.
#[test]
fn case_04() {
    show(&format!(
        "{SMALL_BOOK}
        load,0,0,1,1200,400,1 => ok
        block,0,400,1000
        {EMPTY_SEASON}
        open,4 => ok
        limit,0,0 => ok,0"
    ));
}

/// Case 5: A = 3 gives S = 2 (tier 3) and P = 1 (tiers 1 and 2).
#[test]
fn case_05() {
    show(&format!(
        "{SMALL_BOOK}
        load,0,0,0,0,1,1 => ok
        block,0,1,3
        prior,0,0,99,0 => ok
        open,1 => ok
        limit,0,0 => ok,1
        close => ok
        open,2 => ok
        limit,0,0 => ok,1
        close => ok
        open,3 => ok
        limit,0,0 => ok,2"
    ));
}

/// Case 6: 281 kW is above a - l = 280 and above the limit: 12, not 13.
#[test]
fn case_06() {
    let script = CASE_1.replace("nominate,0,1,201", "nominate,0,1,281");
    let expected = CASE_1_ANSWERS.replace("no,13", "no,12");
    assert_eq!(answers(&script), expected);
}

/// Case 7: after case 1 the limit of tier 2 is 500 - 150 - 100.
#[test]
fn case_07() {
    let script = format!("{CASE_1}open,2\nlimit,0,0\n");
    assert_eq!(answers(&script), format!("{CASE_1_ANSWERS}ok\nok,250\n"));
}

/// Case 8: each of two gainers gets half of the 100 there were, so 0 is kept.
/// Ruled out: the second gainer's share being taken from what the first left
/// (25 kept).
#[test]
fn case_08() {
    show(&format!(
        "{THREE_HOLDERS}
        load,0,0,0,0,1,1 => ok
        block,0,1,1000
        carry,0,0,100 => ok
        migrate,0,0,2 => ok
        class,0,1,1,500,1000
        class,0,2,1,500,1000
        held,0,0,1 => ok,0
        held,1,0,1 => ok,50
        held,2,0,1 => ok,50
        net,0,1 => ok,100"
    ));
}

/// Case 9: a share of 999 thousandths of 1 kW is rounded down to nothing.
#[test]
fn case_09() {
    show(&format!(
        "{THREE_HOLDERS}
        load,0,0,0,0,1,1 => ok
        block,0,1,1000
        carry,0,0,1 => ok
        migrate,0,0,1 => ok
        class,0,1,1,999,1000
        held,0,0,1 => ok,1
        held,1,0,1 => ok,0"
    ));
}

/// Case 10: 1,500 W against 501 W leave 999 W, so m = 0 and nothing moves.
/// Ruled out: rounding each way before netting (1 kW would move).
#[test]
fn case_10() {
    show(&format!(
        "{THREE_HOLDERS}
        load,0,0,1,0,1,1 => ok
        block,0,1,10
        carry,0,0,10 => ok
        {EMPTY_SEASON}
        migrate,1,0,2 => ok
        class,0,1,1,1,1500
        class,1,0,1,1,501
        held,1,0,1 => ok,0
        migrate,1,0,2 => ok
        class,0,1,1,1,1500
        class,1,0,1,1,500
        held,1,0,1 => ok,1
        open,4 => ok
        limit,0,0 => ok,0
        limit,1,0 => ok,0
        close => ok"
    ));
}

/// Case 11: 3,333 ten-thousandths of 1000 kW verify 333 kW, not 334.
#[test]
fn case_11() {
    show(
        "book,1,1,1,1 => ok
        holder,2
        sink,4,0
        path,0,0
        verify,0,0,1,1000,3333,1,3,0 => ok
        load,0,0,0,0,1,1 => ok
        block,0,1,4000
        open,1 => ok
        close => ok
        open,2 => ok
        nominate,0,0,334 => no,11
        nominate,0,0,333 => ok
        nominate,0,0,1 => no,11",
    );
}

/// Case 12: A 700 less awards of 650 and LT of 100 is not below 0.
#[test]
fn case_12() {
    show(&format!(
        "{SMALL_BOOK}
        load,0,0,0,0,1,1 => ok
        block,0,1,1000
        load,0,0,1,0,1,1 => ok
        block,0,1,700
        carry,0,0,100 => ok
        open,1 => ok
        close => ok
        open,2 => ok
        nominate,0,0,400 => ok
        award,0,0,400 => ok
        close => ok
        open,3 => ok
        nominate,0,0,250 => ok
        award,0,0,250 => ok
        close => ok
        held,0,0,1 => ok,750
        open,4 => ok
        limit,0,0 => ok,0
        nominate,0,0,1 => no,13"
    ));
}
