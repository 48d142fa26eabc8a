//! Script and host: lines, groups, answers, the program and the one number.

mod common;
use common::{bytes_answered, show_in_book};
use std::io::Write;
use std::process::{Command, Stdio};

const OPEN_BOOK: &str = "book,1,1,1,1\nholder,1\nsink,1,0\npath,0,0\n";

/// Script: an empty script writes nothing, whatever is lent.
#[test]
fn empty_script_writes_nothing() {
    assert_eq!(bytes_answered(b""), "");
    assert_eq!(model::run(b"", &mut []), 0);
    let mut out = [9; 4];
    assert_eq!(model::run(b"", &mut out), 0);
    assert_eq!(out, [9; 4]);
}

/// Script: a last line without LF is one more line, and unreadable.
#[test]
fn last_line_without_lf_is_unreadable() {
    assert_eq!(bytes_answered(b"book,0,0,0,0"), "no,01\n");
    let script = format!("{OPEN_BOOK}net,0,1");
    assert_eq!(bytes_answered(script.as_bytes()), "ok\nno,01\n");
    let script = format!("{OPEN_BOOK}load,0,0,0,0,1,1\nblock,0,1,1");
    assert_eq!(bytes_answered(script.as_bytes()), "ok\nno,01\n");
    assert_eq!(bytes_answered(b"book,1,0,0,0\nholder,1"), "no,01\n");
}

/// Script: a count that runs past the end takes all lines left, one answer.
#[test]
fn counts_past_the_end_take_all_lines_left() {
    show_in_book("load,0,0,0,0,1,2 => no,01\nblock,0,1,1");
    show_in_book("load,0,0,0,0,1,999999999 => no,01\nblock,0,1,1\nnet,0,1\nopen,1");
    show_in_book("migrate,0,0,3 => no,01\nclass,0,1,1,0,0\nclose");
    show_in_book("net,0,1 => ok,0\nmigrate,0,0,1 => no,01");
    assert_eq!(bytes_answered(b"book,0,0,0,1\n"), "no,01\n");
    assert_eq!(
        bytes_answered(b"book,999999999,999999999,999999999,999999999\nholder,1\n"),
        "no,01\n"
    );
}

/// Script: the lines a readable head counts are its own whatever they say.
#[test]
fn counted_lines_belong_to_their_head() {
    show_in_book(
        "load,0,0,0,0,2,2 => no,01
        open,1
        block,0,1,1
        limit,0,0 => no,04
        open,1 => ok",
    );
}

/// Script: the lines after an unreadable head are no one's, one answer each.
#[test]
fn lines_after_an_unreadable_head_stand_alone() {
    show_in_book(
        "load,0,0,0,0,2,02 => no,01
        block,0,1,1 => no,01
        block,1,1,1 => no,01
        net,0,1 => ok,0",
    );
}

/// Script: a second book line and lines that no head counts are passed over.
#[test]
fn second_book_and_stray_lines_are_passed_over() {
    show_in_book(
        "carry,0,0,5 => ok
        book,1,0,0,0 => no,01
        holder,1 => no,01
        sink,1,0 => no,01
        path,0,0 => no,01
        block,0,1,1 => no,01
        class,0,1,1,1,1 => no,01
        net,0,1 => ok,5",
    );
}

/// Script: a number with ten digits, a leading zero or a sign is none.
#[test]
fn numbers_of_ten_digits_or_with_leading_zeros_are_unreadable() {
    show_in_book(
        "carry,0,0,999999999 => no,03
        carry,0,0,1000000000 => no,01
        carry,0,0,0000000001 => no,01
        carry,0,0,01 => no,01
        carry,00,0,1 => no,01
        carry,0,0,-1 => no,01
        carry,0,0,+1 => no,01
        carry,0,0,1.0 => no,01
        carry,0,,1 => no,01
        carry,0,0,1 => ok",
    );
}

/// Script: no blanks, no CR, no other case, no empty line, no quoting.
#[test]
fn other_bytes_are_unreadable() {
    for line in [
        "",
        " ",
        "close\r",
        " close",
        "close ",
        "CLOSE",
        "\"close\"",
        "close\0",
        "clo\u{e9}",
    ] {
        let script = format!("{OPEN_BOOK}{line}\nnet,0,1\n");
        assert_eq!(
            bytes_answered(script.as_bytes()),
            "ok\nno,01\nok,0\n",
            "{line:?}"
        );
    }
    assert_eq!(bytes_answered(b"book,0,0,0,0\r\n"), "no,01\n");
    assert_eq!(bytes_answered(b"\nbook,0,0,0,0\n"), "no,01\n");
    assert_eq!(bytes_answered(b"\xff\xfe\n"), "no,01\n");
}

/// Script: lines of the book group stand in their place, holder, sink, path.
#[test]
fn book_lines_out_of_place_are_unreadable() {
    assert_eq!(
        bytes_answered(b"book,1,1,1,1\nsink,1,0\nholder,1\npath,0,0\n"),
        "no,01\n"
    );
    assert_eq!(
        bytes_answered(b"book,1,1,1,1\nholder,1\npath,0,0\nsink,1,0\n"),
        "no,01\n"
    );
    assert_eq!(
        bytes_answered(b"book,1,1,1,1\nholder,1\nsink,1,0\nclose\n"),
        "no,01\n"
    );
}

/// Script: without a book nothing else is answered.
#[test]
fn run_stops_after_a_refused_book_group() {
    assert_eq!(
        bytes_answered(b"book,0,17,0,0\nbook,0,0,0,0\nclose\n"),
        "no,16\n"
    );
    assert_eq!(bytes_answered(b"open,1\nbook,0,0,0,0\n"), "no,01\n");
    assert_eq!(bytes_answered(b"book,1,0,0,0\nbook,0,0,0,0\n"), "no,01\n");
}

/// Host: 65,536 bytes are read, 65,537 are 1.
#[test]
fn script_of_65_536_and_65_537_bytes() {
    let mut script = b"book,0,0,0,0\n".to_vec();
    script.resize(65_535, b'x');
    script.push(b'\n');
    assert_eq!(script.len(), 65_536);
    let mut out = [9; 64];
    assert_eq!(model::run(&script, &mut out), 9);
    assert_eq!(&out[..9], b"ok\nno,01\n");
    script.push(b'\n');
    let mut out = [9; 64];
    assert_eq!(model::run(&script, &mut out), 1_000_000);
    assert_eq!(out, [9; 64]);
    assert_eq!(model::answers(&script), Err(1));
}

/// Host: 4,096 lines are read, 4,097 are 1; bytes without LF are a line.
#[test]
fn script_of_4_096_and_4_097_lines() {
    let mut script = b"book,0,0,0,0\n".to_vec();
    script.resize(script.len() + 4_095, b'\n');
    let mut out = vec![9; 16 * 4_097];
    let length = 3 + 6 * 4_095;
    assert_eq!(model::run(&script, &mut out), length as u64);
    assert!(out[length..].iter().all(|&byte| byte == 9));
    for last in [b'\n', b'x'] {
        let mut script = script.clone();
        script.push(last);
        let mut out = vec![9; 16 * 4_097];
        assert_eq!(model::run(&script, &mut out), 1_000_000);
        assert!(out.iter().all(|&byte| byte == 9));
    }
}

/// Host: exactly 16 bytes a line are enough, one less is 15, of more the rest
/// stays as it was.
#[test]
fn output_of_exactly_16_bytes_a_line_one_less_and_more() {
    let script = format!("{OPEN_BOOK}net,0,1\nx");
    let needed = 16 * 6;
    let answers = b"ok\nok,0\nno,01\n";
    for lent in [needed, needed + 1, needed + 500] {
        let mut out = vec![0xA5; lent];
        assert_eq!(
            model::run(script.as_bytes(), &mut out),
            answers.len() as u64
        );
        assert_eq!(&out[..answers.len()], answers);
        assert!(out[answers.len()..].iter().all(|&byte| byte == 0xA5));
    }
    for lent in [0, 1, needed - 1] {
        let mut out = vec![0xA5; lent];
        assert_eq!(model::run(script.as_bytes(), &mut out), 15_000_000);
        assert!(out.iter().all(|&byte| byte == 0xA5));
    }
}

/// Host: a refused book group is a run, its answer written and counted.
#[test]
fn refused_book_group_is_a_run() {
    let mut out = [0; 16];
    assert_eq!(model::run(b"close\n", &mut out), 6);
    assert_eq!(&out[..6], b"no,01\n");
}

fn program(script: &[u8]) -> Vec<u8> {
    let mut child = Command::new(env!("CARGO_BIN_EXE_model"))
        .stdin(Stdio::piped())
        .stdout(Stdio::piped())
        .spawn()
        .expect("the program starts");
    let mut stdin = child.stdin.take().expect("a pipe");
    stdin.write_all(script).expect("the program reads");
    drop(stdin);
    let output = child.wait_with_output().expect("the program ends");
    assert!(output.status.success());
    output.stdout
}

/// Program: prints the answers, and `no,01` for a script over the limits.
#[test]
fn program_prints_answers_and_no_01_for_too_long_a_script() {
    let script = format!("{OPEN_BOOK}net,0,1\nclose\n");
    assert_eq!(program(script.as_bytes()), b"ok\nok,0\nno,04\n");
    assert_eq!(program(b""), b"");
    assert_eq!(program(&[b'\n'; 4_097]), b"no,01\n");
    assert_eq!(program(&[b'x'; 65_537]), b"no,01\n");
    assert_eq!(program(&[b'x'; 65_536]), b"no,01\n");
}

/// Answers: a query's `ok,V` and a call's `ok` are told apart by who asked.
#[test]
fn answers_are_ok_or_ok_with_a_value_or_no_with_two_digits() {
    show_in_book(
        "carry,0,0,7 => ok
        net,0,1 => ok,7
        net,1,1 => ok,0
        net,9,1 => no,02
        load,0,3,0,0,1,1 => no,10
        block,0,1,1",
    );
}
