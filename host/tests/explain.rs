//! The program `explain`, by itself and as `./season --explain` runs it.

mod stored;

use std::io::Write;
use std::path::Path;
use std::process::{Command, Output, Stdio};

const EXPLAIN: &str = env!("CARGO_BIN_EXE_explain");

/// What the program prints for a script that comes from standard input.
fn explained(name: &str, script: &[u8]) -> String {
    let mut command = Command::new(EXPLAIN);
    command.stdin(Stdio::piped()).stdout(Stdio::piped());
    let mut child = command.spawn().expect("the program starts");
    let mut input = child.stdin.take().expect("its input");
    input.write_all(script).expect("a script given");
    drop(input);
    let output = child.wait_with_output().expect("the program ends");
    assert!(output.status.success(), "{name}");
    String::from_utf8(output.stdout).expect("plain text")
}

fn output(program: &Path, words: &[&str]) -> Output {
    let mut command = Command::new(program);
    command.current_dir(stored::repository()).args(words);
    command.output().expect("the program starts")
}

fn case_1() -> String {
    let path = stored::repository().join("examples/case-1.explained.txt");
    std::fs::read_to_string(path).expect("case 1 explained")
}

#[test]
fn case_1_is_explained_as_stored() {
    let output = output(Path::new(EXPLAIN), &["examples/case-1.txt"]);
    assert!(output.status.success());
    assert_eq!(String::from_utf8_lossy(&output.stdout), case_1());
}

/// The script at the root builds what it needs, which the test's own build is
/// not.
#[test]
fn season_explains_case_1_as_stored() {
    let season = stored::repository().join("season");
    let output = output(&season, &["--explain", "examples/case-1.txt"]);
    assert!(output.status.success());
    assert_eq!(String::from_utf8_lossy(&output.stdout), case_1());
}

/// Several scripts stand under their names.
#[test]
fn several_scripts_stand_under_their_names() {
    let output = output(Path::new(EXPLAIN), &["examples/case-1.txt"; 2]);
    let one = format!("examples/case-1.txt\n{}", case_1());
    assert_eq!(String::from_utf8_lossy(&output.stdout), one.repeat(2));
}

#[test]
fn a_file_that_is_not_there_is_said_to_be_so() {
    let output = output(Path::new(EXPLAIN), &["no-such-script.txt"]);
    assert!(!output.status.success() && output.stdout.is_empty());
    let said = String::from_utf8_lossy(&output.stderr);
    assert!(said.starts_with("explain: no-such-script.txt: "), "{said}");
}

/// Two lines to each answer, and one more where lines are not run.
fn check_lines(name: &str, script: &[u8]) {
    let text = explained(name, script);
    let lines: Vec<&str> = text.lines().collect();
    let Ok(answers) = season_book::answers(script) else {
        assert!(text.starts_with("The script is refused, no,01: "), "{name}");
        return;
    };
    let said = answers.split_inclusive(|&byte| byte == b'\n');
    let said: Vec<String> = said
        .map(|one| String::from_utf8_lossy(one).into())
        .collect();
    assert!(matches!(lines.len() - 2 * said.len(), 0 | 1), "{name}");
    for (place, answer) in said.iter().enumerate() {
        let words = lines[2 * place + 1].trim_start();
        let wanted = match answer.trim_end().split_once(',') {
            None => "accepted".to_string(),
            Some(("ok", value)) => format!("{value} kW: "),
            Some((_, number)) => format!("refused with {}: ", number.trim_start_matches('0')),
        };
        assert!(words.starts_with(&wanted), "{name}: {words}");
    }
    let printed = |byte: char| byte == '\n' || !byte.is_control();
    assert!(text.chars().all(printed), "{name}");
    assert!(!text.contains("without words"), "{name}");
}

#[test]
fn every_stored_script_is_explained() {
    for (name, script) in stored::scripts() {
        check_lines(&name, &script);
    }
}

/// What a refused book, an empty script and odd bytes look like.
#[test]
fn odd_scripts_are_explained() {
    let text = explained("refused", b"book,1,0,0,0\nholder,3\nclose\nclose\n");
    assert!(text.starts_with("   1  book,1,0,0,0 with 1 holder line\n      refused with 16: "));
    assert!(text.ends_with("\nThe run stops here; lines not run: 2.\n"));
    let text = explained("empty", b"");
    assert_eq!(text, "The script is empty and has no answers.\n");
    let text = explained("odd", b"book,0,0,0,0\nload,0,0,0,0,1,2\nclose\n\x1b\xff\n");
    assert!(text.contains("   2  load,0,0,0,0,1,2 with 2 other lines\n"));
    let text = explained(
        "set",
        b"book,1,0,0,0\nholder,1\nset,0,1,0,1,0,1,0,1,0,1,0,1\nset\n",
    );
    let said =
        "   1  book,1,0,0,0 with 1 holder line, 1 set line\n      accepted: the book is open\n";
    assert!(text.starts_with(said), "{text}");
    assert!(
        text[said.len()..].starts_with("   4  set\n      refused with 1: "),
        "{text}"
    );
    let text = explained("set", b"book,0,0,0,0\nset,2,1,0,1,0,1,0,1,0,1,0,1\nclose\n");
    let said = "   1  book,0,0,0,0 with 1 set line\n      refused with 16: ";
    assert!(text.starts_with(said), "{text}");
    assert!(
        text.ends_with("\nThe run stops here; lines not run: 1.\n"),
        "{text}"
    );
    let text = explained("odd", b"\x1b\xff");
    assert!(text.starts_with("   1  \\x1b\\xff\n      refused with 1: "));
    let text = explained("long", &[b'x'; 100]);
    assert!(text.starts_with(&format!("   1  {}...\n", "x".repeat(72))));
}

/// Causes are those of the page; of cause 1, what a call can meet.
#[test]
fn causes_are_those_of_the_page() {
    let page = std::fs::read_to_string(stored::repository().join("docs/REFUSALS.md"));
    let page = page.expect("the page of refusals");
    for number in 1..=19 {
        let words = season_book::cause(number).expect("a cause");
        let end = if number == 1 {
            "; or a script over"
        } else {
            " |"
        };
        let row = format!("\n| {number} | {words}{end}");
        assert!(page.contains(&row), "{row}");
    }
    assert_eq!(season_book::cause(0), None);
    assert!(!page.contains("\n| 20 |") && season_book::cause(20).is_none());
}
