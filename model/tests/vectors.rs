//! The stored scripts of the program `vectors`: the model answers each of them
//! as it is stored, and they take in every refusal.

#[allow(dead_code)]
#[path = "../examples/vectors.rs"]
mod stored;

use model::vectors::{vectors, Vector};
use std::collections::BTreeSet;
use stored::{of_the_crate, printed, written};

/// What an output buffer is filled with before a run; no answer has it.
const MARK: u8 = 0xA5;

/// The number of a run over a marked buffer, and the buffer.
fn run_marked(vector: &Vector) -> (u64, Vec<u8>) {
    let mut out = vec![MARK; vector.lent];
    let number = model::run(&vector.script, &mut out);
    (number, out)
}

/// The stored vectors.
fn all() -> Vec<Vector> {
    vectors(&of_the_crate("stdin"))
}

/// Vectors: what would be printed is what is stored, byte for byte.
#[test]
fn every_vector_is_answered_as_stored() {
    let expected = of_the_crate("stdout");
    let mut rest = &expected[..];
    for vector in all() {
        let (number, out) = run_marked(&vector);
        let text = printed(&vector, number, &out);
        let stored = &rest[..text.len().min(rest.len())];
        let [given, wanted] = [&text, stored].map(String::from_utf8_lossy);
        assert_eq!(given, wanted, "{}", vector.name);
        rest = &rest[stored.len()..];
    }
    assert!(rest.is_empty(), "more is stored than is printed");
}

/// Vectors: a run writes its answers and no byte behind them; one that is
/// refused whole writes none.
#[test]
fn bytes_after_the_answers_stay() {
    for vector in all() {
        let (number, out) = run_marked(&vector);
        let (answers, rest) = out.split_at(written(number));
        assert!(!answers.contains(&MARK), "{}", vector.name);
        assert!(rest.iter().all(|&byte| byte == MARK), "{}", vector.name);
    }
}

/// Vectors: there are enough of them, under names that differ.
#[test]
fn names_differ() {
    let vectors = all();
    let names: BTreeSet<&str> = vectors.iter().map(|one| &one.name[..]).collect();
    assert_eq!(names.len(), vectors.len());
    assert!(vectors.len() >= 300, "only {}", vectors.len());
}

/// Vectors: the numbers 1 to 14 and 16 to 19 are answers; 1 and 15 refuse a script
/// whole.
#[test]
fn every_refusal_is_drawn() {
    let text = String::from_utf8(of_the_crate("stdout")).expect("answers are ASCII");
    let printed: BTreeSet<&str> = text.lines().filter_map(|l| l.strip_prefix("no,")).collect();
    let wanted: Vec<String> = (1..=14).chain(16..=19).map(|n| format!("{n:02}")).collect();
    assert!(printed.into_iter().eq(wanted.iter()));
    let numbers: BTreeSet<u64> = all().iter().map(|one| run_marked(one).0).collect();
    let refused_whole = numbers.range(1_000_000..).copied();
    assert!(refused_whole.eq([1_000_000, 15_000_000]));
}

/// The number of a line that speaks to the reader has 1 to 9 digits and no
/// leading zero; lines without one are as good.
fn number_is_plain(line: &str) -> bool {
    let directive = ["#times ", "#cut ", "#lend "].map(|way| line.strip_prefix(way));
    let Some(directive) = directive.into_iter().flatten().next() else {
        return true;
    };
    let number = directive.split(' ').next().unwrap_or("");
    let value: Option<u32> = number.parse().ok();
    value.is_some_and(|value| value < 1_000_000_000 && value.to_string() == number)
}

/// Vectors: the text fits, ends in LF, and speaks to the reader in its five
/// ways alone, so that every reader of the format takes it alike.
#[test]
fn the_text_keeps_to_the_format() {
    let text = of_the_crate("stdin");
    assert!(text.len() <= 262_144 && text.ends_with(b"\n"));
    let ways: [&[u8]; 5] = [b"# ", b"#times ", b"#cut ", b"#lend ", b"#:"];
    for line in text.split(|&byte| byte == b'\n') {
        let known = ways.iter().any(|way| line.starts_with(way));
        let line_text = String::from_utf8_lossy(line);
        assert!(known || !line.starts_with(b"#"), "{line_text}");
        assert!(number_is_plain(&line_text), "{line_text}");
    }
    for vector in vectors(&text) {
        assert!(vector.script.len() < 65_600, "{}", vector.name);
    }
}

/// Vectors: the host's limits are there on both sides, in bytes, in lines and
/// in output lent for each line.
#[test]
fn the_hosts_limits_are_there_on_both_sides() {
    let vectors = all();
    let lines = |one: &Vector| {
        let script = one.script.split_inclusive(|&byte| byte == b'\n');
        script.count()
    };
    for bytes in [0, 65_536, 65_537] {
        assert!(vectors.iter().any(|one| one.script.len() == bytes));
    }
    for count in [4_096, 4_097] {
        assert!(vectors.iter().any(|one| lines(one) == count));
    }
    for lent_above in [-1, 0, 1] {
        let above = |one: &Vector| one.lent as i64 - 16 * lines(one) as i64;
        assert!(vectors.iter().any(|one| above(one) == lent_above));
    }
}
