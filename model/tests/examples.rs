//! The examples: each script of the folder is answered as its stored answers
//! say, byte for byte. The folder is read, so a new example needs no entry here.

use std::collections::BTreeSet;
use std::path::{Path, PathBuf};

const ANSWERS: &str = ".answers.txt";

fn folder() -> PathBuf {
    Path::new(env!("CARGO_MANIFEST_DIR")).join("../examples")
}

fn bytes_of(name: &str) -> Vec<u8> {
    let bytes = std::fs::read(folder().join(name));
    bytes.unwrap_or_else(|error| panic!("{name}: {error}"))
}

/// The names of all files in the folder.
fn files() -> BTreeSet<String> {
    let entries = std::fs::read_dir(folder()).expect("a folder of examples");
    entries
        .map(|entry| entry.expect("an entry of the folder").file_name())
        .map(|name| name.into_string().expect("a name in plain letters"))
        .collect()
}

/// The names of the scripts, without `.txt`. Other texts have a second end to
/// their name, as `.answers.txt`.
fn scripts() -> Vec<String> {
    let files = files();
    let texts = files.iter().filter_map(|name| name.strip_suffix(".txt"));
    let scripts: Vec<String> = texts
        .filter(|name| !name.contains('.'))
        .map(String::from)
        .collect();
    assert!(!scripts.is_empty(), "no script in the folder");
    scripts
}

/// Examples: the answers are the stored ones.
#[test]
fn every_script_is_answered_as_stored() {
    for name in scripts() {
        let script = bytes_of(&format!("{name}.txt"));
        let stored = bytes_of(&format!("{name}{ANSWERS}"));
        let answers = model::answers(&script).expect("a script within its limits");
        let lines = |bytes: &[u8]| String::from_utf8_lossy(bytes).into_owned();
        for (k, (answer, wanted)) in lines(&answers)
            .lines()
            .zip(lines(&stored).lines())
            .enumerate()
        {
            assert_eq!(answer, wanted, "{name}, answer {}", k + 1);
        }
        assert!(answers == stored, "{name}: not as stored byte for byte");
    }
}

/// Examples: a host with 16 bytes a line gets the same bytes and their length,
/// and the rest of its buffer stays as it was.
#[test]
fn every_script_is_answered_as_stored_through_the_host() {
    for name in scripts() {
        let script = bytes_of(&format!("{name}.txt"));
        let stored = bytes_of(&format!("{name}{ANSWERS}"));
        let lines = script.iter().filter(|&&byte| byte == b'\n').count();
        let mut out = vec![b'#'; 16 * lines];
        let number = model::run(&script, &mut out);
        assert_eq!(number, stored.len() as u64, "{name}");
        assert!(out[..stored.len()] == stored[..], "{name}");
        assert!(out[stored.len()..].iter().all(|&b| b == b'#'), "{name}");
    }
}

/// Examples: a script has its answers and its page, and answers have a script.
#[test]
fn every_script_has_its_answers_and_its_page() {
    let (files, scripts) = (files(), scripts());
    for name in &scripts {
        for end in [ANSWERS, ".md"] {
            assert!(files.contains(&format!("{name}{end}")), "{name}{end}");
        }
    }
    let answered = files.iter().filter_map(|name| name.strip_suffix(ANSWERS));
    assert!(answered.eq(scripts.iter()));
}

/// Examples: every refusal that a script can draw is drawn by one of them.
#[test]
fn every_refusal_of_a_script_is_drawn() {
    let stored = scripts()
        .into_iter()
        .flat_map(|name| bytes_of(&format!("{name}{ANSWERS}")));
    let text = String::from_utf8(stored.collect()).expect("answers are ASCII");
    let printed: BTreeSet<&str> = text.lines().filter_map(|l| l.strip_prefix("no,")).collect();
    let wanted: Vec<String> = (1..=14).chain(16..=19).map(|n| format!("{n:02}")).collect();
    assert!(printed.into_iter().eq(wanted.iter()));
}
