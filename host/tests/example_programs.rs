//! The example programs in C and in Rust, built, linked and run on the scripts
//! of `examples/`.

use std::path::{Path, PathBuf};
use std::process::{Command, Output};

fn repository() -> PathBuf {
    Path::new(env!("CARGO_MANIFEST_DIR")).join("..")
}

/// The scripts of `examples/`, by name, each with its stored answers. Other
/// texts have a second end to their name, as `.answers.txt`.
fn scripts() -> Vec<(PathBuf, Vec<u8>)> {
    let folder = repository().join("examples");
    let entries = std::fs::read_dir(folder).expect("a folder of examples");
    let paths = entries.map(|entry| entry.expect("an entry").path());
    let mut scripts: Vec<PathBuf> = paths
        .filter(|path| path.extension().is_some_and(|end| end == "txt"))
        .filter(|path| path.with_extension("").extension().is_none())
        .collect();
    scripts.sort();
    let stored = |script: &Path| std::fs::read(script.with_extension("answers.txt"));
    scripts
        .into_iter()
        .map(|script| (script.clone(), stored(&script).expect("stored answers")))
        .collect()
}

/// A C program in the test's own folder, linked to an archive and built by the
/// machine's own compiler, warnings as errors.
fn c_program(name: &str, flags: &[&str], sources: &[&Path], archive: &Path) -> PathBuf {
    let program = Path::new(env!("CARGO_TARGET_TMPDIR")).join(name);
    let status = Command::new("cc")
        .args(["-std=c11", "-Wall", "-Wextra", "-Werror", "-O2", "-I"])
        .arg(repository().join("host/include"))
        .args(flags)
        .args(sources)
        .arg(archive)
        .arg("-o")
        .arg(&program)
        .status()
        .expect("a C compiler, named cc");
    assert!(status.success(), "the C program does not build");
    program
}

/// The archive with its exported name changed, as the header says.
fn renamed_archive() -> PathBuf {
    let renamed = Path::new(env!("CARGO_TARGET_TMPDIR")).join("libseason_book.a");
    let status = Command::new("objcopy")
        .args(["--redefine-sym", "run=season_book_run"])
        .arg(repository().join("target/staticlib/libscript.a"))
        .arg(&renamed)
        .status()
        .expect("objcopy");
    assert!(status.success(), "the archive's symbol cannot be renamed");
    renamed
}

fn output(program: &Path, scripts: &[&Path]) -> Output {
    let mut command = Command::new(program);
    command.args(scripts).output().expect("the program starts")
}

/// Every example is answered as stored; a script that is too long, and a file
/// that is not there, are said to be so.
fn check(program: &Path) {
    let scripts = scripts();
    assert!(scripts.len() >= 7);
    for (script, stored) in &scripts {
        let output = output(program, &[script]);
        assert!(output.status.success(), "{}", script.display());
        assert!(output.stdout == *stored, "{}", script.display());
    }
    let all: Vec<&Path> = scripts.iter().map(|(script, _)| script.as_path()).collect();
    let stored: Vec<u8> = scripts
        .iter()
        .flat_map(|(_, stored)| stored.clone())
        .collect();
    assert!(output(program, &all).stdout == stored);

    let long = program.with_extension("long.txt");
    std::fs::write(&long, [b'\n'; 4_097]).expect("a long script");
    for bad in [long.as_path(), Path::new("no-such-script.txt")] {
        let output = output(program, &[bad]);
        assert!(!output.status.success() && output.stdout.is_empty());
        assert!(!output.stderr.is_empty());
    }
}

#[test]
fn c_program_answers_every_example() {
    let source = repository().join("host/examples/answers.c");
    let archive = repository().join("target/staticlib/libscript.a");
    check(&c_program("answers-c", &[], &[&source], &archive));
}

/// A program with a `run` of its own links the renamed archive.
#[test]
fn c_program_with_a_run_of_its_own_answers_every_example() {
    let own = Path::new(env!("CARGO_TARGET_TMPDIR")).join("run.c");
    std::fs::write(&own, "int run(void);\nint run(void) { return 1; }\n").expect("a source");
    let source = repository().join("host/examples/answers.c");
    let flags = ["-DSEASON_SYMBOL=season_book_run"];
    check(&c_program(
        "answers-own-run",
        &flags,
        &[&source, &own],
        &renamed_archive(),
    ));
}

#[test]
fn rust_program_answers_every_example() {
    check(Path::new(env!("CARGO_BIN_EXE_answers")));
}

/// The header's numbers are the wrapper's.
#[test]
fn header_has_the_wrappers_numbers() {
    let header = std::fs::read_to_string(repository().join("host/include/season_book.h"));
    let header = header.expect("the header");
    for (name, number) in [
        ("SEASON_MAX_SCRIPT_BYTES", season_book::MAX_SCRIPT_BYTES),
        ("SEASON_MAX_SCRIPT_LINES", season_book::MAX_SCRIPT_LINES),
        (
            "SEASON_OUTPUT_BYTES_PER_LINE",
            season_book::OUTPUT_BYTES_PER_LINE,
        ),
        ("SEASON_STACK_BYTES", season_book::STACK_BYTES),
    ] {
        let line = format!("#define {name} {number}\n");
        assert!(header.contains(&line), "{line}");
    }
}
