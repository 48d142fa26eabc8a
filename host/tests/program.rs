//! The program `season` where its input cannot be read or its answers cannot be
//! written: one line on standard error, and `./season` ends with a status other
//! than 0.

use std::fs::File;
use std::io::Write;
use std::os::fd::OwnedFd;
use std::os::unix::net::UnixStream;
use std::path::{Path, PathBuf};
use std::process::{Command, Output, Stdio};
use std::sync::Once;

fn repository() -> PathBuf {
    Path::new(env!("CARGO_MANIFEST_DIR")).join("..")
}

/// The program itself, and the script that calls it. The script builds the
/// program where its sources changed, and says so; that is done first.
fn programs() -> [PathBuf; 2] {
    static BUILT: Once = Once::new();
    let wrapper = repository().join("season");
    BUILT.call_once(|| {
        let script = File::open(repository().join("examples/case-1.txt")).expect("case 1");
        let output = run(&wrapper, Stdio::from(script), Stdio::piped());
        assert!(output.status.success(), "the program is not built");
    });
    [repository().join("target/bin/season"), wrapper]
}

fn run(program: &Path, input: Stdio, output: Stdio) -> Output {
    let mut command = Command::new(program);
    command.stdin(input).stdout(output).stderr(Stdio::piped());
    let child = command.spawn().expect("the program starts");
    child.wait_with_output().expect("the program ends")
}

fn case_1() -> Vec<u8> {
    std::fs::read(repository().join("examples/case-1.txt")).expect("case 1")
}

/// One line says what failed. The program itself has no status to say it with.
fn assert_said(program: &Path, output: &Output, words: &str) {
    let said = String::from_utf8_lossy(&output.stderr);
    assert_eq!(said, format!("season: {words}\n"), "{}", program.display());
    let wrapper = program.ends_with("../season");
    assert_eq!(output.status.success(), !wrapper, "{}", program.display());
}

#[test]
fn a_season_is_answered() {
    for program in programs() {
        let script = File::open(repository().join("examples/case-1.txt")).expect("case 1");
        let output = run(&program, Stdio::from(script), Stdio::piped());
        let stored = std::fs::read(repository().join("examples/case-1.answers.txt"));
        assert!(output.status.success(), "{}", program.display());
        assert_eq!(output.stdout, stored.expect("stored answers"));
        assert!(output.stderr.is_empty(), "{}", program.display());
    }
}

#[test]
fn a_folder_is_no_script() {
    for program in programs() {
        let folder = File::open(repository()).expect("the repository");
        let output = run(&program, Stdio::from(folder), Stdio::piped());
        assert!(output.stdout.is_empty(), "{}", program.display());
        assert_said(&program, &output, "the script cannot be read");
    }
}

/// The other end stays open, so that after ten lines a read fails and is no end
/// of the script.
#[test]
fn a_read_that_would_wait_is_no_end_of_the_script() {
    for program in programs() {
        let (mut given, taken) = UnixStream::pair().expect("a pair of sockets");
        taken
            .set_nonblocking(true)
            .expect("a socket that does not wait");
        let script = case_1();
        let ten_lines = script.split_inclusive(|&byte| byte == b'\n').take(10);
        for line in ten_lines {
            given.write_all(line).expect("a line given");
        }
        let output = run(&program, Stdio::from(OwnedFd::from(taken)), Stdio::piped());
        assert!(output.stdout.is_empty(), "{}", program.display());
        assert_said(&program, &output, "the script cannot be read");
    }
}

#[test]
fn a_full_device_takes_no_answers() {
    for program in programs() {
        let script = File::open(repository().join("examples/case-1.txt")).expect("case 1");
        let full = File::create("/dev/full").expect("the device that is full");
        let output = run(&program, Stdio::from(script), Stdio::from(full));
        assert_said(&program, &output, "the answers cannot be written");
    }
}
