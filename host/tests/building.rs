//! What `./season` does before it answers, where the program or the library is
//! absent or older than its sources. A small script stands in for `rt`.

use std::fs;
use std::os::unix::fs::PermissionsExt;
use std::path::{Path, PathBuf};
use std::process::{Command, Output};
use std::sync::{Mutex, MutexGuard, PoisonError};

/// Held by a test from its first file to its last program. A program that one
/// test starts while another still writes its script would hold that script
/// open, and a script that is open for writing cannot be started.
static FILES_AND_PROGRAMS: Mutex<()> = Mutex::new(());

fn alone() -> MutexGuard<'static, ()> {
    let held = FILES_AND_PROGRAMS.lock();
    held.unwrap_or_else(PoisonError::into_inner)
}

/// Proves crate `lines` and crate `season`, and writes a program that prints
/// what it is given.
const PROVES: &str = r#"#!/bin/sh
cat
for crate in lines season; do
    echo "checked $crate::first, 1 of 2"
    sleep 1
    echo "checked $crate::second, 2 of 2"
    echo "crate $crate: modules loaded=0 checked=2"
    echo "logic=proved functions=2"
done
mkdir -p out
printf '#!/bin/sh\ncat\n' > out/season
chmod +x out/season
echo "rt: asked for $* in $(basename "$PWD")" >> ../../asked.txt
"#;

/// Ends as `rt` does where a proof fails.
const FAILS: &str = r#"#!/bin/sh
echo "lines.rt:1: not proved"
echo "rt: FAILED: lines"
exit 1
"#;

fn write_program(path: &Path, text: &str) {
    fs::write(path, text).expect("a program");
    fs::set_permissions(path, fs::Permissions::from_mode(0o755)).expect("a program that runs");
}

/// A repository with nothing built, in which `rt` is this program. It stands
/// outside this one, where `rt` would find its crates.
fn repository(name: &str, rt: &str) -> PathBuf {
    let root = std::env::temp_dir().join(format!("season-book-{name}-{}", std::process::id()));
    let _ = fs::remove_dir_all(&root);
    fs::create_dir_all(root.join("crates/lines")).expect("a folder");
    fs::create_dir_all(root.join("crates/season")).expect("a folder");
    fs::create_dir_all(root.join("tools")).expect("a folder");
    fs::write(root.join("crates.txt"), "lines:\n").expect("a file");
    fs::write(root.join("crates/lines/lib.rt"), "\n").expect("a file");
    fs::write(root.join("script.txt"), "answered\n").expect("a file");
    let season = Path::new(env!("CARGO_MANIFEST_DIR")).join("../season");
    fs::copy(season, root.join("season")).expect("a copy");
    let build = Path::new(env!("CARGO_MANIFEST_DIR")).join("../tools/build");
    fs::copy(build, root.join("tools/build")).expect("a copy");
    write_program(&root.join("tools/rt"), rt);
    root
}

fn season(root: &Path) -> Output {
    let path = std::env::var("PATH").expect("a path");
    let mut command = Command::new(root.join("season"));
    command.env("PATH", format!("{}/tools:{path}", root.display()));
    let script = fs::File::open(root.join("script.txt")).expect("a script");
    command.stdin(script).output().expect("the script starts")
}

/// The first time it says which crate is proved, when it begins and when it
/// has ended; then it builds no more until a source changes. The script is left
/// to the program.
#[test]
fn a_build_says_crate_by_crate_where_it_is() {
    let _alone = alone();
    let root = repository("built", PROVES);
    let output = season(&root);
    assert_eq!(String::from_utf8_lossy(&output.stdout), "answered\n");
    assert!(output.status.success());
    let said = String::from_utf8_lossy(&output.stderr);
    let wanted = [
        "season: proving and building the program; the first time this takes some minutes",
        "season: proving lines",
        "season: lines proved",
        "season: proving season",
        "season: season proved",
        "season: built",
    ];
    assert_eq!(said.lines().collect::<Vec<_>>(), wanted);
    let asked = fs::read_to_string(root.join("asked.txt")).expect("what rt was asked");
    assert_eq!(asked, "rt: asked for run in season\n");

    let again = season(&root);
    assert!(again.status.success() && again.stderr.is_empty());
    assert_eq!(again.stdout, b"answered\n");

    fs::write(root.join("crates/lines/lib.rt"), "\n\n").expect("a changed source");
    let changed = season(&root);
    assert!(changed.status.success());
    assert!(String::from_utf8_lossy(&changed.stderr).ends_with("season: built\n"));
    fs::remove_dir_all(root).expect("the repository goes");
}

#[test]
fn a_build_that_fails_says_all_that_was_said() {
    let _alone = alone();
    let root = repository("not-built", FAILS);
    let output = season(&root);
    assert!(!output.status.success() && output.stdout.is_empty());
    let said = String::from_utf8_lossy(&output.stderr);
    assert!(
        said.ends_with("lines.rt:1: not proved\nrt: FAILED: lines\n"),
        "{said}"
    );
    fs::remove_dir_all(root).expect("the repository goes");
}
