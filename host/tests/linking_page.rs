//! The programs of docs/LINKING.md, built as the page says and run; the Rust one
//! also where it exports a `run` of its own.

use std::path::{Path, PathBuf};
use std::process::Command;

fn repository() -> PathBuf {
    Path::new(env!("CARGO_MANIFEST_DIR")).join("..")
}

/// The page's first block in a language.
fn block(language: &str) -> String {
    let page = std::fs::read_to_string(repository().join("docs/LINKING.md")).expect("the page");
    let begin = format!("```{language}\n");
    let (_, rest) = page.split_once(&begin).expect("a block of the language");
    let (block, _) = rest.split_once("```").expect("the block's end");
    block.to_string()
}

fn temporary(name: &str) -> PathBuf {
    Path::new(env!("CARGO_TARGET_TMPDIR")).join(name)
}

fn write(path: &Path, text: &str) {
    std::fs::write(path, text).unwrap_or_else(|error| panic!("{}: {error}", path.display()));
}

/// What a command prints; it has to succeed.
fn printed(command: &mut Command) -> String {
    let output = command.output().expect("the command starts");
    let said = String::from_utf8_lossy(&output.stderr);
    assert!(output.status.success(), "{command:?}: {said}");
    String::from_utf8(output.stdout).expect("plain text")
}

#[test]
fn the_c_program_is_answered() {
    let (source, program) = (temporary("client.c"), temporary("client-c"));
    write(&source, &block("c"));
    let mut cc = Command::new("cc");
    cc.args(["-Wall", "-Wextra", "-Werror", "-I"]);
    cc.arg(repository().join("host/include")).arg(source);
    cc.arg(repository().join("target/staticlib/libscript.a"));
    printed(cc.arg("-o").arg(&program));
    assert_eq!(printed(&mut Command::new(program)), "ok\nok\nok,25\n");
}

/// Builds the page's Rust program and runs it, with a dependency on the wrapper
/// that ends like this.
fn rust_answers(name: &str, more: &str, dependency_end: &str) -> String {
    let package = temporary(name);
    std::fs::create_dir_all(package.join("src")).expect("a folder");
    let host = format!("path = \"{}\"{dependency_end}", env!("CARGO_MANIFEST_DIR"));
    let manifest = block("toml").replace("path = \"../season/host\"", &host);
    assert!(manifest.contains(&host));
    // The package stands in the folder of another workspace here.
    write(&package.join("Cargo.toml"), &(manifest + "\n[workspace]\n"));
    write(&package.join("src/main.rs"), &(block("rust") + more));
    let mut cargo = Command::new("cargo");
    cargo.args(["run", "--offline", "--quiet", "--release", "--target-dir"]);
    printed(cargo.arg(package.join("target")).current_dir(&package))
}

/// Writes the archive's copy in which the symbol has another name.
fn rename() {
    let folder = repository().join("target/staticlib");
    let mut objcopy = Command::new("objcopy");
    objcopy.args(["--redefine-sym", "run=season_book_run"]);
    objcopy.arg(folder.join("libscript.a"));
    printed(objcopy.arg(folder.join("libseason_book.a")));
}

#[test]
fn the_rust_program_is_answered() {
    let wanted = "line 1: []\nline 5: []\nline 6: [25]\nline 7: not at this time\n";
    assert_eq!(rust_answers("client-rust", "", ""), wanted);

    rename();
    let own_run = "\n#[no_mangle]\npub extern \"C\" fn run() -> i32 {\n    1\n}\n";
    let end = ", features = [\"renamed\"]";
    assert_eq!(rust_answers("client-rust-renamed", own_run, end), wanted);
}
