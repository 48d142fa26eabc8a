//! Links the static library of the crate `script_c`, which `tools/build library`
//! proves and writes; with the feature `renamed`, its copy in which the exported
//! symbol has another name (docs/LINKING.md).

use std::path::Path;

const RENAME: &str = "objcopy --redefine-sym run=season_book_run \
                      target/staticlib/libscript.a target/staticlib/libseason_book.a";

fn main() {
    let renamed = std::env::var_os("CARGO_FEATURE_RENAMED").is_some();
    let (name, command) = if renamed {
        ("season_book", RENAME)
    } else {
        ("script", "tools/build library")
    };
    let folder = Path::new(env!("CARGO_MANIFEST_DIR")).join("../target/staticlib");
    let library = folder.join(format!("lib{name}.a"));
    println!("cargo::rerun-if-changed={}", library.display());
    assert!(
        library.exists(),
        "the static library is not built yet: run `{command}` in the repository first"
    );
    println!("cargo::rustc-link-search=native={}", folder.display());
    println!("cargo::rustc-link-lib=static={name}");
}
