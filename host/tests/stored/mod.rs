//! Every stored script with its name: the vectors and the examples.

use std::path::{Path, PathBuf};

pub fn repository() -> PathBuf {
    Path::new(env!("CARGO_MANIFEST_DIR")).join("..")
}

/// The scripts of `examples/`, sorted. Other texts have a second end to their
/// name, as `.answers.txt`.
pub fn examples() -> Vec<PathBuf> {
    let entries = std::fs::read_dir(repository().join("examples")).expect("examples");
    let paths = entries.map(|entry| entry.expect("an entry").path());
    let is_script = |path: &PathBuf| {
        let text = path.extension().is_some_and(|end| end == "txt");
        text && path.with_extension("").extension().is_none()
    };
    let mut scripts: Vec<PathBuf> = paths.filter(is_script).collect();
    scripts.sort();
    assert!(scripts.len() >= 7);
    scripts
}

/// The stored vectors.
pub fn vectors() -> Vec<(String, Vec<u8>)> {
    let text = std::fs::read(repository().join("crates/vectors/stdin")).expect("vectors");
    let vectors = model::vectors::vectors(&text).into_iter();
    let vectors: Vec<_> = vectors.map(|vector| (vector.name, vector.script)).collect();
    assert!(vectors.len() >= 300);
    vectors
}

pub fn scripts() -> Vec<(String, Vec<u8>)> {
    let name = |path: &Path| path.to_string_lossy().into_owned();
    let examples = examples().into_iter();
    let examples = examples.map(|path| (name(&path), std::fs::read(&path).expect("a script")));
    vectors().into_iter().chain(examples).collect()
}
