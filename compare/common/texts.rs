// For a build script: the original's texts, read from where they are, and the place for them under target/texts. The script runs again
// when one of them is another.
use std::{env, fs, path::{Path, PathBuf}};

/// target/texts of the project that is built.
fn place() -> PathBuf {
    let place = Path::new(&env::var("CARGO_MANIFEST_DIR").unwrap()).join("target/texts");
    fs::create_dir_all(&place).unwrap();
    place
}

/// A text of the original, whole.
fn text(name: &str) -> String {
    let here = env::var("CARGO_MANIFEST_DIR").unwrap();
    let from = Path::new(&env::var("ORIGINAL_DOCS").unwrap_or(format!("{here}/../../../shared/docs"))).join(name);
    println!("cargo:rerun-if-env-changed=ORIGINAL_DOCS");
    println!("cargo:rerun-if-changed=build.rs");
    println!("cargo:rerun-if-changed={}", from.display());
    fs::read_to_string(&from).unwrap_or_else(|e| panic!("{}: {e}", from.display()))
}
