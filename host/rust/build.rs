//! Links the library that `host/library` makes; AMBRULICCIU_LIBRARY names another place of libambrulicciu.a.
use std::{env, path::Path};

fn main() {
    let here = env::var("CARGO_MANIFEST_DIR").unwrap();
    let folder = env::var("AMBRULICCIU_LIBRARY").unwrap_or(format!("{here}/../../target/host"));
    let archive = Path::new(&folder).join("libambrulicciu.a");
    println!("cargo:rerun-if-env-changed=AMBRULICCIU_LIBRARY");
    println!("cargo:rerun-if-changed={}", archive.display());
    println!("cargo:rustc-link-search=native={folder}");
    println!("cargo:rustc-link-lib=static=ambrulicciu");
}
