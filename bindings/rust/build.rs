//! Links libshelfstork.a: of SHELFSTORK_LIB, else of the repository's crates/shelfstork/out.

use std::{env, path::PathBuf};

fn main() {
    println!("cargo:rerun-if-env-changed=SHELFSTORK_LIB");
    let dir = match env::var_os("SHELFSTORK_LIB") {
        Some(dir) => PathBuf::from(dir),
        None => {
            PathBuf::from(env::var_os("CARGO_MANIFEST_DIR").unwrap()).join("../../crates/shelfstork/out")
        }
    };
    let archive = dir.join("libshelfstork.a");
    assert!(
        archive.exists(),
        "no {}: run `(cd crates/shelfstork && rt lib)`, or set SHELFSTORK_LIB",
        archive.display()
    );
    println!("cargo:rerun-if-changed={}", archive.display());
    println!("cargo:rustc-link-search=native={}", dir.display());
    println!("cargo:rustc-link-lib=static=shelfstork");
}
