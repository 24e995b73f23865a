//! Links the static library that harness/library builds.

use std::{env, path::PathBuf};

fn main() {
    let root = PathBuf::from(env::var("CARGO_MANIFEST_DIR").unwrap()).join("..");
    let folder = root.join("target/staticlib");
    println!("cargo:rerun-if-changed={}", folder.join("libol_lower.a").display());
    println!("cargo:rustc-link-search=native={}", folder.display());
    println!("cargo:rustc-link-lib=static=ol_lower");
}
