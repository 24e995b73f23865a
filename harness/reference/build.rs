//! Writes the module list that pulls the six reference files in, unchanged, from where they lie.

use std::{env, fs, path::PathBuf};

const FILES: [&str; 6] = ["state_machine", "activation", "expr", "project", "node", "types"];

fn main() {
    println!("cargo:rerun-if-env-changed=OL_IR_SRC");
    let folder = folder();
    let mut list = String::new();
    for file in FILES {
        let path = folder.join(format!("{file}.rs"));
        if !path.is_file() {
            panic!(
                "reference file {} is missing: set OL_IR_SRC to the folder that holds the six files",
                path.display()
            );
        }
        println!("cargo:rerun-if-changed={}", path.display());
        list.push_str(&format!("#[path = {:?}]\npub mod {file};\n", path));
    }
    let out = PathBuf::from(env::var("OUT_DIR").unwrap()).join("files.rs");
    fs::write(out, list).unwrap();
}

/// A relative OL_IR_SRC counts from the repository's root, as the default does.
fn folder() -> PathBuf {
    let root = PathBuf::from(env::var("CARGO_MANIFEST_DIR").unwrap()).join("../..");
    let named = env::var("OL_IR_SRC").unwrap_or_else(|_| "../shared/docs/src".into());
    let folder = root.join(named);
    folder.canonicalize().unwrap_or_else(|_| {
        panic!("no folder {}: set OL_IR_SRC to the folder that holds the six reference files", folder.display())
    })
}
