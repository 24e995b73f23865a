//! Links the static library of the calls under test where it has been built, and says by cfg which calls it has.

use std::{env, fs, path::PathBuf};

/// The functions of the C interface, and what is set where the library has them.
const CALLS: [(&str, &str); 3] = [
    ("ol_pack_check", "has_check"),
    ("ol_lower_state_machines", "has_machines"),
    ("ol_lower_activations", "has_activations"),
];

fn main() {
    for (_, cfg) in CALLS {
        println!("cargo:rustc-check-cfg=cfg({cfg})");
    }
    println!("cargo:rerun-if-env-changed=OL_LIBRARY");
    let library = env::var("OL_LIBRARY").unwrap_or_else(|_| "ol_lower".into());
    let root = PathBuf::from(env::var("CARGO_MANIFEST_DIR").unwrap()).join("..");
    let folder = root.join("target/staticlib");
    let archive = folder.join(format!("lib{library}.a"));
    println!("cargo:rerun-if-changed={}", archive.display());
    let Ok(bytes) = fs::read(&archive) else { return };
    println!("cargo:rustc-link-search=native={}", folder.display());
    println!("cargo:rustc-link-lib=static={library}");
    for (function, cfg) in CALLS {
        if exports(&bytes, function) {
            println!("cargo:rustc-cfg={cfg}");
        }
    }
}

/// Whether the archive's index, its first member, names the function: after the archive's 8 bytes and the member's
/// head of 60 stand a count, highest byte first, as many offsets, and the names, each ended by 0.
fn exports(archive: &[u8], function: &str) -> bool {
    let length = || std::str::from_utf8(archive.get(56..66)?).ok()?.trim().parse::<usize>().ok();
    let index = || archive.get(68..68 + length()?);
    let names = || {
        let index = index()?;
        let count = u32::from_be_bytes(index.get(..4)?.try_into().ok()?) as usize;
        index.get(4 + 4 * count..)
    };
    names().is_some_and(|names| names.split(|b| *b == 0).any(|name| name == function.as_bytes()))
}
