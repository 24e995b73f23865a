//! docs/TRUSTED.md is what the code reaches.

use std::path::Path;

#[test]
fn the_page_is_current() {
    let root = Path::new(env!("CARGO_MANIFEST_DIR")).join("..");
    let stored = std::fs::read_to_string(root.join("docs/TRUSTED.md")).expect("docs/TRUSTED.md");
    assert!(
        stored == harness::trusted::page(&root),
        "docs/TRUSTED.md is not current: harness/trusted > docs/TRUSTED.md"
    );
}

#[test]
fn it_reaches_what_the_calls_compute() {
    let root = Path::new(env!("CARGO_MANIFEST_DIR")).join("..");
    let page = harness::trusted::page(&root);
    for name in [
        "lower_machines",
        "lower_activations",
        "check",
        "read",
        "resolved_states",
        "next_chain",
        "merge_from",
        "eval",
        "found_in",
        "any_bad_last",
        "max_states",
        "short_targets",
    ] {
        assert!(page.contains(&format!("| `{name}` |")), "{name}");
    }
    // Internal definitions of tables and offsets are not among them.
    for name in ["seek", "hash", "MemoSound", "expr_node_at"] {
        assert!(!page.contains(&format!("| `{name}` |")), "{name}");
    }
}

/// A reader of specs/ sees at a module's head whether it has to be believed.
#[test]
fn internal_modules_say_so() {
    let root = Path::new(env!("CARGO_MANIFEST_DIR")).join("..");
    let page = harness::trusted::page(&root);
    let mut seen = 0;
    for krate in std::fs::read_dir(root.join("crates")).expect("crates/") {
        let krate = krate.expect("a crate").path();
        let Ok(modules) = std::fs::read_dir(krate.join("specs")) else { continue };
        for module in modules {
            let module = module.expect("a module").path();
            let (name, of) = (module.file_stem().unwrap(), krate.file_name().unwrap());
            if name == "Lib" {
                continue;
            }
            let heading = format!("\n## {}: {}\n", of.to_str().unwrap(), name.to_str().unwrap());
            let text = std::fs::read_to_string(&module).expect("a module's text");
            assert!(
                text.starts_with("-- Internal: ") != page.contains(&heading),
                "{}: a module is internal, and its first line says so, or docs/TRUSTED.md has it",
                module.display()
            );
            seen += 1;
        }
    }
    assert!(seen > 100, "{seen} modules");
}
