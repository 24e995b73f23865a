//! docs/PORT-OTHER.md names what is there.

use std::path::{Path, PathBuf};

fn root() -> PathBuf {
    Path::new(env!("CARGO_MANIFEST_DIR")).join("..")
}

/// `CRATE/MODULE.NAME` is declared in that module of specs/ or src/.
fn stands(named: &str, folder: &str, suffix: &str, heads: &[&str]) -> bool {
    let Some((path, name)) = named.rsplit_once('.') else { return false };
    let Some((krate, module)) = path.split_once('/') else { return false };
    let file = root().join("crates").join(krate).join(folder).join(format!("{module}.{suffix}"));
    let Ok(text) = std::fs::read_to_string(file) else { return false };
    let declares = |line: &str| {
        let words: Vec<&str> = line.split(|c: char| c.is_whitespace() || "(<{".contains(c)).collect();
        words.contains(&name) && heads.iter().any(|h| line.trim_start().starts_with(h))
    };
    text.lines().any(declares)
}

#[test]
fn every_name_is_there() {
    let page = std::fs::read_to_string(root().join("docs/PORT-OTHER.md")).expect("docs/PORT-OTHER.md");
    let (mut seen, mut missing) = (0, Vec::new());
    for row in page.lines().filter(|l| l.starts_with("| `")) {
        let cells: Vec<&str> = row.trim_matches('|').split(" | ").collect();
        assert_eq!(cells.len(), 3, "{row}");
        let named = |cell: &str| -> Vec<String> { cell.split('`').skip(1).step_by(2).map(str::to_string).collect() };
        for name in named(cells[1]) {
            seen += 1;
            if !stands(&name, "specs", "antt", &["unfoldable pub", "abbrev pub", "pub "]) {
                missing.push(name);
            }
        }
        for name in named(cells[2]) {
            seen += 1;
            if !stands(&name, "src", "rt", &["fn ", "pub fn ", "pub enum ", "pub struct ", "enum ", "struct "]) {
                missing.push(name);
            }
        }
    }
    assert!(seen > 100, "{seen} names");
    assert!(missing.is_empty(), "not there: {missing:?}");
}
