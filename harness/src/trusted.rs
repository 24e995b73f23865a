//! What has to be believed: the definitions that the public contracts and the claims about runs reach, found by following names
//! through crates/*/specs.

use std::collections::{BTreeMap, BTreeSet, HashMap};
use std::fs;
use std::path::Path;

/// The contracts of this file, and the claims of these names in crates/runs/specs.
const CONTRACTS: (&str, &str) = ("ol_lower_c", "lib");
const CLAIMS: [(&str, &str); 6] = [
    ("Claim", "DemandThree"),
    ("Claim", "DemandDrawn"),
    ("Claim", "MachinesKept"),
    ("Claim", "ActivationsKept"),
    ("OwnCycles", "OwnCycles"),
    ("OwnCycles", "ScopesKept"),
];

/// A module of specs/: its crate and its name.
type Module = (String, String);

struct Definition {
    name: String,
    comment: String,
    indent: usize,
    uses: Vec<String>,
}

#[derive(Default)]
struct Source {
    definitions: Vec<Definition>,
    /// The definition that the last clause belongs to.
    current: usize,
    /// Fields, constructors and definitions, each with its definition's place.
    names: HashMap<String, usize>,
    /// Names that are imported, and modules under another name.
    imports: HashMap<String, Module>,
    aliases: HashMap<String, Module>,
}

/// `Rattle.pack.specs.Names`.
fn module_of(path: &str) -> Option<Module> {
    let (krate, module) = path.strip_prefix("Rattle.")?.split_once(".specs.")?;
    Some((krate.to_string(), module.to_string()))
}

fn import(line: &str, source: &mut Source) {
    let line = line.trim_start_matches("ghost ").trim_start_matches("use ").trim_end_matches(';');
    if let Some((path, names)) = line.split_once(".{") {
        let Some(module) = module_of(path) else { return };
        for name in names.trim_end_matches('}').split(',') {
            source.imports.insert(name.trim().to_string(), module.clone());
        }
        return;
    }
    let (path, alias) = line.split_once(" as ").unwrap_or((line, line.rsplit('.').next().unwrap_or(line)));
    if let Some(module) = module_of(path) {
        source.aliases.insert(alias.trim().to_string(), module);
    }
}

/// The words of a line that may name something: no projections, no brackets.
fn words(line: &str) -> impl Iterator<Item = String> + '_ {
    let code = line.split("-- ").next().unwrap_or("");
    code.split(|c: char| c.is_whitespace() || "(){}[];,⌜⌝λ".contains(c))
        .filter(|w| !w.starts_with('.'))
        .map(|w| w.trim_end_matches('.').to_string())
        .filter(|w| !w.is_empty())
}

fn indent(line: &str) -> usize {
    line.len() - line.trim_start().len()
}

/// The name that a line declares, and whether it is a record or a data type.
fn declared(line: &str) -> Option<(String, bool)> {
    let rest = line.trim_start();
    let rest = rest.strip_prefix("unfoldable ").or(rest.strip_prefix("abbrev ")).unwrap_or(rest);
    let rest = rest.strip_prefix("pub ").unwrap_or(rest);
    for kind in ["record ", "data "] {
        if let Some(rest) = rest.strip_prefix(kind) {
            let name = rest.split_whitespace().next()?;
            return name.starts_with(char::is_alphabetic).then(|| (name.to_string(), true));
        }
    }
    let (name, _) = rest.split_once(" : ")?;
    (!name.contains(char::is_whitespace) && !name.contains('(')).then(|| (name.to_string(), false))
}

fn parse(text: &str) -> Source {
    let mut source = Source::default();
    let (mut comment, mut inside) = (Vec::new(), None);
    for line in text.lines() {
        let trimmed = line.trim_start();
        if trimmed.is_empty() {
            comment.clear();
        } else if let Some(words) = trimmed.strip_prefix("-- ") {
            comment.push(words.to_string());
        } else if trimmed.starts_with("use ") {
            import(trimmed, &mut source);
        } else if trimmed.ends_with("mutual") || trimmed.starts_with("module ") {
            inside = None;
        } else {
            let member = inside.is_some_and(|at| indent(line) > at);
            match declared(line) {
                Some((name, holds)) if !member => {
                    let indent = indent(line);
                    inside = holds.then_some(indent);
                    source.current = source.definitions.len();
                    source.names.insert(name.clone(), source.current);
                    let uses = words(line).collect();
                    let comment = std::mem::take(&mut comment).join(" ");
                    source.definitions.push(Definition { name, comment, indent, uses });
                }
                _ => belongs(line, member, &mut source),
            }
        }
    }
    source
}

/// A field, a constructor, a clause, which belongs to the definition that it begins with, or the rest of one.
fn belongs(line: &str, member: bool, source: &mut Source) {
    let Some(last) = source.definitions.len().checked_sub(1) else { return };
    if member {
        let declares = indent(line) == source.definitions[last].indent + 2;
        if let Some((names, _)) = line.split_once(" : ").filter(|_| declares) {
            for name in names.split_whitespace().filter(|w| *w != "pub") {
                source.names.entry(name.to_string()).or_insert(last);
            }
        }
    } else if indent(line) <= source.definitions[last].indent {
        let first = line.split_whitespace().next().unwrap_or("");
        source.current = source.names.get(first).copied().unwrap_or(last);
    }
    source.definitions[source.current].uses.extend(words(line));
}

struct Sources {
    root: std::path::PathBuf,
    read: BTreeMap<Module, Source>,
}

impl Sources {
    fn load(&mut self, module: &Module) -> Option<&Source> {
        if !self.read.contains_key(module) {
            let path = self.root.join("crates").join(&module.0).join("specs").join(format!("{}.antt", module.1));
            self.read.insert(module.clone(), parse(&fs::read_to_string(path).ok()?));
        }
        self.read.get(module)
    }

    /// The definition that a word names in a module: one of its own, or an imported one.
    fn meant(&mut self, module: &Module, word: &str) -> Option<(Module, usize)> {
        let source = self.load(module)?;
        if let Some(at) = source.names.get(word) {
            return Some((module.clone(), *at));
        }
        let (there, name) = match (source.imports.get(word), word.split_once('.')) {
            (Some(there), _) => (there.clone(), word),
            (_, Some((alias, name))) => (source.aliases.get(alias)?.clone(), name),
            _ => return None,
        };
        let at = *self.load(&there)?.names.get(name)?;
        Some((there, at))
    }
}

/// What the contracts of a file name.
fn contracts(root: &Path, krate: &str, file: &str, sources: &mut Sources) -> Vec<(Module, usize)> {
    let path = root.join("crates").join(krate).join("src").join(format!("{file}.rt"));
    let text = fs::read_to_string(path).expect("a file of contracts");
    let mut here = Source::default();
    text.lines().filter(|l| l.starts_with("ghost use ")).for_each(|l| import(l, &mut here));
    let lines = text.lines().filter(|l| l.trim_start().starts_with("ensures"));
    let named: BTreeSet<String> = lines.flat_map(words).collect();
    let meant = named.iter().filter_map(|w| {
        let there = here.imports.get(w)?.clone();
        let at = *sources.load(&there)?.names.get(w)?;
        Some((there, at))
    });
    meant.collect()
}

/// Everything that is reached, as a page.
pub fn page(root: &Path) -> String {
    let mut sources = Sources { root: root.to_path_buf(), read: BTreeMap::new() };
    let mut open = contracts(root, CONTRACTS.0, CONTRACTS.1, &mut sources);
    for (module, name) in CLAIMS {
        let module = ("runs".to_string(), module.to_string());
        open.push(sources.meant(&module, name).expect("a claim"));
    }
    let mut reached: BTreeMap<Module, BTreeSet<usize>> = BTreeMap::new();
    while let Some((module, at)) = open.pop() {
        if reached.entry(module.clone()).or_default().insert(at) {
            let uses = sources.read[&module].definitions[at].uses.clone();
            open.extend(uses.iter().filter_map(|w| sources.meant(&module, w)));
        }
    }
    render(root, &sources, &reached)
}

fn render(root: &Path, sources: &Sources, reached: &BTreeMap<Module, BTreeSet<usize>>) -> String {
    let total: usize = reached.values().map(BTreeSet::len).sum();
    let mut out = format!(
        "# What must be believed\n\n\
         {total} definitions. They are what the contracts of the C functions (crates/ol_lower_c/src/lib.rt) and the claims about runs \
         (crates/runs/specs/Claim, OwnCycles) speak of, and all that these definitions use. Everything else in crates/*/specs is internal: laws tie it to these, and \
         nothing of it has to be believed. Beside them: the prover, and the kit's definitions of lists, numbers, truth values \
         and equality.\n\n\
         This page is made from the code by `harness/trusted`; the harness's tests fail where it is not current. Each line says \
         what its definition is, as the comment above it does; one without a comment belongs to the one before it.\n"
    );
    for krate in [
        "wire",
        "pack_rules",
        "pack",
        "machine_rules",
        "activation_rules",
        "run_rules",
        "runs",
        "machines",
        "activations",
    ] {
        let lib = root.join("crates").join(krate).join("specs/Lib.antt");
        let order = fs::read_to_string(lib).unwrap_or_default();
        for module in order.lines().filter_map(|l| l.strip_prefix("pub mod ")) {
            let key = (krate.to_string(), module.to_string());
            let Some(places) = reached.get(&key) else { continue };
            out += &format!("\n## {krate}: {module}\n\n| Definition | What it is |\n|---|---|\n");
            for at in places {
                let d = &sources.read[&key].definitions[*at];
                out += &format!("| `{}` | {} |\n", d.name, d.comment.replace('|', "\\|"));
            }
        }
    }
    out
}
