//! The words of the text form of a package, which `show` prints and `make` reads.

use crate::package::{Base, Name, Package, Type};

/// Types 0 to 11.
pub const TYPES: [&str; 12] =
    ["bool", "int8", "int16", "int32", "int64", "uint8", "uint16", "uint32", "uint64", "float32", "float64", "char"];
pub const UNARY: [&str; 2] = ["not", "-"];
pub const BINARY: [&str; 20] = [
    "and", "or", "xor", "=>", "=", "<>", "<", "<=", ">", ">=", "+", "-", "*", "/", "mod", "land", "lor", "lxor", "lsl",
    "lsr",
];
/// Node kinds 0 to 2.
pub const KINDS: [&str; 3] = ["function", "operator", "imported"];
/// Words that are no names, besides those of types, operators and kinds.
const RESERVED: [&str; 27] = [
    "true",
    "false",
    "if",
    "then",
    "else",
    "pre",
    "when",
    "merge",
    "map",
    "fold",
    "enum",
    "machine",
    "activation",
    "origin",
    "in",
    "input",
    "output",
    "local",
    "initial",
    "state",
    "until",
    "region",
    "history",
    "refines",
    "branch",
    "equations",
    "branches",
];

/// Whether a word stands for something else than a name, or for a number.
pub fn reserved(word: &str) -> bool {
    let listed = [&TYPES[..], &UNARY, &BINARY, &KINDS, &RESERVED].into_iter().any(|words| words.contains(&word));
    listed || word.starts_with(|c: char| c.is_ascii_digit())
}

/// A name as it is written: between backquotes where the bare word would be read as something else.
pub fn quoted(name: &str) -> String {
    if reserved(name) {
        format!("`{name}`")
    } else {
        name.to_string()
    }
}

pub fn name(p: &Package, name: Name) -> String {
    quoted(p.names.text(name))
}

pub fn names(p: &Package, names: &[Name]) -> String {
    names.iter().map(|n| name(p, *n)).collect::<Vec<_>>().join(", ")
}

/// As in Lustre: `int8^4^3` has 3 elements of type `int8^4`.
pub fn ty(p: &Package, t: &Type) -> String {
    let mut text = match t.base {
        Base::Plain(b) => TYPES[b as usize].to_string(),
        Base::Named(n) => name(p, n),
    };
    for len in t.lens.iter().rev() {
        text += &format!("^{len}");
    }
    text
}
