//! The answers of the calls in words: the returned numbers, as README.md has them, and the kinds of the report.

/// What a returned number says, and what to do.
pub struct Meaning {
    pub value: &'static str,
    pub says: &'static str,
    pub remedy: &'static str,
}

/// By number.
pub const ANSWERS: [Meaning; 10] = [
    Meaning {
        value: "the pack's length; of a lowering the length of what it wrote",
        says: "the pack is whole; the lowered pack is in the output",
        remedy: "",
    },
    Meaning { value: "65,536", says: "the pack is longer than that", remedy: "split the drawing" },
    Meaning { value: "the pack's length", says: "the pack ends early", remedy: "it was cut: send it again" },
    Meaning {
        value: "offset of the field",
        says: "an illegal value or index; a bad character; a name that is empty or repeated",
        remedy: "the maker of the pack is at fault at this byte",
    },
    Meaning {
        value: "offset of the region",
        says: "a region of level 9 opens",
        remedy: "draw it flatter: 8 levels are the most",
    },
    Meaning {
        value: "offset",
        says: "bytes after the origins",
        remedy: "the pack was joined with something, or a count is too low",
    },
    Meaning {
        value: "bytes of the report",
        says: "some definitions are refused; the report has each with its kind and names, the output is as it was",
        remedy: "redraw what the report names",
    },
    Meaning {
        value: "bytes that the report needs",
        says: "the report does not fit into its buffer; nothing was written",
        remedy: "lend a longer report buffer",
    },
    Meaning {
        value: "0",
        says: "the lowered pack would be longer than 65,536 bytes, or a made name longer than 255",
        remedy: "split the drawing, shorten names",
    },
    Meaning {
        value: "bytes that the output needs",
        says: "the lowered pack does not fit into its buffer; nothing was written",
        remedy: "lend a longer output buffer",
    },
];

/// An answer in words, on four lines.
pub fn answer(number: u32, value: u32) -> String {
    let m = &ANSWERS[number as usize];
    format!(
        "number      {number}\nvalue       {value} ({})\nit says     {}\nwhat to do  {}\n",
        m.value, m.says, m.remedy
    )
}

/// The kinds of the report, from 1 on: name, and a sentence in which @1 to @3 are the error's names.
const KINDS: [(&str, &str); 18] = [
    ("NoStates", "machine @1 has no states"),
    ("UnknownInitialState", "machine @1: the initial state @2 is not there"),
    ("UnknownTarget", "machine @1: a transition of state @2 leads to @3, which is not there"),
    ("OutputUnassigned", "machine @1: output @2 is not given in state @3"),
    ("DuplicateState", "machine @1: the state name @2 is used twice"),
    ("UnknownRefine", "machine @1: state @2 refines machine @3, which is not there"),
    ("RefineCycle", "machine @1: its refinements come back to machine @2"),
    ("UnknownOwner", "machine @1 is owned by node @2, which is not there"),
    ("NoBranches", "activation @1 has no branches"),
    ("NoOutputs", "activation @1 has no outputs"),
    ("OutputUnassigned", "activation @1: output @2 is not given in branch @3"),
    ("DuplicateBranch", "activation @1: the branch name @2 is used twice"),
    ("UnknownOwner", "activation @1 is owned by node @2, which is not there"),
    ("LastArgs", "activation @1: `last` takes a variable, or a variable and an initial value"),
    ("LastUnknown", "activation @1: `last` of @2, which is no variable of the owner"),
    ("LastNeedsInit", "activation @1: `last` of @2 needs an initial value, as its type has no default"),
    ("TooLarge", "machine @1 resolves to over 512 states, to level 9, or to a name over 255 bytes"),
    ("EmptyLeft", "activation @1 has an equation without left names"),
];

/// A report's lines, one a refused definition.
pub fn report(bytes: &[u8]) -> Vec<String> {
    let mut rest = &bytes[2..];
    let mut lines = Vec::new();
    while let Some((kind, after)) = rest.split_first() {
        let (name, sentence) = KINDS[*kind as usize - 1];
        let count = (1..=3).filter(|i| sentence.contains(&format!("@{i}"))).count();
        rest = after;
        let names: Vec<&str> = (0..count).map(|_| taken_name(&mut rest)).collect();
        let said =
            names.iter().enumerate().fold(sentence.to_string(), |s, (i, n)| s.replace(&format!("@{}", i + 1), n));
        lines.push(format!("{kind} {name} ({}): {said}", names.join(", ")));
    }
    lines
}

/// A name after its length byte.
fn taken_name<'a>(rest: &mut &'a [u8]) -> &'a str {
    let (name, after) = rest[1..].split_at(rest[0] as usize);
    *rest = after;
    std::str::from_utf8(name).expect("names are ASCII")
}
