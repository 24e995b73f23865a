//! The tables of the format's examples, as crates/pack_rules/proofs/Examples.antt has them.

use crate::convert::to_project;
use crate::encode::encode_any;
use crate::pack_examples::{additions, answer, calls, charts, checks, cuts, Call, Change, Chart, Check};
use crate::package::Package;
use crate::trees;
use std::collections::BTreeSet;

const HEAD: &str = "\
-- Small packs with the harness's answers: the check at every kind of field, what packs are read as and written from, and what the
-- answers leave in a caller's buffers. This page is made by `harness/tables pack`.
use mathlib.Core.List.{List, [], ◌∷◌}
use mathlib.Core.Bool.{true, false}
use mathlib.Core.Option.{none, some}
use mathlib.Core.Path.{◌≡◌, refl}
use lib.ListN.{replicate}
use Rattle.pack_rules.specs.Names.{Name}
use Rattle.pack_rules.specs.Syntax.{Package, def_cons, def_nil, e_array, e_arrow, e_binary, e_call, e_cast, e_const, e_field, e_if, e_index, e_iterate, e_merge, e_pre, e_struct, e_tuple, e_unary, e_var, e_when, i_fold, i_map, k_function, k_imported, k_operator, l_bool, l_char, l_float, l_int, o_add, o_and, o_bit_and, o_bit_or, o_bit_xor, o_div, o_eq, o_ge, o_gt, o_implies, o_le, o_lt, o_mod, o_mul, o_neg, o_neq, o_not, o_or, o_shl, o_shr, o_sub, o_xor, of_activation, of_machine, reg_cons, reg_nil, t_array, t_bool, t_char, t_float32, t_float64, t_int16, t_int32, t_int64, t_int8, t_named, t_uint16, t_uint32, t_uint64, t_uint8, x_cons, x_nil}
use Rattle.pack_rules.specs.Report.{Refusal, report_bytes}
use Rattle.pack_rules.specs.Outcome.{answers, check, reported, sized, written}
use Rattle.pack_rules.proofs.Computed.{Call, Chart, Check, Cuts, calls_given, calls_stated, changes_given, changes_stated, checks_given, checks_stated, cuts_given, cuts_stated, packs_given, packs_stated, readings_given, readings_stated}

-- Names have one letter, by which they are called here.
";

/// Packages and refusals that the calls are made with.
const MADE: &str = "
-- the package that holds nothing
unfoldable pub nothing : Package
nothing = record { names = []; enums = []; nodes = []; machines = []; activations = []; origins = [] }

-- a package with an enum of a new name
unfoldable pub named : Name → Package
named n = record { names = []; enums = record { name = n; variants = [] } ∷ []; nodes = []; machines = []; activations = []; origins = [] }

-- two refused definitions
unfoldable pub refused : List Refusal
refused = record { kind = 7; names = M ∷ M ∷ [] } ∷ record { kind = 17; names = (97 ∷ 98 ∷ []) ∷ [] } ∷ []
";

const LAWS: &str = "
pub checks-hold : checks_given checks ≡ checks_stated checks
unfolding checks_given checks_stated checks
checks-hold = refl

pub cuts-hold : cuts_given cuts ≡ cuts_stated cuts
unfolding cuts_given cuts_stated cuts
cuts-hold = refl

pub changes-hold : changes_given charts ≡ changes_stated charts
unfolding changes_given changes_stated charts
changes-hold = refl

pub readings-hold : readings_given charts ≡ readings_stated charts
unfolding readings_given readings_stated charts
readings-hold = refl

pub packs-hold : packs_given charts ≡ packs_stated charts
unfolding packs_given packs_stated charts
packs-hold = refl

pub additions-hold : packs_given additions ≡ packs_stated additions
unfolding packs_given packs_stated additions
additions-hold = refl

pub calls-hold : calls_given calls ≡ calls_stated calls
unfolding calls_given calls_stated calls nothing named refused
calls-hold = refl
";

/// The whole page.
pub fn page() -> String {
    let (charts, additions) = (charts(), additions());
    let rows = |charts: &[Chart]| charts.iter().map(chart_row).collect();
    let tables = [
        ("packs alone", "checks", "Check", checks().iter().map(check_row).collect::<String>()),
        ("packs that end early", "cuts", "Cuts", cuts().iter().map(cuts_row).collect()),
        ("packs of charts, which read as they were drawn, and changes of theirs", "charts", "Chart", rows(&charts)),
        ("packages with new names", "additions", "Chart", rows(&additions)),
        ("answers, and two buffers before and after", "calls", "Call", calls().iter().map(call_row).collect()),
    ];
    let mut text = names(charts.iter().chain(&additions).map(|c| &c.package)) + MADE;
    for (says, name, ty, rows) in tables {
        let rows = rows.replacen("∷ record", "record", 1);
        text += &format!("\n-- {says}\nunfoldable pub {name} : List {ty}\n{name} =\n{rows}    ∷ []\n");
    }
    format!("{HEAD}{text}{LAWS}")
}

/// Names of one letter, which stand for themselves.
fn names<'a>(packages: impl Iterator<Item = &'a Package>) -> String {
    let all: BTreeSet<&[u8]> = packages.flat_map(|p| p.names.iter()).collect();
    let line = |n: &&[u8]| format!("\nabbrev {0} : Name\n{0} = {1} ∷ []\n", n[0] as char, n[0]);
    all.iter().map(line).collect()
}

fn check_row(c: &Check) -> String {
    let (number, value) = answer(&c.pack);
    let pack = bytes(&c.pack);
    let row = if pack.contains('\n') {
        format!("record {{\n      pack = {pack};\n      number = {number};\n      value = {value};\n    }}")
    } else {
        format!("record {{ pack = {pack}; number = {number}; value = {value} }}")
    };
    format!("    -- {}\n    ∷ {row}\n", c.says)
}

fn chart_row(c: &Chart) -> String {
    let pack = encode_any(&c.package).0;
    let changes: String = c.changes.iter().map(|change| change_row(change, &pack)).collect();
    let changes = if changes.is_empty() {
        " []".into()
    } else {
        format!("\n{}          ∷ []", changes.replacen("∷ ", "", 1))
    };
    format!(
        "{}    ∷ record {{\n      contents = {};\n      pack =\n          {};\n      changes ={changes};\n    }}\n",
        comment(c),
        package(&c.package),
        bytes(&pack),
    )
}

/// The answers to all beginnings of a pack, ten to a line.
fn cuts_row(c: &Chart) -> String {
    let pack = encode_any(&c.package).0;
    let stated = |length| {
        let (number, value) = answer(&pack[..length]);
        let end = if length % 10 == 9 { "\n          ∷ " } else { " ∷ " };
        format!("answers {number} {value}{end}")
    };
    let outcomes = (0..pack.len()).map(stated).collect::<String>() + "[]";
    let pack = bytes(&pack);
    format!(
        "{}    ∷ record {{\n      pack =\n          {pack};\n      outcomes =\n          {outcomes};\n    }}\n",
        comment(c)
    )
}

/// What is said of a chart, and its text.
fn comment(c: &Chart) -> String {
    let text = if c.text.is_empty() { "nothing" } else { c.text };
    let lines = [c.says].into_iter().chain(text.lines()).filter(|l| !l.is_empty());
    lines.map(|l| format!("    -- {l}\n")).collect()
}

fn change_row(c: &Change, pack: &[u8]) -> String {
    let (number, value) = answer(&c.of(pack));
    let Change { says, at, bytes: b } = c;
    let b = bytes(b);
    format!(
        "          -- {says}\n          ∷ record {{ at = {at}; bytes = {b}; number = {number}; value = {value} }}\n"
    )
}

/// A package as a record, a line for each item of a section.
fn package(p: &Package) -> String {
    let old = (0..p.old as u32).map(|n| p.names.text(n).to_string());
    let mut text = format!("record {{\n        names = {};\n", trees::list(old));
    for (name, items) in trees::sections(&to_project(p)) {
        let items = match &items[..] {
            [] => " []".to_string(),
            items => format!("\n            {}\n            ∷ []", items.join("\n            ∷ ")),
        };
        text += &format!("        {name} ={items};\n");
    }
    text + "      }"
}

/// The buffers hold nines before the call.
fn call_row(c: &Call) -> String {
    let answer = c.outcome.clone().answer(c.output, c.report);
    let after = |length: usize, begins: &Option<Vec<u8>>| {
        let mut buffer = vec![9; length];
        begins.iter().for_each(|b| buffer[..b.len()].copy_from_slice(b));
        bytes(&buffer)
    };
    let (output, report) = (bytes(&vec![9; c.output]), bytes(&vec![9; c.report]));
    format!(
        "    -- {}\n    ∷ record {{\n      outcome = {};\n      output = {output};\n      report = {report};\n      word = {};\n      \
         output_after = {};\n      report_after = {};\n    }}\n",
        c.says,
        c.made,
        answer.word(),
        after(c.output, &answer.output),
        after(c.report, &answer.report),
    )
}

/// Bytes as a list, thirty to a line; a long row of one byte as `replicate`.
pub fn bytes(bytes: &[u8]) -> String {
    let mut text = String::new();
    let mut open = 0;
    let mut column = 0;
    let mut at = 0;
    while at < bytes.len() {
        let run = bytes[at..].iter().take_while(|b| **b == bytes[at]).count();
        if run == bytes.len() && run > 40 {
            return format!("replicate {run} {}", bytes[0]);
        }
        if run > 40 {
            text.push_str(&format!("(replicate {run} {} ++ (", bytes[at]));
            open += 1;
            at += run;
            continue;
        }
        text.push_str(&bytes[at].to_string());
        at += 1;
        column += 1;
        let end = if column % 30 == 0 { "\n          ∷ " } else { " ∷ " };
        text.push_str(end);
    }
    text.push_str("[]");
    text.push_str(&"))".repeat(open));
    text
}
