//! A package of the reference as a tree of the definitions (crates/pack_rules/specs/Syntax), in antt. Names have one letter,
//! which stands for the name; constructors are called as the reference calls its variants.

use reference::activation::ActivationDef;
use reference::expr::{Expr, Literal};
use reference::node::{Equation, Local, NodeDef, Port};
use reference::project::{ConstructKind, ConstructOrigin, Project, TypeBody};
use reference::state_machine::{Region, StateDef, StateMachineDef, Transition};
use reference::types::Type;

/// A list, with `[]` at its end; what goes through `field` stands between brackets.
pub fn list(items: impl IntoIterator<Item = String>) -> String {
    items.into_iter().map(|i| format!("{i} ∷ ")).collect::<String>() + "[]"
}

fn names(names: &[String]) -> String {
    list(names.iter().cloned())
}

/// As an argument.
fn field(text: String) -> String {
    if text.contains(' ') {
        format!("({text})")
    } else {
        text
    }
}

/// A constructor without arguments: the reference's name of it in small letters, after a letter for what it belongs to.
fn constructor(of: char, it: &impl std::fmt::Debug) -> String {
    let mut name = format!("{of}_");
    let mut before = ' ';
    for letter in format!("{it:?}").chars() {
        if letter.is_uppercase() && !before.is_uppercase() && before != ' ' {
            name.push('_');
        }
        name.push(letter.to_ascii_lowercase());
        before = letter;
    }
    name
}

fn record(fields: &[(&str, String)]) -> String {
    let fields: Vec<String> = fields.iter().map(|(name, value)| format!("{name} = {value}")).collect();
    format!("record {{ {} }}", fields.join("; "))
}

fn option(name: &Option<String>) -> String {
    name.as_ref().map_or("none".into(), |n| format!("some {n}"))
}

/// The fields of a package after its names, section by section.
pub fn sections(project: &Project) -> Vec<(&'static str, Vec<String>)> {
    let p = &project.packages[0];
    let enums = p.types.iter().map(|t| {
        let TypeBody::Enum(e) = &t.body else { unreachable!("packs have enums only") };
        record(&[("name", e.name.clone()), ("variants", names(&e.variants))])
    });
    vec![
        ("enums", enums.collect()),
        ("nodes", p.nodes.iter().map(node).collect()),
        ("machines", p.state_machines.iter().map(machine).collect()),
        ("activations", p.activations.iter().map(activation).collect()),
        ("origins", project.origins.iter().map(origin).collect()),
    ]
}

fn node(n: &NodeDef) -> String {
    record(&[
        ("name", n.name.clone()),
        ("kind", constructor('k', &n.kind)),
        ("inputs", ports(&n.inputs)),
        ("outputs", ports(&n.outputs)),
        ("locals", locals(&n.locals)),
        ("equations", equations(&n.equations)),
    ])
}

fn machine(m: &StateMachineDef) -> String {
    record(&[
        ("name", m.name.clone()),
        ("owner", option(&m.owner)),
        ("inputs", ports(&m.inputs)),
        ("outputs", ports(&m.outputs)),
        ("locals", locals(&m.locals)),
        ("initial", m.initial_state.clone()),
        ("states", states(&m.states)),
    ])
}

fn states(all: &[StateDef]) -> String {
    let Some((s, rest)) = all.split_first() else { return "def_nil".into() };
    let transition = |t: &Transition| record(&[("guard", expr(&t.guard)), ("target", t.target.clone())]);
    let parts = [
        s.name.clone(),
        equations(&s.equations),
        list(s.transitions.iter().map(transition)),
        regions(&s.regions),
        option(&s.refines),
        states(rest),
    ];
    made("def_cons", parts)
}

fn regions(all: &[Region]) -> String {
    let Some((r, rest)) = all.split_first() else { return "reg_nil".into() };
    made("reg_cons", [r.initial_state.clone(), r.history.to_string(), states(&r.states), regions(rest)])
}

/// A constructor with its arguments.
fn made<const N: usize>(constructor: &str, parts: [String; N]) -> String {
    parts.into_iter().fold(constructor.to_string(), |text, part| format!("{text} {}", field(part)))
}

fn activation(a: &ActivationDef) -> String {
    let branch = a.branches.iter().map(|b| {
        let equations = equations(&b.equations);
        record(&[("name", b.name.clone()), ("condition", expr(&b.condition)), ("equations", equations)])
    });
    record(&[
        ("name", a.name.clone()),
        ("owner", a.owner.clone()),
        ("outputs", ports(&a.outputs)),
        ("branches", list(branch)),
        ("else_equations", equations(&a.else_equations)),
    ])
}

fn origin(o: &ConstructOrigin) -> String {
    let kind = match o.kind {
        ConstructKind::StateMachine => "of_machine",
        ConstructKind::Activation => "of_activation",
    };
    record(&[
        ("node", o.node.clone()),
        ("kind", kind.into()),
        ("name", o.name.clone()),
        ("first", o.equations.start.to_string()),
        ("after", o.equations.end.to_string()),
        ("branches", names(&o.branches)),
    ])
}

fn port(name: &str, t: &Type) -> String {
    record(&[("name", name.into()), ("ty", ty(t))])
}

fn ports(all: &[Port]) -> String {
    list(all.iter().map(|p| port(&p.name, &p.ty)))
}

fn locals(all: &[Local]) -> String {
    list(all.iter().map(|l| port(&l.name, &l.ty)))
}

fn equations(all: &[Equation]) -> String {
    list(all.iter().map(|e| record(&[("lhs", names(&e.lhs)), ("rhs", expr(&e.rhs))])))
}

fn ty(t: &Type) -> String {
    match t {
        Type::Array { elem, len } => made("t_array", [len.to_string(), ty(elem)]),
        Type::Named { name } => made("t_named", [name.clone()]),
        plain => constructor('t', plain),
    }
}

fn literal(lit: &Literal) -> String {
    match lit {
        Literal::Bool { value } => format!("l_bool {value}"),
        Literal::Int { value } => format!("l_int {}", *value as u64),
        Literal::Float { value } => format!("l_float {}", value.to_bits()),
        Literal::Char { value } => format!("l_char {value}"),
    }
}

fn exprs<'a>(all: impl DoubleEndedIterator<Item = &'a Expr>) -> String {
    all.rev().fold("x_nil".into(), |rest, e| made("x_cons", [expr(e), rest]))
}

/// The definitions have an iterate's initial value before its arrays, a struct's names before its values.
fn expr(e: &Expr) -> String {
    match e {
        Expr::Const { lit } => made("e_const", [literal(lit)]),
        Expr::Var { name } => made("e_var", [name.clone()]),
        Expr::Unary { op, arg } => made("e_unary", [constructor('o', op), expr(arg)]),
        Expr::Binary { op, lhs, rhs } => made("e_binary", [constructor('o', op), expr(lhs), expr(rhs)]),
        Expr::IfThenElse { cond, then_branch, else_branch } => {
            made("e_if", [expr(cond), expr(then_branch), expr(else_branch)])
        }
        Expr::Pre { arg } => made("e_pre", [expr(arg)]),
        Expr::Arrow { init, body } => made("e_arrow", [expr(init), expr(body)]),
        Expr::Call { node, args } => made("e_call", [node.clone(), exprs(args.iter())]),
        Expr::Field { base, field } => made("e_field", [expr(base), field.clone()]),
        Expr::Index { base, index } => made("e_index", [expr(base), expr(index)]),
        Expr::Tuple { items } => made("e_tuple", [exprs(items.iter())]),
        Expr::Array { items } => made("e_array", [exprs(items.iter())]),
        Expr::Struct { ty, fields } => {
            let (names, values) = (fields.iter().map(|f| f.field.clone()), fields.iter().map(|f| &f.value));
            made("e_struct", [ty.clone(), list(names), exprs(values)])
        }
        Expr::Cast { to, arg } => made("e_cast", [ty(to), expr(arg)]),
        Expr::When { arg, clock, on } => made("e_when", [expr(arg), clock.clone(), on.to_string()]),
        Expr::Merge { clock, on_true, on_false } => made("e_merge", [clock.clone(), expr(on_true), expr(on_false)]),
        Expr::Iterate { kind, node, init, arrays } => {
            let under = init.iter().map(|i| &**i).chain(arrays.iter());
            made("e_iterate", [constructor('i', kind), node.clone(), init.is_some().to_string(), exprs(under)])
        }
    }
}
