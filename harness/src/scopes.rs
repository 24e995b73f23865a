//! The checks of an activation, the locals that it makes and how much it writes, without writing
//! it: for those whose equations would take gigabytes.

use crate::convert::children;
use crate::report::Refused;
use reference::activation::{ActivationDef, LoweredActivation};
use reference::expr::Expr;
use reference::node::{Equation, Local, NodeDef};
use reference::types::Type;
use std::collections::{HashMap, HashSet};

/// What an activation adds to its owner. Here the equations are left out, and only their tokens
/// are counted.
pub struct Lowered {
    pub locals: Vec<Local>,
    pub equations: Vec<Equation>,
    pub tokens: usize,
}

impl From<LoweredActivation> for Lowered {
    fn from(low: LoweredActivation) -> Lowered {
        Lowered { locals: low.locals, equations: low.equations, tokens: 0 }
    }
}

/// Tokens of an expression.
pub fn tokens(e: &Expr) -> usize {
    let mut todo = vec![e];
    let mut count = 0;
    while let Some(e) = todo.pop() {
        count += 1;
        todo.extend(children(e));
    }
    count
}

fn refused(kind: u8, names: &[&str]) -> Refused {
    Refused { kind, names: names.iter().map(|n| n.to_string()).collect() }
}

pub fn lower(act: &ActivationDef, owner: &NodeDef, first: &HashMap<String, String>) -> Result<Lowered, Refused> {
    shape(act)?;
    let mut maker =
        Maker { act, types: types(act, owner), low: Lowered { locals: vec![], equations: vec![], tokens: 0 } };
    let found = Found::all(act)?;
    maker.holders(&found, first)?;
    let scopes = || act.branches.iter().map(|b| &b.equations).chain([&act.else_equations]);
    if scopes().flatten().any(|e| e.lhs.is_empty()) {
        return Err(Refused::empty_left(&act.name));
    }
    maker.flags();
    for (k, equations) in scopes().enumerate() {
        maker.scope(k, equations);
    }
    let n = act.branches.len();
    maker.low.tokens += act.outputs.len() * (2 * n + 1);
    Ok(maker.low)
}

/// Branches, outputs, and that every scope assigns every output.
fn shape(act: &ActivationDef) -> Result<(), Refused> {
    let a = act.name.as_str();
    if act.branches.is_empty() {
        return Err(refused(9, &[a]));
    }
    if act.outputs.is_empty() {
        return Err(refused(10, &[a]));
    }
    let mut seen = HashSet::new();
    if let Some(b) = act.branches.iter().find(|b| !seen.insert(&b.name)) {
        return Err(refused(12, &[a, &b.name]));
    }
    for o in &act.outputs {
        let branches = act.branches.iter().map(|b| (b.name.as_str(), &b.equations));
        for (name, equations) in branches.chain([("else", &act.else_equations)]) {
            if !equations.iter().any(|e| e.lhs.len() == 1 && e.lhs[0] == o.name) {
                return Err(refused(11, &[a, &o.name, name]));
            }
        }
    }
    Ok(())
}

fn types(act: &ActivationDef, owner: &NodeDef) -> HashMap<String, Type> {
    let mut types = HashMap::new();
    let ports = owner.inputs.iter().chain(&owner.outputs).map(|p| (&p.name, &p.ty));
    for (name, ty) in ports.chain(owner.locals.iter().map(|l| (&l.name, &l.ty))) {
        types.insert(name.clone(), ty.clone());
    }
    for o in &act.outputs {
        types.entry(o.name.clone()).or_insert(o.ty.clone());
    }
    types
}

/// A call of `last`: its variable and its initial, or a bad shape.
enum Last<'a> {
    No,
    Bad,
    Of(&'a str, Option<&'a Expr>),
}

fn last(e: &Expr) -> Last<'_> {
    let Expr::Call { node, args } = e else { return Last::No };
    if node != "last" {
        return Last::No;
    }
    match args.as_slice() {
        [Expr::Var { name }] => Last::Of(name, None),
        [Expr::Var { name }, init] => Last::Of(name, Some(init)),
        _ => Last::Bad,
    }
}

/// Preorder, not entering calls of `last` that are replaced.
fn each<'a>(e: &'a Expr, mut f: impl FnMut(&'a Expr)) {
    let mut todo = vec![e];
    while let Some(e) = todo.pop() {
        f(e);
        if !matches!(last(e), Last::Of(..)) {
            let from = todo.len();
            todo.extend(children(e));
            todo[from..].reverse();
        }
    }
}

#[derive(Default)]
struct Found<'a> {
    order: Vec<&'a str>,
    initials: HashMap<&'a str, &'a Expr>,
    bad: bool,
}

impl<'a> Found<'a> {
    fn all(act: &'a ActivationDef) -> Result<Found<'a>, Refused> {
        let mut found = Found::default();
        let mut seen = HashSet::new();
        let scopes = act.branches.iter().map(|b| &b.equations).chain([&act.else_equations]);
        let conditions = act.branches.iter().map(|b| &b.condition);
        for e in conditions.chain(scopes.flatten().map(|e| &e.rhs)) {
            each(e, |x| match last(x) {
                Last::No => {}
                Last::Bad => found.bad = true,
                Last::Of(v, init) => {
                    if seen.insert(v) {
                        found.order.push(v);
                    }
                    if let Some(init) = init {
                        found.initials.entry(v).or_insert(init);
                    }
                }
            });
        }
        if found.bad {
            return Err(refused(14, &[&act.name]));
        }
        Ok(found)
    }
}

struct Maker<'a> {
    act: &'a ActivationDef,
    types: HashMap<String, Type>,
    low: Lowered,
}

impl Maker<'_> {
    fn define(&mut self, name: String, ty: Type, tokens: usize) {
        self.low.locals.push(Local { name, ty });
        self.low.tokens += tokens;
    }

    fn made(&self, rest: std::fmt::Arguments) -> String {
        format!("__act_{}_{rest}", self.act.name)
    }

    fn holders(&mut self, found: &Found, first: &HashMap<String, String>) -> Result<(), Refused> {
        let a = &self.act.name;
        for v in &found.order {
            let Some(ty) = self.types.get(*v).cloned() else { return Err(refused(15, &[a, v])) };
            let init = match found.initials.get(v) {
                Some(init) => tokens(init),
                None if has_default(&ty, first) => 1,
                None => return Err(refused(16, &[a, v])),
            };
            let holder = self.made(format_args!("last_{v}"));
            self.types.insert(holder.clone(), ty.clone());
            self.define(holder, ty, init + 3);
        }
        Ok(())
    }

    /// Flags with the chain between them, then guards.
    fn flags(&mut self) {
        let n = self.act.branches.len();
        for (i, b) in self.act.branches.iter().enumerate() {
            let condition = rewritten_tokens(&b.condition);
            let prior = if i == 0 { 0 } else { 2 };
            self.define(self.made(format_args!("b{}", i + 1)), Type::Bool, condition + prior);
            if i + 1 < n {
                self.define(self.made(format_args!("n{}", i + 1)), Type::Bool, condition + 1 + prior);
            }
        }
        for k in 1..n {
            self.define(self.made(format_args!("g{}", k + 1)), Type::Bool, k + 1);
        }
    }

    fn scope(&mut self, k: usize, equations: &[Equation]) {
        let n = self.act.branches.len();
        let tag = if k < n { (k + 1).to_string() } else { "e".to_string() };
        // Samples around one value: a clock for each branch up to this one.
        let clocks = if k < n { k + 1 } else { n };
        let mut sampled = HashSet::new();
        for e in equations {
            let reads = self.reads(&e.rhs);
            for v in &reads {
                if sampled.insert(v.clone()) {
                    let ty = self.types[v].clone();
                    self.define(self.made(format_args!("s{tag}_{v}")), ty, clocks + 1);
                }
            }
            let mut size = rewritten_tokens(&e.rhs);
            if reads.is_empty() {
                size += clocks * constants(&e.rhs).max(1);
            }
            let o = &e.lhs[0];
            let port = self.act.outputs.iter().find(|p| p.name == *o).map(|p| &p.ty);
            let ty = port.or(self.types.get(o)).cloned().unwrap_or(Type::Bool);
            self.define(self.made(format_args!("x{tag}_{o}")), ty, size);
        }
    }

    /// Known variables that a rewritten right side reads, each once, in preorder.
    fn reads(&self, e: &Expr) -> Vec<String> {
        let mut reads = Vec::new();
        let mut seen = HashSet::new();
        each(e, |x| {
            let name = match (last(x), x) {
                (Last::Of(v, _), _) => self.made(format_args!("last_{v}")),
                (_, Expr::Var { name }) => name.clone(),
                (_, Expr::When { clock, .. } | Expr::Merge { clock, .. }) => clock.clone(),
                _ => return,
            };
            if self.types.contains_key(&name) && seen.insert(name.clone()) {
                reads.push(name);
            }
        });
        reads
    }
}

fn rewritten_tokens(e: &Expr) -> usize {
    let mut count = 0;
    each(e, |_| count += 1);
    count
}

fn constants(e: &Expr) -> usize {
    let mut count = 0;
    each(e, |x| count += matches!(x, Expr::Const { .. }) as usize);
    count
}

fn has_default(ty: &Type, first: &HashMap<String, String>) -> bool {
    match ty {
        Type::Array { .. } => false,
        Type::Named { name } => first.contains_key(name),
        _ => true,
    }
}
