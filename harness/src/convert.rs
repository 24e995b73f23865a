//! Between packages of this crate and projects of the reference. Nothing here recurses over
//! expressions or types.

use crate::package::*;
use reference::activation::{ActivationBranch, ActivationDef};
use reference::expr::{BinOp, Expr as RExpr, FieldInit, IterKind, Literal, UnaryOp};
use reference::node::{Equation as REquation, Local, NodeDef, NodeKind, Port as RPort};
use reference::project::{ConstructKind, ConstructOrigin, EnumDef, Package as RPackage, Project, TypeBody, TypeDef};
use reference::state_machine::{Region as RRegion, StateDef, StateMachineDef, Transition as RTransition};
use reference::types::Type as RType;
use std::collections::HashMap;

const UNARY: [UnaryOp; 2] = [UnaryOp::Not, UnaryOp::Neg];
const BINARY: [BinOp; 20] = [
    BinOp::And,
    BinOp::Or,
    BinOp::Xor,
    BinOp::Implies,
    BinOp::Eq,
    BinOp::Neq,
    BinOp::Lt,
    BinOp::Le,
    BinOp::Gt,
    BinOp::Ge,
    BinOp::Add,
    BinOp::Sub,
    BinOp::Mul,
    BinOp::Div,
    BinOp::Mod,
    BinOp::BitAnd,
    BinOp::BitOr,
    BinOp::BitXor,
    BinOp::Shl,
    BinOp::Shr,
];
const PLAIN: [RType; 12] = [
    RType::Bool,
    RType::Int8,
    RType::Int16,
    RType::Int32,
    RType::Int64,
    RType::Uint8,
    RType::Uint16,
    RType::Uint32,
    RType::Uint64,
    RType::Float32,
    RType::Float64,
    RType::Char,
];
const KINDS: [NodeKind; 3] = [NodeKind::Function, NodeKind::Operator, NodeKind::Imported];

// --- to the reference ---

/// How expressions go over: whole, or each as a literal that tells its number of tokens.
#[derive(Clone, Copy, PartialEq)]
pub enum Expressions {
    Whole,
    Counted,
}

pub struct To<'a> {
    pub p: &'a Package,
    pub expressions: Expressions,
}

/// The package as the reference's only package.
pub fn to_project(p: &Package) -> Project {
    let to = To { p, expressions: Expressions::Whole };
    let package = RPackage {
        types: p.enums.iter().map(|e| to.enumeration(e)).collect(),
        nodes: p.nodes.iter().map(|n| to.node(n)).collect(),
        state_machines: p.machines.iter().map(|m| to.machine(m)).collect(),
        activations: p.activations.iter().map(|a| to.activation(a)).collect(),
        ..Default::default()
    };
    let origins = p.origins.iter().map(|o| to.origin(o)).collect();
    Project { packages: vec![package], origins, ..Default::default() }
}

impl To<'_> {
    fn name(&self, name: Name) -> String {
        self.p.names.text(name).to_string()
    }

    fn names(&self, names: &[Name]) -> Vec<String> {
        names.iter().map(|n| self.name(*n)).collect()
    }

    fn enumeration(&self, e: &Enum) -> TypeDef {
        TypeDef { body: TypeBody::Enum(EnumDef { name: self.name(e.name), variants: self.names(&e.variants) }) }
    }

    pub fn node(&self, n: &Node) -> NodeDef {
        NodeDef {
            name: self.name(n.name),
            kind: KINDS[n.kind as usize],
            inputs: self.ports(&n.inputs),
            outputs: self.ports(&n.outputs),
            locals: self.locals(&n.locals),
            equations: self.equations(&n.equations),
            contract: None,
            diagram: Default::default(),
            probes: vec![],
        }
    }

    pub fn machine(&self, m: &Machine) -> StateMachineDef {
        StateMachineDef {
            name: self.name(m.name),
            inputs: self.ports(&m.inputs),
            outputs: self.ports(&m.outputs),
            locals: self.locals(&m.locals),
            initial_state: self.name(m.initial),
            states: self.states(&m.states),
            contract: None,
            owner: m.owner.map(|o| self.name(o)),
            layout: Default::default(),
        }
    }

    fn states(&self, states: &[State]) -> Vec<StateDef> {
        states.iter().map(|s| self.state(s)).collect()
    }

    fn state(&self, s: &State) -> StateDef {
        let transition = |t: &Transition| RTransition { guard: self.expr(t.guard), target: self.name(t.target) };
        let region = |r: &Region| RRegion {
            initial_state: self.name(r.initial),
            states: self.states(&r.states),
            history: r.history,
        };
        StateDef {
            name: self.name(s.name),
            equations: self.equations(&s.equations),
            transitions: s.transitions.iter().map(transition).collect(),
            regions: s.regions.iter().map(region).collect(),
            refines: s.refines.map(|r| self.name(r)),
        }
    }

    pub fn activation(&self, a: &Activation) -> ActivationDef {
        let branch = |b: &Branch| ActivationBranch {
            name: self.name(b.name),
            condition: self.expr(b.condition),
            equations: self.equations(&b.equations),
        };
        ActivationDef {
            name: self.name(a.name),
            outputs: self.ports(&a.outputs),
            branches: a.branches.iter().map(branch).collect(),
            else_equations: self.equations(&a.otherwise),
            owner: self.name(a.owner),
        }
    }

    fn origin(&self, o: &Origin) -> ConstructOrigin {
        ConstructOrigin {
            node: self.name(o.node),
            kind: if o.activation { ConstructKind::Activation } else { ConstructKind::StateMachine },
            name: self.name(o.name),
            equations: o.first as usize..o.after as usize,
            branches: self.names(&o.branches),
        }
    }

    fn ports(&self, ports: &[Port]) -> Vec<RPort> {
        ports.iter().map(|p| RPort { name: self.name(p.name), ty: self.ty(&p.ty) }).collect()
    }

    fn locals(&self, ports: &[Port]) -> Vec<Local> {
        ports.iter().map(|p| Local { name: self.name(p.name), ty: self.ty(&p.ty) }).collect()
    }

    fn equations(&self, equations: &[Equation]) -> Vec<REquation> {
        equations.iter().map(|e| REquation { lhs: self.names(&e.lhs), rhs: self.expr(e.rhs) }).collect()
    }

    fn ty(&self, t: &Type) -> RType {
        let base = match t.base {
            Base::Plain(b) => PLAIN[b as usize].clone(),
            Base::Named(n) => RType::Named { name: self.name(n) },
        };
        t.lens.iter().rev().fold(base, |elem, len| RType::Array { elem: Box::new(elem), len: *len })
    }

    /// From the last token to the first: a token finds its sub-expressions on the stack, the
    /// first on top.
    fn expr(&self, e: Expr) -> RExpr {
        let toks = self.p.toks(e);
        if self.expressions == Expressions::Counted {
            return RExpr::int_lit(toks.len() as i64);
        }
        let mut stack: Vec<RExpr> = Vec::new();
        for tok in toks.iter().rev() {
            let made = self.tok(tok, &mut stack);
            stack.push(made);
        }
        stack.pop().expect("an expression has a token")
    }

    fn tok(&self, tok: &Tok, stack: &mut Vec<RExpr>) -> RExpr {
        let mut next = || stack.pop().expect("preorder tokens are complete");
        let mut boxed = || Box::new(next());
        match tok {
            Tok::Const(lit) => RExpr::Const { lit: literal(*lit) },
            Tok::Var(n) => RExpr::Var { name: self.name(*n) },
            Tok::Unary(op) => RExpr::Unary { op: UNARY[*op as usize], arg: boxed() },
            Tok::Binary(op) => RExpr::Binary { op: BINARY[*op as usize], lhs: boxed(), rhs: boxed() },
            Tok::If => RExpr::IfThenElse { cond: boxed(), then_branch: boxed(), else_branch: boxed() },
            Tok::Pre => RExpr::Pre { arg: boxed() },
            Tok::Arrow => RExpr::Arrow { init: boxed(), body: boxed() },
            Tok::Call(n, k) => RExpr::Call { node: self.name(*n), args: (0..*k).map(|_| next()).collect() },
            Tok::Field(n) => RExpr::Field { base: boxed(), field: self.name(*n) },
            Tok::Index => RExpr::Index { base: boxed(), index: boxed() },
            Tok::Tuple(k) => RExpr::Tuple { items: (0..*k).map(|_| next()).collect() },
            Tok::Array(k) => RExpr::Array { items: (0..*k).map(|_| next()).collect() },
            Tok::Struct(s) => RExpr::Struct {
                ty: self.name(s.0),
                fields: s.1.iter().map(|f| FieldInit { field: self.name(*f), value: next() }).collect(),
            },
            Tok::Cast(t) => RExpr::Cast { to: self.ty(t), arg: boxed() },
            Tok::When(n, on) => RExpr::When { arg: boxed(), clock: self.name(*n), on: *on },
            Tok::Merge(n) => RExpr::Merge { clock: self.name(*n), on_true: boxed(), on_false: boxed() },
            Tok::Iterate { fold, node, init, arrays } => RExpr::Iterate {
                kind: if *fold { IterKind::Fold } else { IterKind::Map },
                node: self.name(*node),
                init: init.then(&mut boxed),
                arrays: (0..*arrays).map(|_| *boxed()).collect(),
            },
        }
    }
}

fn literal(lit: Lit) -> Literal {
    match lit {
        Lit::Bool(value) => Literal::Bool { value },
        Lit::Int(value) => Literal::Int { value },
        Lit::Float(bits) => Literal::Float { value: f64::from_bits(bits) },
        Lit::Char(value) => Literal::Char { value },
    }
}

// --- from the reference ---

/// `old` with the enums, nodes and origins of `project`; its definitions stay for the caller.
pub fn from_project(old: &Package, project: &Project) -> Package {
    let mut p = old.clone();
    let known = p.names.iter().enumerate().map(|(i, n)| (n.to_vec(), i as Name)).collect();
    (p.enums, p.nodes, p.origins) = (vec![], vec![], vec![]);
    let mut from = From { p, known };
    let package = &project.packages[0];
    for t in &package.types {
        let TypeBody::Enum(e) = &t.body else { unreachable!("packs have enums only") };
        let made = Enum { name: from.name(&e.name), variants: from.names(&e.variants) };
        from.p.enums.push(made);
    }
    for n in &package.nodes {
        let made = from.node(n);
        from.p.nodes.push(made);
    }
    for o in &project.origins {
        let made = from.origin(o);
        from.p.origins.push(made);
    }
    from.p
}

struct From {
    p: Package,
    known: HashMap<Vec<u8>, Name>,
}

impl From {
    fn name(&mut self, text: &str) -> Name {
        match self.known.get(text.as_bytes()) {
            Some(n) => *n,
            None => {
                let n = self.p.names.push(text.as_bytes());
                self.known.insert(text.as_bytes().to_vec(), n);
                n
            }
        }
    }

    fn names(&mut self, names: &[String]) -> Vec<Name> {
        names.iter().map(|n| self.name(n)).collect()
    }

    fn node(&mut self, n: &NodeDef) -> Node {
        Node {
            name: self.name(&n.name),
            kind: KINDS.iter().position(|k| *k == n.kind).unwrap() as u8,
            inputs: n.inputs.iter().map(|p| self.port(&p.name, &p.ty)).collect(),
            outputs: n.outputs.iter().map(|p| self.port(&p.name, &p.ty)).collect(),
            locals: n.locals.iter().map(|p| self.port(&p.name, &p.ty)).collect(),
            equations: n
                .equations
                .iter()
                .map(|e| Equation { lhs: self.names(&e.lhs), rhs: self.expr(&e.rhs) })
                .collect(),
        }
    }

    fn port(&mut self, name: &str, ty: &RType) -> Port {
        Port { name: self.name(name), ty: self.ty(ty) }
    }

    fn ty(&mut self, mut ty: &RType) -> Type {
        let mut lens = Vec::new();
        while let RType::Array { elem, len } = ty {
            lens.push(*len);
            ty = elem;
        }
        let base = match ty {
            RType::Named { name } => Base::Named(self.name(name)),
            plain => Base::Plain(PLAIN.iter().position(|t| t == plain).unwrap() as u8),
        };
        Type { lens, base }
    }

    fn origin(&mut self, o: &ConstructOrigin) -> Origin {
        Origin {
            node: self.name(&o.node),
            activation: o.kind == ConstructKind::Activation,
            name: self.name(&o.name),
            // Where a number leaves 16 bits the pack has left its 65,536 bytes long before.
            first: o.equations.start as u16,
            after: o.equations.end as u16,
            branches: self.names(&o.branches),
        }
    }

    fn expr(&mut self, e: &RExpr) -> Expr {
        let start = self.p.toks.len() as u32;
        let mut todo = vec![e];
        while let Some(e) = todo.pop() {
            let tok = self.tok(e);
            self.p.toks.push(tok);
            let from = todo.len();
            todo.extend(children(e));
            todo[from..].reverse();
        }
        Expr { start, end: self.p.toks.len() as u32 }
    }

    fn tok(&mut self, e: &RExpr) -> Tok {
        match e {
            RExpr::Const { lit } => Tok::Const(match lit {
                Literal::Bool { value } => Lit::Bool(*value),
                Literal::Int { value } => Lit::Int(*value),
                Literal::Float { value } => Lit::Float(value.to_bits()),
                Literal::Char { value } => Lit::Char(*value),
            }),
            RExpr::Var { name } => Tok::Var(self.name(name)),
            RExpr::Unary { op, .. } => Tok::Unary(UNARY.iter().position(|o| o == op).unwrap() as u8),
            RExpr::Binary { op, .. } => Tok::Binary(BINARY.iter().position(|o| o == op).unwrap() as u8),
            RExpr::IfThenElse { .. } => Tok::If,
            RExpr::Pre { .. } => Tok::Pre,
            RExpr::Arrow { .. } => Tok::Arrow,
            RExpr::Call { node, args } => Tok::Call(self.name(node), args.len() as u16),
            RExpr::Field { field, .. } => Tok::Field(self.name(field)),
            RExpr::Index { .. } => Tok::Index,
            RExpr::Tuple { items } => Tok::Tuple(items.len() as u16),
            RExpr::Array { items } => Tok::Array(items.len() as u16),
            RExpr::Struct { ty, fields } => {
                let ty = self.name(ty);
                Tok::Struct(Box::new((ty, fields.iter().map(|f| self.name(&f.field)).collect())))
            }
            RExpr::Cast { to, .. } => Tok::Cast(Box::new(self.ty(to))),
            RExpr::When { clock, on, .. } => Tok::When(self.name(clock), *on),
            RExpr::Merge { clock, .. } => Tok::Merge(self.name(clock)),
            RExpr::Iterate { kind, node, init, arrays } => Tok::Iterate {
                fold: *kind == IterKind::Fold,
                node: self.name(node),
                init: init.is_some(),
                arrays: arrays.len() as u16,
            },
        }
    }
}

/// The direct sub-expressions, in order.
pub fn children(e: &RExpr) -> Vec<&RExpr> {
    match e {
        RExpr::Const { .. } | RExpr::Var { .. } => vec![],
        RExpr::Unary { arg, .. } | RExpr::Pre { arg } | RExpr::Cast { arg, .. } | RExpr::When { arg, .. } => {
            vec![arg]
        }
        RExpr::Field { base, .. } => vec![base],
        RExpr::Binary { lhs, rhs, .. } => vec![lhs, rhs],
        RExpr::Arrow { init, body } => vec![init, body],
        RExpr::Index { base, index } => vec![base, index],
        RExpr::Merge { on_true, on_false, .. } => vec![on_true, on_false],
        RExpr::IfThenElse { cond, then_branch, else_branch } => vec![cond, then_branch, else_branch],
        RExpr::Call { args: items, .. } | RExpr::Tuple { items } | RExpr::Array { items } => items.iter().collect(),
        RExpr::Struct { fields, .. } => fields.iter().map(|f| &f.value).collect(),
        RExpr::Iterate { init, arrays, .. } => init.iter().map(|i| &**i).chain(arrays).collect(),
    }
}

#[cfg(test)]
mod tests {
    use super::*;
    use crate::decode::decode;
    use crate::encode::encode;
    use crate::stream::{Aim, Stream};

    #[test]
    fn a_project_comes_back_as_it_went() {
        let mut packs = Stream::new(31, Aim::Lower);
        let mut legal = 0;
        for _ in 0..4_000 {
            let pack = packs.pack();
            let Ok(p) = decode(&pack) else { continue };
            let back = crate::deep::run(pack.len(), || encode(&from_project(&p, &to_project(&p))));
            assert_eq!(back, Ok(pack));
            legal += 1;
        }
        assert!(legal > 2_000, "{legal}");
    }
}
