//! Packs that cost lowering activations the most for their size, or stand at its limits.

use super::{equation, full, idle_names, long_expr, packs, port, short_names, Hostile};
use crate::gen::Builder;
use crate::package::*;
use crate::special::{self, crowded, node, short_name, HEAD_BITS};

/// Node N with the output o and the input c, and an activation of it that is drawn on.
struct Sketch {
    b: Builder,
    o: Name,
    c: Expr,
    owner: Node,
    act: Activation,
}

impl Sketch {
    /// One branch, and scopes without equations.
    fn new() -> Sketch {
        let mut b = Builder::new();
        let [a, n, o, c, branch] = ["A000", "N000", "o000", "c000", "B000"].map(|x| b.name(x));
        let mut owner = node(n);
        owner.inputs.push(Port { name: c, ty: Type::plain(0) });
        owner.outputs.push(port(o));
        let c = b.p.expr([Tok::Var(c)]);
        let branches = vec![Branch { name: branch, condition: c, equations: vec![] }];
        let act = Activation { name: a, owner: n, outputs: vec![port(o)], branches, otherwise: vec![] };
        Sketch { b, o, c, owner, act }
    }

    /// So many numbers more among the owner's inputs.
    fn inputs(&mut self, count: usize) -> Vec<Name> {
        let names: Vec<Name> = (0..count).map(|k| self.b.name(&short_name(k + 100))).collect();
        self.owner.inputs.extend(names.iter().map(|v| port(*v)));
        names
    }

    /// The scopes of the branch and of else have these equations.
    fn scopes(&mut self, branch: Vec<Equation>, otherwise: Vec<Equation>) {
        self.act.branches[0].equations = branch;
        self.act.otherwise = otherwise;
    }

    /// The output is `value` in both scopes.
    fn output(&mut self, value: Expr, otherwise: Expr) {
        self.scopes(vec![equation(self.o, value)], vec![equation(self.o, otherwise)]);
    }

    /// With so many copies of the activation.
    fn done(mut self, copies: usize) -> Package {
        self.b.p.nodes.push(self.owner);
        self.b.p.activations = vec![self.act; copies];
        self.b.done()
    }
}

/// Activations that hold so many variables of the type of the first of so many enums, which alone has a variant.
pub fn holders(enums: usize, variables: usize, count: usize) -> Package {
    let mut k = Sketch::new();
    let [e, last] = ["e000", "last"].map(|n| k.b.name(n));
    let names = k.inputs(variables);
    for port in k.owner.inputs.iter_mut().skip(1) {
        port.ty = Type { lens: vec![], base: Base::Named(e) };
    }
    k.b.p.enums = vec![Enum { name: e, variants: vec![] }; enums];
    k.b.p.enums[0].variants.push(e);
    let lasts = names.iter().flat_map(|v| [Tok::Call(last, 1), Tok::Var(*v)]);
    k.act.branches[0].condition = k.b.p.expr([Tok::Tuple(variables as u16)].into_iter().chain(lasts));
    k.output(k.c, k.c);
    k.done(count)
}

/// Activations of one branch, all of one node.
pub fn copies(count: usize) -> Package {
    let mut k = Sketch::new();
    k.output(k.c, k.c);
    k.done(count)
}

/// Activations without branches that share a name of so many bytes: each is refused.
pub fn branchless(count: usize, length: usize) -> Package {
    let mut k = Sketch::new();
    k.act.name = k.b.name(&"a".repeat(length));
    k.act.branches.clear();
    k.act.outputs.clear();
    k.done(count)
}

/// Activations of the last of many nodes, or of one that is not there.
pub fn owned(nodes: usize, count: usize, there: bool) -> Package {
    let mut k = Sketch::new();
    k.output(k.c, k.c);
    let other = k.b.name("O000");
    if !there {
        k.act.owner = k.b.name("Gone");
    }
    k.b.p.nodes = vec![node(other); nodes];
    k.done(count)
}

/// So many outputs, each with an equation in both scopes.
pub fn outputs(count: usize) -> Package {
    let mut k = Sketch::new();
    let names: Vec<Name> = (0..count).map(|i| k.b.name(&short_name(i + 100))).collect();
    k.act.outputs = names.iter().map(|o| port(*o)).collect();
    let all: Vec<Equation> = names.iter().map(|o| equation(*o, k.c)).collect();
    k.scopes(all.clone(), all);
    k.done(1)
}

/// So many outputs and branches, each output with an equation in each scope, but for the last where it is to be refused.
pub fn square(outputs: usize, branches: usize, refused: bool) -> Package {
    let mut k = Sketch::new();
    let names: Vec<Name> = (0..outputs).map(|i| k.b.name(&short_name(i + 100))).collect();
    k.act.outputs = names.iter().map(|o| port(*o)).collect();
    let none = k.b.p.expr([Tok::Tuple(0)]);
    let all: Vec<Equation> = names.iter().map(|o| equation(*o, none)).collect();
    let branch = |name| Branch { name, condition: none, equations: all.clone() };
    k.act.branches = (0..branches).map(|i| branch(k.b.name(&short_name(i + 5_000)))).collect();
    k.act.otherwise = all;
    if refused {
        k.act.otherwise.pop();
    }
    k.done(1)
}

/// Branches of which the last has the name of the first where it is to be refused.
pub fn branches(count: usize, refused: bool) -> Package {
    let mut p = special::branches(count, true);
    if refused {
        let branches = &mut p.activations[0].branches;
        branches[count - 1].name = branches[0].name;
    }
    p
}

/// An output so many times.
pub fn repeated_outputs(count: usize) -> Package {
    let mut k = Sketch::new();
    k.output(k.c, k.c);
    k.act.outputs = vec![port(k.o); count];
    k.done(1)
}

/// A scope that reads so many variables in one equation, after names that nothing uses.
pub fn samples(idle: impl Iterator<Item = String>, count: usize) -> Package {
    let mut k = Sketch::new();
    idle_names(&mut k.b, idle);
    let names: Vec<Name> = (0..count).map(|i| k.b.name(&format!("v{i:03}"))).collect();
    k.owner.inputs.extend(names.iter().map(|v| port(*v)));
    let all = k.b.p.expr([Tok::Tuple(count as u16)].into_iter().chain(names.into_iter().map(Tok::Var)));
    k.output(k.c, all);
    k.done(1)
}

/// The same after names that begin as made ones do.
pub fn made_names(count: usize, samples: usize) -> Package {
    let mut k = Sketch::new();
    for i in 0..count {
        k.b.name(&format!("__act_A000_sf_{}", short_name(i)));
    }
    let names = k.inputs(samples);
    let all = k.b.p.expr([Tok::Tuple(samples as u16)].into_iter().chain(names.into_iter().map(Tok::Var)));
    k.output(k.c, all);
    k.done(1)
}

/// So many equations that each read the left name of the one before.
pub fn chain(count: usize) -> Package {
    let mut k = Sketch::new();
    let names = k.inputs(count);
    let mut all = vec![equation(k.o, k.c)];
    for pair in names.windows(2) {
        let rhs = k.b.p.expr([Tok::Var(pair[0])]);
        all.push(equation(pair[1], rhs));
    }
    k.scopes(vec![equation(k.o, k.c)], all);
    k.done(1)
}

/// The output's equation so many times in a scope.
pub fn repeated_equations(count: usize) -> Package {
    let mut k = Sketch::new();
    k.scopes(vec![equation(k.o, k.c)], vec![equation(k.o, k.c); count]);
    k.done(1)
}

/// Calls of `last`, of one variable or of as many.
pub fn lasts(count: usize, one: bool) -> Package {
    let mut k = Sketch::new();
    let last = k.b.name("last");
    let names = k.inputs(if one { 1 } else { count });
    let call = |i: usize| [Tok::Call(last, 1), Tok::Var(names[if one { 0 } else { i }])];
    let toks: Vec<Tok> = [Tok::Tuple(count as u16)].into_iter().chain((0..count).flat_map(call)).collect();
    let all = k.b.p.expr(toks);
    k.output(k.c, all);
    k.done(1)
}

/// A call of `last` in its own initial value, so many times.
pub fn nested_lasts(depth: usize) -> Package {
    let mut k = Sketch::new();
    let last = k.b.name("last");
    let v = k.inputs(1)[0];
    let calls = (0..depth).flat_map(|_| [Tok::Call(last, 2), Tok::Var(v)]).chain([Tok::Var(v)]);
    let all = k.b.p.expr(calls);
    k.output(k.c, all);
    k.done(1)
}

/// A condition of so many bytes.
pub fn condition(bytes: usize) -> Package {
    let mut k = Sketch::new();
    k.output(k.c, k.c);
    k.act.branches[0].condition = long_expr(&mut k.b, bytes);
    k.done(1)
}

/// Packs at the limits of lowering activations.
pub fn limits() -> Vec<Hostile> {
    let named = |length: usize| {
        let mut k = Sketch::new();
        k.output(k.c, k.c);
        k.act.name = k.b.name(&"a".repeat(length));
        k.done(1)
    };
    packs([
        // The longest made name is `__act_`, the activation's, `_x1_` or `_xe_`, and the output's.
        ("a made name of 255 bytes", named(241)),
        ("a made name of 256 bytes", named(242)),
        ("65,536 bytes: an activation", full(copies(1))),
        ("65,536 bytes: activations refused", full(branchless(6_000, 9))),
    ])
}

/// Packs that cost the most.
pub fn costly() -> Vec<Hostile> {
    packs([
        ("1,300 activations of one node, too long", copies(1_300)),
        ("300 activations of one node", copies(300)),
        ("activations without branches", branchless(6_500, 2)),
        ("activations without branches, long report", branchless(6_500, 255)),
        ("activations of the last of 3,900 nodes", owned(3_900, 200, true)),
        ("activations of a node that is not there", owned(3_000, 600, false)),
        ("3,000 outputs", outputs(3_000)),
        ("400 outputs", outputs(400)),
        ("90 outputs of 90 branches", square(90, 90, false)),
        ("90 outputs of 90 branches, refused", square(90, 90, true)),
        ("an output 15,000 times", repeated_outputs(15_000)),
        ("2,500 branches", branches(2_500, false)),
        ("2,500 branches, the last repeated", branches(2_500, true)),
        ("1,500 branches that read a variable", special::branches(1_500, false)),
        ("60 branches that read a variable", special::branches(60, false)),
        ("4,500 samples", samples(short_names(0), 4_500)),
        ("800 samples", samples(short_names(0), 800)),
        ("9,000 names, 700 samples", samples(short_names(9_000), 700)),
        ("6,000 names of one tree, 700 samples", samples(crowded("", HEAD_BITS).take(6_000), 700)),
        ("2,500 names of the made kind, 700 samples", made_names(2_500, 700)),
        ("3,500 equations in a chain", chain(3_500)),
        ("700 equations in a chain", chain(700)),
        ("an equation 9,000 times", repeated_equations(9_000)),
        ("7,500 calls of last, one variable", lasts(7_500, true)),
        ("3,500 calls of last", lasts(3_500, false)),
        ("600 calls of last", lasts(600, false)),
        ("calls of last inside each other", nested_lasts(7_500)),
        ("8,000 enums, 50 variables held 70 times", holders(8_000, 50, 70)),
        ("condition of 20 KB", condition(20_000)),
        ("condition of 60 KB", condition(60_000)),
    ])
}

/// Costly packs on which calls are made quickly enough to be tried many times.
pub fn quick() -> Vec<Hostile> {
    packs([
        ("activations by the hundred", copies(300)),
        ("outputs by the thousand", outputs(3_000)),
        ("branches by the thousand", branches(3_500, false)),
        ("samples by the hundred", samples(short_names(9_000), 700)),
        ("calls of last by the hundred", lasts(600, false)),
        ("8,000 enums, 50 variables held 70 times", holders(8_000, 50, 70)),
        ("condition of 20 KB", condition(20_000)),
    ])
}
