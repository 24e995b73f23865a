//! The charts of the specification by name, and what the calls should come to on each.

use crate::answer::{self, Outcome};
use crate::encode::encode_any;
use crate::gen::Builder;
use crate::package::*;
use crate::{activations, machines, special};

pub struct Chart {
    pub name: &'static str,
    pub pack: Vec<u8>,
}

/// Machine M without owner or ports, initial and only state S.
pub const M: [u8; 40] = [
    2, 0, 1, b'M', 1, b'S', 0, 0, 0, 0, 1, 0, 0, 0, 255, 255, 0, 0, 0, 0, 0, 0, 1, 0, 1, 0, 1, 0, 0, 0, 0, 0, 0, 0,
    255, 255, 0, 0, 0, 0,
];

/// A package of one machine that is drawn on a builder.
fn drawn(draw: impl FnOnce(&mut Builder) -> Machine) -> Package {
    let mut b = Builder::new();
    let machine = draw(&mut b);
    b.p.machines.push(machine);
    b.done()
}

fn region(initial: Name, states: Vec<State>) -> Region {
    Region { initial, history: false, states }
}

/// No states, and an owner that is not there.
pub fn stateless() -> Package {
    drawn(|b| {
        let [m, s, owner] = ["M", "S", "Gone"].map(|n| b.name(n));
        Machine { owner: Some(owner), ..special::machine(m, s, vec![]) }
    })
}

/// Two states A, and an initial state that is not there.
pub fn twins() -> Package {
    drawn(|b| {
        let [m, a, gone] = ["M", "A", "Gone"].map(|n| b.name(n));
        special::machine(m, gone, vec![special::state(a), special::state(a)])
    })
}

/// M's state refines M.
pub fn cycle() -> Package {
    drawn(|b| {
        let [m, s] = ["M", "S"].map(|n| b.name(n));
        special::machine(m, s, vec![State { refines: Some(m), ..special::state(s) }])
    })
}

/// A has two regions, the first with one inside.
pub fn regions() -> Package {
    drawn(|b| {
        let [m, a, p, q, r] = ["M", "A", "P", "Q", "R"].map(|n| b.name(n));
        let inside = region(q, vec![special::state(q)]);
        let outer = State { regions: vec![inside], ..special::state(p) };
        let both = vec![region(p, vec![outer]), region(r, vec![special::state(r)])];
        special::machine(m, a, vec![State { regions: both, ..special::state(a) }])
    })
}

/// Top states On and Off, each left by the input `swap`; in On a region of P and Q, P to Q always.
pub fn nested(history: bool) -> Package {
    drawn(|b| {
        let [m, on, off, p, q, swap] = ["M", "On", "Off", "P", "Q", "swap"].map(|n| b.name(n));
        let always = b.p.expr([Tok::Const(Lit::Bool(true))]);
        let guard = b.p.expr([Tok::Var(swap)]);
        let go =
            |name, guard, target| State { transitions: vec![Transition { guard, target }], ..special::state(name) };
        let inside = Region { history, ..region(p, vec![go(p, always, q), special::state(q)]) };
        let top = State { regions: vec![inside], ..go(on, guard, off) };
        let inputs = vec![Port { name: swap, ty: Type::plain(0) }];
        Machine { inputs, ..special::machine(m, on, vec![top, go(off, guard, on)]) }
    })
}

/// Two machines whose state S has one equation, for o and q: M has the outputs o and q, N has them as q and o.
pub fn two_left_names() -> Package {
    let mut b = Builder::new();
    let [m, s, o, q, n] = ["M", "S", "o", "q", "N"].map(|n| b.name(n));
    let one = b.p.expr([Tok::Const(Lit::Int(1))]);
    for (name, outputs) in [(m, [o, q]), (n, [q, o])] {
        let state = State { equations: vec![Equation { lhs: vec![o, q], rhs: one }], ..special::state(s) };
        let outputs = outputs.map(|name| Port { name, ty: Type::plain(4) }).to_vec();
        b.p.machines.push(Machine { outputs, ..special::machine(name, s, vec![state]) });
    }
    b.done()
}

/// A state S of the output o: with an equation for o and q or one for o alone, which is 1, and with a region whose state
/// has o = 2.
pub fn covered(pair: bool, alone: bool, inside: bool) -> Package {
    drawn(|b| {
        let [m, s, o, q, p] = ["M", "S", "o", "q", "P"].map(|n| b.name(n));
        let [one, two] = [1, 2].map(|i| b.p.expr([Tok::Const(Lit::Int(i))]));
        let mut state = special::state(s);
        if pair {
            state.equations.push(Equation { lhs: vec![o, q], rhs: one });
        }
        if alone {
            state.equations.push(Equation { lhs: vec![o], rhs: one });
        }
        if inside {
            let inner = State { equations: vec![Equation { lhs: vec![o], rhs: two }], ..special::state(p) };
            state.regions.push(region(p, vec![inner]));
        }
        let outputs = vec![Port { name: o, ty: Type::plain(4) }];
        Machine { outputs, ..special::machine(m, s, vec![state]) }
    })
}

/// Activation A of N (inputs v: int64, w: int64, c: bool; output o: int64), one branch B: drawn further by the caller.
pub struct Activated {
    pub b: Builder,
    pub a: Activation,
}

impl Default for Activated {
    fn default() -> Self {
        Self::new()
    }
}

impl Activated {
    pub fn new() -> Activated {
        let mut b = Builder::new();
        let [a, n, o, v, w, c, br] = ["A", "N", "o", "v", "w", "c", "B"].map(|x| b.name(x));
        let mut owner = special::node(n);
        owner.inputs = [(v, 4), (w, 4), (c, 0)].map(|(name, t)| Port { name, ty: Type::plain(t) }).to_vec();
        owner.outputs.push(Port { name: o, ty: Type::plain(4) });
        b.p.nodes.push(owner);
        let condition = b.p.expr([Tok::Var(c)]);
        let zero = b.p.expr([Tok::Const(Lit::Int(0))]);
        let branches = vec![Branch { name: br, condition, equations: vec![Equation { lhs: vec![o], rhs: zero }] }];
        let otherwise = vec![Equation { lhs: vec![o], rhs: zero }];
        let outputs = vec![Port { name: o, ty: Type::plain(4) }];
        Activated { a: Activation { name: a, owner: n, outputs, branches, otherwise }, b }
    }

    pub fn expr(&mut self, toks: Vec<Tok>) -> Expr {
        self.b.p.expr(toks)
    }

    /// A call of `last` on these tokens: a variable, or a variable and an initial value.
    pub fn call(&mut self, rest: &[Tok]) -> Vec<Tok> {
        let last = self.b.name("last");
        let args = if rest.len() > 1 { 2 } else { rest.len() as u16 };
        [&[Tok::Call(last, args)], rest].concat()
    }

    pub fn var(&mut self, name: &str) -> Tok {
        Tok::Var(self.b.name(name))
    }

    pub fn done(mut self) -> Package {
        self.b.p.activations.push(self.a);
        self.b.done()
    }
}

/// `last` of v in the condition, then in the branch, each with or without an initial value.
pub fn initials(first: Option<i64>, second: Option<i64>) -> Package {
    let mut chart = Activated::new();
    let v = chart.var("v");
    let mut last = |initial: Option<i64>| {
        let args: Vec<Tok> = [v.clone()].into_iter().chain(initial.map(|i| Tok::Const(Lit::Int(i)))).collect();
        let toks = chart.call(&args);
        chart.expr(toks)
    };
    let (first, second) = (last(first), last(second));
    chart.a.branches[0].condition = first;
    chart.a.branches[0].equations[0].rhs = second;
    chart.done()
}

/// `last(v, last(w))`.
pub fn inner_last() -> Package {
    let mut chart = Activated::new();
    let (v, w) = (chart.var("v"), chart.var("w"));
    let inner = chart.call(&[w]);
    let toks = chart.call(&[vec![v], inner].concat());
    chart.a.otherwise[0].rhs = chart.expr(toks);
    chart.done()
}

/// A scope that reads a clock's name, and v twice.
pub fn clocks() -> Package {
    let mut chart = Activated::new();
    let [v, w, c] = ["v", "w", "c"].map(|n| chart.b.name(n));
    let plus = Tok::Binary(10);
    let toks = vec![Tok::When(c, false), plus.clone(), Tok::Var(v), plus, Tok::Var(w), Tok::Var(v)];
    chart.a.otherwise[0].rhs = chart.expr(toks);
    chart.done()
}

/// Two branches, on c and on d, that give o as 1 and 2; else it is 3.
pub fn two_branches() -> Package {
    let mut chart = Activated::new();
    let [o, d, second] = ["o", "d", "D"].map(|n| chart.b.name(n));
    chart.b.p.nodes[0].inputs.push(Port { name: d, ty: Type::plain(0) });
    let condition = chart.expr(vec![Tok::Var(d)]);
    chart.a.branches.push(Branch { name: second, condition, equations: vec![] });
    let mut scope = |i| vec![Equation { lhs: vec![o], rhs: chart.b.p.expr([Tok::Const(Lit::Int(i))]) }];
    chart.a.branches[0].equations = scope(1);
    chart.a.branches[1].equations = scope(2);
    chart.a.otherwise = scope(3);
    chart.done()
}

/// Names alone, of so many bytes.
fn padded(size: usize) -> Package {
    let mut p = Package::default();
    special::pad(&mut p, size);
    p
}

/// All charts, each with its pack.
pub fn all() -> Vec<Chart> {
    let given: [(&str, Vec<u8>); 2] = [("twelve zero bytes", vec![0; 12]), ("machine M", M.to_vec())];
    let Some(Outcome::Lowered(lowered)) = machines::expected(&M) else { panic!("machine M is lowered") };
    let made = [
        ("no states and no owner", stateless()),
        ("two states A", twins()),
        ("M's state refines M", cycle()),
        ("regions 1, 2 inside, 3", regions()),
        ("P and Q without history", nested(false)),
        ("P and Q with history", nested(true)),
        ("last(v), last(v, 2)", initials(None, Some(2))),
        ("last(v, 1), last(v, 2)", initials(Some(1), Some(2))),
        ("last(v, last(w))", inner_last()),
        ("both conditions", two_branches()),
        ("two left names", two_left_names()),
        ("own equation and covering region", covered(false, true, true)),
        ("a scope of constants", Activated::new().done()),
        ("a clock's name is read", clocks()),
        ("65,536 bytes", padded(MAX_PACK)),
        ("65,537 bytes", padded(MAX_PACK + 1)),
        ("8 levels", special::nest(8, 1)),
        ("9 levels", special::nest(9, 1)),
        ("8 levels by refinements", special::refined(7, 1, 1)),
        ("9 levels by refinements", special::refined(8, 1, 1)),
        ("512 states", special::wide(512, None)),
        ("513 states", special::wide(513, None)),
    ];
    let made = made.into_iter().map(|(name, p)| (name, encode_any(&p).0));
    let all = given.into_iter().chain([("machine M, lowered", lowered)]).chain(made);
    all.map(|(name, pack)| Chart { name, pack }).collect()
}

/// A chart as the program `charts` reads it: parts after their lengths.
pub fn record(chart: &Chart) -> Vec<u8> {
    let mut out = Vec::new();
    let mut part = |bytes: &[u8]| {
        out.extend((bytes.len() as u32).to_le_bytes());
        out.extend(bytes);
    };
    part(chart.name.as_bytes());
    part(&chart.pack);
    let lowered = [machines::expected(&chart.pack), activations::expected(&chart.pack)];
    for outcome in [answer::check(&chart.pack)].into_iter().chain(lowered.into_iter().flatten()) {
        let answer = outcome.answer(MAX_PACK, MAX_PACK);
        part(&answer.word().to_le_bytes());
        part(answer.output.as_deref().unwrap_or(&[]));
        part(answer.report.as_deref().unwrap_or(&[]));
    }
    out
}
