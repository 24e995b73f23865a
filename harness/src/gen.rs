//! Packages made from a seed. Most are coherent, so that both lowerings accept them; in the
//! others single choices go wrong.

use crate::package::*;
use crate::rng::Rng;
use std::collections::HashMap;

/// How large a package becomes.
#[derive(Debug, Clone, Copy, PartialEq)]
pub enum Size {
    Small,
    Medium,
    Large,
}

/// Builds a package, giving each name its index when it is first wanted.
pub struct Builder {
    pub p: Package,
    known: HashMap<Vec<u8>, Name>,
}

impl Default for Builder {
    fn default() -> Self {
        Self::new()
    }
}

impl Builder {
    pub fn new() -> Builder {
        Builder { p: Package::default(), known: HashMap::new() }
    }

    pub fn name(&mut self, text: &str) -> Name {
        if let Some(n) = self.known.get(text.as_bytes()) {
            return *n;
        }
        let n = self.p.names.push(text.as_bytes());
        self.known.insert(text.as_bytes().to_vec(), n);
        n
    }

    /// Everything named so far is an old name.
    pub fn done(mut self) -> Package {
        self.p.old = self.p.names.len();
        self.p
    }
}

const VARS: [&str; 9] = ["i", "j", "v", "w", "o", "q", "x", "c", "k"];
const ODD: [&str; 16] = [
    "__sm_state",
    "__sm_next_state",
    "__sm_r1_state",
    "__sm_r1_active",
    "M0_StateEnum",
    "M0_r1_StateEnum",
    "__act_A0_b1",
    "__act_A0_n1",
    "__act_A0_last_v",
    "__act_A0_s1_v",
    "__act_A0_xe_o",
    "S0_S1",
    "else",
    "last",
    "0",
    "_",
];

/// Names near the limit of 255 bytes, which made and qualified names pass.
fn long_name(rng: &mut Rng) -> String {
    let len = rng.pick(&[255, 255, 254, 253, 250, 245, 244, 240, 200, 127]);
    let head = rng.pick(&["L", "M", "S", "__sm_"]);
    format!("{head}{}", "y".repeat(len - head.len()))
}

pub struct Gen<'r> {
    rng: &'r mut Rng,
    b: Builder,
    size: Size,
    /// One choice in this many goes wrong; 0 for never.
    wrong: usize,
    long: bool,
    nodes: Vec<Name>,
    machines: Vec<Name>,
    vars: Vec<Name>,
    /// Numbers the states, so that their names differ over all machines.
    states: usize,
}

/// A package from the state of `rng`.
pub fn package(rng: &mut Rng, size: Size) -> Package {
    let wrong = match rng.below(10) {
        0..=5 => 0,
        6 | 7 => 40,
        8 => 12,
        _ => 4,
    };
    let long = rng.chance(1, 12);
    let mut g =
        Gen { rng, b: Builder::new(), size, wrong, long, nodes: vec![], machines: vec![], vars: vec![], states: 0 };
    g.stray_names();
    g.plan();
    g.fill();
    g.b.done()
}

impl Gen<'_> {
    fn wrong(&mut self) -> bool {
        self.wrong > 0 && self.rng.chance(1, self.wrong)
    }

    /// How many of something: few in small packages.
    fn some(&mut self, small: usize, medium: usize, large: usize) -> usize {
        let most = match self.size {
            Size::Small => small,
            Size::Medium => medium,
            Size::Large => large,
        };
        self.rng.range(0, most)
    }

    /// Names first in the table in another order than that of their use, some never used.
    fn stray_names(&mut self) {
        for _ in 0..self.some(3, 6, 10) {
            let name = match self.rng.below(6) {
                0 => self.rng.pick(&ODD).to_string(),
                1 if self.long => long_name(self.rng),
                2 => format!("S{}", self.rng.below(6)),
                3 => format!("M{}", self.rng.below(4)),
                _ => self.rng.pick(&VARS).to_string(),
            };
            self.b.name(&name);
        }
    }

    /// Fixes the names that sections refer to before any section is made.
    fn plan(&mut self) {
        for i in 0..self.some(3, 4, 12) {
            let name = match self.rng.below(8) {
                0 => "last".to_string(),
                1 => "M0".to_string(),
                _ => format!("N{i}"),
            };
            let n = self.b.name(&name);
            self.nodes.push(n);
        }
        for i in 0..self.some(3, 5, 10) {
            let name = match self.rng.below(12) {
                0 => "M0".to_string(),
                1 if self.long => long_name(self.rng),
                2 => "N0".to_string(),
                _ => format!("M{i}"),
            };
            let n = self.b.name(&name);
            self.machines.push(n);
        }
        for _ in 0..self.rng.range(1, 6) {
            let name = match self.rng.below(12) {
                0 => self.rng.pick(&ODD).to_string(),
                1 if self.long => long_name(self.rng),
                _ => self.rng.pick(&VARS).to_string(),
            };
            let n = self.b.name(&name);
            self.vars.push(n);
        }
    }

    fn fill(&mut self) {
        for i in 0..self.some(2, 4, 10) {
            let e = self.enumeration(i);
            self.b.p.enums.push(e);
        }
        for name in self.nodes.clone() {
            let n = self.node(name);
            self.b.p.nodes.push(n);
        }
        for i in 0..self.machines.len() {
            let m = self.machine(i);
            self.b.p.machines.push(m);
        }
        for i in 0..self.some(2, 4, 8) {
            let a = self.activation(i);
            self.b.p.activations.extend(a);
        }
        for _ in 0..self.some(1, 3, 6) {
            let o = self.origin();
            self.b.p.origins.push(o);
        }
    }

    /// Any name of the table, or a new one.
    fn any_name(&mut self) -> Name {
        let n = self.b.p.names.len();
        if n == 0 || self.rng.chance(1, 6) {
            let odd = self.rng.pick(&ODD);
            return self.b.name(odd);
        }
        self.rng.below(n) as Name
    }

    fn var(&mut self) -> Name {
        if self.rng.chance(1, 20) {
            return self.any_name();
        }
        self.rng.pick(&self.vars)
    }

    fn enumeration(&mut self, i: usize) -> Enum {
        let name = match self.rng.below(4) {
            0 => self.any_name(),
            _ => self.b.name(&format!("E{}", i / 2)),
        };
        let variants = (0..self.rng.below(4)).map(|k| self.variant(k)).collect();
        Enum { name, variants }
    }

    fn variant(&mut self, k: usize) -> Name {
        match self.rng.below(5) {
            0 => self.any_name(),
            _ => self.b.name(&format!("V{k}")),
        }
    }

    fn ty(&mut self) -> Type {
        let mut lens = Vec::new();
        while self.rng.chance(1, 10) && lens.len() < 4 {
            let len = self.rng.pick(&[0, 1, 2, 255, 65_536, u32::MAX]);
            lens.push(len);
        }
        let base = match self.rng.below(14) {
            12 | 13 if !self.b.p.enums.is_empty() && self.rng.chance(3, 4) => {
                let k = self.rng.below(self.b.p.enums.len());
                Base::Named(self.b.p.enums[k].name)
            }
            12 | 13 => Base::Named(self.any_name()),
            plain => Base::Plain(plain as u8),
        };
        Type { lens, base }
    }

    fn ports(&mut self, most: usize) -> Vec<Port> {
        let count = self.rng.range(0, most);
        (0..count).map(|_| Port { name: self.var(), ty: self.ty() }).collect()
    }

    fn equations(&mut self, most: usize) -> Vec<Equation> {
        let count = self.rng.range(0, most);
        (0..count)
            .map(|_| {
                let lhs = (0..self.rng.pick(&[1, 1, 1, 1, 0, 2, 3])).map(|_| self.var()).collect();
                Equation { lhs, rhs: self.expr() }
            })
            .collect()
    }

    fn node(&mut self, name: Name) -> Node {
        Node {
            name,
            kind: self.rng.below(3) as u8,
            inputs: self.ports(3),
            outputs: self.ports(3),
            locals: self.ports(3),
            equations: self.equations(2),
        }
    }

    // --- machines ---

    fn machine(&mut self, i: usize) -> Machine {
        let owner = match self.rng.below(3) {
            0 if !self.nodes.is_empty() => Some(self.rng.pick(&self.nodes)),
            1 if i > 0 && self.rng.chance(1, 3) => Some(self.machines[self.rng.below(i)]),
            _ if self.wrong() => Some(self.any_name()),
            _ => None,
        };
        let inputs = self.ports(2);
        let outputs = self.ports(2);
        let locals = self.ports(2);
        let names: Vec<Name> = outputs.iter().map(|p| p.name).collect();
        let most = self.some(3, 5, 9);
        let (initial, states) = self.states(i, &names, 1, most);
        Machine { name: self.machines[i], owner, inputs, outputs, locals, initial, states }
    }

    /// The states of one region of machine `i`, covering `outputs`.
    fn states(&mut self, i: usize, outputs: &[Name], level: usize, more: usize) -> (Name, Vec<State>) {
        let count = if self.wrong() { 0 } else { 1 + more };
        let names: Vec<Name> = (0..count).map(|_| self.state_name()).collect();
        let initial = if names.is_empty() || self.wrong() { self.any_name() } else { self.rng.pick(&names) };
        let states = names.iter().map(|&n| self.state(i, n, &names, outputs, level)).collect();
        (initial, states)
    }

    fn state_name(&mut self) -> Name {
        self.states += 1;
        if self.wrong() {
            return self.any_name();
        }
        if self.long && self.rng.chance(1, 6) {
            let name = long_name(self.rng);
            return self.b.name(&name);
        }
        self.b.name(&format!("S{}", self.states - 1))
    }

    fn state(&mut self, i: usize, name: Name, all: &[Name], outputs: &[Name], level: usize) -> State {
        let regions = self.regions(i, outputs, level);
        let covered = !regions.is_empty() && self.rng.chance(1, 3);
        let mut equations = self.equations(1);
        for &o in outputs {
            if !covered && !self.wrong() {
                equations.push(Equation { lhs: vec![o], rhs: self.expr() });
            }
        }
        if equations.len() > 1 && self.rng.chance(1, 3) {
            equations.reverse();
        }
        let transitions = (0..self.rng.below(3))
            .map(|_| {
                let target = if self.wrong() { self.any_name() } else { self.rng.pick(all) };
                Transition { guard: self.expr(), target }
            })
            .collect();
        let refines = self.refinement(i);
        State { name, equations, transitions, regions, refines }
    }

    /// Regions; down to level 9 where a package is to be wrong, and rarely otherwise.
    fn regions(&mut self, i: usize, outputs: &[Name], level: usize) -> Vec<Region> {
        let go_on = if level == 1 { self.rng.chance(1, 5) } else { self.rng.chance(1, 2) };
        let open = level < MAX_LEVEL || (self.wrong > 0 && self.rng.chance(1, 2));
        if !go_on || !open || level > MAX_LEVEL {
            return vec![];
        }
        let count = if self.rng.chance(1, 4) { 2 } else { 1 };
        (0..count)
            .map(|_| {
                let cover = if self.rng.chance(2, 3) { outputs } else { &[] };
                let more = self.rng.pick(&[0, 0, 0, 1, 2]);
                let history = self.rng.chance(1, 2);
                let (initial, states) = self.states(i, cover, level + 1, more);
                Region { initial, history, states }
            })
            .collect()
    }

    /// Mostly to a machine further on, which makes chains and diamonds but no cycles.
    fn refinement(&mut self, i: usize) -> Option<Name> {
        if self.wrong() {
            return Some(self.any_name());
        }
        if !self.rng.chance(1, 5) || i + 1 >= self.machines.len() {
            return None;
        }
        let j = if self.wrong() { 0 } else { i + 1 };
        Some(self.machines[self.rng.range(j, self.machines.len() - 1)])
    }

    // --- activations ---

    fn activation(&mut self, i: usize) -> Option<Activation> {
        let owner = match self.nodes.len() {
            0 if self.wrong == 0 => return None,
            0 => self.any_name(),
            _ if self.wrong() => self.any_name(),
            _ => self.rng.pick(&self.nodes),
        };
        let known = self.known_vars(owner);
        let mut outputs = self.ports(2);
        if outputs.is_empty() && !self.wrong() {
            outputs.push(Port { name: self.var(), ty: self.ty() });
        }
        let names: Vec<Name> = outputs.iter().map(|p| p.name).collect();
        let count = if self.wrong() { 0 } else { 1 + self.some(3, 4, 8) };
        let branches = (0..count).map(|k| self.branch(k, &names, &known)).collect();
        let otherwise = self.scope(&names, &known);
        let name = match self.rng.below(12) {
            0 if self.long => {
                let name = long_name(self.rng);
                self.b.name(&name)
            }
            1 => self.any_name(),
            _ => self.b.name(&format!("A{}", i / 2)),
        };
        Some(Activation { name, owner, outputs, branches, otherwise })
    }

    fn known_vars(&mut self, owner: Name) -> Vec<Name> {
        let node = self.b.p.nodes.iter().find(|n| n.name == owner);
        let ports = node.map(|n| n.inputs.iter().chain(&n.outputs).chain(&n.locals));
        ports.map(|ports| ports.map(|p| p.name).collect()).unwrap_or_default()
    }

    fn branch(&mut self, k: usize, outputs: &[Name], known: &[Name]) -> Branch {
        let name = match self.rng.below(8) {
            0 if self.wrong > 0 => self.b.name("B0"),
            1 if k == 0 => self.b.name("else"),
            _ => self.b.name(&format!("B{k}")),
        };
        let condition = self.scope_expr(known);
        Branch { name, condition, equations: self.scope(outputs, known) }
    }

    fn scope(&mut self, outputs: &[Name], known: &[Name]) -> Vec<Equation> {
        let mut equations = Vec::new();
        if self.rng.chance(1, 5) {
            let empty = self.wrong > 0 && self.rng.chance(1, 2);
            let count = if empty { 0 } else { self.rng.range(1, 2) };
            let lhs = (0..count).map(|_| self.var()).collect();
            equations.push(Equation { lhs, rhs: self.scope_expr(known) });
        }
        for &o in outputs {
            if !self.wrong() {
                equations.push(Equation { lhs: vec![o], rhs: self.scope_expr(known) });
            }
        }
        equations
    }

    fn scope_expr(&mut self, known: &[Name]) -> Expr {
        let budget = self.budget();
        let toks = self.toks(budget, Some(known));
        self.b.p.expr(toks)
    }

    // --- expressions ---

    fn expr(&mut self) -> Expr {
        let budget = self.budget();
        let toks = self.toks(budget, None);
        self.b.p.expr(toks)
    }

    fn budget(&mut self) -> usize {
        match (self.size, self.rng.below(8)) {
            (Size::Small, 0..=4) => 1,
            (Size::Small, _) => self.rng.range(1, 8),
            (_, 0..=2) => 1,
            (Size::Medium, _) => self.rng.range(1, 14),
            (Size::Large, _) => self.rng.range(1, 60),
        }
    }

    /// Preorder tokens; past the budget only leaves follow. `known` is given where calls of
    /// `last` are wanted, mostly of those variables.
    fn toks(&mut self, budget: usize, known: Option<&[Name]>) -> Vec<Tok> {
        let mut toks = Vec::new();
        let mut owed = 1;
        while owed > 0 {
            owed -= 1;
            if known.is_some() && self.rng.chance(1, 6) {
                owed += self.last(known.unwrap_or(&[]), &mut toks);
                continue;
            }
            let tok = if toks.len() + owed + 1 < budget { self.inner() } else { self.leaf() };
            owed += tok.arity();
            toks.push(tok);
        }
        toks
    }

    /// A call of `last`; gives the number of arguments still owed.
    fn last(&mut self, known: &[Name], toks: &mut Vec<Tok>) -> usize {
        let last = self.b.name("last");
        if self.wrong() {
            let args = self.rng.below(4) as u16;
            toks.push(Tok::Call(last, args));
            return args as usize;
        }
        let v = if known.is_empty() || self.wrong() { self.var() } else { self.rng.pick(known) };
        let args = self.rng.range(1, 2);
        toks.push(Tok::Call(last, args as u16));
        toks.push(Tok::Var(v));
        args - 1
    }

    fn leaf(&mut self) -> Tok {
        match self.rng.below(8) {
            0 => Tok::Const(Lit::Bool(self.rng.chance(1, 2))),
            1 => Tok::Const(Lit::Int(self.int())),
            2 => Tok::Const(Lit::Float(self.float())),
            3 => Tok::Const(Lit::Char(self.rng.below(256) as u8)),
            4 if self.rng.chance(1, 4) => self.empty_list(),
            _ => Tok::Var(self.var()),
        }
    }

    fn int(&mut self) -> i64 {
        let any = self.rng.word() as i64;
        self.rng.pick(&[0, 1, 2, -1, i64::MIN, i64::MAX, any])
    }

    /// Also NaNs with a payload: bits must survive.
    fn float(&mut self) -> u64 {
        let any = self.rng.word();
        self.rng.pick(&[0, 1 << 63, 1.5f64.to_bits(), 0x7ff0_0000_0000_0001, u64::MAX, any])
    }

    fn empty_list(&mut self) -> Tok {
        match self.rng.below(5) {
            0 => Tok::Call(self.any_name(), 0),
            1 => Tok::Tuple(0),
            2 => Tok::Array(0),
            3 => Tok::Struct(Box::new((self.any_name(), vec![]))),
            _ => Tok::Iterate { fold: self.rng.chance(1, 2), node: self.any_name(), init: false, arrays: 0 },
        }
    }

    fn inner(&mut self) -> Tok {
        match self.rng.below(17) {
            0 | 1 => self.leaf(),
            2 => Tok::Unary(self.rng.below(UNARY_OPS as usize) as u8),
            3 => Tok::Binary(self.rng.below(BINARY_OPS as usize) as u8),
            4 => Tok::If,
            5 => Tok::Pre,
            6 => Tok::Arrow,
            7 => Tok::Call(self.any_name(), self.rng.below(4) as u16),
            8 => Tok::Field(self.any_name()),
            9 => Tok::Index,
            10 => Tok::Tuple(self.rng.below(4) as u16),
            11 => Tok::Array(self.rng.below(4) as u16),
            12 => {
                let fields = (0..self.rng.below(3)).map(|_| self.any_name()).collect();
                Tok::Struct(Box::new((self.any_name(), fields)))
            }
            13 => Tok::Cast(Box::new(self.ty())),
            14 => Tok::When(self.var(), self.rng.chance(1, 2)),
            15 => Tok::Merge(self.var()),
            _ => {
                let node = if self.rng.chance(1, 4) { self.b.name("last") } else { self.any_name() };
                let (fold, init) = (self.rng.chance(1, 2), self.rng.chance(1, 2));
                Tok::Iterate { fold, node, init, arrays: self.rng.below(3) as u16 }
            }
        }
    }

    fn origin(&mut self) -> Origin {
        Origin {
            node: self.any_name(),
            activation: self.rng.chance(1, 2),
            name: self.any_name(),
            first: self.rng.pick(&[0, 1, 7, 65_535]),
            after: self.rng.pick(&[0, 1, 2, 9, 65_535]),
            branches: (0..self.rng.below(3)).map(|_| self.any_name()).collect(),
        }
    }
}
