//! A package as text, indented by two columns a level. `make` reads this text back.

use super::exprs::{self, WIDTH};
use super::words::{self, name, names, KINDS};
use crate::package::*;

/// Columns a level.
const STEP: usize = 2;
/// A space at which no line is broken.
const TIE: char = '\u{1}';

/// The whole package, section by section.
pub fn package(p: &Package) -> String {
    let mut page = Page { p, out: String::new() };
    page.enums();
    p.nodes.iter().for_each(|n| page.node(n));
    p.machines.iter().for_each(|m| page.machine(m));
    p.activations.iter().for_each(|a| page.activation(a));
    page.origins();
    if page.out.is_empty() {
        page.out.push_str("-- nothing is drawn\n");
    }
    page.out
}

/// One node.
pub fn node(p: &Package, n: &Node) -> String {
    let mut page = Page { p, out: String::new() };
    page.node(n);
    page.out
}

/// The equation on one line.
pub fn equation(p: &Package, e: &Equation) -> String {
    format!("{} = {}", left(p, e), exprs::flat(p, e.rhs))
}

fn left(p: &Package, e: &Equation) -> String {
    if e.lhs.is_empty() {
        "()".into()
    } else {
        names(p, &e.lhs)
    }
}

/// Ports one after the other, each with its type.
pub fn ports(p: &Package, ports: &[Port]) -> String {
    tied_ports(p, ports).replace(TIE, " ")
}

/// The same with a variable and its type tied to each other.
fn tied_ports(p: &Package, ports: &[Port]) -> String {
    let port = |port: &Port| format!("{}:{TIE}{}", name(p, port.name), words::ty(p, &port.ty));
    ports.iter().map(port).collect::<Vec<_>>().join(", ")
}

struct Page<'a> {
    p: &'a Package,
    out: String,
}

impl Page<'_> {
    /// A line of this level; what is too long for it goes on in deeper lines.
    fn line(&mut self, level: usize, text: &str) {
        let text = format!("{}{text}", " ".repeat(level * STEP));
        text.lines().for_each(|line| self.wrapped(line, 0));
    }

    /// A line that others may belong to: it is broken only in its last part, where that has brackets.
    fn head(&mut self, level: usize, text: &str, last: &str) {
        let text = format!("{}{text}", " ".repeat(level * STEP));
        self.wrapped(&format!("{text}{last}"), text.len());
    }

    /// Broken at spaces after the first `keep` bytes. A word that is longer than a line stands on one of its own.
    fn wrapped(&mut self, line: &str, keep: usize) {
        let spaces = line.len() - line.trim_start().len();
        let (mut rest, mut indent) = (line, 0);
        while indent + rest.len() > WIDTH {
            let from = if indent == 0 { keep.max(spaces) } else { 0 };
            let fits = (WIDTH - indent).clamp(from, rest.len());
            let space = rest[from..fits].rfind(' ').map(|at| from + at);
            let Some(at) = space.or_else(|| rest[fits..].find(' ').map(|at| fits + at)) else { break };
            self.written(indent, &rest[..at]);
            (rest, indent) = (&rest[at + 1..], spaces + 2 * STEP);
        }
        self.written(indent, rest);
    }

    fn written(&mut self, indent: usize, text: &str) {
        self.out += &format!("{}{}\n", " ".repeat(indent), text.replace(TIE, " "));
    }

    /// A line between definitions.
    fn gap(&mut self) {
        if !self.out.is_empty() {
            self.out.push('\n');
        }
    }

    fn enums(&mut self) {
        for e in &self.p.enums {
            let text = format!("enum {}: {}", name(self.p, e.name), names(self.p, &e.variants));
            self.line(0, text.trim_end());
        }
    }

    fn node(&mut self, n: &Node) {
        self.gap();
        self.head(0, &format!("{} {}", KINDS[n.kind as usize], name(self.p, n.name)), "");
        self.ports("input", &n.inputs);
        self.ports("output", &n.outputs);
        self.ports("local", &n.locals);
        self.equations(1, &n.equations);
    }

    fn ports(&mut self, word: &str, all: &[Port]) {
        if !all.is_empty() {
            self.line(1, &format!("{word} {}", tied_ports(self.p, all)));
        }
    }

    fn equations(&mut self, level: usize, equations: &[Equation]) {
        for e in equations {
            let left = left(self.p, e);
            let text = exprs::flat(self.p, e.rhs);
            if level * STEP + left.len() + 3 + text.len() <= WIDTH {
                self.line(level, &format!("{left} = {text}"));
            } else {
                let column = (level + 1) * STEP;
                let text = exprs::broken(self.p, e.rhs, column);
                self.line(level, &format!("{left} =\n{}{text}", " ".repeat(column)));
            }
        }
    }

    fn machine(&mut self, m: &Machine) {
        self.gap();
        let owner = m.owner.map_or(String::new(), |o| format!(" in {}", name(self.p, o)));
        self.head(0, &format!("machine {}{owner}", name(self.p, m.name)), "");
        self.ports("input", &m.inputs);
        self.ports("output", &m.outputs);
        self.ports("local", &m.locals);
        self.states(1, m.initial, &m.states);
    }

    /// Region levels bound the recursion.
    fn states(&mut self, level: usize, initial: Name, states: &[State]) {
        self.line(level, &format!("initial {}", name(self.p, initial)));
        for s in states {
            let mark = if s.name == initial { "  -- initial" } else { "" };
            self.head(level, &format!("state {}{mark}", name(self.p, s.name)), "");
            self.equations(level + 1, &s.equations);
            for t in &s.transitions {
                let guard = exprs::flat(self.p, t.guard);
                self.line(level + 1, &format!("until {guard} then {}", name(self.p, t.target)));
            }
            for r in &s.regions {
                self.line(level + 1, if r.history { "region history" } else { "region" });
                self.states(level + 2, r.initial, &r.states);
            }
            if let Some(machine) = s.refines {
                self.line(level + 1, &format!("refines {}", name(self.p, machine)));
            }
        }
    }

    fn activation(&mut self, a: &Activation) {
        self.gap();
        self.head(0, &format!("activation {} in {}", name(self.p, a.name), name(self.p, a.owner)), "");
        self.ports("output", &a.outputs);
        for b in &a.branches {
            let condition = exprs::flat(self.p, b.condition);
            self.head(1, &format!("branch {} if ", name(self.p, b.name)), &condition);
            self.equations(2, &b.equations);
        }
        self.line(1, "else");
        self.equations(2, &a.otherwise);
    }

    fn origins(&mut self) {
        if !self.p.origins.is_empty() {
            self.gap();
        }
        for o in &self.p.origins {
            let kind = if o.activation { "activation" } else { "machine" };
            let (of, node) = (name(self.p, o.name), name(self.p, o.node));
            let mut text = format!("origin {kind} {of} in {node} equations {} until {}", o.first, o.after);
            if !o.branches.is_empty() {
                text += &format!(" branches {}", names(self.p, &o.branches));
            }
            self.line(0, &text);
        }
    }
}
