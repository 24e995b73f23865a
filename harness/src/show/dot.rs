//! A pack's charts as a drawing for Graphviz: what is drawn above, what it is lowered into below.

use super::exprs::flat;
use super::ids::Ids;
use super::labels::{bare, bare_equation, cut, html, left, listed, table};
use super::page::node;
use super::steps::{refusal, Steps};
use super::words::name;
use crate::answer::Answer;
use crate::package::*;
use std::cmp::Ordering;

/// Lines of a node's box.
const MOST_LINES: usize = 80;
/// Letters of a node's longest line for which it gets a blank more: viewers draw it wider than Graphviz reckons.
const WIDER: usize = 32;
/// Machines, states, branches and nodes of one drawing: Graphviz takes minutes for more.
const MOST_BOXES: usize = 400;

const MACHINE: &str = r##"style="rounded,filled" fillcolor="#eef3f9" color="#7a8ca3""##;
const ACTIVATION: &str = r##"style="rounded,filled" fillcolor="#f5f1e6" color="#a3947a""##;
const NODE: &str = r##"style=filled fillcolor="#eef6ee" color="#5a8f5a" fontname="Courier" fontsize=9"##;
const BEGIN: &str = "shape=circle label=\"\" width=0.13 fixedsize=true style=filled fillcolor=black";
const HISTORY: &str = "shape=circle label=\"H\" fontsize=9 width=0.24 fixedsize=true style=solid";
/// Arrows to what is made.
const LOWERED: &str = "color=\"#5a8f5a\" penwidth=1.6";

const HEAD: &str = r##"digraph pack {
  graph [fontname="Helvetica" fontsize=11 compound=true nodesep=0.55 ranksep=0.4 labeljust=l]
  node [fontname="Helvetica" fontsize=10 shape=box style="rounded,filled" fillcolor=white margin="0.12,0.07"]
  edge [fontname="Helvetica" fontsize=9 arrowsize=0.7]
"##;

/// The drawing; nothing where it would be too large.
pub fn picture(steps: &Steps) -> Option<String> {
    let p = &steps.before;
    let machines = p.machines.iter().map(|m| 1 + count(&m.states)).sum::<usize>();
    let activations = p.activations.iter().map(|a| 1 + a.branches.len()).sum::<usize>();
    let boxes = machines + activations + p.nodes.len();
    if boxes > MOST_BOXES {
        return None;
    }
    let (ids, out, late) = (Ids::new(p), HEAD.into(), String::new());
    let mut drawing = Drawing { p, ids, out, boxes: 0, drawn: 0, states: vec![], level: 1, next: 1, late };
    drawing.charts();
    drawing.after(steps);
    let Drawing { out, late, .. } = drawing;
    Some(format!("{out}{late}}}\n"))
}

/// Region levels bound the recursion.
fn count(states: &[State]) -> usize {
    states.iter().map(|s| 1 + s.regions.iter().map(|r| count(&r.states)).sum::<usize>()).sum()
}

struct Drawing<'a> {
    p: &'a Package,
    ids: Ids,
    out: String,
    /// How many boxes have a number.
    boxes: usize,
    /// The machine that is drawn, and its states' boxes so far.
    drawn: usize,
    states: Vec<String>,
    /// The region level of the states that are drawn, and the id of the next region inside.
    level: usize,
    next: usize,
    /// Edges between clusters, which belong to no cluster.
    late: String,
}

/// Where edges of a box end, above or below it, and the cluster at whose border they are cut.
struct Anchor {
    top: String,
    foot: String,
    cluster: Option<String>,
}

impl Anchor {
    fn plain(node: String) -> Anchor {
        Anchor { top: node.clone(), foot: node, cluster: None }
    }

    /// As an edge's attribute: where it is cut.
    fn border(&self, word: &str) -> String {
        self.cluster.as_ref().map_or(String::new(), |cluster| format!(" {word}={cluster}"))
    }
}

impl Drawing<'_> {
    fn put(&mut self, level: usize, text: &str) {
        self.out += &format!("{}{text}\n", "  ".repeat(level));
    }

    fn number(&mut self) -> usize {
        self.boxes += 1;
        self.boxes
    }

    fn charts(&mut self) {
        let p = self.p;
        p.machines.iter().enumerate().for_each(|(i, m)| self.machine(i, m));
        p.activations.iter().enumerate().for_each(|(i, a)| self.activation(i, a));
    }

    fn machine(&mut self, i: usize, m: &Machine) {
        let (p, id) = (self.p, format!("m{i}"));
        let owner = m.owner.map_or(String::new(), |o| format!(" in {}", name(p, o)));
        let head = format!("<b>machine {}</b>{}", html(&name(p, m.name)), html(&owner));
        let label = left(&head, &listed(p, &[("in", &m.inputs), ("out", &m.outputs), ("local", &m.locals)]));
        (self.drawn, self.states, self.level, self.next) = (i, vec![], 1, 1);
        self.put(1, &format!("subgraph cluster_{id} {{"));
        self.put(2, &format!("label=<{label}> {MACHINE}"));
        self.region(2, &id, m.initial, false, &m.states);
        self.foot(2, &id, &format!("{id}_begin"), 0);
        self.put(1, "}");
    }

    /// The lowest point of a cluster: below its beginning and the states drawn since.
    fn foot(&mut self, level: usize, id: &str, begin: &str, since: usize) {
        self.put(level, &format!("{id}_foot [shape=point style=invis width=0.01 height=0.01]"));
        let states = self.states[since..].to_vec();
        for state in states.iter().map(|s| s.as_str()).chain([begin]) {
            self.put(level, &format!("{state} -> {id}_foot [style=invis weight=0]"));
        }
    }

    /// A region's states with its beginning, a dot or an H; `id` names the beginning.
    fn region(&mut self, level: usize, id: &str, initial: Name, history: bool, states: &[State]) {
        self.put(level, &format!("{id}_begin [{}]", if history { HISTORY } else { BEGIN }));
        let anchors: Vec<Anchor> = states.iter().map(|s| self.state(level, s)).collect();
        let find = |target: Name| states.iter().position(|s| s.name == target);
        let first = find(initial).map_or_else(|| self.missing(level, initial), |i| anchors[i].top.clone());
        let cluster = find(initial).map_or(String::new(), |i| anchors[i].border("lhead"));
        self.put(level, &format!("{id}_begin -> {first} [{cluster}]"));
        for (i, s) in states.iter().enumerate() {
            for (k, t) in s.transitions.iter().enumerate() {
                let order = if s.transitions.len() > 1 { format!("{}: ", k + 1) } else { String::new() };
                let label = html(&format!(" {order}{} ", cut(&bare(&flat(self.p, t.guard)))));
                let missing = if find(t.target).is_none() { self.missing(level, t.target) } else { String::new() };
                let (from, to, more) = match find(t.target) {
                    Some(j) => between(&anchors, i, j),
                    None => (anchors[i].foot.as_str(), missing.as_str(), anchors[i].border("ltail")),
                };
                self.put(level, &format!("{from} -> {to} [label=<{label}>{more}]"));
            }
        }
    }

    /// A state that is named but not there.
    fn missing(&mut self, level: usize, state: Name) -> String {
        let node = format!("s{}", self.number());
        let label = html(&format!("{} is not there", name(self.p, state)));
        self.put(level, &format!("{node} [label=<{label}> color=red fontcolor=red style=dashed]"));
        node
    }

    /// A box, or with regions inside a cluster.
    fn state(&mut self, level: usize, s: &State) -> Anchor {
        let (p, id) = (self.p, format!("s{}", self.number()));
        if s.regions.is_empty() {
            self.states.push(id.clone());
        }
        let mut lines: Vec<String> = s.equations.iter().map(|e| cut(&bare_equation(p, e))).collect();
        let (inside, own) = (self.ids.in_state(s, self.level), self.ids.in_regions(&s.regions, self.level));
        let (refined, after) = (self.next.saturating_add(own), self.next.saturating_add(inside));
        lines.extend(s.refines.map(|m| match self.ids.machine(m) {
            Some(other) if other != self.drawn => format!("refines {} as r{refined}", name(p, m)),
            _ => format!("refines {}", name(p, m)),
        }));
        let label = left(&format!("<b>{}</b>", html(&name(p, s.name))), &lines);
        let anchor = if s.regions.is_empty() {
            self.put(level, &format!("{id} [label=<{label}>]"));
            Anchor::plain(id)
        } else {
            self.cluster(level, &id, &label, &s.regions)
        };
        self.next = after;
        self.refinement(s, &anchor);
        anchor
    }

    /// A state with regions inside.
    fn cluster(&mut self, level: usize, id: &str, label: &str, regions: &[Region]) -> Anchor {
        let (cluster, since) = (format!("cluster_{id}"), self.states.len());
        self.put(level, &format!("subgraph {cluster} {{"));
        self.put(level + 1, &format!("label=<{label}> style=\"rounded,filled\" fillcolor=white color=black"));
        for (k, r) in regions.iter().enumerate() {
            self.inner_region(level + 1, &format!("{id}_{k}"), r);
        }
        let top = format!("{id}_0_begin");
        self.foot(level + 1, id, &top, since);
        self.put(level, "}");
        Anchor { top, foot: format!("{id}_foot"), cluster: Some(cluster) }
    }

    fn inner_region(&mut self, level: usize, id: &str, r: &Region) {
        let label = format!("r{}: region{}", self.next, if r.history { " with history" } else { "" });
        self.next = self.next.saturating_add(1);
        self.put(level, &format!("subgraph cluster_{id} {{"));
        self.put(level + 1, &format!("label=<<i>{label}</i>> style=\"rounded,dashed\" color=\"#7a8ca3\""));
        self.level += 1;
        self.region(level + 1, id, r.initial, r.history, &r.states);
        self.level -= 1;
        self.put(level, "}");
    }

    /// A dashed arrow to the machine that a state refines, where it is there.
    fn refinement(&mut self, s: &State, from: &Anchor) {
        let Some(machine) = s.refines.and_then(|m| self.ids.machine(m)) else { return };
        if machine == self.drawn {
            return;
        }
        let style = "style=dashed color=\"#7a8ca3\" constraint=false arrowhead=empty";
        let tail = from.border("ltail");
        self.late += &format!("  {} -> m{machine}_begin [lhead=cluster_m{machine}{tail} {style}]\n", from.foot);
    }

    /// A decision tree: each condition a diamond, its branch to the right of it.
    fn activation(&mut self, i: usize, a: &Activation) {
        let p = self.p;
        let head = format!("<b>activation {}</b> in {}", html(&name(p, a.name)), html(&name(p, a.owner)));
        let label = left(&head, &listed(p, &[("out", &a.outputs)]));
        self.put(1, &format!("subgraph cluster_a{i} {{"));
        self.put(2, &format!("label=<{label}> {ACTIVATION}"));
        self.put(2, &format!("a{i}_begin [{BEGIN}]"));
        let (mut above, mut edge) = (format!("a{i}_begin"), "");
        for (k, b) in a.branches.iter().enumerate() {
            let (test, scope) = (format!("a{i}_c{k}"), format!("a{i}_b{k}"));
            let condition = html(&format!("{} ?", cut(&bare(&flat(p, b.condition)))));
            self.put(2, &format!("{test} [shape=diamond style=filled margin=\"0.02,0.02\" label=<{condition}>]"));
            self.scope(&scope, &name(p, b.name), &b.equations);
            self.put(2, &format!("{{ rank=same {test} {scope} }}"));
            self.put(2, &format!("{above} -> {test} [{edge}]"));
            self.put(2, &format!("{test} -> {scope} [label=\" yes \"]"));
            (above, edge) = (test, "label=\" no\"");
        }
        self.scope(&format!("a{i}_else"), "else", &a.otherwise);
        self.put(2, &format!("{above} -> a{i}_else [{edge}]"));
        self.put(1, "}");
    }

    fn scope(&mut self, id: &str, title: &str, equations: &[Equation]) {
        let lines: Vec<String> = equations.iter().map(|e| cut(&bare_equation(self.p, e))).collect();
        self.put(2, &format!("{id} [label=<{}>]", left(&format!("<b>{}</b>", html(title)), &lines)));
    }

    /// Nodes as they are drawn, and as they are after both lowerings; or why they are refused.
    fn after(&mut self, steps: &Steps) {
        for (i, n) in steps.before.nodes.iter().enumerate() {
            self.node(&format!("n{i}"), "", self.p, n);
        }
        match (&steps.machines, &steps.activations) {
            (Err(answer), _) => self.refused(answer, true),
            (_, Some(Err(answer))) => self.refused(answer, false),
            (_, Some(Ok(made))) | (Ok(made), None) => self.made(steps, made),
        }
    }

    /// A refusal, below the machines or the activations that were to be lowered.
    fn refused(&mut self, answer: &Answer, machines: bool) {
        let text = refusal(answer);
        let lines: Vec<String> = text.lines().map(|line| line.to_string()).collect();
        let label = left("<b>refused</b>", &lines);
        self.put(1, &format!("refused [label=<{label}> color=red fillcolor=\"#fdeeee\"]"));
        self.arrows("refused", |_| machines, |_| !machines);
    }

    fn made(&mut self, steps: &Steps, made: &Package) {
        let old = &steps.before.nodes;
        for (i, n) in made.nodes.iter().enumerate() {
            let id = format!("made{i}");
            let own = old.get(i).map_or(0, |n| n.equations.len());
            if i < old.len() && n.equations.len() == own {
                continue;
            }
            self.node(&id, " after lowering", made, n);
            if i < old.len() {
                self.late += &format!("  n{i} -> {id} [{LOWERED}]\n");
            }
            let is = |name: Name, p: &Package| made.names.text(n.name) == p.names.text(name);
            let p = self.p;
            self.arrows(&id, |m| is(m.owner.unwrap_or(m.name), p), |a| is(a.owner, p));
        }
    }

    /// Arrows to a box from the charts that it comes of.
    fn arrows(&mut self, id: &str, machine: impl Fn(&Machine) -> bool, activation: impl Fn(&Activation) -> bool) {
        let machines = self.p.machines.iter().enumerate().filter(|(_, m)| machine(m));
        let activations = self.p.activations.iter().enumerate().filter(|(_, a)| activation(a));
        let from = machines.map(|(i, _)| (format!("m{i}_foot"), format!("cluster_m{i}")));
        let from = from.chain(activations.map(|(i, _)| (format!("a{i}_else"), format!("cluster_a{i}"))));
        let line = |(node, cluster)| format!("  {node} -> {id} [ltail={cluster} {LOWERED}]\n");
        self.late.extend(from.map(line));
    }

    /// A node's box: its text.
    fn node(&mut self, id: &str, title: &str, p: &Package, n: &Node) {
        let text = node(p, n);
        let mut lines = text.lines();
        let head = format!("<b>{}</b>{title}", html(lines.next().unwrap_or_default()));
        let longest = text.lines().map(str::len).max().unwrap_or(0);
        let blanks = |line: &str| if line.len() == longest { (longest + WIDER / 2) / WIDER } else { 0 };
        let mut lines = lines.map(|line| html(line).replace("  ", "&#160;&#160;") + &"&#160;".repeat(blanks(line)));
        let mut rows: Vec<String> = [head].into_iter().chain(lines.by_ref().take(MOST_LINES)).collect();
        let more = lines.count();
        if more > 0 {
            rows.push(format!("and {more} more lines"));
        }
        self.put(1, &format!("{id} [{NODE} label=<{}>]", table(&rows)));
    }
}

/// An edge between two states of a region: its ends and attributes. States stand below each other in their order, so that
/// an edge upwards is an edge downwards with its arrow at the other end.
fn between(anchors: &[Anchor], i: usize, j: usize) -> (&str, &str, String) {
    let (upper, lower) = (&anchors[i.min(j)], &anchors[i.max(j)]);
    let borders = upper.border("ltail") + &lower.border("lhead");
    match i.cmp(&j) {
        Ordering::Less => (&upper.foot, &lower.top, borders),
        Ordering::Greater => (&upper.foot, &lower.top, borders + " dir=back"),
        // Graphviz cannot cut an edge from a cluster to itself.
        Ordering::Equal => (&upper.top, &upper.top, String::new()),
    }
}
