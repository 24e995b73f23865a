//! Packs that cost lowering machines the most for their size, or stand at its limits.

use super::{equation, full, idle_names, long_expr, packs, port, short_names, Hostile};
use crate::gen::Builder;
use crate::package::*;
use crate::special::{self, crowded, machine, node, short_name, state, HEAD_BITS};

/// A state of this name that refines `to`.
fn refining(name: Name, to: Name) -> State {
    State { refines: Some(to), ..state(name) }
}

/// A state of this name with so many regions, all without states.
fn hollow(name: Name, regions: usize) -> State {
    let empty = Region { initial: name, history: false, states: vec![] };
    State { regions: vec![empty; regions], ..state(name) }
}

/// Machines of one state each, with names of their own.
pub fn machines(count: usize) -> Package {
    let mut b = Builder::new();
    let s = b.name("S");
    for k in 0..count {
        let m = b.name(&short_name(k + 100));
        b.p.machines.push(machine(m, s, vec![state(s)]));
    }
    b.done()
}

/// Machines without states that share a name of so many bytes: each is refused.
pub fn stateless(count: usize, length: usize) -> Package {
    let mut b = Builder::new();
    let m = b.name(&"m".repeat(length));
    b.p.machines = vec![machine(m, m, vec![]); count];
    b.done()
}

/// Machines whose transition goes nowhere: each is refused with three names of so many bytes.
pub fn lost_targets(count: usize, length: usize) -> Package {
    let mut b = Builder::new();
    let [m, s, t] = ["m", "s", "t"].map(|n| b.name(&n.repeat(length)));
    let guard = b.p.expr([Tok::Tuple(0)]);
    let lost = State { transitions: vec![Transition { guard, target: t }], ..state(s) };
    b.p.machines = vec![machine(m, s, vec![lost]); count];
    b.done()
}

/// Machines of one state and so many inputs that belong to the last of many nodes, or to one that is not there.
pub fn owned(nodes: usize, machines: usize, inputs: usize, there: bool) -> Package {
    let mut b = Builder::new();
    let [n, last, m, s, i] = ["N", "Last", "M", "S", "i"].map(|n| b.name(n));
    b.p.nodes = vec![node(n); nodes];
    if there {
        b.p.nodes.push(node(last));
    }
    let mut one = machine(m, s, vec![state(s)]);
    one.owner = Some(last);
    one.inputs = vec![port(i); inputs];
    b.p.machines = vec![one; machines];
    b.done()
}

/// One state with as many equations as there are outputs.
pub fn outputs(count: usize) -> Package {
    let mut b = Builder::new();
    let [m, s] = ["M", "S"].map(|n| b.name(n));
    let one = b.p.expr([Tok::Tuple(0)]);
    let names: Vec<Name> = (0..count).map(|k| b.name(&short_name(k + 100))).collect();
    let giving = State { equations: names.iter().map(|o| equation(*o, one)).collect(), ..state(s) };
    let mut made = machine(m, s, vec![giving]);
    made.outputs = names.iter().map(|o| port(*o)).collect();
    b.p.machines.push(made);
    b.done()
}

/// States that all refine a machine of one state, in which one output has a right side of so many bytes. The output is
/// there `ports` times; after it comes one that nothing gives where the machine is to be refused.
pub fn copies(copies: usize, bytes: usize, ports: usize, refused: bool) -> Package {
    let mut b = Builder::new();
    let [m, sub, s, o, missing] = ["M0", "Sub0", "S0", "o0", "p0"].map(|n| b.name(n));
    let rhs = long_expr(&mut b, bytes);
    let giving = State { equations: vec![equation(o, rhs)], ..state(s) };
    b.p.machines.push(machine(sub, s, vec![giving]));
    let states: Vec<State> = (0..copies).map(|k| refining(b.name(&short_name(k)), sub)).collect();
    let mut made = machine(m, states[0].name, states);
    made.outputs = vec![port(o); ports];
    if refused {
        made.outputs.push(port(missing));
    }
    b.p.machines.push(made);
    b.done()
}

/// States that all refine a machine of one state with a guard of so many bytes.
pub fn guards(copies: usize, bytes: usize) -> Package {
    let mut b = Builder::new();
    let [m, sub, s] = ["M0", "Sub0", "S0"].map(|n| b.name(n));
    let guard = long_expr(&mut b, bytes);
    let guarded = State { transitions: vec![Transition { guard, target: s }], ..state(s) };
    b.p.machines.push(machine(sub, s, vec![guarded]));
    let states: Vec<State> = (0..copies).map(|k| refining(b.name(&short_name(k)), sub)).collect();
    b.p.machines.push(machine(m, states[0].name, states));
    b.done()
}

/// So many machines that each refine one whose 250 states all refine the machine of this one state.
fn revisited(mut b: Builder, low: State, count: usize) -> Package {
    let [top, mid, sub, x] = ["Top", "Mid", "Sub", "x"].map(|n| b.name(n));
    b.p.machines.push(machine(sub, low.name, vec![low]));
    let states: Vec<State> = (0..250).map(|k| refining(b.name(&short_name(k + 100)), sub)).collect();
    b.p.machines.push(machine(mid, states[0].name, states));
    b.p.machines.extend(vec![machine(top, x, vec![refining(x, mid)]); count]);
    b.done()
}

/// The state has so many equations and transitions, each with an expression of so many bytes.
pub fn revisited_state(equations: usize, transitions: usize, bytes: usize, count: usize) -> Package {
    let mut b = Builder::new();
    let [s, o] = ["S", "o"].map(|n| b.name(n));
    let long = long_expr(&mut b, bytes);
    let equations = vec![equation(o, long); equations];
    let transitions = vec![Transition { guard: long, target: s }; transitions];
    revisited(b, State { equations, transitions, ..state(s) }, count)
}

/// The state has so many equations of which the last gives the output that the refining machines have.
pub fn revisited_output(equations: usize, count: usize) -> Package {
    let mut b = Builder::new();
    let [s, o, other] = ["S", "o", "p"].map(|n| b.name(n));
    let one = b.p.expr([Tok::Tuple(0)]);
    let mut equations = vec![equation(other, one); equations - 1];
    equations.push(equation(o, one));
    let mut p = revisited(b, State { equations, ..state(s) }, count);
    for m in &mut p.machines[2..] {
        m.outputs.push(port(o));
    }
    p
}

/// The state has so many regions, all without states.
pub fn revisited_regions(regions: usize, count: usize) -> Package {
    let mut b = Builder::new();
    let s = b.name("S");
    revisited(b, hollow(s, regions), count)
}

/// Many names, and a machine of many states whose names come last.
pub fn many_names(names: usize, states: usize) -> Package {
    let mut b = Builder::new();
    idle_names(&mut b, short_names(names));
    let m = b.name("M000");
    let states: Vec<State> = (0..states).map(|k| state(b.name(&format!("S{k:03}")))).collect();
    b.p.machines.push(machine(m, states[0].name, states));
    b.done()
}

/// Names that nothing uses, and machines of one state that come after them.
pub fn names_and_machines(names: impl Iterator<Item = String>, machines: usize) -> Package {
    let mut b = Builder::new();
    idle_names(&mut b, names);
    let s = b.name("S000");
    for k in 0..machines {
        let m = b.name(&format!("M{k:03}"));
        b.p.machines.push(machine(m, s, vec![state(s)]));
    }
    b.done()
}

/// Many names, and two states, the first of which has many transitions to the second.
pub fn names_and_transitions(names: usize, count: usize) -> Package {
    let mut b = Builder::new();
    idle_names(&mut b, short_names(names));
    let [m, s, t] = ["M000", "S000", "T000"].map(|n| b.name(n));
    let guard = b.p.expr([Tok::Tuple(0)]);
    let first = State { transitions: vec![Transition { guard, target: t }; count], ..state(s) };
    b.p.machines.push(machine(m, s, vec![first, state(t)]));
    b.done()
}

/// Machines that all resolve to 507 states, most of whose full names begin with the same 242 letters; with an initial
/// state that is not there where they are to be refused.
pub fn alike(count: usize, refused: bool) -> Package {
    let mut b = Builder::new();
    let [top, low, x, y] = ["Top", "Low", "x", "y"].map(|n| b.name(n));
    let stem = "s".repeat(240);
    let states: Vec<State> = (0..22).map(|k| refining(b.name(&format!("{stem}{k:02}")), low)).collect();
    b.p.machines.push(machine(top, states[0].name, states));
    let leaves: Vec<State> = (0..22).map(|k| state(b.name(&format!("{k:02}")))).collect();
    b.p.machines.push(machine(low, leaves[0].name, leaves));
    let initial = if refused { y } else { x };
    b.p.machines.extend(vec![machine(y, initial, vec![refining(x, top)]); count]);
    b.done()
}

/// Machines that each refine the next one, the last the first.
pub fn ring(count: usize) -> Package {
    let mut b = Builder::new();
    let s = b.name("S");
    let names: Vec<Name> = (0..count).map(|k| b.name(&short_name(k + 100))).collect();
    for k in 0..count {
        b.p.machines.push(machine(names[k], s, vec![refining(s, names[(k + 1) % count])]));
    }
    b.done()
}

/// Machines that all refine one of 511 states; with an initial state that is not there where they are to be refused.
pub fn large_copies(count: usize, refused: bool) -> Package {
    let mut b = Builder::new();
    let [big, x, y] = ["Big", "Small", "Other"].map(|n| b.name(n));
    let states: Vec<State> = (0..511).map(|k| state(b.name(&short_name(k + 100)))).collect();
    b.p.machines.push(machine(big, states[0].name, states));
    let initial = if refused { y } else { x };
    b.p.machines.extend(vec![machine(y, initial, vec![refining(x, big)]); count]);
    b.done()
}

/// A state with many regions, none of which has a state.
pub fn empty_regions(count: usize) -> Package {
    let mut b = Builder::new();
    let [m, s] = ["M", "S"].map(|n| b.name(n));
    b.p.machines.push(machine(m, s, vec![hollow(s, count)]));
    b.done()
}

/// Many states, the first of which has many transitions, to so many of the last states in turn, and after them one that goes
/// `nowhere`.
fn moving(b: &mut Builder, states: usize, count: usize, last: usize, nowhere: Option<Name>) -> Vec<State> {
    let guard = b.p.expr([Tok::Tuple(0)]);
    let mut all: Vec<State> = (0..states).map(|k| state(b.name(&short_name(k + 100)))).collect();
    let ends: Vec<Name> = (0..count).map(|k| all[states - 1 - k % last].name).chain(nowhere).collect();
    all[0].transitions = ends.into_iter().map(|target| Transition { guard, target }).collect();
    all
}

/// One machine of such states, all transitions to the last.
pub fn transitions(states: usize, count: usize, refused: bool) -> Package {
    let mut b = Builder::new();
    let [m, nowhere] = ["M", "nowhere"].map(|n| b.name(n));
    let all = moving(&mut b, states, count, 1, refused.then_some(nowhere));
    b.p.machines.push(machine(m, all[0].name, all));
    b.done()
}

/// So many machines that each refine one of such states, transitions to the last two in turn.
pub fn refined_transitions(states: usize, transitions: usize, count: usize, refused: bool) -> Package {
    let mut b = Builder::new();
    let [top, sub, x, nowhere] = ["Top", "Sub", "x", "nowhere"].map(|n| b.name(n));
    let all = moving(&mut b, states, transitions, 2, refused.then_some(nowhere));
    b.p.machines.push(machine(sub, all[0].name, all));
    b.p.machines.extend(vec![machine(top, x, vec![refining(x, sub)]); count]);
    b.done()
}

/// So many outputs of one name in a state that refines `shown` states, each with so many equations of which the last
/// gives it, and a state that does not.
pub fn tried_region(outputs: usize, equations: usize, shown: usize) -> Package {
    let mut b = Builder::new();
    let [m, mid, sub, a, s, o, z] = ["M", "D", "E", "a", "s", "o", "z"].map(|n| b.name(n));
    let none = b.p.expr([Tok::Tuple(0)]);
    let mut all = vec![Equation { lhs: vec![], rhs: none }; equations - 1];
    all.push(equation(o, none));
    b.p.machines.push(machine(sub, s, vec![State { equations: all, ..state(s) }]));
    let mut states: Vec<State> = (0..shown).map(|k| refining(b.name(&short_name(k + 63)), sub)).collect();
    states.push(state(z));
    b.p.machines.push(machine(mid, z, states));
    let mut made = machine(m, a, vec![State { equations: vec![equation(o, none)], ..refining(a, mid) }]);
    made.outputs = vec![port(o); outputs];
    b.p.machines.push(made);
    b.done()
}

/// So many outputs of two names in turn, which the last of the equations of a state give, and one that nothing gives.
pub fn outputs_in_turn(outputs: usize, equations: usize) -> Package {
    let mut b = Builder::new();
    let [m, s, o, q, z] = ["M", "s", "o", "q", "z"].map(|n| b.name(n));
    let none = b.p.expr([Tok::Tuple(0)]);
    let mut all = vec![Equation { lhs: vec![], rhs: none }; equations];
    all.extend([equation(o, none), equation(q, none)]);
    let mut made = machine(m, s, vec![State { equations: all, ..state(s) }]);
    made.outputs = (0..outputs).map(|k| port([o, q][k % 2])).chain([port(z)]).collect();
    b.p.machines.push(made);
    b.done()
}

/// So many machines with a state of the name `holder` that refines one of 511 states; their initial state is not there.
fn refused_copies(count: usize, holder: &str, names: impl Iterator<Item = String>) -> Package {
    let mut b = Builder::new();
    let [big, y, x] = ["B", "y", holder].map(|n| b.name(n));
    let states: Vec<State> = names.take(511).map(|n| state(b.name(&n))).collect();
    b.p.machines.push(machine(big, states[0].name, states));
    b.p.machines.extend(vec![machine(y, y, vec![refining(x, big)]); count]);
    b.done()
}

/// Names of which each has one letter more of those that the next begins with: a tree of tests of letters is a chain.
pub fn rising(count: usize) -> Package {
    let names = (0..).map(|k| format!("{}{}{}", "9".repeat(k / 9), k % 9, "0".repeat(56 - k / 9)));
    refused_copies(count, &"p".repeat(190), names)
}

/// Packs at the limits of lowering machines.
pub fn limits() -> Vec<Hostile> {
    let all = [
        ("512 states", special::wide(512, None)),
        ("513 states", special::wide(513, None)),
        ("512 states, the last in a refinement", special::wide(511, Some(1))),
        ("513 states, the last in a refinement", special::wide(512, Some(1))),
        ("8 levels inline", special::nest(8, 2)),
        ("9 levels inline", special::nest(9, 1)),
        ("8 levels by refinements", special::refined(7, 1, 2)),
        ("9 levels by refinements", special::refined(8, 1, 2)),
        ("474 states by refinements", special::refined(3, 6, 1)),
        ("742 states by refinements", special::refined(3, 7, 1)),
        ("a full name of 255 bytes", special::qualified(200, 54, 0)),
        ("a full name of 256 bytes", special::qualified(200, 55, 0)),
        ("65,536 bytes: 512 states", full(special::wide(512, None))),
        ("65,536 bytes: refinements", full(special::refined(3, 6, 1))),
        ("65,536 bytes: machines refused", full(stateless(4_000, 9))),
        ("65,536 bytes: nothing to lower", full(special::nest(1, 1))),
        ("65,537 bytes", {
            let mut p = special::nest(1, 1);
            special::pad(&mut p, MAX_PACK + 1);
            p
        }),
    ];
    packs(all)
}

/// Packs that cost the most.
pub fn costly() -> Vec<Hostile> {
    packs([
        ("machines by the thousand, too long", machines(2_400)),
        ("500 machines that fit", machines(500)),
        ("machines without states", stateless(4_600, 2)),
        ("machines without states, long report", stateless(4_650, 255)),
        ("lost targets, longest report", lost_targets(2_200, 255)),
        ("machines of the last of 3,900 nodes", owned(3_900, 250, 0, true)),
        ("machines of the last of 1,200 nodes", owned(1_200, 500, 0, true)),
        ("machines of one node, with inputs", owned(1, 700, 20, true)),
        ("machines of a node that is not there", owned(3_600, 1_000, 0, false)),
        ("5,900 nodes and a machine", owned(5_900, 1, 0, true)),
        ("3,500 outputs of one state", outputs(3_500)),
        ("an output 10,000 times in 500 states", special::repeated_ports(500, 10_000)),
        ("right side of 50 KB, 255 times", copies(255, 50_000, 1, false)),
        ("right side of 50 KB, 255 times, refused", copies(255, 50_000, 1, true)),
        ("right side of 200 bytes, 100 times", copies(100, 200, 1, false)),
        ("30 KB, 100 copies, 100 outputs, refused", copies(100, 30_000, 100, true)),
        ("30 KB, 10,000 outputs, refused", copies(1, 30_000, 10_000, true)),
        ("guard of 50 KB, 255 times", guards(255, 50_000)),
        ("14,000 names, 512 states", many_names(14_000, 512)),
        ("10,000 names, 450 states", many_names(10_000, 450)),
        ("9,000 names, 450 machines", names_and_machines(short_names(9_000), 450)),
        ("6,000 names of one tree, 450 machines", names_and_machines(crowded("", HEAD_BITS).take(6_000), 450)),
        ("9,000 names, 4,000 transitions", names_and_transitions(9_000, 4_000)),
        ("507 long names alike", alike(0, false)),
        ("507 long names alike, 20 machines refused", alike(20, true)),
        ("ring of 2,300 machines", ring(2_300)),
        ("511 states, 100 machines refused", large_copies(100, true)),
        ("511 names of rising letters, 500 machines refused", rising(500)),
        ("two outputs in turn, 10,000 times, refused", outputs_in_turn(10_000, 6_000)),
        ("511 states, 2,000 machines", large_copies(2_000, false)),
        ("12,000 regions without states", empty_regions(12_000)),
        ("right side of 16 KB, visited 7,500 times", revisited_state(1, 0, 16_000, 30)),
        ("guard of 16 KB, visited 7,500 times", revisited_state(0, 1, 16_000, 30)),
        ("2,000 equations, visited 2,500 times", revisited_state(2_000, 0, 4, 10)),
        ("4,000 transitions, visited 2,500 times", revisited_state(0, 4_000, 4, 10)),
        ("3,000 regions, visited 2,500 times", revisited_regions(3_000, 10)),
        ("3,000 equations, visited 2,500 times", revisited_output(3_000, 10)),
        ("5,000 transitions, refined 20 times", refined_transitions(500, 5_000, 20, false)),
        ("5,000 transitions, refined 20 times, refused", refined_transitions(500, 5_000, 20, true)),
        ("500 states, 10,000 transitions to the last", transitions(500, 10_000, false)),
        ("500 states, 10,000 transitions, refused", transitions(500, 10_000, true)),
    ])
}

/// Packs whose resolved machines are so large that the reference and the shortcut take minutes or all memory.
pub fn vast() -> Vec<Hostile> {
    packs([
        ("right side of 16 KB, visited 75,000 times", revisited_state(1, 0, 16_000, 300)),
        ("guard of 16 KB, visited 75,000 times", revisited_state(0, 1, 16_000, 300)),
        ("4,000 transitions, visited 75,000 times", revisited_state(0, 4_000, 4, 300)),
        ("3,000 regions, visited 75,000 times", revisited_regions(3_000, 300)),
        ("3,000 equations, visited 75,000 times", revisited_output(3_000, 300)),
        ("5,000 transitions, refined 700 times", refined_transitions(500, 5_000, 700, false)),
        ("5,000 transitions, refined 700 times, refused", refined_transitions(500, 5_000, 700, true)),
        ("3,000 outputs, 9,500 equations shown 210 times", tried_region(3_000, 9_500, 210)),
    ])
}

/// Costly packs on which calls are made quickly enough to be tried many times.
pub fn quick() -> Vec<Hostile> {
    packs([
        ("machines by the thousand", machines(2_400)),
        ("lost targets", lost_targets(2_200, 255)),
        ("nodes by the thousand", owned(3_900, 250, 0, true)),
        ("copies of a long right side", copies(60, 600, 1, false)),
        ("guard of 50 KB", guards(255, 50_000)),
        ("long names alike", alike(1, true)),
        ("names by the thousand", many_names(14_000, 512)),
    ])
}
