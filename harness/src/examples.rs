//! Small packs for the tables that the definitions are computed on (proofs/Examples of the crates of rules): one for each
//! refusal and for each rule that is easily missed.

use crate::charts::{two_branches, Activated};
use crate::encode::encode_any;
use crate::gen::Builder;
use crate::package::*;
use crate::special::{machine, node, refined, state};

pub struct Example {
    pub says: &'static str,
    pub pack: Vec<u8>,
    pub room: usize,
}

const ROOM: usize = MAX_PACK;

fn example(says: &'static str, p: Package) -> Example {
    Example { says, pack: encode_any(&p).0, room: ROOM }
}

fn int(name: Name) -> Port {
    Port { name, ty: Type::plain(4) }
}

/// A chart under construction: names by text, guards and equations by short expressions.
struct Sketch {
    b: Builder,
}

impl Sketch {
    fn new() -> Sketch {
        Sketch { b: Builder::new() }
    }

    fn state(&mut self, name: &str) -> State {
        state(self.b.name(name))
    }

    fn states<const N: usize>(&mut self, names: [&str; N]) -> Vec<State> {
        names.iter().map(|n| self.state(n)).collect()
    }

    /// `lhs = value`.
    fn gives(&mut self, lhs: &[&str], value: i64) -> Equation {
        let lhs = lhs.iter().map(|n| self.b.name(n)).collect();
        Equation { lhs, rhs: self.b.p.expr([Tok::Const(Lit::Int(value))]) }
    }

    fn giving(&mut self, name: &str, lhs: &[&str], value: i64) -> State {
        let equations = vec![self.gives(lhs, value)];
        State { equations, ..self.state(name) }
    }

    /// To `target` where the variable `guard` is true.
    fn to(&mut self, guard: &str, target: &str) -> Transition {
        let guard = Tok::Var(self.b.name(guard));
        Transition { guard: self.b.p.expr([guard]), target: self.b.name(target) }
    }

    fn region(&mut self, initial: &str, history: bool, states: Vec<State>) -> Region {
        Region { initial: self.b.name(initial), history, states }
    }

    fn refining(&mut self, name: &str, other: &str) -> State {
        let refines = Some(self.b.name(other));
        State { refines, ..self.state(name) }
    }

    fn machine(&mut self, name: &str, initial: &str, states: Vec<State>) -> &mut Machine {
        let m = machine(self.b.name(name), self.b.name(initial), states);
        self.b.p.machines.push(m);
        self.b.p.machines.last_mut().expect("pushed")
    }

    fn done(self, says: &'static str) -> Example {
        example(says, self.b.done())
    }
}

/// A state `S1` at level 1, in it a region of a state one level down, and so on to `level`; the innermost refines `other`.
fn inline(s: &mut Sketch, level: usize, other: Option<&str>) -> State {
    let names: Vec<String> = (1..=level).map(|k| format!("S{k}")).collect();
    let mut inner = match other {
        Some(other) => s.refining(&names[level - 1], other),
        None => s.state(&names[level - 1]),
    };
    for k in (0..level - 1).rev() {
        let r = s.region(&names[k + 1], false, vec![inner]);
        inner = State { regions: vec![r], ..s.state(&names[k]) };
    }
    inner
}

fn stateless() -> Example {
    let mut s = Sketch::new();
    let (owner, o) = (s.b.name("F"), int(s.b.name("o")));
    let m = s.machine("M", "A", vec![]);
    m.owner = Some(owner);
    m.outputs.push(o);
    s.done("no states, no such owner, and an output: NoStates")
}

fn twice() -> Example {
    let mut s = Sketch::new();
    let inside = s.states(["B", "C"]);
    let r = s.region("C", false, inside);
    let a = State { regions: vec![r], ..s.state("A") };
    let c = s.state("C");
    let b = s.state("B");
    s.machine("M", "X", vec![a, c, b]);
    s.done("names that stand twice in the tree, and an initial state that is not there: DuplicateState of the first repeated")
}

fn lost() -> Example {
    let mut s = Sketch::new();
    // The region's initial state is looked at after the targets of its state, and before the next state's.
    let inside = s.states(["P"]);
    let r = s.region("A", false, inside);
    let gone = s.to("g", "P");
    let a = State { regions: vec![r.clone()], ..s.state("A") };
    let b = State { transitions: vec![gone.clone()], ..s.state("B") };
    s.machine("M", "A", vec![a, b]);
    let a = State { transitions: vec![gone], regions: vec![r], ..s.state("A") };
    s.machine("N", "A", vec![a]);
    let k = s.states(["A"]);
    s.machine("K", "P", k);
    s.done(
        "a region's initial state before the next state's target, and after the state's own; a name of another region \
         is not there: UnknownInitial, UnknownTarget, UnknownInitial",
    )
}

fn uncovered() -> Example {
    let mut s = Sketch::new();
    let (o, q) = (int(s.b.name("o")), int(s.b.name("q")));
    let first = vec![s.giving("P", &["o"], 1), s.state("Q")];
    let first = s.region("P", false, first);
    let second = vec![s.giving("R", &["q", "o"], 2)];
    let second = s.region("R", false, second);
    let a = State { regions: vec![first, second], ..s.state("A") };
    let b = s.state("B");
    s.machine("M", "A", vec![a, b]).outputs = vec![o.clone(), q];
    let a = s.giving("A", &["o"], 1);
    let b = s.giving("B", &["o", "o"], 1);
    s.machine("N", "A", vec![a, b]).outputs.push(o);
    s.done("an equation with two left names covers neither; a state with regions has its first region's error: Unassigned, twice")
}

fn unknown() -> Example {
    let mut s = Sketch::new();
    let a = s.refining("A", "N");
    s.machine("M", "A", vec![a]);
    let b = s.refining("B", "Gone");
    s.machine("N", "B", vec![b]);
    s.done("a refinement of a refinement that is not there: UnknownRefine with the state's own name, for both")
}

fn cycle_below() -> Example {
    let mut s = Sketch::new();
    let a = s.refining("A", "N");
    s.machine("M", "A", vec![a]);
    let b = s.refining("B", "N");
    s.machine("N", "B", vec![b]);
    s.done("a cycle that the top machine is not on: RefineCycle with the top machine and the refined one")
}

fn limits() -> Example {
    let mut s = Sketch::new();
    let top = inline(&mut s, 8, Some("M"));
    s.machine("M", "S1", vec![top]);
    let a = s.refining("A", "M");
    s.machine("N", "A", vec![a]);
    s.done("a cycle at level 8, and the same regions one level deeper: RefineCycle, TooLarge")
}

fn absent_at_the_limit() -> Example {
    let mut s = Sketch::new();
    let top = inline(&mut s, 8, Some("Gone"));
    s.machine("M", "S1", vec![top]);
    s.done("no such machine at level 8: UnknownRefine before TooLarge")
}

fn qualified() -> Example {
    let mut s = Sketch::new();
    for (name, inner, length) in [("M", "N", 254), ("K", "L", 253)] {
        let long = "a".repeat(length);
        let b = s.state(&long);
        s.machine(inner, &long, vec![b]);
        let a = s.refining("A", inner);
        s.machine(name, "A", vec![a]);
    }
    s.done("a qualified name of 256 bytes, and one of 255: TooLarge of the first")
}

fn long_target() -> Example {
    let mut s = Sketch::new();
    let a = s.refining("A", "N");
    s.machine("M", "A", vec![a]);
    let gone = s.to("g", &"a".repeat(254));
    let b = State { transitions: vec![gone], ..s.state("B") };
    s.machine("N", "B", vec![b]);
    s.done("of qualified names only a target has 256 bytes: TooLarge, before UnknownTarget, which N has itself")
}

fn long_initials() -> Example {
    let mut s = Sketch::new();
    for (name, inner) in [("M", "N"), ("K", "L")] {
        let a = s.refining("A", inner);
        s.machine(name, "A", vec![a]);
    }
    let long = "a".repeat(254);
    let inside = s.states(["C"]);
    let r = s.region(&long, false, inside);
    let b = State { regions: vec![r], ..s.state("B") };
    s.machine("N", "B", vec![b]);
    let b = s.states(["B"]);
    s.machine("L", &long, b);
    s.done(
        "only a region's initial has 256 bytes, and only a sub-machine's: TooLarge, before UnknownInitial, which N and L \
         have themselves",
    )
}

fn many() -> Example {
    let mut s = Sketch::new();
    // 4, 20, 84 states; then six times 85 and 3 are 513, and 2 are 512.
    let c = s.states(["a", "b", "c", "d"]);
    s.machine("C", "a", c);
    let d = ["a", "b", "c", "d"].map(|n| s.refining(n, "C")).to_vec();
    s.machine("D", "a", d);
    let e = ["a", "b", "c", "d"].map(|n| s.refining(n, "D")).to_vec();
    s.machine("E", "a", e);
    let six = ["a", "b", "c", "d", "e", "f"].map(|n| s.refining(n, "E")).to_vec();
    let more = s.states(["g", "h", "i"]);
    let twice = s.state("a");
    let all = [vec![six[0].clone(), twice, six[1].clone()], six[2..].to_vec(), more[..1].to_vec()].concat();
    s.machine("L", "a", all);
    let all = [six, more].concat();
    s.machine("M", "a", all);
    s.done("512 states, of which one stands twice, and 513: DuplicateState, TooLarge")
}

fn values() -> Example {
    let mut s = Sketch::new();
    let o = int(s.b.name("o"));
    let none = s.states(["P"]);
    let none = s.region("P", true, none);
    let first = vec![s.giving("Q", &["o"], 2)];
    let first = s.region("Q", false, first);
    let second = vec![s.giving("R", &["o"], 3)];
    let second = s.region("R", false, second);
    let a = State { regions: vec![none, first, second], ..s.giving("A", &["o"], 1) };
    let equations = vec![s.gives(&["o", "o"], 4), s.gives(&["o"], 5), s.gives(&["o"], 6)];
    let b = State { equations, ..s.state("B") };
    s.machine("M", "A", vec![a, b]).outputs.push(o);
    s.done(
        "the first region that covers comes before the state's own equation; of equations the first with one left name",
    )
}

fn ids() -> Example {
    let mut s = Sketch::new();
    let inner = s.states(["Q"]);
    let inner = s.region("Q", true, inner);
    let first = State { regions: vec![inner], ..s.state("P") };
    let first = s.region("P", false, vec![first]);
    let second = s.states(["R"]);
    let second = s.region("R", false, second);
    let third = s.states(["T"]);
    let third = s.region("T", true, third);
    let a = State { regions: vec![first, second], ..s.state("A") };
    let b = State { regions: vec![third], ..s.state("B") };
    s.machine("M", "A", vec![a, b]);
    s.done("ids in preorder: P 1, Q inside 2, R 3, T 4")
}

fn refinement() -> Example {
    let mut s = Sketch::new();
    let t = [s.to("g", "Y"), s.to("h", "X")];
    let x = State { transitions: t.to_vec(), ..s.state("X") };
    let inside = s.states(["Z"]);
    let inside = s.region("Z", true, inside);
    let y = State { regions: vec![inside], ..s.state("Y") };
    s.machine("N", "Y", vec![x, y]);
    let inline = s.states(["P"]);
    let inline = s.region("P", true, inline);
    let t = vec![s.to("X", "B")];
    let a = State { regions: vec![inline], transitions: t, ..s.refining("A", "N") };
    let b = s.state("B");
    s.machine("M", "A", vec![a, b]);
    s.b.p.machines.swap(0, 1);
    s.done("a refinement's region comes last, its names after A_, without history where N's own regions keep theirs; guards are not renamed; no test on the last state")
}

fn latest() -> Example {
    let mut s = Sketch::new();
    let first = s.states(["X"]);
    s.machine("N", "X", first);
    let a = s.refining("A", "N");
    s.machine("M", "A", vec![a]);
    let second = s.states(["Y"]);
    s.machine("N", "Y", second);
    s.done("of machines with one name the last is refined; each makes its own node")
}

fn owners() -> Example {
    let mut s = Sketch::new();
    let f = s.b.name("F");
    let v = int(s.b.name("v"));
    let mut first = node(f);
    first.locals.push(v);
    let old = s.gives(&["v"], 7);
    first.equations.push(old);
    s.b.p.nodes.extend([first, node(f)]);
    let w = int(s.b.name("w"));
    let one = s.states(["A"]);
    let m = s.machine("M", "A", one);
    m.owner = Some(f);
    m.locals.push(w);
    let two = s.states(["B"]);
    s.machine("N", "B", two);
    let n = s.b.name("N");
    let three = s.states(["C"]);
    s.machine("K", "C", three).owner = Some(n);
    s.done("the first node of the owner's name, and a node that was made before; origins begin after the equations that are there")
}

fn later() -> Example {
    let mut s = Sketch::new();
    let n = s.b.name("N");
    let one = s.states(["A"]);
    s.machine("M", "A", one).owner = Some(n);
    let two = s.states(["B"]);
    s.machine("N", "B", two);
    s.machine("K", "B", vec![]);
    s.done("an owner that is made later, and another machine refused: UnknownOwner, NoStates")
}

fn interned() -> Example {
    let mut s = Sketch::new();
    let [_, next] = ["__sm_state", "M_StateEnum"].map(|n| s.b.name(n));
    s.b.p.enums.push(Enum { name: next, variants: vec![next] });
    let one = s.states(["A"]);
    s.machine("M", "A", one);
    s.done("made names that are old ones are not written again")
}

fn deep_pack() -> Example {
    let mut s = Sketch::new();
    let top = inline(&mut s, 9, None);
    s.machine("M", "S1", vec![top]);
    s.done("level 9 opens in the pack")
}

fn long_name() -> Example {
    let mut s = Sketch::new();
    let one = s.states(["A"]);
    s.machine(&"M".repeat(246), "A", one);
    Example { room: 0, ..s.done("a made name of 256 bytes comes before a buffer that is shorter") }
}

fn long_name_beside_refused() -> Example {
    let mut s = Sketch::new();
    let one = s.states(["A"]);
    s.machine(&"M".repeat(246), "A", one);
    s.machine("K", "A", vec![]);
    s.done("a machine refused comes before another's made name of 256 bytes: NoStates")
}

fn small() -> Sketch {
    let mut s = Sketch::new();
    let one = s.states(["A"]);
    s.machine("M", "A", one);
    s
}

/// The examples of lowering machines.
pub fn machines() -> Vec<Example> {
    vec![
        stateless(),
        twice(),
        lost(),
        uncovered(),
        unknown(),
        example("a circle of three: RefineCycle, each with its own name", circle()),
        cycle_below(),
        limits(),
        absent_at_the_limit(),
        qualified(),
        long_target(),
        long_initials(),
        many(),
        later(),
        values(),
        ids(),
        refinement(),
        latest(),
        owners(),
        interned(),
        deep_pack(),
        long_name(),
        long_name_beside_refused(),
        Example { room: 4, says: "a report of 5 bytes, and room for 4", ..stateless() },
        Example { room: 5, says: "and room for 5", ..stateless() },
        Example { room: 100, ..small().done("a pack of 101 bytes, and room for 100") },
        Example { room: 101, ..small().done("and room for 101") },
    ]
}

/// The last of three machines that each refine the next refines the first.
fn circle() -> Package {
    let mut p = refined(2, 1, 1);
    let first = p.machines[0].name;
    p.machines[2].states[0].refines = Some(first);
    p
}

/// `last` of v without an initial value in the condition, with 1 and then with 2 in the branch.
fn initials() -> Package {
    let mut chart = Activated::new();
    let v = chart.var("v");
    let mut last = |initial: Option<i64>| {
        let args: Vec<Tok> = [v.clone()].into_iter().chain(initial.map(|i| Tok::Const(Lit::Int(i)))).collect();
        chart.call(&args)
    };
    let (none, one, two) = (last(None), last(Some(1)), last(Some(2)));
    chart.a.branches[0].condition = chart.expr(none);
    chart.a.branches[0].equations[0].rhs = chart.expr([vec![Tok::Binary(10)], one, two].concat());
    chart.done()
}

/// `last` of a constant in one activation, of a variable and two values in another.
fn misused() -> Package {
    let mut chart = Activated::new();
    let (v, last) = (chart.var("v"), chart.b.name("last"));
    let [one, two] = [1, 2].map(|i| Tok::Const(Lit::Int(i)));
    let mut second = Activation { name: chart.b.name("C"), ..chart.a.clone() };
    chart.a.otherwise[0].rhs = chart.expr(vec![Tok::Call(last, 1), one.clone()]);
    second.otherwise[0].rhs = chart.expr(vec![Tok::Call(last, 3), v, one, two]);
    let mut p = chart.done();
    p.activations.push(second);
    p
}

/// A branch with an equation without left names.
fn nameless() -> Package {
    let mut chart = Activated::new();
    let rhs = chart.a.otherwise[0].rhs;
    chart.a.branches[0].equations.push(Equation { lhs: vec![], rhs });
    chart.done()
}

/// `last` of v with 1 in the first branch; of w, and of v with 2, in the second condition.
fn conditions_first() -> Package {
    let mut chart = Activated::new();
    let (v, w, name) = (chart.var("v"), chart.var("w"), chart.b.name("D"));
    let [one, two] = [1, 2].map(|i| chart.call(&[v.clone(), Tok::Const(Lit::Int(i))]));
    let held = chart.call(&[w]);
    let equations = chart.a.branches[0].equations.clone();
    chart.a.branches[0].equations[0].rhs = chart.expr(one);
    let condition = chart.expr([vec![Tok::Binary(4)], held, two].concat());
    chart.a.branches.push(Branch { name, condition, equations });
    chart.done()
}

/// o, an integer of the owner and a Boolean of the activation, read and held.
fn owners_type() -> Package {
    let mut chart = Activated::new();
    let o = chart.var("o");
    chart.a.outputs[0].ty = Type::plain(0);
    let last = chart.call(&[o.clone()]);
    chart.a.branches[0].equations[0].rhs = chart.expr(last);
    chart.a.otherwise[0].rhs = chart.expr(vec![o]);
    chart.done()
}

/// Values of o, an integer of the owner, a Boolean and a character of the activation; of w, which is no output; of z,
/// which is no variable.
fn value_types() -> Package {
    let mut chart = Activated::new();
    let [w, z] = ["w", "z"].map(|n| chart.b.name(n));
    chart.a.outputs[0].ty = Type::plain(0);
    chart.a.outputs.push(Port { ty: Type::plain(11), ..chart.a.outputs[0].clone() });
    let rhs = chart.a.otherwise[0].rhs;
    chart.a.otherwise.extend([w, z].map(|name| Equation { lhs: vec![name], rhs }));
    chart.done()
}

/// v, read by the first and the third equation of a scope.
fn sampled_once() -> Package {
    let mut chart = Activated::new();
    let [w, z] = ["w", "z"].map(|n| chart.b.name(n));
    let (v, zero) = (chart.var("v"), chart.a.otherwise[0].rhs);
    let read = chart.expr(vec![v]);
    chart.a.otherwise[0].rhs = read;
    chart.a.otherwise.extend([(w, zero), (z, read)].map(|(name, rhs)| Equation { lhs: vec![name], rhs }));
    chart.done()
}

/// A struct of a cast and an array: over v and `last` of w and v in the branch, over constants in the else scope.
fn composed() -> Package {
    let mut chart = Activated::new();
    let [r, f, g] = ["R", "f", "g"].map(|n| chart.b.name(n));
    let (v, w) = (chart.var("v"), chart.var("w"));
    let lasts = [w, v.clone()].map(|x| chart.call(&[x]));
    let [one, two] = [1, 2].map(|i| Tok::Const(Lit::Int(i)));
    let mut of = |cast: &[Tok], first: &[Tok], second: Tok| {
        let structure = Tok::Struct(Box::new((r, vec![f, g])));
        let cast = [&[Tok::Cast(Box::new(Type::plain(1)))], cast].concat();
        chart.b.p.expr([&[structure], &cast[..], &[Tok::Array(2)], first, &[second]].concat())
    };
    let branch = of(&lasts[0], &lasts[1], v);
    let other = of(&[one.clone()], &[one], two);
    chart.a.branches[0].equations[0].rhs = branch;
    chart.a.otherwise[0].rhs = other;
    chart.done()
}

/// `last` without initial values: of a Boolean, of numbers of 32 and 64 bits with a point, of a character.
fn defaults() -> Package {
    let mut chart = Activated::new();
    let inputs = [("f", 9), ("g", 10), ("k", 11)].map(|(n, ty)| Port { name: chart.b.name(n), ty: Type::plain(ty) });
    chart.b.p.nodes[0].inputs.extend(inputs);
    let [c, f, g, k] = ["c", "f", "g", "k"].map(|n| {
        let v = chart.var(n);
        chart.call(&[v])
    });
    chart.a.branches[0].condition = chart.expr(c);
    chart.a.branches[0].equations[0].rhs = chart.expr([vec![Tok::Tuple(2)], f, g].concat());
    chart.a.otherwise[0].rhs = chart.expr(k);
    chart.done()
}

/// Examples of lowering activations, as rows of the table that has others.
pub fn activations() -> Vec<Example> {
    vec![
        example("last(v), last(v, 1), last(v, 2): one holder, which begins with 1", initials()),
        example("two branches, on c and on d: the second is taken where d holds and c does not", two_branches()),
        example("last(1), and last(v, 1, 2): LastArgs, twice", misused()),
        example("an equation without left names in a branch: EmptyLeft", nameless()),
        example(
            "last is sought in all conditions, then in branches: w's holder comes first, and v's begins with 2",
            conditions_first(),
        ),
        example(
            "an output of the activation that the owner has in another type: samples and holders have the owner's",
            owners_type(),
        ),
        example(
            "a value's type: that of the activation's first output of its name, else the owner's, else Bool",
            value_types(),
        ),
        example("what the first and the third equation of a scope read is sampled once", sampled_once()),
        example(
            "structs, casts and arrays are entered by reads, by rewriting and by the sampling of constants",
            composed(),
        ),
        example("no initial: a Boolean begins with false, numbers and characters with 0", defaults()),
    ]
}
