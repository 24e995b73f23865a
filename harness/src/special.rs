//! Packages that stand at a limit: levels, states, name lengths, pack lengths, deep expressions.

use crate::encode::encode_any;
use crate::gen::Builder;
use crate::package::*;
use crate::rng::Rng;

pub fn state(name: Name) -> State {
    State { name, equations: vec![], transitions: vec![], regions: vec![], refines: None }
}

pub fn machine(name: Name, initial: Name, states: Vec<State>) -> Machine {
    Machine { name, owner: None, inputs: vec![], outputs: vec![], locals: vec![], initial, states }
}

pub fn node(name: Name) -> Node {
    Node { name, kind: 1, inputs: vec![], outputs: vec![], locals: vec![], equations: vec![] }
}

const ALPHABET: &[u8; 63] = b"ABCDEFGHIJKLMNOPQRSTUVWXYZabcdefghijklmnopqrstuvwxyz0123456789_";

/// The `i`-th name over digits, letters and underscore, shortest first: no two are equal.
pub fn short_name(mut i: usize) -> String {
    let mut text = Vec::new();
    loop {
        text.push(ALPHABET[i % 63]);
        i /= 63;
        if i == 0 {
            text.reverse();
            return String::from_utf8(text).unwrap();
        }
        i -= 1;
    }
}

/// Adds names that nothing uses until the pack has exactly `size` bytes.
pub fn pad(p: &mut Package, size: usize) {
    let mut missing = size.saturating_sub(encode_any(p).0.len());
    let mut number = 0;
    while missing > 0 {
        // At least 12 bytes stay for the last name, which carries its own number.
        let take = if missing <= 256 { missing } else { 256.min(missing - 12) };
        let digits = format!("{number}");
        number += 1;
        if take < digits.len() + 3 {
            return;
        }
        let text = format!("{}z{digits}", "Z".repeat(take - digits.len() - 2));
        p.names.push(text.as_bytes());
        p.old += 1;
        missing -= take;
    }
}

/// An expression of nested operations of one argument, in a node, a guard or an activation, so
/// deep that the pack takes about `bytes`.
pub fn deep(rng: &mut Rng, bytes: usize) -> Package {
    let mut b = Builder::new();
    let (n, v, last) = (b.name("N"), b.name("v"), b.name("last"));
    let (tok, cost) = match rng.below(7) {
        0 => (Tok::Pre, 1),
        1 => (Tok::Unary(0), 2),
        2 => (Tok::Call(n, 1), 5),
        3 => (Tok::Tuple(1), 3),
        4 => (Tok::When(v, true), 4),
        5 => (Tok::Call(last, 1), 5),
        _ => (Tok::Field(v), 3),
    };
    let place = rng.below(3);
    // An activation holds it as a condition and in two scopes.
    let copies = if place == 2 { 3 } else { 1 };
    let depth = bytes.saturating_sub(100) / (cost * copies);
    let rhs = b.p.expr(std::iter::repeat_n(tok, depth).chain([Tok::Var(v)]));
    let mut node = node(n);
    node.inputs.push(Port { name: v, ty: Type::plain(0) });
    match place {
        0 => node.equations.push(Equation { lhs: vec![v], rhs }),
        1 => b.p.machines.push(guarded(n, v, rhs)),
        _ => b.p.activations.push(activation(last, n, v, rhs)),
    }
    b.p.nodes.push(node);
    b.done()
}

fn guarded(name: Name, s: Name, guard: Expr) -> Machine {
    let mut st = state(s);
    st.transitions.push(Transition { guard, target: s });
    machine(name, s, vec![st])
}

fn activation(name: Name, owner: Name, o: Name, rhs: Expr) -> Activation {
    let equations = vec![Equation { lhs: vec![o], rhs }];
    let branches = vec![Branch { name, condition: rhs, equations: equations.clone() }];
    Activation { name, owner, outputs: vec![Port { name: o, ty: Type::plain(0) }], branches, otherwise: equations }
}

/// A binary tree leaning left (`lhs` nests) or right, of `depth` operators.
pub fn leaning(depth: usize, left: bool) -> Package {
    let mut b = Builder::new();
    let (n, v) = (b.name("N"), b.name("v"));
    let mut toks = Vec::new();
    for _ in 0..depth {
        toks.push(Tok::Binary(0));
        if !left {
            toks.push(Tok::Var(v));
        }
    }
    toks.extend((0..if left { depth + 1 } else { 1 }).map(|_| Tok::Var(v)));
    let rhs = b.p.expr(toks);
    let mut node = node(n);
    node.equations.push(Equation { lhs: vec![v], rhs });
    b.p.nodes.push(node);
    b.done()
}

/// A port whose type is an array of arrays, `depth` times.
pub fn deep_type(depth: usize) -> Package {
    let mut b = Builder::new();
    let (n, v) = (b.name("N"), b.name("v"));
    let ty = Type { lens: (0..depth as u32).collect(), base: Base::Named(n) };
    let mut node = node(n);
    node.inputs.push(Port { name: v, ty });
    b.p.nodes.push(node);
    b.done()
}

/// A machine with inline regions down to `level`, `width` regions in each state.
pub fn nest(level: usize, width: usize) -> Package {
    let mut b = Builder::new();
    let m = b.name("M");
    let mut next = 0;
    let top = nested_state(&mut b, level, width, &mut next);
    b.p.machines.push(machine(m, top.name, vec![top]));
    b.done()
}

fn nested_state(b: &mut Builder, level: usize, width: usize, next: &mut usize) -> State {
    let mut s = state(b.name(&format!("S{next}")));
    *next += 1;
    if level > 1 {
        for k in 0..width {
            let depth = if k == 0 { level - 1 } else { 1 };
            let inner = nested_state(b, depth, width, next);
            s.regions.push(Region { initial: inner.name, history: k % 2 == 1, states: vec![inner] });
        }
    }
    s
}

/// Machines `R0`, `R1`, .. of `width` states each, all of which refine the next machine; the
/// last one has `leaves` states. A chain for width 1, a tree of copies above.
pub fn refined(depth: usize, width: usize, leaves: usize) -> Package {
    let mut b = Builder::new();
    for d in 0..=depth {
        let m = b.name(&format!("R{d}"));
        let initial = b.name(&format!("S{d}_0"));
        let count = if d == depth { leaves } else { width };
        let states = (0..count).map(|k| {
            let mut s = state(b.name(&format!("S{d}_{k}")));
            s.refines = (d < depth).then(|| b.name(&format!("R{}", d + 1)));
            s
        });
        let states = states.collect();
        b.p.machines.push(machine(m, initial, states));
    }
    b.done()
}

/// A machine of `count` states, the last with a refinement to a machine of one state or none.
pub fn wide(count: usize, refine: Option<usize>) -> Package {
    let mut b = Builder::new();
    let (m, sub) = (b.name("M"), b.name("Sub"));
    let mut states: Vec<State> = (0..count).map(|k| state(b.name(&short_name(k + 100)))).collect();
    if let Some(leaves) = refine {
        states[count - 1].refines = Some(sub);
        let inner: Vec<State> = (0..leaves).map(|k| state(b.name(&format!("x{k}")))).collect();
        let initial = b.name("x0");
        b.p.machines.push(machine(sub, initial, inner));
    }
    b.p.machines.push(machine(m, states[0].name, states));
    b.done()
}

/// A state of `outer` bytes refines a machine whose state, target and initial have `inner`.
pub fn qualified(outer: usize, inner: usize, which: usize) -> Package {
    let mut b = Builder::new();
    let (m, sub) = (b.name("M"), b.name("Sub"));
    let long = b.name(&"a".repeat(inner));
    let short = b.name("b");
    let mut s = state(b.name(&"c".repeat(outer)));
    s.refines = Some(sub);
    let pick = |k: usize| if which == k { long } else { short };
    let mut leaf = state(pick(0));
    let guard = b.p.expr([Tok::Const(Lit::Bool(true))]);
    leaf.transitions.push(Transition { guard, target: pick(1) });
    let deep = state(b.name("d"));
    leaf.regions.push(Region { initial: pick(2), history: true, states: vec![deep] });
    b.p.machines.push(machine(sub, pick(3), vec![leaf]));
    b.p.machines.push(machine(m, s.name, vec![s]));
    b.done()
}

/// Names that clash by qualification, an empty sub-machine, a cycle, an unknown target.
pub fn tangled(which: usize) -> Package {
    let mut b = Builder::new();
    let [m, sub, a, t, at] = ["M", "Sub", "A", "T", "A_T"].map(|n| b.name(n));
    let mut s = state(a);
    s.refines = Some(if which == 3 { t } else { sub });
    let mut inner = state(t);
    if which == 2 {
        inner.refines = Some(m);
    }
    let mut top = vec![s];
    if which == 0 {
        top.push(state(at));
    }
    let inside = if which == 1 { vec![] } else { vec![inner] };
    b.p.machines.push(machine(m, a, top));
    b.p.machines.push(machine(sub, t, inside));
    b.done()
}

/// An activation with `count` branches; each scope reads `v`, so that samples nest.
pub fn branches(count: usize, constants: bool) -> Package {
    let mut b = Builder::new();
    let [a, n, o, v] = ["A", "N", "o", "v"].map(|x| b.name(x));
    let mut owner = node(n);
    owner.inputs.push(Port { name: v, ty: Type::plain(0) });
    owner.outputs.push(Port { name: o, ty: Type::plain(0) });
    b.p.nodes.push(owner);
    let read = b.p.expr([if constants { Tok::Const(Lit::Bool(true)) } else { Tok::Var(v) }]);
    let scope = vec![Equation { lhs: vec![o], rhs: read }];
    let branches = (0..count)
        .map(|k| Branch { name: b.name(&short_name(k + 300)), condition: read, equations: scope.clone() })
        .collect();
    let outputs = vec![Port { name: o, ty: Type::plain(0) }];
    b.p.activations.push(Activation { name: a, owner: n, outputs, branches, otherwise: scope });
    b.done()
}

/// One machine of `states` states that repeats its only output port `ports` times.
pub fn repeated_ports(states: usize, ports: usize) -> Package {
    let mut b = Builder::new();
    let (m, o) = (b.name("M"), b.name("o"));
    let one = b.p.expr([Tok::Const(Lit::Int(1))]);
    let all: Vec<State> = (0..states)
        .map(|k| {
            let mut s = state(b.name(&short_name(k + 100)));
            s.equations.push(Equation { lhs: vec![o], rhs: one });
            s
        })
        .collect();
    let mut made = machine(m, all[0].name, all);
    made.outputs = vec![Port { name: o, ty: Type::plain(4) }; ports];
    b.p.machines.push(made);
    b.done()
}

/// As many of the names as go into `size` bytes, and nothing that uses them.
pub fn names_of(size: usize, names: impl Iterator<Item = String>) -> Package {
    let mut p = Package::default();
    let mut left = size.saturating_sub(12);
    for text in names {
        if left < text.len() + 1 {
            break;
        }
        left -= text.len() + 1;
        p.names.push(text.as_bytes());
        p.old += 1;
    }
    p
}

/// As many short names as a pack of `size` bytes holds.
pub fn names_only(size: usize) -> Package {
    names_of(size, (0..).map(short_name))
}

/// How many bits of its number (crates/pack/specs/Siphash) choose a name's tree in the library's index (specs/Table),
/// which has 8,192 heads.
pub const HEAD_BITS: u32 = 13;

/// A round of SipHash.
fn round([a, b, c, d]: [u64; 4]) -> [u64; 4] {
    let half = |[a, b, c, d]: [u64; 4], j, k| {
        let (e, f) = (a.wrapping_add(b), c.wrapping_add(d));
        [f, b.rotate_left(j) ^ e, e.rotate_left(32), d.rotate_left(k) ^ f]
    };
    half(half([a, b, c, d], 13, 16), 17, 21)
}

/// The number of a name in the library. In a table of names the lowest `HEAD_BITS` choose a tree, the others the way
/// down; where names are told apart as they are read (specs/Distinct) and there is no key, the lowest 14 choose the
/// first cell.
pub fn index_number(name: &[u8]) -> u64 {
    let quad = |at: usize| name[at..].iter().take(4).rev().fold(0, |x, byte| x << 8 | u64::from(*byte));
    let mixed = |[a, b, c, d]: [u64; 4], x: usize, y: usize| {
        let m = quad(x) | quad(y) << 32;
        let [a, b, c, d] = round([a, b, c, d ^ m]);
        [a ^ m, b, c, d]
    };
    let (l, last) = (name.len(), name.len().saturating_sub(1) / 8 * 8);
    let start = [b"uespemos", b"modnarod", b"arenegyl", b"setybdet"].map(|text| u64::from_le_bytes(*text));
    let start = [start[0], start[1], start[2], start[3] ^ l as u64];
    let before = (0..last).step_by(8).fold(start, |h, at| mixed(h, at, at + 4));
    let [a, b, c, d] = mixed(before, l.saturating_sub(8), l.saturating_sub(4));
    round(round([a, b, c ^ 255, d])).into_iter().fold(0, |x, lane| x ^ lane)
}

/// Names of a stem and five letters, all with the same lowest `bits` of their numbers.
pub fn crowded(stem: &'static str, bits: u32) -> impl Iterator<Item = String> {
    let letters = || ALPHABET.iter().copied();
    let heads = letters().flat_map(move |a| letters().flat_map(move |b| letters().map(move |c| [a, b, c])));
    let ends = heads.flat_map(move |[a, b, c]| letters().flat_map(move |d| letters().map(move |e| [a, b, c, d, e])));
    let mut name = stem.as_bytes().to_vec();
    ends.filter_map(move |end| {
        name.truncate(stem.len());
        name.extend(end);
        let alike = index_number(&name).trailing_zeros() >= bits;
        alike.then(|| String::from_utf8(name.clone()).unwrap())
    })
}

/// Names of 255 bytes that differ in their last bytes only.
pub fn alike_names(size: usize) -> Package {
    stem_names(size, 1)
}

/// Names of 255 bytes with one of a few stems, by turns, that differ in their last bytes only.
pub fn stem_names(size: usize, stems: usize) -> Package {
    let stem = |i: usize| short_name(i % stems).repeat(250);
    names_of(size, (0..99_999).map(|i| format!("{}{i:05}", stem(i))))
}

/// The shortest names, in no order.
pub fn mixed_names(rng: &mut Rng, size: usize) -> Package {
    let mut names: Vec<String> = (0..names_only(size).old).map(short_name).collect();
    for i in (1..names.len()).rev() {
        names.swap(i, rng.below(i + 1));
    }
    names_of(size, names.into_iter())
}

/// Names of random letters, `length` bytes each.
pub fn random_names(rng: &mut Rng, size: usize, length: usize) -> Package {
    let names: Vec<String> =
        (0..size / (length + 1)).map(|_| (0..length).map(|_| (b'a' + rng.below(26) as u8) as char).collect()).collect();
    names_of(size, names.into_iter())
}

/// Names of 255 bytes down to 6, again and again.
pub fn ragged_names(size: usize) -> Package {
    names_of(size, (0..99_999).map(|i| format!("{}{i:05}", "n".repeat(250 - i % 250))))
}

/// The package with its first name once more, in the place of the one at `at`.
pub fn repeated(p: Package, at: usize) -> Package {
    names_of(usize::MAX, (0..p.old).map(|i| p.names.text(if i == at { 0 } else { i as Name }).to_string()))
}

/// Names of one of the kinds above, half of the time with one of them repeated.
fn name_list(rng: &mut Rng) -> Package {
    let size = rng.pick(&[300, 1_000, 8_200, 30_000]);
    let p = match rng.below(4) {
        0 => mixed_names(rng, size),
        1 => stem_names(size, rng.range(1, 40)),
        2 => {
            let length = rng.range(1, 60);
            random_names(rng, size, length)
        }
        _ => ragged_names(size),
    };
    if p.old < 2 || rng.chance(1, 2) {
        return p;
    }
    let at = rng.range(1, p.old - 1);
    repeated(p, at)
}

/// One of the packages above, with numbers around the limits.
pub fn any(rng: &mut Rng) -> Package {
    match rng.below(16) {
        0 => nest(rng.range(7, 9), rng.range(1, 2)),
        1 => refined(rng.range(6, 8), 1, rng.below(2)),
        2 => refined(rng.range(1, 3), rng.range(1, 3), rng.range(0, 3)),
        3 => wide(rng.range(511, 513), None),
        4 => wide(rng.range(510, 512), Some(rng.below(3))),
        5 | 6 => {
            let inner = rng.range(1, 250);
            qualified(rng.range(253, 255) - inner, inner, rng.below(5))
        }
        7 | 8 => tangled(rng.below(5)),
        9 => branches(rng.range(1, 40), rng.chance(1, 2)),
        10 => repeated_ports(rng.range(1, 12), rng.range(1, 12)),
        11 => deep_type(rng.range(1, 300)),
        12 => leaning(rng.range(1, 200), rng.chance(1, 2)),
        13 => name_list(rng),
        _ => {
            let bytes = rng.range(100, 2_000);
            deep(rng, bytes)
        }
    }
}

/// A pack near 65,536 bytes, of a shape that costs most.
pub fn huge(rng: &mut Rng) -> Package {
    match rng.below(8) {
        0 => {
            let bytes = rng.pick(&[30_000, 40_000, 65_000, 65_536, 70_000]);
            deep(rng, bytes)
        }
        1 => names_only(65_536),
        2 => alike_names(65_536),
        3 => deep_type(rng.range(1_000, 13_000)),
        4 => leaning(rng.range(5_000, 13_000), rng.chance(1, 2)),
        5 => wide(rng.range(2_000, 4_700), None),
        6 => branches(rng.range(100, 3_500), rng.chance(1, 2)),
        _ => repeated_ports(rng.range(50, 500), rng.range(50, 10_000)),
    }
}

#[cfg(test)]
mod tests {
    use super::*;
    use crate::decode::decode;

    /// Most packs at the limits are within them.
    #[test]
    fn huge_packs_are_mostly_legal() {
        let mut rng = Rng::new(4);
        let legal = |rng: &mut Rng| {
            let pack = encode_any(&huge(rng)).0;
            (decode(&pack).is_ok() && pack.len() > 10_000) as usize
        };
        let count: usize = (0..200).map(|_| legal(&mut rng)).sum();
        assert!(count > 140, "{count}");
    }

    /// The numbers that crates/pack/proofs/SiphashLaws computes of the definition.
    #[test]
    fn names_have_the_library_s_numbers() {
        assert_eq!(index_number(b"Strongroom"), 13_997_899_697_041_881_454);
        assert_eq!(index_number(b"Vault"), 7_398_859_739_978_200_447);
    }

    #[test]
    fn crowded_names_share_a_head() {
        let all: Vec<String> = crowded("", HEAD_BITS).take(3).collect();
        assert!(all.iter().all(|n| index_number(n.as_bytes()) % 8192 == 0), "{all:?}");
    }

    #[test]
    fn crowded_names_share_a_first_cell() {
        let all: Vec<String> = crowded("door", 15).take(3).collect();
        assert!(all.iter().all(|n| n.len() == 9 && n.starts_with("door")), "{all:?}");
        assert!(all.iter().all(|n| index_number(n.as_bytes()) % 32_768 == 0), "{all:?}");
    }

    #[test]
    fn short_names_differ() {
        let all: std::collections::HashSet<String> = (0..20_000).map(short_name).collect();
        assert_eq!(all.len(), 20_000);
        assert_eq!((short_name(0).len(), short_name(62).len(), short_name(63).len()), (1, 1, 2));
        assert_eq!((short_name(63 + 63 * 63 - 1).len(), short_name(63 + 63 * 63).len()), (2, 3));
    }
}
