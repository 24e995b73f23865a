//! The lowerings against answers worked out by hand.

use harness::answer::Outcome;
use harness::charts::{self, Activated, M};
use harness::encode::encode_any;
use harness::gen::Builder;
use harness::package::*;
use harness::{activations, machines, special};

fn pack(p: Package) -> Vec<u8> {
    encode_any(&p).0
}

fn lower_machines(pack: &[u8]) -> Outcome {
    machines::expected(pack).unwrap()
}

fn lower_activations(pack: &[u8]) -> Outcome {
    activations::expected(pack).unwrap()
}

/// A report of one refused definition.
fn report(kind: u8, names: &[&str]) -> Outcome {
    let mut bytes = vec![1, 0, kind];
    for n in names {
        bytes.push(n.len() as u8);
        bytes.extend(n.bytes());
    }
    Outcome::Refused(bytes)
}

/// The package that an outcome's pack reads back as.
fn made(outcome: Outcome) -> Package {
    let Outcome::Lowered(pack) = outcome else { panic!("{outcome:?}") };
    harness::decode::decode(&pack).unwrap()
}

fn left_names(p: &Package, node: usize) -> Vec<&str> {
    p.nodes[node].equations.iter().map(|e| p.names.text(e.lhs[0])).collect()
}

/// The tokens of the equation that defines `name`, with names as text.
fn right_side(p: &Package, node: usize, name: &str) -> String {
    let defines = |e: &&Equation| p.names.text(e.lhs[0]) == name;
    let e = p.nodes[node].equations.iter().find(defines).unwrap();
    let text = |t: &Tok| match t {
        Tok::Var(n) => p.names.text(*n).to_string(),
        Tok::Call(n, k) => format!("{}/{k}", p.names.text(*n)),
        Tok::When(n, on) => format!("when {} {on}", p.names.text(*n)),
        Tok::Merge(n) => format!("merge {}", p.names.text(*n)),
        Tok::Const(lit) => format!("{lit:?}"),
        other => format!("{other:?}"),
    };
    p.toks(e.rhs).iter().map(text).collect::<Vec<_>>().join(" ")
}

#[test]
fn nothing_to_lower() {
    assert_eq!(lower_machines(&[0; 12]), Outcome::Lowered(vec![0; 12]));
    assert_eq!(lower_activations(&[0; 12]), Outcome::Lowered(vec![0; 12]));
}

#[test]
fn machine_m() {
    let mut want = vec![5, 0, 1, b'M', 1, b'S'];
    for name in ["M_StateEnum", "__sm_state", "__sm_next_state"] {
        want.push(name.len() as u8);
        want.extend(name.bytes());
    }
    // One enum: name 2, its only variant S.
    want.extend([1, 0, 2, 0, 1, 0, 1, 0]);
    // One node M, an operator without ports; two locals of named type 2.
    want.extend([1, 0, 0, 0, 1, 0, 0, 0, 0, 2, 0, 3, 0, 13, 2, 0, 4, 0, 13, 2, 0]);
    // __sm_state = S -> pre __sm_next_state; __sm_next_state = __sm_state.
    want.extend([2, 0, 1, 0, 3, 0, 6, 1, 1, 0, 5, 1, 4, 0, 1, 0, 4, 0, 1, 3, 0]);
    want.extend([0; 6]);
    assert_eq!(want.len(), 101);
    assert_eq!(lower_machines(&M), Outcome::Lowered(want.clone()));
    assert_eq!(lower_activations(&want), Outcome::Lowered(want));
    // The other lowering leaves a machine as it is.
    assert_eq!(lower_activations(&M), Outcome::Lowered(M.to_vec()));
}

#[test]
fn the_table() {
    let outcome = lower_machines(&M);
    let full = outcome.clone().answer(101, 0);
    assert_eq!((full.number, full.value, full.report), (0, 101, None));
    assert_eq!(full.output.unwrap().len(), 101);
    let short = outcome.answer(100, 65_536);
    assert_eq!((short.word(), short.output, short.report), (9 << 32 | 101, None, None));

    let refused = report(7, &["M", "M"]);
    let full = refused.clone().answer(0, 7);
    assert_eq!((full.word(), full.report), (6 << 32 | 7, Some(vec![1, 0, 7, 1, b'M', 1, b'M'])));
    let short = refused.answer(65_536, 6);
    assert_eq!((short.word(), short.report), (7 << 32 | 7, None));

    assert_eq!(lower_machines(&M[..39]).answer(0, 0).word(), 2 << 32 | 39);
    assert_eq!(lower_activations(&[0; 65_537]).answer(0, 0).word(), 1 << 32 | 65_536);
}

#[test]
fn no_states_comes_before_the_owner() {
    assert_eq!(lower_machines(&pack(charts::stateless())), report(1, &["M"]));
}

#[test]
fn owners() {
    let mut b = Builder::new();
    let (m, k, s) = (b.name("M"), b.name("K"), b.name("S"));
    let mut late = special::machine(k, s, vec![special::state(s)]);
    late.owner = Some(m);
    let early = special::machine(m, s, vec![special::state(s)]);
    // A machine's node can own a later machine, not an earlier one.
    let p = Package { machines: vec![early.clone(), late.clone()], ..b.done() };
    let got = made(lower_machines(&pack(p.clone())));
    assert_eq!(got.nodes.len(), 1);
    assert_eq!(left_names(&got, 0), ["__sm_state", "__sm_next_state", "__sm_state", "__sm_next_state"]);
    let o = &got.origins[0];
    assert_eq!((o.node, o.name, o.activation, o.first, o.after, o.branches.len()), (m, k, false, 2, 4, 0));
    let p = Package { machines: vec![late, early], ..p };
    assert_eq!(lower_machines(&pack(p)), report(8, &["K", "M"]));
}

#[test]
fn duplicates_come_before_the_initial() {
    assert_eq!(lower_machines(&pack(charts::twins())), report(5, &["M", "A"]));
}

#[test]
fn refinements() {
    assert_eq!(lower_machines(&pack(charts::cycle())), report(7, &["M", "M"]));

    // An unknown machine; a sub-machine without states; a name made twice by qualifying.
    assert_eq!(lower_machines(&pack(special::tangled(3))), report(6, &["M", "A", "T"]));
    let Outcome::Refused(bytes) = lower_machines(&pack(special::tangled(1))) else { panic!() };
    assert_eq!(bytes, [&[2, 0, 2, 1, b'M', 3][..], b"A_T", &[1, 3], b"Sub"].concat());
    assert_eq!(lower_machines(&pack(special::tangled(0))), report(5, &["M", "A_T"]));
    // Both ends of a cycle are refused, each naming itself first.
    let Outcome::Refused(bytes) = lower_machines(&pack(special::tangled(2))) else { panic!() };
    assert_eq!(bytes, [&[2, 0, 7, 1, b'M', 1, b'M', 7, 3][..], b"Sub", &[3], b"Sub"].concat());
}

#[test]
fn region_ids_are_in_preorder() {
    let got = made(lower_machines(&pack(charts::regions())));
    let enums: Vec<&str> = got.enums.iter().map(|e| got.names.text(e.name)).collect();
    assert_eq!(enums, ["M_StateEnum", "M_r1_StateEnum", "M_r2_StateEnum", "M_r3_StateEnum"]);
    let variants: Vec<&str> = got.enums.iter().map(|e| got.names.text(e.variants[0])).collect();
    assert_eq!(variants, ["A", "P", "Q", "R"]);
    assert_eq!(right_side(&got, 0, "__sm_r1_active"), "Binary(4) __sm_state A");
    assert_eq!(right_side(&got, 0, "__sm_r2_active"), "Binary(0) __sm_r1_active Binary(4) __sm_r1_state P");
    assert_eq!(right_side(&got, 0, "__sm_r3_active"), "Binary(4) __sm_state A");
    let order: Vec<&str> = got.nodes[0].locals.iter().map(|l| got.names.text(l.name)).collect();
    assert_eq!(order[..5], ["__sm_state", "__sm_next_state", "__sm_r1_state", "__sm_r1_next", "__sm_r1_active"]);
    assert_eq!(left_names(&got, 0)[2..5], ["__sm_r1_active", "__sm_r1_state", "__sm_r1_next"]);
}

#[test]
fn history_decides_the_state_equation() {
    for history in [false, true] {
        let got = made(lower_machines(&pack(charts::nested(history))));
        let resume = "Arrow P Pre __sm_r1_next";
        let enter = "If Binary(0) __sm_r1_active Arrow Bool(true) Unary(0) Pre __sm_r1_active P";
        let want = if history { resume.to_string() } else { format!("{enter} {resume}") };
        assert_eq!(right_side(&got, 0, "__sm_r1_state"), want);
        // The last state of a chain has no test.
        let chain = "If Binary(4) __sm_r1_state P If Bool(true) Q __sm_r1_state __sm_r1_state";
        assert_eq!(right_side(&got, 0, "__sm_r1_next"), format!("If __sm_r1_active {chain} __sm_r1_state"));
    }
}

#[test]
fn covering() {
    let value = |p| right_side(&made(lower_machines(&pack(p))), 0, "o");
    // Two left names cover neither.
    assert_eq!(lower_machines(&pack(charts::covered(true, false, false))), report(4, &["M", "o", "S"]));
    // Each of the two is asked for, where it is the first output.
    let both: &[u8] = b"\x02\x00\x04\x01M\x01o\x01S\x04\x01N\x01q\x01S";
    assert_eq!(lower_machines(&pack(charts::two_left_names())), Outcome::Refused(both.to_vec()));
    // A covering region comes before the state's own equation, which is taken where there is none.
    assert_eq!(value(charts::covered(true, true, true)), "Int(2)");
    assert_eq!(value(charts::covered(true, true, false)), "Int(1)");
}

#[test]
fn limits_of_resolving() {
    let too_large = report(17, &["M"]);
    assert!(matches!(lower_machines(&pack(special::wide(512, None))), Outcome::Lowered(_)));
    assert_eq!(lower_machines(&pack(special::wide(513, None))), too_large);
    assert!(matches!(lower_machines(&pack(special::wide(511, Some(1)))), Outcome::Lowered(_)));
    assert_eq!(lower_machines(&pack(special::wide(512, Some(1)))), too_large);
    // A chain of seven refinements ends on level 8; with eight, the first machine opens level 9.
    assert!(matches!(lower_machines(&pack(special::refined(7, 1, 1))), Outcome::Lowered(_)));
    assert_eq!(lower_machines(&pack(special::refined(8, 1, 1))), report(17, &["R0"]));
    // An empty sub-machine opens its level too.
    let Outcome::Refused(bytes) = lower_machines(&pack(special::refined(8, 1, 0))) else { panic!() };
    assert_eq!(bytes[..6], [9, 0, 17, 2, b'R', b'0']);
}

#[test]
fn limits_of_qualifying() {
    // State name, target, region initial, machine initial: each alone passes 255 bytes.
    for which in 0..4 {
        let at = lower_machines(&pack(special::qualified(54, 200, which)));
        assert!(!matches!(&at, Outcome::Refused(bytes) if bytes[2..5] == [17, 1, b'M'] ), "{which}");
        let Outcome::Refused(past) = lower_machines(&pack(special::qualified(55, 200, which))) else { panic!() };
        assert!(past.windows(3).any(|w| w == [17, 1, b'M']), "{which}");
    }
    // The enum of a long machine name: accepted, and then too long to write.
    let mut b = Builder::new();
    let (m, s) = (b.name(&"m".repeat(246)), b.name("S"));
    b.p.machines.push(special::machine(m, s, vec![special::state(s)]));
    assert_eq!(lower_machines(&pack(b.done())), Outcome::TooLong);
    let mut b = Builder::new();
    let (m, s) = (b.name(&"m".repeat(245)), b.name("S"));
    b.p.machines.push(special::machine(m, s, vec![special::state(s)]));
    assert!(matches!(lower_machines(&pack(b.done())), Outcome::Lowered(_)));
}

/// A machine `R0` refined down to level 8, where the state has the refinement given.
fn at_level_8(target: &str) -> Vec<u8> {
    let mut p = special::refined(7, 1, 1);
    let known = p.names.iter().position(|n| n == target.as_bytes());
    let name = match known {
        Some(i) => i as Name,
        None => {
            p.old += 1;
            p.names.push(target.as_bytes())
        }
    };
    p.machines[7].states[0].refines = Some(name);
    pack(p)
}

/// What is reported of the first refused machine.
fn first_refused(outcome: Outcome) -> Vec<u8> {
    let Outcome::Refused(bytes) = outcome else { panic!("{outcome:?}") };
    bytes[2..].to_vec()
}

#[test]
fn what_the_walk_meets_first_is_reported() {
    // On level 8: a cycle and an unknown machine come before level 9.
    assert!(first_refused(lower_machines(&at_level_8("R0"))).starts_with(&[7, 2, b'R', b'0', 2, b'R', b'0']));
    assert!(first_refused(lower_machines(&at_level_8("Gone"))).starts_with(&[6, 2, b'R', b'0', 4, b'S']));

    // An unknown machine at the 512th state; a 513th state counts before its refinement.
    for (count, kind) in [(512, 6), (513, 17)] {
        let mut p = special::wide(count, None);
        p.machines[0].states[count - 1].refines = Some(p.machines[0].states[0].name);
        assert_eq!(first_refused(lower_machines(&pack(p)))[0], kind);
    }

    // Names are tested after the sub-machine's walk and before the next state.
    let mut p = special::qualified(55, 200, 0);
    let unknown = p.machines[0].states[0].name;
    let top = p.machines[1].clone();
    let mut next = special::state(top.initial);
    next.refines = Some(unknown);
    p.machines[1].states.push(next);
    assert!(first_refused(lower_machines(&pack(p.clone()))).ends_with(&[17, 1, b'M']));
    p.machines[1] = top;
    p.machines[0].states[0].refines = Some(unknown);
    // The sub-machine itself is refused first; then the outer one, for the same state.
    let bytes = first_refused(lower_machines(&pack(p)));
    assert_eq!((bytes[0], bytes.iter().filter(|b| **b == 17).count()), (6, 0));
}

#[test]
fn results_too_long_to_write_are_not_written() {
    assert_eq!(lower_machines(&pack(special::repeated_ports(500, 10_000))), Outcome::TooLong);
    assert_eq!(lower_activations(&pack(special::branches(3_500, true))), Outcome::TooLong);
    assert_eq!(lower_activations(&pack(special::branches(3_500, false))), Outcome::TooLong);
    // A later refusal still comes first.
    let mut p = special::branches(3_000, false);
    let mut bare = p.activations[0].clone();
    bare.branches.clear();
    p.activations.push(bare);
    assert_eq!(lower_activations(&pack(p)), report(9, &["A"]));
    let mut p = special::repeated_ports(500, 5_000);
    let mut bare = p.machines[0].clone();
    bare.states.clear();
    p.machines.push(bare);
    assert_eq!(lower_machines(&pack(p)), report(1, &["M"]));
}

// --- activations ---

fn lowered(chart: Activated) -> Outcome {
    lower_activations(&pack(chart.done()))
}

#[test]
fn an_activation_in_full() {
    let got = made(lowered(Activated::new()));
    assert!(got.activations.is_empty());
    assert_eq!(left_names(&got, 0), ["__act_A_b1", "__act_A_x1_o", "__act_A_xe_o", "o"]);
    assert_eq!(right_side(&got, 0, "__act_A_b1"), "c");
    assert_eq!(right_side(&got, 0, "__act_A_x1_o"), "when __act_A_b1 true Int(0)");
    assert_eq!(right_side(&got, 0, "__act_A_xe_o"), "when __act_A_b1 false Int(0)");
    assert_eq!(right_side(&got, 0, "o"), "merge __act_A_b1 __act_A_x1_o __act_A_xe_o");
    let o = &got.origins[0];
    let branches: Vec<&str> = o.branches.iter().map(|n| got.names.text(*n)).collect();
    assert_eq!((o.activation, o.first, o.after, branches), (true, 0, 4, vec!["B", "else"]));
}

#[test]
fn the_first_initial_stays() {
    for (first, second, want) in [(None, Some(2), 2), (Some(1), Some(2), 1), (None, None, 0), (Some(3), None, 3)] {
        // Conditions are searched before scopes.
        let got = made(lower_activations(&pack(charts::initials(first, second))));
        assert_eq!(right_side(&got, 0, "__act_A_last_v"), format!("Arrow Int({want}) Pre v"));
        assert_eq!(left_names(&got, 0).iter().filter(|n| **n == "__act_A_last_v").count(), 1);
        assert_eq!(right_side(&got, 0, "__act_A_b1"), "__act_A_last_v");
        assert_eq!(right_side(&got, 0, "__act_A_x1_o"), "__act_A_s1___act_A_last_v");
    }
}

#[test]
fn a_replaced_call_is_not_entered() {
    let got = made(lower_activations(&pack(charts::inner_last())));
    assert_eq!(right_side(&got, 0, "__act_A_last_v"), "Arrow last/1 w Pre v");
    assert!(!got.names.iter().any(|n| n == b"__act_A_last_w"));
}

#[test]
fn refused_calls_of_last() {
    let mut chart = Activated::new();
    let toks = chart.call(&[]);
    chart.a.otherwise[0].rhs = chart.expr(toks);
    assert_eq!(lowered(chart), report(14, &["A"]));

    let mut chart = Activated::new();
    let gone = chart.var("gone");
    let toks = chart.call(&[gone]);
    chart.a.otherwise[0].rhs = chart.expr(toks);
    assert_eq!(lowered(chart), report(15, &["A", "gone"]));

    let mut chart = Activated::new();
    let v = chart.var("v");
    let toks = chart.call(&[v]);
    chart.a.otherwise[0].rhs = chart.expr(toks);
    chart.b.p.nodes[0].inputs[0].ty.lens.push(3);
    assert_eq!(lowered(chart), report(16, &["A", "v"]));
}

#[test]
fn what_last_starts_from() {
    for byte in (0..14u8).filter(|b| *b != TYPE_ARRAY) {
        let mut chart = Activated::new();
        let e = chart.b.name("E");
        let variants = ["Red", "Green"].map(|n| chart.b.name(n)).to_vec();
        // Of enums with one name the last that has variants counts.
        let first = Enum { name: e, variants: vec![e] };
        let empty = Enum { name: e, variants: vec![] };
        chart.b.p.enums = vec![first, Enum { name: e, variants }, empty];
        let base = if byte == TYPE_NAMED { Base::Named(e) } else { Base::Plain(byte) };
        chart.b.p.nodes[0].inputs[0].ty = Type { lens: vec![], base };
        let v = chart.var("v");
        let toks = chart.call(&[v]);
        chart.a.otherwise[0].rhs = chart.expr(toks);
        let want = match byte {
            0 => "Bool(false)",
            1..=8 => "Int(0)",
            9 | 10 => "Float(0)",
            11 => "Char(0)",
            _ => "Red",
        };
        assert_eq!(right_side(&made(lowered(chart)), 0, "__act_A_last_v"), format!("Arrow {want} Pre v"));
    }
}

#[test]
fn an_equation_without_left_names() {
    let mut chart = Activated::new();
    let rhs = chart.a.otherwise[0].rhs;
    chart.a.otherwise.push(Equation { lhs: vec![], rhs });
    assert_eq!(lowered(chart), report(18, &["A"]));
    // The other checks come first, and see what it reads.
    let mut chart = Activated::new();
    let gone = chart.var("gone");
    let toks = chart.call(&[gone]);
    let rhs = chart.expr(toks);
    chart.a.branches[0].equations.push(Equation { lhs: vec![], rhs });
    assert_eq!(lowered(chart), report(15, &["A", "gone"]));
}

#[test]
fn a_scope_reads_samples() {
    let got = made(lower_activations(&pack(charts::clocks())));
    // Clock names are read too, in preorder.
    assert_eq!(left_names(&got, 0)[2..], ["__act_A_se_c", "__act_A_se_v", "__act_A_se_w", "__act_A_xe_o", "o"]);
    assert_eq!(right_side(&got, 0, "__act_A_se_v"), "when __act_A_b1 false v");
    assert_eq!(
        right_side(&got, 0, "__act_A_xe_o"),
        "when __act_A_se_c false Binary(10) __act_A_se_v Binary(10) __act_A_se_w __act_A_se_v"
    );
}

#[test]
fn deep_expressions_are_lowered() {
    let mut rng = harness::rng::Rng::new(5);
    let mut lowered = 0;
    for _ in 0..12 {
        let outcome = pack(special::deep(&mut rng, 65_000));
        lowered += matches!(lower_activations(&outcome), Outcome::Lowered(_)) as usize;
        lowered += matches!(lower_machines(&outcome), Outcome::Lowered(_)) as usize;
    }
    assert!(lowered > 6, "{lowered}");
    // As deep as a pack can be.
    let mut b = Builder::new();
    let (n, v) = (b.name("N"), b.name("v"));
    let rhs = b.p.expr((0..65_480).map(|_| Tok::Pre).chain([Tok::Var(v)]));
    let mut node = special::node(n);
    node.equations.push(Equation { lhs: vec![v], rhs });
    b.p.nodes.push(node);
    let deepest = pack(b.done());
    assert_eq!(lower_activations(&deepest), Outcome::Lowered(deepest));
}
