//! The text of packages against what was worked out by hand, and the chart language that reads it back.

use harness::charts;
use harness::decode::decode;
use harness::encode::encode_any;
use harness::gen::{self, Builder, Size};
use harness::package::*;
use harness::rng::Rng;
use harness::show::{self, dot, page, steps};
use harness::{make, special};

/// The pack with its names in order of first use, and without those that nothing uses.
fn by_use(mut p: Package) -> Vec<u8> {
    p.old = 0;
    encode_any(&p).0
}

/// What `show --lower` prints of a package.
fn lowered(p: &Package) -> String {
    let pack = encode_any(p).0;
    steps::text(&pack, decode(&pack).unwrap())
}

#[test]
fn machine_m_before_and_after() {
    let expected = "\
== The package

machine M
  initial S
  state S  -- initial

== After lowering machines

enum M_StateEnum: S

operator M
  local __sm_state: M_StateEnum, __sm_next_state: M_StateEnum
  __sm_state = (S -> (pre __sm_next_state))
  __sm_next_state = __sm_state

== After lowering activations: as before, there are none
";
    assert_eq!(steps::text(&charts::M, decode(&charts::M).unwrap()), expected);
}

#[test]
fn regions_with_and_without_history() {
    let expected = |region: &str| {
        format!(
            "\
machine M
  input swap: bool
  initial On
  state On  -- initial
    until swap then Off
    {region}
      initial P
      state P  -- initial
        until true then Q
      state Q
  state Off
    until swap then On
"
        )
    };
    assert_eq!(page::package(&charts::nested(false)), expected("region"));
    assert_eq!(page::package(&charts::nested(true)), expected("region history"));
}

#[test]
fn a_last_before_and_after() {
    let expected = "\
== The package

operator N
  input v: int64, w: int64, c: bool
  output o: int64

activation A in N
  output o: int64
  branch B if last(v)
    o = last(v, 2)
  else
    o = 0

== After lowering machines: as before, there are none

== After lowering activations

operator N
  input v: int64, w: int64, c: bool
  output o: int64
  local __act_A_last_v: int64, __act_A_b1: bool, __act_A_s1___act_A_last_v: int64,
      __act_A_x1_o: int64, __act_A_xe_o: int64
  __act_A_last_v = (2 -> (pre v))
  __act_A_b1 = __act_A_last_v
  __act_A_s1___act_A_last_v = (__act_A_last_v when __act_A_b1)
  __act_A_x1_o = __act_A_s1___act_A_last_v
  __act_A_xe_o = (0 when not __act_A_b1)
  o = merge(__act_A_b1, __act_A_x1_o, __act_A_xe_o)

origin activation A in N equations 0 until 6 branches B, `else`
";
    assert_eq!(lowered(&charts::initials(None, Some(2))), expected);
}

#[test]
fn a_refused_chart_has_its_report_in_words() {
    let expected = "\
== Lowering machines: refused

number      6
value       7 (bytes of the report)
it says     some definitions are refused; the report has each with its kind and names, the output is as it was
what to do  redraw what the report names
the report
  7 RefineCycle (M, M): machine M: its refinements come back to machine M

== Lowering activations: not made, since machines are refused
";
    let text = lowered(&charts::cycle());
    assert!(text.ends_with(expected), "{text}");
}

/// One expression of each kind, and its text.
fn every_kind(b: &mut Builder) -> Vec<(Vec<Tok>, &'static str)> {
    let [a, x, f, g] = ["a", "x", "f", "if"].map(|n| b.name(n));
    let (va, vx) = (Tok::Var(a), Tok::Var(x));
    let int = |i| Tok::Const(Lit::Int(i));
    let array = Type { lens: vec![3, 4], base: Base::Plain(1) };
    vec![
        (vec![Tok::Const(Lit::Bool(true))], "true"),
        (vec![Tok::Unary(1), int(-5)], "(- -5)"),
        (vec![Tok::Const(Lit::Float(0.5f64.to_bits()))], "0.5"),
        (vec![Tok::Const(Lit::Float(f64::INFINITY.to_bits()))], "#7ff0000000000000"),
        (vec![Tok::Const(Lit::Char(b'a'))], "'a'"),
        (vec![Tok::Const(Lit::Char(b' '))], "'\\x20'"),
        (vec![Tok::Var(g)], "`if`"),
        (vec![Tok::Unary(0), va.clone()], "(not a)"),
        (vec![Tok::Binary(3), va.clone(), Tok::Binary(0), vx.clone(), va.clone()], "(a => (x and a))"),
        (vec![Tok::If, va.clone(), int(1), int(2)], "(if a then 1 else 2)"),
        (vec![Tok::Arrow, int(0), Tok::Pre, va.clone()], "(0 -> (pre a))"),
        (vec![Tok::Call(f, 2), va.clone(), vx.clone()], "f(a, x)"),
        (vec![Tok::Call(f, 0)], "f()"),
        (vec![Tok::Field(g), Tok::Index, va.clone(), int(1)], "a[1].`if`"),
        (vec![Tok::Tuple(0)], "()"),
        (vec![Tok::Tuple(1), va.clone()], "(a,)"),
        (vec![Tok::Tuple(2), va.clone(), vx.clone()], "(a, x)"),
        (vec![Tok::Array(2), va.clone(), vx.clone()], "[a, x]"),
        (vec![Tok::Struct(Box::new((f, vec![a, x]))), int(1), int(2)], "f{a: 1, x: 2}"),
        (vec![Tok::Cast(Box::new(array)), va.clone()], "(a :> int8^4^3)"),
        (vec![Tok::When(x, true), va.clone()], "(a when x)"),
        (vec![Tok::When(x, false), va.clone()], "(a when not x)"),
        (vec![Tok::Merge(x), va.clone(), int(0)], "merge(x, a, 0)"),
        (vec![Tok::Iterate { fold: false, node: f, init: false, arrays: 2 }, va.clone(), vx.clone()], "map<f>(a, x)"),
        (vec![Tok::Iterate { fold: true, node: f, init: true, arrays: 1 }, int(0), va.clone()], "fold<f>(0; a)"),
        (vec![Tok::Iterate { fold: true, node: f, init: true, arrays: 0 }, int(0)], "fold<f>(0;)"),
    ]
}

#[test]
fn every_kind_of_expression() {
    let mut b = Builder::new();
    let (n, all) = (b.name("N"), every_kind(&mut b));
    let mut node = special::node(n);
    let mut expected = "operator N\n".to_string();
    for (toks, text) in all {
        node.equations.push(Equation { lhs: vec![], rhs: b.p.expr(toks) });
        expected += &format!("  () = {text}\n");
    }
    b.p.nodes.push(node);
    let p = b.done();
    assert_eq!(page::package(&p), expected);
    assert_eq!(make::pack(&expected).unwrap(), by_use(p));
}

/// In the order of the reference's `BinOp`, `Type` and `NodeKind`.
#[test]
fn every_operator_type_and_kind() {
    let operators = "and or xor => = <> < <= > >= + - * / mod land lor lxor lsl lsr";
    let types = "bool int8 int16 int32 int64 uint8 uint16 uint32 uint64 float32 float64 char";
    let mut b = Builder::new();
    let a = b.name("a");
    let mut expected = String::new();
    for (kind, word) in ["function", "operator", "imported"].iter().enumerate() {
        let mut node = Node { kind: kind as u8, ..special::node(a) };
        let port = |byte| Port { name: a, ty: Type::plain(byte) };
        node.inputs = (4 * kind as u8..).take(4).map(port).collect();
        let ports: Vec<String> = types.split(' ').skip(4 * kind).take(4).map(|t| format!("a: {t}")).collect();
        expected += &format!("{}{word} a\n  input {}\n", if kind > 0 { "\n" } else { "" }, ports.join(", "));
        for (op, text) in operators.split(' ').enumerate().filter(|(op, _)| op % 3 == kind) {
            let rhs = b.p.expr([Tok::Binary(op as u8), Tok::Var(a), Tok::Const(Lit::Int(1))]);
            node.equations.push(Equation { lhs: vec![a, a], rhs });
            expected += &format!("  a, a = (a {text} 1)\n");
        }
        b.p.nodes.push(node);
    }
    let p = b.done();
    assert_eq!(page::package(&p), expected);
    assert_eq!(make::pack(&expected).unwrap(), by_use(p));
}

#[test]
fn what_is_shown_is_read_back() {
    let mut rng = Rng::new(1);
    for i in 0..900 {
        let p = gen::package(&mut rng, [Size::Small, Size::Medium, Size::Large][i % 3]);
        if decode(&encode_any(&p).0).is_err() {
            continue;
        }
        let text = page::package(&p);
        let made = make::package(&text).unwrap_or_else(|e| panic!("package {i}: {e}\n{text}"));
        assert_eq!(by_use(made), by_use(p), "package {i}:\n{text}");
    }
}

/// A node with one equation of these tokens over and over, around variables.
fn nested(around: &[Tok], after: &[Tok], times: usize) -> Package {
    let mut b = Builder::new();
    let v = b.name("v");
    let inside = std::iter::repeat_n(around, times).flatten().cloned();
    let rhs = b.p.expr(inside.chain([Tok::Var(v)]).chain(std::iter::repeat_n(after, times).flatten().cloned()));
    let mut node = special::node(v);
    node.equations.push(Equation { lhs: vec![v], rhs });
    b.p.nodes.push(node);
    b.done()
}

#[test]
fn no_depth_uses_up_the_stack() {
    let v = Tok::Var(0);
    let deep = [
        ("(pre ", nested(&[Tok::Pre], &[], 65_400)),
        (" and ", nested(&[Tok::Binary(0)], std::slice::from_ref(&v), 13_000)),
        (" else ", nested(&[Tok::If, v.clone(), v.clone()], &[], 9_300)),
        (" then", nested(&[Tok::If, v.clone()], std::slice::from_ref(&v), 9_300)),
        ("merge(", nested(&[Tok::Merge(0), v.clone()], &[], 10_900)),
        (".v", nested(&[Tok::Field(0)], &[], 21_800)),
    ];
    for (text, p) in deep {
        let pack = encode_any(&p).0;
        assert!((60_000..=MAX_PACK).contains(&pack.len()), "{}", pack.len());
        let levels = p.toks.iter().filter(|t| t.tag() == p.toks[0].tag()).count();
        let work = move || (page::package(&p), dot::picture(&steps::steps(&pack, p)).unwrap());
        let thread = std::thread::Builder::new().stack_size(2 << 20).spawn(work).unwrap();
        let (shown, picture) = thread.join().unwrap();
        let flat = shown.split_whitespace().collect::<Vec<_>>().join(" ");
        assert_eq!(flat.matches(text).count(), levels, "{text}");
        assert!(shown.len() < 3_000_000, "{text}: {} bytes", shown.len());
        assert!(picture.len() < 100_000, "{text}: {} bytes", picture.len());
    }
}

#[test]
fn what_cannot_be_read_is_answered_in_words() {
    let expected = "\
The pack is refused.
number      3
value       4 (offset of the field)
it says     an illegal value or index; a bad character; a name that is empty or repeated
what to do  the maker of the pack is at fault at this byte
met at      character
";
    assert_eq!(show::unreadable(&[1, 0, 2, b'a', b'-']).unwrap(), expected);
    assert_eq!(show::unreadable(&charts::M), None);
}
