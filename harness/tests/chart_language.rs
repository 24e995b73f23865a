//! The chart language: what is written is what is made, and what is wrong with a chart is said with its line.

use harness::decode::decode;
use harness::make;
use harness::package::*;
use harness::rng::Rng;

/// The package that a chart's pack reads back as.
fn made(text: &str) -> Package {
    decode(&make::pack(text).unwrap_or_else(|e| panic!("{e}\n{text}"))).unwrap()
}

#[test]
fn machine_m_is_the_specifications_pack() {
    assert_eq!(make::pack("machine M\n  initial S\n  state S\n").unwrap(), harness::charts::M);
}

#[test]
fn a_machine_is_as_written() {
    let p = made(
        "-- a comment
machine M in N
  input i: bool   -- another
  output o: int8, q: T^2
  local l: char
  initial A
  state A
    region history
      initial C
      state C
    until i and not l then B
    o = 1
    refines R
  state B
",
    );
    let name = |n: Name| p.names.text(n);
    let [m] = &p.machines[..] else { panic!("{:?}", p.machines) };
    assert_eq!((name(m.name), name(m.owner.unwrap()), name(m.initial)), ("M", "N", "A"));
    assert_eq!((name(m.inputs[0].name), &m.inputs[0].ty), ("i", &Type::plain(0)));
    let [o, q] = &m.outputs[..] else { panic!("{:?}", m.outputs) };
    assert_eq!((name(o.name), &o.ty, name(q.name), &q.ty.lens), ("o", &Type::plain(1), "q", &vec![2]));
    assert_eq!((name(m.locals[0].name), &m.locals[0].ty), ("l", &Type::plain(11)));
    let [a, b] = &m.states[..] else { panic!("{:?}", m.states) };
    assert_eq!((name(a.name), name(a.refines.unwrap()), name(b.name), b.refines), ("A", "R", "B", None));
    assert_eq!((name(a.equations[0].lhs[0]), p.toks(a.equations[0].rhs)), ("o", &[Tok::Const(Lit::Int(1))][..]));
    let [t] = &a.transitions[..] else { panic!("{:?}", a.transitions) };
    let guard = [Tok::Binary(0), Tok::Var(m.inputs[0].name), Tok::Unary(0), Tok::Var(m.locals[0].name)];
    assert_eq!((name(t.target), p.toks(t.guard)), ("B", &guard[..]));
    let [r] = &a.regions[..] else { panic!("{:?}", a.regions) };
    assert_eq!((name(r.initial), r.history, r.states.len()), ("C", true, 1));
}

#[test]
fn all_other_sections_are_as_written() {
    let p = made(
        "enum E: X, Y
function F
  input a: E
  output b: E
  b = a
activation A in F
  output b: E
  branch One if a = X
    b = Y
  else
    b = last(b,
        X)
origin activation A in F equations 3 until 65535 branches One, `else`
",
    );
    let name = |n: Name| p.names.text(n);
    assert_eq!(p.enums[0].variants.iter().map(|v| name(*v)).collect::<Vec<_>>(), ["X", "Y"]);
    assert_eq!((name(p.nodes[0].name), p.nodes[0].kind, p.nodes[0].equations.len()), ("F", 0, 1));
    let a = &p.activations[0];
    assert_eq!((name(a.name), name(a.owner), name(a.branches[0].name)), ("A", "F", "One"));
    let [x, b] = [p.enums[0].variants[0], a.outputs[0].name];
    assert_eq!(p.toks(a.branches[0].condition), [Tok::Binary(4), Tok::Var(p.nodes[0].inputs[0].name), Tok::Var(x)]);
    let [Tok::Call(last, 2), rest @ ..] = p.toks(a.otherwise[0].rhs) else { panic!("{:?}", p.toks) };
    assert_eq!((name(*last), rest), ("last", &[Tok::Var(b), Tok::Var(x)][..]));
    let o = &p.origins[0];
    assert_eq!((o.activation, name(o.name), name(o.node), o.first, o.after), (true, "A", "F", 3, 65_535));
    assert_eq!(o.branches.iter().map(|n| name(*n)).collect::<Vec<_>>(), ["One", "else"]);
}

#[test]
fn the_chart_of_the_readme_is_read() {
    let readme = include_str!("../../samples/README.md");
    let (_, language) = readme.split_once("## The chart language").unwrap();
    let lines = language.lines().filter_map(|line| line.strip_prefix("    "));
    let p = made(&lines.map(|line| format!("{line}\n")).collect::<String>());
    let counts = [p.enums.len(), p.nodes.len(), p.machines.len(), p.activations.len(), p.origins.len()];
    assert_eq!(counts, [1; 5]);
    let shut = &p.machines[0].states[0];
    assert_eq!((shut.transitions.len(), shut.regions.len(), shut.refines.is_some()), (1, 1, true));
}

/// The tokens of an equation's right side; variables a, b, c are names 1, 2, 3.
fn right(text: &str) -> Vec<Tok> {
    let p = made(&format!("operator N\n  input a: bool, b: bool, c: bool\n  () = {text}\n"));
    p.toks(p.nodes[0].equations[0].rhs).to_vec()
}

#[test]
fn operations_without_all_parentheses() {
    let (and, or, not) = (Tok::Binary(0), Tok::Binary(1), Tok::Unary(0));
    let [a, b, c] = [1, 2, 3].map(Tok::Var);
    // A repeated operation is taken from the left.
    assert_eq!(right("a and b and c"), [and.clone(), and.clone(), a.clone(), b.clone(), c.clone()]);
    assert_eq!(right("a and (b or c)"), [and.clone(), a.clone(), or, b.clone(), c.clone()]);
    assert_eq!(right("not a and b"), [and, not, a.clone(), b.clone()]);
    assert_eq!(right("a -> pre b"), [Tok::Arrow, a.clone(), Tok::Pre, b.clone()]);
    assert_eq!(right("if a then b else if b then a else c")[3..], [Tok::If, b, a.clone(), c]);
    assert_eq!(right("a -1"), [Tok::Binary(11), a, Tok::Const(Lit::Int(1))]);
    assert_eq!(right("-1"), [Tok::Const(Lit::Int(-1))]);
    assert_eq!(right("- 1"), [Tok::Unary(1), Tok::Const(Lit::Int(1))]);
}

/// Charts that are wrong, the line of the fault, and what is said of it.
const WRONG: [(&str, usize, &str); 20] = [
    (
        "machin M\n",
        1,
        "expected enum, function, operator, imported, machine, activation or origin, found the name machin",
    ),
    ("machine M\n  initial S\n  state\n", 3, "expected a state's name, found the end of the line"),
    ("\nmachine M\n  state S\n", 2, "expected a line `initial NAME` below this one, found none"),
    (
        "machine M\n  initial S\n  state S\n    until a then\n",
        4,
        "expected the target's name, found the end of the line",
    ),
    ("machine M\n  initial S\n  stat S\n", 3, "expected input, output, local, initial or state, found the name stat"),
    (
        "operator N\n  a = b and c or d\n",
        2,
        "expected the end of the line; two operations need parentheses, found `or`",
    ),
    ("operator N\n  a = (b and c or d)\n", 2, "expected `)` or `,`; two operations need parentheses, found `or`"),
    ("operator N\n  a = f(b\n    c)\n", 3, "expected `,`, found the name c"),
    ("operator N\n  a b\n", 2, "expected `=`, found the name b"),
    ("operator N\n  a = \n", 2, "expected an expression, found the end of the line"),
    ("operator N\n  input a\n", 2, "expected `:`, found the end of the line"),
    ("operator N\n  input a: int9^x\n", 2, "expected an array's length, found the name x"),
    (
        "operator N\n  a = b\n   c = d\n",
        3,
        "expected the end of line 2, which goes on in deeper lines, found the name c",
    ),
    ("operator N\n  a = 3x\n", 2, "expected a number, found 3x; a name that begins with a digit stands in backquotes"),
    ("operator N\n  a = 9223372036854775808\n", 2, "expected a number of 64 bits, found 9223372036854775808"),
    ("operator N\n\ta = b\n", 2, "expected spaces before the first word, found a tab"),
    ("operator N\n  a = b ? c\n", 2, "expected a name, a number or a sign, found '?'"),
    ("activation A\n", 1, "expected `in`, found the end of the line"),
    ("activation A in N\n  branch B\n", 2, "expected `if`, found the end of the line"),
    ("origin machine M in N equations 0 until 65536\n", 1, "expected a number up to 65,535, found 65536"),
];

#[test]
fn faults_are_said_with_their_line() {
    for (text, line, says) in WRONG {
        let error = make::pack(text).expect_err(text);
        assert_eq!(error.to_string(), format!("line {line}: {says}"), "{text}");
    }
}

#[test]
fn columns_must_agree() {
    let error = make::pack("machine M\n  initial S\n  state S\n   state T\n  state U\n").unwrap_err();
    assert_eq!(error.to_string(), "line 4: expected until, region, refines or an equation, found `state`");
    let error = make::pack("machine M\n    initial S\n  state S\n").unwrap_err();
    assert_eq!(error.to_string(), "line 3: expected a line indented by 4, found 2");
}

#[test]
fn limits_are_said() {
    let deep = |levels: usize| {
        let mut text = "machine M\n  initial S0\n  state S0\n".to_string();
        for level in 1..levels {
            let column = " ".repeat(4 * level);
            text += &format!("{column}region\n{column}  initial S{level}\n{column}  state S{level}\n");
        }
        text
    };
    assert_eq!(decode(&make::pack(&deep(8)).unwrap()).unwrap().machines.len(), 1);
    let error = make::pack(&deep(9)).unwrap_err();
    assert_eq!(error.to_string(), "line 25: a region of level 9 opens: 8 levels are the most");
    let long = make::pack(&format!("enum {}:\n", "x".repeat(256))).unwrap_err();
    assert_eq!(long.says, "the pack would be longer than 65,536 bytes, or a name than 255");
    let nested = |depth: usize| format!("operator N\n  a = {}b{}\n", "(".repeat(depth), ")".repeat(depth));
    assert!(make::pack(&nested(400)).is_ok());
    assert!(make::pack(&nested(70_000)).unwrap_err().says.starts_with("expected an expression of at most 500 levels"));
}

/// A chart with letters lost, doubled or changed is read or refused, and what is read is a whole pack.
#[test]
fn no_chart_stops_the_reader() {
    let chart = include_str!("../../samples/duress.chart");
    let signs = b"()[]{}<>=,:;.^`'#\\-0aA \n\t\xc3\xa9";
    let mut rng = Rng::new(1);
    let (mut read, mut refused) = (0, 0);
    for _ in 0..3_000 {
        let mut bytes = chart.as_bytes().to_vec();
        for _ in 0..rng.range(1, 3) {
            let at = rng.below(bytes.len());
            match rng.below(3) {
                0 => drop(bytes.remove(at)),
                1 => bytes.insert(at, rng.pick(signs)),
                _ => bytes[at] = rng.pick(signs),
            }
        }
        match make::pack(&String::from_utf8_lossy(&bytes)) {
            Ok(pack) => {
                assert!(decode(&pack).is_ok(), "{}", String::from_utf8_lossy(&bytes));
                read += 1;
            }
            Err(e) => {
                assert!(e.line >= 1 && e.line <= chart.lines().count() + 3, "{e}");
                refused += 1;
            }
        }
    }
    assert!(read > 300 && refused > 300, "{read} read, {refused} refused");
}
