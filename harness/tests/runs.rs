//! Lowered equations run cycle by cycle: the charts that speak of runs.

use harness::encode::encode_any;
use harness::package::*;
use harness::{activations, answer::Outcome, charts, decode, machines};
use std::collections::HashMap;

#[derive(Debug, Clone, PartialEq)]
enum Value {
    /// Not on the clock in this cycle.
    Absent,
    Bool(bool),
    Int(i64),
    /// A name that nothing defines: an enum value.
    Name(String),
}

/// The first node's equations, and what its inputs hold in each cycle.
struct Run<'a> {
    p: &'a Package,
    inputs: HashMap<&'a str, Vec<Value>>,
}

impl Run<'_> {
    fn var(&self, name: &str, t: usize) -> Value {
        if let Some(column) = self.inputs.get(name) {
            return column[t].clone();
        }
        let defines = |e: &&Equation| self.p.names.text(e.lhs[0]) == name;
        match self.p.nodes[0].equations.iter().find(defines) {
            Some(e) => self.eval(self.p.toks(e.rhs), t).0,
            None => Value::Name(name.to_string()),
        }
    }

    /// The value, and the tokens after the expression.
    fn eval<'t>(&self, toks: &'t [Tok], t: usize) -> (Value, &'t [Tok]) {
        let (tok, mut rest) = toks.split_first().unwrap();
        if *tok == Tok::Pre {
            // The value in the latest earlier cycle in which there was one.
            let earlier = (0..t).rev().map(|s| self.eval(rest, s).0).find(|v| *v != Value::Absent);
            return (earlier.unwrap_or(Value::Absent), after(rest));
        }
        let mut args = Vec::new();
        for _ in 0..tok.arity() {
            let (value, after) = self.eval(rest, t);
            args.push(value);
            rest = after;
        }
        let name = |n: &Name| self.p.names.text(*n);
        let value = match tok {
            Tok::Const(Lit::Bool(b)) => Value::Bool(*b),
            Tok::Const(Lit::Int(i)) => Value::Int(*i),
            Tok::Var(n) => self.var(name(n), t),
            Tok::Arrow => args[(t > 0) as usize].clone(),
            Tok::If => args[if args[0] == Value::Bool(true) { 1 } else { 2 }].clone(),
            Tok::Unary(0) => match args[0] {
                Value::Bool(b) => Value::Bool(!b),
                _ => Value::Absent,
            },
            Tok::Binary(0) => Value::Bool(args == [Value::Bool(true), Value::Bool(true)]),
            Tok::Binary(4) => Value::Bool(args[0] == args[1]),
            Tok::When(n, on) => match self.var(name(n), t) {
                clock if clock == Value::Bool(*on) => args[0].clone(),
                _ => Value::Absent,
            },
            Tok::Merge(n) => args[(self.var(name(n), t) != Value::Bool(true)) as usize].clone(),
            other => panic!("{other:?} has no meaning here"),
        };
        (value, rest)
    }
}

/// The tokens after the first expression.
fn after(mut toks: &[Tok]) -> &[Tok] {
    let mut owed = 1;
    while owed > 0 {
        owed += toks[0].arity();
        owed -= 1;
        toks = &toks[1..];
    }
    toks
}

fn made(outcome: Option<Outcome>) -> Package {
    let Some(Outcome::Lowered(pack)) = outcome else { panic!("{outcome:?}") };
    decode::decode(&pack).unwrap()
}

#[test]
fn a_region_restarts_or_resumes() {
    for (history, want) in [(false, ["P", "Q", "Q", "P"]), (true, ["P", "Q", "Q", "Q"])] {
        let p = made(machines::expected(&encode_any(&charts::nested(history)).0));
        // On in cycles 0, 1 and 3.
        let swap = [false, true, true, false].map(Value::Bool).to_vec();
        let run = Run { p: &p, inputs: HashMap::from([("swap", swap)]) };
        let active: Vec<Value> = (0..4).map(|t| run.var("__sm_r1_active", t)).collect();
        assert_eq!(active, [true, true, false, true].map(Value::Bool));
        let states: Vec<Value> = (0..4).map(|t| run.var("__sm_r1_state", t)).collect();
        assert_eq!(states, want.map(|s| Value::Name(s.to_string())), "history {history}");
    }
}

#[test]
fn the_first_true_branch_is_taken() {
    let p = made(activations::expected(&encode_any(&charts::two_branches()).0));
    let column = |bits: [bool; 4]| bits.map(Value::Bool).to_vec();
    let inputs = HashMap::from([("c", column([true, true, false, false])), ("d", column([true, false, true, false]))]);
    let run = Run { p: &p, inputs };
    let got: Vec<Value> = (0..4).map(|t| run.var("o", t)).collect();
    assert_eq!(got, [1, 1, 2, 3].map(Value::Int));
}
