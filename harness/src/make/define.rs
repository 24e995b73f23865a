//! A chart's definitions, line by line, into a package.

use super::exprs::Cursor;
use super::lines::Line;
use super::scan::Token;
use super::Error;
use crate::gen::Builder;
use crate::package::*;
use crate::show::words::KINDS;

type Read<T> = Result<T, Error>;

pub fn package(lines: Vec<Line>) -> Read<Package> {
    let mut maker = Maker { lines, at: 0, b: Builder::new() };
    maker.block(None, Maker::definition)?;
    Ok(maker.b.done())
}

struct Maker {
    lines: Vec<Line>,
    at: usize,
    b: Builder,
}

impl Maker {
    /// The lines deeper than this one, each read by `item`; they stand at one column.
    fn block(&mut self, above: Option<usize>, mut item: impl FnMut(&mut Self) -> Read<()>) -> Read<()> {
        let mut column = None;
        while let Some(line) = self.lines.get(self.at) {
            if above.is_some_and(|above| line.indent <= above) {
                break;
            }
            let column = *column.get_or_insert(line.indent);
            if line.indent != column {
                let found = format!("{}", line.indent);
                return Err(Error::expected(line.number, &format!("a line indented by {column}"), &found));
            }
            item(self)?;
        }
        Ok(())
    }

    fn starts(&self, word: &str) -> bool {
        self.lines[self.at].tokens[0].is(word)
    }

    /// The line here and its column, past which lines belong to it; with an open bracket it goes on in those.
    fn head(&mut self) -> (usize, Cursor<'_>) {
        self.joined(|open| open > 0)
    }

    /// The line here with all lines that are deeper.
    fn leaf(&mut self) -> Cursor<'_> {
        self.joined(|_| true).1
    }

    fn joined(&mut self, goes_on: impl Fn(i32) -> bool) -> (usize, Cursor<'_>) {
        let indent = self.lines[self.at].indent;
        let mut tokens = Vec::new();
        let mut open = 0;
        loop {
            let line = &mut self.lines[self.at];
            open += line.tokens.iter().map(bracket).sum::<i32>();
            tokens.extend(std::mem::take(&mut line.tokens).into_iter().map(|token| (line.number, token)));
            self.at += 1;
            if !(goes_on(open) && self.lines.get(self.at).is_some_and(|line| line.indent > indent)) {
                return (indent, Cursor::new(&mut self.b, tokens));
            }
        }
    }

    fn definition(&mut self) -> Read<()> {
        if self.starts("enum") {
            self.enumeration()
        } else if self.starts("machine") {
            self.machine()
        } else if self.starts("activation") {
            self.activation()
        } else if self.starts("origin") {
            self.origin()
        } else if let Some(kind) = KINDS.iter().position(|kind| self.starts(kind)) {
            self.node(kind as u8)
        } else {
            self.leaf().wrong("enum, function, operator, imported, machine, activation or origin")
        }
    }

    fn enumeration(&mut self) -> Read<()> {
        let mut c = self.leaf();
        c.need("enum")?;
        let name = c.name("an enum's name")?;
        c.need(":")?;
        let variants = if c.end().is_ok() { vec![] } else { c.names("a variant")? };
        c.end()?;
        self.b.p.enums.push(Enum { name, variants });
        Ok(())
    }

    fn node(&mut self, kind: u8) -> Read<()> {
        let (column, mut c) = self.head();
        c.need(KINDS[kind as usize])?;
        let name = c.name("a node's name")?;
        c.end()?;
        let (mut ports, mut equations) = (Ports::default(), vec![]);
        self.block(Some(column), |maker| {
            if !maker.ports(&mut ports)? {
                equations.push(maker.equation("input, output, local or an equation")?);
            }
            Ok(())
        })?;
        let Ports { inputs, outputs, locals } = ports;
        self.b.p.nodes.push(Node { name, kind, inputs, outputs, locals, equations });
        Ok(())
    }

    /// Whether the line here has ports; they are taken then.
    fn ports(&mut self, into: &mut Ports) -> Read<bool> {
        let lists = [("input", &mut into.inputs), ("output", &mut into.outputs), ("local", &mut into.locals)];
        for (word, list) in lists {
            if self.starts(word) {
                let mut c = self.leaf();
                c.need(word)?;
                list.extend(c.ports()?);
                c.end()?;
                return Ok(true);
            }
        }
        Ok(false)
    }

    /// `a = EXPRESSION`, `a, b = EXPRESSION`, `() = EXPRESSION`.
    fn equation(&mut self, else_expected: &str) -> Read<Equation> {
        let mut c = self.leaf();
        let lhs = if c.word("(") {
            c.need(")")?;
            vec![]
        } else {
            c.names(else_expected)?
        };
        c.need("=")?;
        let rhs = c.expr()?;
        c.end()?;
        Ok(Equation { lhs, rhs })
    }

    fn machine(&mut self) -> Read<()> {
        let (column, mut c) = self.head();
        c.need("machine")?;
        let name = c.name("a machine's name")?;
        let owner = if c.word("in") { Some(c.name("the owner's name")?) } else { None };
        c.end()?;
        let line = self.lines[self.at - 1].number;
        let mut ports = Ports::default();
        let mut states = States::default();
        self.block(Some(column), |maker| {
            if maker.ports(&mut ports)? {
                return Ok(());
            }
            maker.state_line(&mut states, 1, "input, output, local, initial or state")
        })?;
        let Ports { inputs, outputs, locals } = ports;
        let (initial, states) = states.done(line)?;
        self.b.p.machines.push(Machine { name, owner, inputs, outputs, locals, initial, states });
        Ok(())
    }

    /// `initial NAME`, or a state with what belongs to it.
    fn state_line(&mut self, into: &mut States, level: usize, expected: &str) -> Read<()> {
        if self.starts("initial") {
            let mut c = self.leaf();
            c.need("initial")?;
            into.initial = Some(c.name("the initial state's name")?);
            return c.end();
        }
        if !self.starts("state") {
            return self.leaf().wrong(expected);
        }
        let state = self.state(level)?;
        into.states.push(state);
        Ok(())
    }

    fn state(&mut self, level: usize) -> Read<State> {
        let (column, mut c) = self.head();
        c.need("state")?;
        let name = c.name("a state's name")?;
        c.end()?;
        let mut state = State { name, equations: vec![], transitions: vec![], regions: vec![], refines: None };
        self.block(Some(column), |maker| maker.in_state(&mut state, level))?;
        Ok(state)
    }

    fn in_state(&mut self, state: &mut State, level: usize) -> Read<()> {
        if self.starts("until") {
            let mut c = self.leaf();
            c.need("until")?;
            let guard = c.expr()?;
            c.need("then")?;
            let target = c.name("the target's name")?;
            state.transitions.push(Transition { guard, target });
            c.end()
        } else if self.starts("region") {
            let region = self.region(level + 1)?;
            state.regions.push(region);
            Ok(())
        } else if self.starts("refines") {
            let mut c = self.leaf();
            c.need("refines")?;
            state.refines = Some(c.name("a machine's name")?);
            c.end()
        } else {
            state.equations.push(self.equation("until, region, refines or an equation")?);
            Ok(())
        }
    }

    fn region(&mut self, level: usize) -> Read<Region> {
        let line = self.lines[self.at].number;
        if level > MAX_LEVEL {
            return Err(Error {
                line,
                says: format!("a region of level {level} opens: {MAX_LEVEL} levels are the most"),
            });
        }
        let (column, mut c) = self.head();
        c.need("region")?;
        let history = c.word("history");
        c.end()?;
        let mut states = States::default();
        self.block(Some(column), |maker| maker.state_line(&mut states, level, "initial or state"))?;
        let (initial, states) = states.done(line)?;
        Ok(Region { initial, history, states })
    }

    fn activation(&mut self) -> Read<()> {
        let (column, mut c) = self.head();
        c.need("activation")?;
        let name = c.name("an activation's name")?;
        c.need("in")?;
        let owner = c.name("the owner's name")?;
        c.end()?;
        let mut a = Activation { name, owner, outputs: vec![], branches: vec![], otherwise: vec![] };
        self.block(Some(column), |maker| maker.in_activation(&mut a))?;
        self.b.p.activations.push(a);
        Ok(())
    }

    fn in_activation(&mut self, a: &mut Activation) -> Read<()> {
        if self.starts("output") {
            let mut ports = Ports::default();
            self.ports(&mut ports)?;
            a.outputs.extend(ports.outputs);
        } else if self.starts("branch") {
            let (column, mut c) = self.head();
            c.need("branch")?;
            let name = c.name("a branch's name")?;
            c.need("if")?;
            let condition = c.expr()?;
            c.end()?;
            let equations = self.equations(column)?;
            a.branches.push(Branch { name, condition, equations });
        } else if self.starts("else") {
            let (column, mut c) = self.head();
            c.need("else")?;
            c.end()?;
            a.otherwise.extend(self.equations(column)?);
        } else {
            return self.leaf().wrong("output, branch or else");
        }
        Ok(())
    }

    fn equations(&mut self, above: usize) -> Read<Vec<Equation>> {
        let mut equations = vec![];
        self.block(Some(above), |maker| {
            equations.push(maker.equation("an equation")?);
            Ok(())
        })?;
        Ok(equations)
    }

    fn origin(&mut self) -> Read<()> {
        let mut c = self.leaf();
        c.need("origin")?;
        let activation = c.word("activation");
        if !activation {
            c.need("machine")?;
        }
        let name = c.name("a definition's name")?;
        c.need("in")?;
        let node = c.name("a node's name")?;
        c.need("equations")?;
        let first = c.number("a number up to 65,535")?;
        c.need("until")?;
        let after = c.number("a number up to 65,535")?;
        let branches = if c.word("branches") { c.names("a branch's name")? } else { vec![] };
        c.end()?;
        self.b.p.origins.push(Origin { node, activation, name, first, after, branches });
        Ok(())
    }
}

fn bracket(token: &Token) -> i32 {
    let any = |words: [&str; 3]| words.iter().any(|word| token.is(word)) as i32;
    any(["(", "[", "{"]) - any([")", "]", "}"])
}

#[derive(Default)]
struct Ports {
    inputs: Vec<Port>,
    outputs: Vec<Port>,
    locals: Vec<Port>,
}

#[derive(Default)]
struct States {
    initial: Option<Name>,
    states: Vec<State>,
}

impl States {
    fn done(self, line: usize) -> Read<(Name, Vec<State>)> {
        let says = "expected a line `initial NAME` below this one, found none".to_string();
        Ok((self.initial.ok_or(Error { line, says })?, self.states))
    }
}
