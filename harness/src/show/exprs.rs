//! An expression as text, every operation in parentheses. Tokens are taken one by one with a stack of those still open, so
//! that no depth of nesting matters.

use super::words::{self, name, BINARY, UNARY};
use crate::package::*;

/// Columns of a line.
pub const WIDTH: usize = 100;
/// Deeper lines are not indented further: the text of a deep expression stays about as long as its pack.
const MOST_INDENT: usize = 40;

/// An expression on one line.
pub fn flat(p: &Package, e: Expr) -> String {
    Printer::new(p, e).print(None)
}

/// The same with the choices that are too long for a line from this column on broken into lines.
pub fn broken(p: &Package, e: Expr, column: usize) -> String {
    let mut printer = Printer::new(p, e);
    printer.print(None);
    printer.print(Some(column))
}

/// A token whose sub-expressions are being written.
struct Open {
    token: usize,
    done: usize,
    /// Where its text begins.
    start: usize,
    /// The column of its further lines, where it is broken into lines.
    column: Option<usize>,
}

struct Printer<'a> {
    p: &'a Package,
    toks: &'a [Tok],
    /// How long the text of each token with what is under it is on one line, once printed so.
    lengths: Vec<usize>,
    out: String,
    open: Vec<Open>,
}

impl<'a> Printer<'a> {
    fn new(p: &'a Package, e: Expr) -> Self {
        let toks = p.toks(e);
        Printer { p, toks, lengths: vec![0; toks.len()], out: String::new(), open: Vec::new() }
    }

    /// On one line, or broken from a column on.
    fn print(&mut self, column: Option<usize>) -> String {
        for token in 0..self.toks.len() {
            let column = match self.open.last() {
                None => column,
                Some(parent) => self.column_under(parent),
            };
            let column = column.filter(|c| self.breaks(token, *c));
            let start = self.out.len();
            self.out += &opening(self.p, &self.toks[token]);
            self.open.push(Open { token, done: 0, start, column });
            self.close_all(token + 1);
        }
        std::mem::take(&mut self.out)
    }

    /// Ends what has all its sub-expressions, and goes on in what has not.
    fn close_all(&mut self, next: usize) {
        while let Some(last) = self.open.last() {
            let tok = &self.toks[last.token];
            if last.done < tok.arity() {
                if last.done > 0 {
                    self.out += &self.part(last, next);
                }
                return;
            }
            self.out += &closing(self.p, tok);
            self.lengths[last.token] = self.out.len() - last.start;
            self.open.pop();
            if let Some(parent) = self.open.last_mut() {
                parent.done += 1;
            }
        }
    }

    /// What stands before the next sub-expression of an open token.
    fn part(&self, open: &Open, next: usize) -> String {
        let line = |column: usize| format!("\n{}", " ".repeat(column));
        match (&self.toks[open.token], open.column, self.column_under(open)) {
            (Tok::If, Some(c), _) if open.done == 2 => format!("{}else ", line(c)),
            (Tok::If, _, Some(c)) if self.breaks(next, c) => format!(" then{}", line(c)),
            (Tok::Merge(_), Some(c), _) => format!(",{}", line(c)),
            (tok, ..) => between(self.p, tok, open.done),
        }
    }

    /// The column of the next sub-expression: what follows `else` stands where its choice does.
    fn column_under(&self, parent: &Open) -> Option<usize> {
        let deeper = matches!(self.toks[parent.token], Tok::If) && parent.done == 1;
        parent.column.map(|c| if deeper { (c + 2).min(MOST_INDENT) } else { c })
    }

    fn breaks(&self, token: usize, column: usize) -> bool {
        matches!(self.toks[token], Tok::If | Tok::Merge(_)) && self.lengths[token] + column > WIDTH
    }
}

/// What stands before a token's sub-expressions.
fn opening(p: &Package, tok: &Tok) -> String {
    match tok {
        Tok::Const(lit) => literal(*lit),
        Tok::Var(n) => name(p, *n),
        Tok::Unary(op) => format!("({} ", UNARY[*op as usize]),
        Tok::Binary(_) | Tok::Arrow | Tok::Tuple(_) | Tok::Cast(_) | Tok::When(..) => "(".into(),
        Tok::If => "(if ".into(),
        Tok::Pre => "(pre ".into(),
        Tok::Call(n, _) => format!("{}(", name(p, *n)),
        Tok::Field(_) | Tok::Index => String::new(),
        Tok::Array(_) => "[".into(),
        Tok::Struct(s) => format!("{}{{{}", name(p, s.0), s.1.first().map_or(String::new(), |f| field(p, *f))),
        Tok::Merge(clock) => format!("merge({}, ", name(p, *clock)),
        Tok::Iterate { fold, node, .. } => format!("{}<{}>(", if *fold { "fold" } else { "map" }, name(p, *node)),
    }
}

/// What stands before a sub-expression that has so many before it, at least one.
fn between(p: &Package, tok: &Tok, done: usize) -> String {
    match tok {
        Tok::Binary(op) => format!(" {} ", BINARY[*op as usize]),
        Tok::Arrow => " -> ".into(),
        Tok::If => if done == 1 { " then " } else { " else " }.into(),
        Tok::Index => "[".into(),
        Tok::Struct(s) => format!(", {}", field(p, s.1[done])),
        Tok::Iterate { init: true, .. } if done == 1 => "; ".into(),
        _ => ", ".into(),
    }
}

/// What stands after a token's sub-expressions.
fn closing(p: &Package, tok: &Tok) -> String {
    match tok {
        Tok::Const(_) | Tok::Var(_) => String::new(),
        Tok::Field(f) => format!(".{}", name(p, *f)),
        Tok::Index | Tok::Array(_) => "]".into(),
        // One value in parentheses is no tuple.
        Tok::Tuple(1) => ",)".into(),
        Tok::Struct(_) => "}".into(),
        Tok::Cast(to) => format!(" :> {})", words::ty(p, to)),
        Tok::When(clock, on) => format!(" when {}{})", if *on { "" } else { "not " }, name(p, *clock)),
        Tok::Iterate { init: true, arrays: 0, .. } => ";)".into(),
        _ => ")".into(),
    }
}

fn field(p: &Package, f: Name) -> String {
    format!("{}: ", name(p, f))
}

pub fn literal(lit: Lit) -> String {
    match lit {
        Lit::Bool(b) => b.to_string(),
        Lit::Int(i) => i.to_string(),
        // Rust's shortest decimal number that reads back as the same bits.
        Lit::Float(bits) if f64::from_bits(bits).is_finite() => format!("{:?}", f64::from_bits(bits)),
        Lit::Float(bits) => format!("#{bits:016x}"),
        Lit::Char(c) if c.is_ascii_graphic() && !b"'\\".contains(&c) => format!("'{}'", c as char),
        Lit::Char(c) => format!("'\\x{c:02x}'"),
    }
}
