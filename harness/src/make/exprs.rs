//! Reading one line's tokens: names, lists, types and expressions.

use super::scan::Token;
use super::Error;
use crate::gen::Builder;
use crate::package::*;
use crate::show::words::{BINARY, TYPES};

/// Expressions are read by recursion, this deep.
const MOST_DEPTH: usize = 500;

/// The tokens of a definition, each with its line.
pub struct Cursor<'a> {
    pub b: &'a mut Builder,
    tokens: Vec<(usize, Token)>,
    at: usize,
    depth: usize,
}

type Read<T> = Result<T, Error>;

impl<'a> Cursor<'a> {
    pub fn new(b: &'a mut Builder, tokens: Vec<(usize, Token)>) -> Self {
        Cursor { b, tokens, at: 0, depth: 0 }
    }

    fn peek(&self) -> Option<&Token> {
        self.tokens.get(self.at).map(|(_, token)| token)
    }

    pub fn wrong<T>(&self, expected: &str) -> Read<T> {
        let found = self.peek().map_or("the end of the line".into(), Token::text);
        let place = self.tokens.get(self.at).or(self.tokens.last());
        Err(Error::expected(place.map_or(0, |(line, _)| *line), expected, &found))
    }

    /// Whether this word stands here; it is passed over then.
    pub fn word(&mut self, word: &str) -> bool {
        let here = self.peek().is_some_and(|token| token.is(word));
        self.at += here as usize;
        here
    }

    pub fn need(&mut self, word: &str) -> Read<()> {
        if self.word(word) {
            Ok(())
        } else {
            self.wrong(&format!("`{word}`"))
        }
    }

    pub fn name(&mut self, what: &str) -> Read<Name> {
        let Some(Token::Name(text)) = self.peek() else { return self.wrong(what) };
        let text = text.clone();
        self.at += 1;
        Ok(self.b.name(&text))
    }

    pub fn names(&mut self, what: &str) -> Read<Vec<Name>> {
        let mut names = vec![self.name(what)?];
        while self.word(",") {
            names.push(self.name(what)?);
        }
        Ok(names)
    }

    /// Nothing may follow.
    pub fn end(&self) -> Read<()> {
        let Some((line, token)) = self.tokens.get(self.at) else { return Ok(()) };
        let first = self.tokens[0].0;
        if BINARY.iter().chain(&["->", "when", ":>"]).any(|op| token.is(op)) {
            self.wrong("the end of the line; two operations need parentheses")
        } else if *line > first {
            self.wrong(&format!("the end of line {first}, which goes on in deeper lines"))
        } else {
            self.wrong("the end of the line")
        }
    }

    /// A number of this type.
    pub fn number<T: TryFrom<i64>>(&mut self, what: &str) -> Read<T> {
        let number = match self.peek() {
            Some(Token::Literal(Lit::Int(i))) => T::try_from(*i).ok(),
            _ => None,
        };
        let Some(number) = number else { return self.wrong(what) };
        self.at += 1;
        Ok(number)
    }

    pub fn ports(&mut self) -> Read<Vec<Port>> {
        let mut ports = Vec::new();
        loop {
            let name = self.name("a variable's name")?;
            self.need(":")?;
            ports.push(Port { name, ty: self.ty()? });
            if !self.word(",") {
                return Ok(ports);
            }
        }
    }

    fn ty(&mut self) -> Read<Type> {
        let plain = TYPES.iter().position(|word| self.peek().is_some_and(|token| token.is(word)));
        let base = match plain {
            Some(byte) => {
                self.at += 1;
                Base::Plain(byte as u8)
            }
            None => Base::Named(self.name("a type")?),
        };
        let mut lens = Vec::new();
        while self.word("^") {
            lens.push(self.number("an array's length")?);
        }
        lens.reverse();
        Ok(Type { lens, base })
    }

    /// An expression, into the package's arena.
    pub fn expr(&mut self) -> Read<Expr> {
        let mut toks = Vec::new();
        self.operation(&mut toks)?;
        Ok(self.b.p.expr(toks))
    }

    /// An operation without its parentheses: one operator, or one repeated.
    fn operation(&mut self, toks: &mut Vec<Tok>) -> Read<()> {
        self.depth += 1;
        if self.depth > MOST_DEPTH {
            return self.wrong(&format!("an expression of at most {MOST_DEPTH} levels"));
        }
        let start = toks.len();
        if self.word("if") {
            toks.push(Tok::If);
            self.operation(toks)?;
            self.need("then")?;
            self.operation(toks)?;
            self.need("else")?;
            self.operation(toks)?;
        } else {
            self.prefixed(toks)?;
            self.infix(toks, start)?;
        }
        self.depth -= 1;
        Ok(())
    }

    /// What may follow the first operand, which begins at `start`.
    fn infix(&mut self, toks: &mut Vec<Tok>, start: usize) -> Read<()> {
        if self.word("->") {
            toks.insert(start, Tok::Arrow);
            return self.prefixed(toks);
        }
        if self.word("when") {
            let on = !self.word("not");
            let clock = self.name("a clock's name")?;
            toks.insert(start, Tok::When(clock, on));
            return Ok(());
        }
        if self.word(":>") {
            let to = self.ty()?;
            toks.insert(start, Tok::Cast(Box::new(to)));
            return Ok(());
        }
        let Some(op) = BINARY.iter().position(|op| self.peek().is_some_and(|token| token.is(op))) else {
            return Ok(());
        };
        while self.word(BINARY[op]) {
            toks.insert(start, Tok::Binary(op as u8));
            self.prefixed(toks)?;
        }
        Ok(())
    }

    /// An operand after any of `not`, `pre` and `-`.
    fn prefixed(&mut self, toks: &mut Vec<Tok>) -> Read<()> {
        loop {
            if self.word("not") {
                toks.push(Tok::Unary(0));
            } else if self.word("-") {
                toks.push(Tok::Unary(1));
            } else if self.word("pre") {
                toks.push(Tok::Pre);
            } else {
                return self.operand(toks);
            }
        }
    }

    /// A value with the fields and indexes taken of it.
    fn operand(&mut self, toks: &mut Vec<Tok>) -> Read<()> {
        let start = toks.len();
        self.value(toks)?;
        loop {
            if self.word(".") {
                let field = self.name("a field's name")?;
                toks.insert(start, Tok::Field(field));
            } else if self.word("[") {
                toks.insert(start, Tok::Index);
                self.operation(toks)?;
                self.need("]")?;
            } else {
                return Ok(());
            }
        }
    }

    fn value(&mut self, toks: &mut Vec<Tok>) -> Read<()> {
        match self.peek() {
            Some(Token::Literal(lit)) => {
                toks.push(Tok::Const(*lit));
                self.at += 1;
                Ok(())
            }
            Some(Token::Name(_)) => self.named(toks),
            _ => self.worded(toks),
        }
    }

    /// A variable, a call or a struct.
    fn named(&mut self, toks: &mut Vec<Tok>) -> Read<()> {
        let name = self.name("a name")?;
        let start = toks.len();
        if self.word("(") {
            let count = self.list(toks, ")")?;
            toks.insert(start, Tok::Call(name, count));
        } else if self.word("{") {
            self.fields(toks, start, name)?;
        } else {
            toks.push(Tok::Var(name));
        }
        Ok(())
    }

    fn fields(&mut self, toks: &mut Vec<Tok>, start: usize, ty: Name) -> Read<()> {
        let mut fields = Vec::new();
        while !self.word("}") {
            if !fields.is_empty() {
                self.need(",")?;
            }
            fields.push(self.name("a field's name")?);
            self.need(":")?;
            self.operation(toks)?;
        }
        toks.insert(start, Tok::Struct(Box::new((ty, fields))));
        Ok(())
    }

    /// What begins with a reserved word or a sign.
    fn worded(&mut self, toks: &mut Vec<Tok>) -> Read<()> {
        let start = toks.len();
        if self.word("true") {
            toks.push(Tok::Const(Lit::Bool(true)));
        } else if self.word("false") {
            toks.push(Tok::Const(Lit::Bool(false)));
        } else if self.word("(") {
            self.parenthesis(toks)?;
        } else if self.word("[") {
            let count = self.list(toks, "]")?;
            toks.insert(start, Tok::Array(count));
        } else if self.word("merge") {
            self.merge(toks)?;
        } else if self.word("map") {
            self.iterate(toks, false)?;
        } else if self.word("fold") {
            self.iterate(toks, true)?;
        } else {
            return self.wrong("an expression");
        }
        Ok(())
    }

    /// After `(`: an operation, or a tuple, which has a comma or nothing.
    fn parenthesis(&mut self, toks: &mut Vec<Tok>) -> Read<()> {
        let start = toks.len();
        if self.word(")") {
            toks.push(Tok::Tuple(0));
            return Ok(());
        }
        self.operation(toks)?;
        if self.word(",") {
            let more = self.list(toks, ")")?;
            toks.insert(start, Tok::Tuple(self.counted(more as usize + 1)?));
            return Ok(());
        }
        if self.word(")") {
            Ok(())
        } else {
            self.wrong("`)` or `,`; two operations need parentheses")
        }
    }

    fn merge(&mut self, toks: &mut Vec<Tok>) -> Read<()> {
        self.need("(")?;
        let clock = self.name("a clock's name")?;
        toks.push(Tok::Merge(clock));
        for _ in 0..2 {
            self.need(",")?;
            self.operation(toks)?;
        }
        self.need(")")
    }

    /// `map<F>(A, B)`, or with an initial value `fold<F>(I; A)`.
    fn iterate(&mut self, toks: &mut Vec<Tok>, fold: bool) -> Read<()> {
        self.need("<")?;
        let node = self.name("a node's name")?;
        self.need(">")?;
        self.need("(")?;
        let start = toks.len();
        let mut count = self.list_until(toks, &[")", ";"])?;
        let init = self.word(";");
        if init && count != 1 {
            return self.wrong("one initial value before `;`");
        }
        if init {
            count = self.list_until(toks, &[")"])?;
        }
        toks.insert(start, Tok::Iterate { fold, node, init, arrays: self.counted(count)? });
        self.need(")")
    }

    fn list(&mut self, toks: &mut Vec<Tok>, end: &str) -> Read<u16> {
        let count = self.list_until(toks, &[end])?;
        self.need(end)?;
        self.counted(count)
    }

    /// Expressions between commas, up to one of these words, which is not passed over.
    fn list_until(&mut self, toks: &mut Vec<Tok>, ends: &[&str]) -> Read<usize> {
        let ended = |c: &Self| c.peek().is_some_and(|token| ends.iter().any(|end| token.is(end)));
        let mut count = 0;
        while !ended(self) {
            if count > 0 {
                self.need(",")?;
            }
            self.operation(toks)?;
            count += 1;
        }
        Ok(count)
    }

    fn counted(&self, count: usize) -> Read<u16> {
        u16::try_from(count).or_else(|_| self.wrong("at most 65,535 values"))
    }
}
