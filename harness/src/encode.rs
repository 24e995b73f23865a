//! Writing a package as a pack: the old names, then the new ones in order of first use.

use crate::package::*;

/// The result has no pack: it is over 65,536 bytes or makes a name over 255.
#[derive(Debug, Clone, Copy, PartialEq)]
pub struct TooLong;

/// What stands at an offset: where damage is telling.
#[derive(Debug, Clone, Copy, PartialEq)]
pub enum Mark {
    Count,
    Index,
    Byte,
    NameLength,
    Character,
}

pub type Marks = Vec<(usize, Mark)>;

pub fn encode(p: &Package) -> Result<Vec<u8>, TooLong> {
    let bytes = write(p, MAX_PACK)?.0;
    Ok(bytes)
}

/// Also past the limit of a pack, and without a check of anything: for the generator.
pub fn encode_any(p: &Package) -> (Vec<u8>, Marks) {
    write(p, 1 << 22).expect("generated packages are small")
}

fn write(p: &Package, most: usize) -> Result<(Vec<u8>, Marks), TooLong> {
    let mut body = Body::new(p, most);
    body.package(p);
    if body.out.len() > most {
        return Err(TooLong);
    }
    let mut names = Vec::new();
    let mut marks = vec![(0, Mark::Count)];
    names.extend_from_slice(&((p.old + body.new.len()) as u16).to_le_bytes());
    for name in (0..p.old as Name).chain(body.new.iter().copied()) {
        let bytes = p.names.get(name);
        if bytes.len() > MAX_NAME {
            return Err(TooLong);
        }
        marks.push((names.len(), Mark::NameLength));
        marks.push((names.len() + 1 + bytes.len() / 2, Mark::Character));
        names.push(bytes.len() as u8);
        names.extend_from_slice(bytes);
        if names.len() + body.out.len() > most {
            return Err(TooLong);
        }
    }
    marks.extend(body.marks.iter().map(|(at, mark)| (at + names.len(), *mark)));
    names.extend_from_slice(&body.out);
    Ok((names, marks))
}

struct Body<'a> {
    p: &'a Package,
    out: Vec<u8>,
    marks: Marks,
    /// Writing stops soon after this many bytes.
    most: usize,
    /// New names in order of first use, and each name's number once it has one.
    new: Vec<Name>,
    number: Vec<u32>,
}

const UNSEEN: u32 = u32::MAX;

impl<'a> Body<'a> {
    fn new(p: &'a Package, most: usize) -> Self {
        let mut number: Vec<u32> = (0..p.names.len() as u32).collect();
        number[p.old..].fill(UNSEEN);
        Body { p, out: Vec::new(), marks: Vec::new(), most, new: Vec::new(), number }
    }

    fn byte(&mut self, b: u8) {
        self.marks.push((self.out.len(), Mark::Byte));
        self.out.push(b);
    }

    fn raw(&mut self, bytes: &[u8]) {
        self.out.extend_from_slice(bytes);
    }

    fn count(&mut self, n: usize) {
        self.marks.push((self.out.len(), Mark::Count));
        self.raw(&(n as u16).to_le_bytes());
    }

    fn index(&mut self, number: u16) {
        self.marks.push((self.out.len(), Mark::Index));
        self.raw(&number.to_le_bytes());
    }

    fn name(&mut self, name: Name) {
        let i = name as usize;
        if self.number[i] == UNSEEN {
            self.number[i] = (self.p.old + self.new.len()) as u32;
            self.new.push(name);
        }
        self.index(self.number[i] as u16);
    }

    fn name_or_none(&mut self, name: Option<Name>) {
        match name {
            Some(n) => self.name(n),
            None => self.index(NONE),
        }
    }

    fn list<T>(&mut self, items: &[T], mut item: impl FnMut(&mut Self, &T)) {
        self.count(items.len());
        for i in items {
            if self.out.len() > self.most {
                return;
            }
            item(self, i);
        }
    }

    fn names(&mut self, names: &[Name]) {
        self.list(names, |w, n| w.name(*n));
    }

    fn package(&mut self, p: &Package) {
        self.list(&p.enums, |w, e| {
            w.name(e.name);
            w.names(&e.variants);
        });
        self.list(&p.nodes, Self::node);
        self.list(&p.machines, Self::machine);
        self.list(&p.activations, Self::activation);
        self.list(&p.origins, Self::origin);
    }

    fn node(&mut self, n: &Node) {
        self.name(n.name);
        self.byte(n.kind);
        self.ports(&n.inputs);
        self.ports(&n.outputs);
        self.ports(&n.locals);
        self.equations(&n.equations);
    }

    fn ports(&mut self, ports: &[Port]) {
        self.list(ports, |w, p| {
            w.name(p.name);
            w.ty(&p.ty);
        });
    }

    fn equations(&mut self, equations: &[Equation]) {
        self.list(equations, |w, e| {
            w.names(&e.lhs);
            w.expr(e.rhs);
        });
    }

    fn machine(&mut self, m: &Machine) {
        self.name(m.name);
        self.name_or_none(m.owner);
        self.ports(&m.inputs);
        self.ports(&m.outputs);
        self.ports(&m.locals);
        self.name(m.initial);
        self.list(&m.states, Self::state);
    }

    fn state(&mut self, s: &State) {
        self.name(s.name);
        self.equations(&s.equations);
        self.list(&s.transitions, |w, t| {
            w.expr(t.guard);
            w.name(t.target);
        });
        self.list(&s.regions, |w, r| {
            w.name(r.initial);
            w.byte(r.history as u8);
            w.list(&r.states, Self::state);
        });
        self.name_or_none(s.refines);
    }

    fn activation(&mut self, a: &Activation) {
        self.name(a.name);
        self.name(a.owner);
        self.ports(&a.outputs);
        self.list(&a.branches, |w, b| {
            w.name(b.name);
            w.expr(b.condition);
            w.equations(&b.equations);
        });
        self.equations(&a.otherwise);
    }

    fn origin(&mut self, o: &Origin) {
        self.name(o.node);
        self.byte(o.activation as u8);
        self.name(o.name);
        self.raw(&o.first.to_le_bytes());
        self.raw(&o.after.to_le_bytes());
        self.names(&o.branches);
    }

    fn ty(&mut self, t: &Type) {
        for len in &t.lens {
            self.byte(TYPE_ARRAY);
            self.raw(&len.to_le_bytes());
        }
        match t.base {
            Base::Plain(b) => self.byte(b),
            Base::Named(n) => {
                self.byte(TYPE_NAMED);
                self.name(n);
            }
        }
    }

    fn expr(&mut self, e: Expr) {
        let p = self.p;
        for tok in p.toks(e) {
            if self.out.len() > self.most {
                return;
            }
            self.tok(tok);
        }
    }

    fn tok(&mut self, tok: &Tok) {
        self.byte(tok.tag());
        match tok {
            Tok::Const(lit) => self.literal(*lit),
            Tok::Var(n) | Tok::Field(n) | Tok::Merge(n) => self.name(*n),
            Tok::Unary(op) | Tok::Binary(op) => self.byte(*op),
            Tok::If | Tok::Pre | Tok::Arrow | Tok::Index => {}
            Tok::Call(n, args) => {
                self.name(*n);
                self.count(*args as usize);
            }
            Tok::Tuple(n) | Tok::Array(n) => self.count(*n as usize),
            Tok::Struct(s) => {
                self.name(s.0);
                self.names(&s.1);
            }
            Tok::Cast(t) => self.ty(t),
            Tok::When(n, on) => {
                self.name(*n);
                self.byte(*on as u8);
            }
            Tok::Iterate { fold, node, init, arrays } => {
                self.byte(*fold as u8);
                self.name(*node);
                self.byte(*init as u8);
                self.count(*arrays as usize);
            }
        }
    }

    fn literal(&mut self, lit: Lit) {
        match lit {
            Lit::Bool(b) => {
                self.byte(0);
                self.byte(b as u8);
            }
            Lit::Int(i) => {
                self.byte(1);
                self.raw(&i.to_le_bytes());
            }
            Lit::Float(bits) => {
                self.byte(2);
                self.raw(&bits.to_le_bytes());
            }
            Lit::Char(c) => {
                self.byte(3);
                self.raw(&[c]);
            }
        }
    }
}
