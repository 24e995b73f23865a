//! Reading a pack, as the pack format says, in one pass from the first byte to the last.

use crate::package::*;
use std::collections::HashSet;
use std::hash::{BuildHasherDefault, Hasher};

/// Why a pack is refused: the returned number (1 to 5) and its value.
#[derive(Debug, Clone, Copy, PartialEq)]
pub struct Refusal {
    pub number: u32,
    pub value: u32,
}

type Read<T> = Result<T, Refusal>;

pub fn decode(pack: &[u8]) -> Read<Package> {
    Reader::new(pack).package()
}

/// What was being read when the pack was refused; for choosing telling samples.
pub fn refused_at(pack: &[u8]) -> Option<(Refusal, &'static str)> {
    let mut r = Reader::new(pack);
    let refusal = r.package().err()?;
    Some((refusal, r.what))
}

/// Letters, digits and underscore.
const NAME_BYTE: [bool; 256] = {
    let mut table = [false; 256];
    let mut b = 0;
    while b < 256 {
        table[b] = (b as u8).is_ascii_alphanumeric() || b as u8 == b'_';
        b += 1;
    }
    table
};

struct Reader<'a> {
    pack: &'a [u8],
    at: usize,
    /// How many names there are: what an index must stay below.
    names: usize,
    toks: Vec<Tok>,
    /// What was being read, once the pack is refused.
    what: &'static str,
}

impl<'a> Reader<'a> {
    fn new(pack: &'a [u8]) -> Self {
        Reader { pack, at: 0, names: 0, toks: Vec::with_capacity(pack.len().min(MAX_PACK) / 4), what: "" }
    }

    fn package(&mut self) -> Read<Package> {
        if self.pack.len() > MAX_PACK {
            return Err(self.refuse(1, MAX_PACK, "length"));
        }
        let names = self.name_section()?;
        self.names = names.len();
        let enums = self.list(Reader::enumeration)?;
        let nodes = self.list(Reader::node)?;
        let machines = self.list(Reader::machine)?;
        let activations = self.list(Reader::activation)?;
        let origins = self.list(Reader::origin)?;
        if self.at < self.pack.len() {
            return Err(self.refuse(5, self.at, "after origins"));
        }
        let (old, toks) = (names.len(), std::mem::take(&mut self.toks));
        Ok(Package { names, old, toks, enums, nodes, machines, activations, origins })
    }

    /// Out of the way of reading that succeeds.
    #[cold]
    fn refuse(&mut self, number: u32, value: usize, what: &'static str) -> Refusal {
        self.what = what;
        Refusal { number, value: value as u32 }
    }

    #[inline]
    fn take<const N: usize>(&mut self, what: &'static str) -> Read<[u8; N]> {
        match self.pack[self.at..].first_chunk::<N>() {
            Some(bytes) => {
                self.at += N;
                Ok(*bytes)
            }
            None => Err(self.refuse(2, self.pack.len(), what)),
        }
    }

    fn byte(&mut self, what: &'static str) -> Read<u8> {
        Ok(self.take::<1>(what)?[0])
    }

    fn number(&mut self, what: &'static str) -> Read<u16> {
        Ok(u16::from_le_bytes(self.take(what)?))
    }

    /// A byte below `end`.
    fn choice(&mut self, end: u8, what: &'static str) -> Read<u8> {
        let b = self.byte(what)?;
        if b < end {
            Ok(b)
        } else {
            Err(self.refuse(3, self.at - 1, what))
        }
    }

    fn flag(&mut self, what: &'static str) -> Read<bool> {
        Ok(self.choice(2, what)? == 1)
    }

    fn name(&mut self, what: &'static str) -> Read<Name> {
        let index = self.number(what)?;
        if (index as usize) < self.names {
            Ok(index as Name)
        } else {
            Err(self.refuse(3, self.at - 2, what))
        }
    }

    fn name_or_none(&mut self, what: &'static str) -> Read<Option<Name>> {
        let index = self.number(what)?;
        if index == NONE {
            Ok(None)
        } else if (index as usize) < self.names {
            Ok(Some(index as Name))
        } else {
            Err(self.refuse(3, self.at - 2, what))
        }
    }

    fn list<T>(&mut self, item: impl Fn(&mut Self) -> Read<T>) -> Read<Vec<T>> {
        let count = self.number("count")? as usize;
        // A count promises nothing, so space is taken for what the rest could hold at most.
        let mut items = Vec::with_capacity(count.min((self.pack.len() - self.at) / 2));
        for _ in 0..count {
            items.push(item(self)?);
        }
        Ok(items)
    }

    fn names(&mut self, what: &'static str) -> Read<Vec<Name>> {
        self.list(|r| r.name(what))
    }

    fn name_section(&mut self) -> Read<Names> {
        let count = self.number("count")? as usize;
        let room = count.min(self.pack.len() / 2);
        let mut names = Names::default();
        names.reserve(self.pack.len().min(room * MAX_NAME), room);
        let mut seen: HashSet<&[u8], BuildHasherDefault<NameHasher>> =
            HashSet::with_capacity_and_hasher(room, Default::default());
        for _ in 0..count {
            let at = self.at;
            let bytes = self.new_name()?;
            if !seen.insert(bytes) {
                return Err(self.refuse(3, at, "repeated name"));
            }
            names.push(bytes);
        }
        Ok(names)
    }

    fn new_name(&mut self) -> Read<&'a [u8]> {
        let len = self.byte("name length")? as usize;
        if len == 0 {
            return Err(self.refuse(3, self.at - 1, "name length"));
        }
        let rest = &self.pack[self.at..];
        let there = &rest[..len.min(rest.len())];
        // Without a stop in the middle the test is quicker; where it fails is sought after.
        if !there.iter().fold(true, |good, &b| good & NAME_BYTE[b as usize]) {
            let bad = there.iter().position(|&b| !NAME_BYTE[b as usize]).unwrap();
            return Err(self.refuse(3, self.at + bad, "character"));
        }
        if there.len() < len {
            return Err(self.refuse(2, self.pack.len(), "character"));
        }
        self.at += len;
        Ok(there)
    }

    fn enumeration(&mut self) -> Read<Enum> {
        Ok(Enum { name: self.name("enum name")?, variants: self.names("variant")? })
    }

    fn node(&mut self) -> Read<Node> {
        Ok(Node {
            name: self.name("node name")?,
            kind: self.choice(3, "node kind")?,
            inputs: self.ports()?,
            outputs: self.ports()?,
            locals: self.ports()?,
            equations: self.equations()?,
        })
    }

    fn ports(&mut self) -> Read<Vec<Port>> {
        self.list(|r| Ok(Port { name: r.name("port name")?, ty: r.ty()? }))
    }

    fn equations(&mut self) -> Read<Vec<Equation>> {
        self.list(|r| Ok(Equation { lhs: r.names("left name")?, rhs: r.expr()? }))
    }

    fn machine(&mut self) -> Read<Machine> {
        Ok(Machine {
            name: self.name("machine name")?,
            owner: self.name_or_none("machine owner")?,
            inputs: self.ports()?,
            outputs: self.ports()?,
            locals: self.ports()?,
            initial: self.name("machine initial")?,
            states: self.list(|r| r.state(1))?,
        })
    }

    /// Region levels bound the recursion.
    fn state(&mut self, level: usize) -> Read<State> {
        Ok(State {
            name: self.name("state name")?,
            equations: self.equations()?,
            transitions: self.list(Reader::transition)?,
            regions: self.list(|r| r.region(level + 1))?,
            refines: self.name_or_none("refinement")?,
        })
    }

    fn transition(&mut self) -> Read<Transition> {
        Ok(Transition { guard: self.expr()?, target: self.name("target")? })
    }

    fn region(&mut self, level: usize) -> Read<Region> {
        if level > MAX_LEVEL {
            return Err(self.refuse(4, self.at, "level"));
        }
        Ok(Region {
            initial: self.name("region initial")?,
            history: self.flag("history")?,
            states: self.list(|r| r.state(level))?,
        })
    }

    fn activation(&mut self) -> Read<Activation> {
        Ok(Activation {
            name: self.name("activation name")?,
            owner: self.name("activation owner")?,
            outputs: self.ports()?,
            branches: self.list(Reader::branch)?,
            otherwise: self.equations()?,
        })
    }

    fn branch(&mut self) -> Read<Branch> {
        Ok(Branch { name: self.name("branch name")?, condition: self.expr()?, equations: self.equations()? })
    }

    fn origin(&mut self) -> Read<Origin> {
        Ok(Origin {
            node: self.name("origin node")?,
            activation: self.flag("origin kind")?,
            name: self.name("origin name")?,
            first: self.number("first equation")?,
            after: self.number("equation after")?,
            branches: self.names("origin branch")?,
        })
    }

    fn ty(&mut self) -> Read<Type> {
        let mut lens = Vec::new();
        loop {
            let base = match self.choice(14, "type")? {
                TYPE_ARRAY => {
                    lens.push(u32::from_le_bytes(self.take("array length")?));
                    continue;
                }
                TYPE_NAMED => Base::Named(self.name("type name")?),
                plain => Base::Plain(plain),
            };
            return Ok(Type { lens, base });
        }
    }

    /// Preorder needs no stack: it is enough to count the expressions still owed.
    fn expr(&mut self) -> Read<Expr> {
        let start = self.toks.len() as u32;
        let mut owed = 1u64;
        while owed > 0 {
            let tok = self.tok()?;
            owed += tok.arity() as u64;
            owed -= 1;
            self.toks.push(tok);
        }
        Ok(Expr { start, end: self.toks.len() as u32 })
    }

    fn tok(&mut self) -> Read<Tok> {
        Ok(match self.choice(17, "tag")? {
            0 => Tok::Const(self.literal()?),
            1 => Tok::Var(self.name("variable")?),
            2 => Tok::Unary(self.choice(UNARY_OPS, "unary operator")?),
            3 => Tok::Binary(self.choice(BINARY_OPS, "binary operator")?),
            4 => Tok::If,
            5 => Tok::Pre,
            6 => Tok::Arrow,
            7 => Tok::Call(self.name("called node")?, self.number("count")?),
            8 => Tok::Field(self.name("field")?),
            9 => Tok::Index,
            10 => Tok::Tuple(self.number("count")?),
            11 => Tok::Array(self.number("count")?),
            12 => Tok::Struct(Box::new((self.name("struct type")?, self.names("struct field")?))),
            13 => Tok::Cast(Box::new(self.ty()?)),
            14 => Tok::When(self.name("clock")?, self.flag("clock flag")?),
            15 => Tok::Merge(self.name("clock")?),
            _ => Tok::Iterate {
                fold: self.flag("iterate kind")?,
                node: self.name("iterate node")?,
                init: self.flag("iterate flag")?,
                arrays: self.number("count")?,
            },
        })
    }

    fn literal(&mut self) -> Read<Lit> {
        Ok(match self.choice(4, "literal")? {
            0 => Lit::Bool(self.flag("bool")?),
            1 => Lit::Int(i64::from_le_bytes(self.take("int")?)),
            2 => Lit::Float(u64::from_le_bytes(self.take("float")?)),
            _ => Lit::Char(self.byte("char")?),
        })
    }
}

/// Names are short: eight bytes a step, with one multiplication each, is quicker than SipHash.
#[derive(Default)]
struct NameHasher(u64);

impl NameHasher {
    fn add(&mut self, word: u64) {
        self.0 = (self.0.rotate_left(5) ^ word).wrapping_mul(0x9e37_79b9_7f4a_7c15);
    }
}

impl Hasher for NameHasher {
    /// The last eight bytes may overlap those before: cheaper than a partial word.
    fn write(&mut self, bytes: &[u8]) {
        let word = |at: usize| u64::from_le_bytes(*bytes[at..].first_chunk().unwrap());
        let half = |at: usize| u32::from_le_bytes(*bytes[at..].first_chunk().unwrap()) as u64;
        match bytes.len() {
            0 => {}
            n @ 1..=3 => self.add(bytes[0] as u64 | (bytes[n / 2] as u64) << 8 | (bytes[n - 1] as u64) << 16),
            n @ 4..=7 => self.add(half(0) | half(n - 4) << 32),
            n => {
                (0..n - 8).step_by(8).for_each(|at| self.add(word(at)));
                self.add(word(n - 8));
            }
        }
    }

    fn write_usize(&mut self, n: usize) {
        self.add(n as u64);
    }

    fn finish(&self) -> u64 {
        self.0 ^ (self.0 >> 32)
    }
}
