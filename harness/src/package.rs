//! A package in memory. Names are indexes into one table, expressions are runs of preorder
//! tokens in one arena, so nothing here recurses over expressions or types.

/// The most bytes a pack may have.
pub const MAX_PACK: usize = 65_536;
/// The most bytes a name may have.
pub const MAX_NAME: usize = 255;
/// The deepest level of regions; a machine's top states are level 1.
pub const MAX_LEVEL: usize = 8;
/// The most states of a resolved machine.
pub const MAX_STATES: usize = 512;
/// Stands for "no owner" and "no refinement".
pub const NONE: u16 = 65_535;

/// An index into [`Names`].
pub type Name = u32;

/// The name table: all bytes in a row, and where each name ends.
#[derive(Debug, Clone, Default, PartialEq)]
pub struct Names {
    bytes: Vec<u8>,
    ends: Vec<u32>,
}

impl Names {
    pub fn len(&self) -> usize {
        self.ends.len()
    }

    pub fn is_empty(&self) -> bool {
        self.ends.is_empty()
    }

    pub fn get(&self, name: Name) -> &[u8] {
        let i = name as usize;
        let start = if i == 0 { 0 } else { self.ends[i - 1] as usize };
        &self.bytes[start..self.ends[i] as usize]
    }

    pub fn text(&self, name: Name) -> &str {
        std::str::from_utf8(self.get(name)).expect("names are ASCII")
    }

    pub fn push(&mut self, bytes: &[u8]) -> Name {
        self.bytes.extend_from_slice(bytes);
        self.ends.push(self.bytes.len() as u32);
        self.ends.len() as Name - 1
    }

    pub fn reserve(&mut self, bytes: usize, names: usize) {
        self.bytes.reserve(bytes);
        self.ends.reserve(names);
    }

    pub fn iter(&self) -> impl Iterator<Item = &[u8]> {
        (0..self.len() as Name).map(|i| self.get(i))
    }
}

/// `lens` are the lengths of the arrays around `base`, outermost first.
#[derive(Debug, Clone, PartialEq)]
pub struct Type {
    pub lens: Vec<u32>,
    pub base: Base,
}

#[derive(Debug, Clone, Copy, PartialEq)]
pub enum Base {
    /// 0 to 11.
    Plain(u8),
    Named(Name),
}

pub const TYPE_ARRAY: u8 = 12;
pub const TYPE_NAMED: u8 = 13;

impl Type {
    pub fn plain(byte: u8) -> Type {
        Type { lens: Vec::new(), base: Base::Plain(byte) }
    }
}

#[derive(Debug, Clone, Copy, PartialEq)]
pub enum Lit {
    Bool(bool),
    Int(i64),
    /// The bits, so that comparing and copying never touch them.
    Float(u64),
    Char(u8),
}

/// One node of an expression; its sub-expressions follow it.
#[derive(Debug, Clone, PartialEq)]
pub enum Tok {
    Const(Lit),
    Var(Name),
    Unary(u8),
    Binary(u8),
    If,
    Pre,
    Arrow,
    Call(Name, u16),
    Field(Name),
    Index,
    Tuple(u16),
    Array(u16),
    /// The type and the field names.
    Struct(Box<(Name, Vec<Name>)>),
    Cast(Box<Type>),
    When(Name, bool),
    Merge(Name),
    Iterate {
        fold: bool,
        node: Name,
        init: bool,
        arrays: u16,
    },
}

pub const UNARY_OPS: u8 = 2;
pub const BINARY_OPS: u8 = 20;

impl Tok {
    pub fn tag(&self) -> u8 {
        match self {
            Tok::Const(_) => 0,
            Tok::Var(_) => 1,
            Tok::Unary(_) => 2,
            Tok::Binary(_) => 3,
            Tok::If => 4,
            Tok::Pre => 5,
            Tok::Arrow => 6,
            Tok::Call(..) => 7,
            Tok::Field(_) => 8,
            Tok::Index => 9,
            Tok::Tuple(_) => 10,
            Tok::Array(_) => 11,
            Tok::Struct(_) => 12,
            Tok::Cast(_) => 13,
            Tok::When(..) => 14,
            Tok::Merge(_) => 15,
            Tok::Iterate { .. } => 16,
        }
    }

    /// How many sub-expressions follow.
    pub fn arity(&self) -> usize {
        match self {
            Tok::Const(_) | Tok::Var(_) => 0,
            Tok::Unary(_) | Tok::Pre | Tok::Field(_) | Tok::Cast(_) | Tok::When(..) => 1,
            Tok::Binary(_) | Tok::Arrow | Tok::Index | Tok::Merge(_) => 2,
            Tok::If => 3,
            Tok::Call(_, n) | Tok::Tuple(n) | Tok::Array(n) => *n as usize,
            Tok::Struct(s) => s.1.len(),
            Tok::Iterate { init, arrays, .. } => *init as usize + *arrays as usize,
        }
    }
}

/// A run of tokens in the package's arena.
#[derive(Debug, Clone, Copy, PartialEq)]
pub struct Expr {
    pub start: u32,
    pub end: u32,
}

#[derive(Debug, Clone, PartialEq)]
pub struct Port {
    pub name: Name,
    pub ty: Type,
}

#[derive(Debug, Clone, PartialEq)]
pub struct Equation {
    pub lhs: Vec<Name>,
    pub rhs: Expr,
}

#[derive(Debug, Clone, PartialEq)]
pub struct Enum {
    pub name: Name,
    pub variants: Vec<Name>,
}

#[derive(Debug, Clone, PartialEq)]
pub struct Node {
    pub name: Name,
    pub kind: u8,
    pub inputs: Vec<Port>,
    pub outputs: Vec<Port>,
    pub locals: Vec<Port>,
    pub equations: Vec<Equation>,
}

#[derive(Debug, Clone, PartialEq)]
pub struct Transition {
    pub guard: Expr,
    pub target: Name,
}

#[derive(Debug, Clone, PartialEq)]
pub struct State {
    pub name: Name,
    pub equations: Vec<Equation>,
    pub transitions: Vec<Transition>,
    pub regions: Vec<Region>,
    pub refines: Option<Name>,
}

#[derive(Debug, Clone, PartialEq)]
pub struct Region {
    pub initial: Name,
    pub history: bool,
    pub states: Vec<State>,
}

#[derive(Debug, Clone, PartialEq)]
pub struct Machine {
    pub name: Name,
    pub owner: Option<Name>,
    pub inputs: Vec<Port>,
    pub outputs: Vec<Port>,
    pub locals: Vec<Port>,
    pub initial: Name,
    pub states: Vec<State>,
}

#[derive(Debug, Clone, PartialEq)]
pub struct Branch {
    pub name: Name,
    pub condition: Expr,
    pub equations: Vec<Equation>,
}

#[derive(Debug, Clone, PartialEq)]
pub struct Activation {
    pub name: Name,
    pub owner: Name,
    pub outputs: Vec<Port>,
    pub branches: Vec<Branch>,
    pub otherwise: Vec<Equation>,
}

#[derive(Debug, Clone, PartialEq)]
pub struct Origin {
    pub node: Name,
    pub activation: bool,
    pub name: Name,
    pub first: u16,
    pub after: u16,
    pub branches: Vec<Name>,
}

#[derive(Debug, Clone, Default, PartialEq)]
pub struct Package {
    pub names: Names,
    /// The first `old` names are written whether used or not, in order.
    pub old: usize,
    pub toks: Vec<Tok>,
    pub enums: Vec<Enum>,
    pub nodes: Vec<Node>,
    pub machines: Vec<Machine>,
    pub activations: Vec<Activation>,
    pub origins: Vec<Origin>,
}

impl Package {
    pub fn toks(&self, e: Expr) -> &[Tok] {
        &self.toks[e.start as usize..e.end as usize]
    }

    /// Puts a whole expression into the arena.
    pub fn expr(&mut self, toks: impl IntoIterator<Item = Tok>) -> Expr {
        let start = self.toks.len() as u32;
        self.toks.extend(toks);
        Expr { start, end: self.toks.len() as u32 }
    }
}
