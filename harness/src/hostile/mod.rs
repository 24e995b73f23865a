//! Packs that stand at the limits of a lowering, or cost it the most for their size.

pub mod activations;
pub mod machines;

use crate::encode::encode_any;
use crate::gen::Builder;
use crate::package::*;
use crate::special::{self, short_name};

pub struct Hostile {
    pub name: &'static str,
    pub pack: Vec<u8>,
}

/// All of them, for both lowerings.
pub fn all() -> Vec<Hostile> {
    let parts = [machines::limits(), machines::costly(), activations::limits(), activations::costly()];
    parts.into_iter().flatten().collect()
}

/// A port that holds a number.
fn port(name: Name) -> Port {
    Port { name, ty: Type::plain(4) }
}

fn equation(left: Name, rhs: Expr) -> Equation {
    Equation { lhs: vec![left], rhs }
}

/// An expression of so many bytes.
fn long_expr(b: &mut Builder, bytes: usize) -> Expr {
    b.p.expr(std::iter::repeat_n(Tok::Pre, bytes - 3).chain([Tok::Tuple(0)]))
}

/// Names that nothing uses.
fn idle_names(b: &mut Builder, names: impl Iterator<Item = String>) {
    for name in names {
        b.name(&name);
    }
}

/// So many of them, of 1 to 3 bytes, none of which the builders here take.
fn short_names(count: usize) -> impl Iterator<Item = String> {
    (0..count).map(short_name)
}

/// The package with idle names up to a pack of exactly 65,536 bytes.
fn full(mut p: Package) -> Package {
    special::pad(&mut p, MAX_PACK);
    p
}

fn packs<const N: usize>(all: [(&'static str, Package); N]) -> Vec<Hostile> {
    all.into_iter().map(|(name, p)| Hostile { name, pack: encode_any(&p).0 }).collect()
}

#[cfg(test)]
mod tests {
    use super::*;
    use crate::decode::decode;

    #[test]
    fn costly_packs_are_legal() {
        for h in machines::costly().iter().chain(&activations::costly()) {
            assert!(decode(&h.pack).is_ok(), "{}: {} bytes, {:?}", h.name, h.pack.len(), decode(&h.pack).err());
        }
    }

    #[test]
    fn limits_are_met() {
        for h in all().iter().filter(|h| h.name.starts_with("65,53")) {
            assert_eq!(h.pack.len(), if h.name.starts_with("65,536") { 65_536 } else { 65_537 }, "{}", h.name);
        }
    }
}
