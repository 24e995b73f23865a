//! The packs of the benchmark: small, typical, large and the worst that were found, for each call.

use super::table::Size;
use crate::decode::decode;
use crate::encode::encode_any;
use crate::gen;
use crate::hostile::Hostile;
use crate::package::*;
use crate::rng::Rng;
use crate::special;
use std::ops::RangeInclusive;

pub struct Set {
    pub name: &'static str,
    pub size: Size,
    pub packs: Vec<Vec<u8>>,
}

/// Packs made from a seed, for all calls; `wanted` chooses.
pub fn usual(wanted: &dyn Fn(&[u8]) -> bool) -> Vec<Set> {
    let set = |name, size, packs| Set { name, size, packs };
    vec![
        set("twelve zero bytes", Size::Small, vec![vec![0; 12]]),
        set("generated, 200 to 1,000 bytes", Size::Small, generated(60, 200..=1_000, wanted)),
        set("generated, 1 to 20 KB", Size::Typical, generated(60, 1_000..=20_000, wanted)),
        set("generated, 20 to 64 KB", Size::Large, generated(20, 20_000..=MAX_PACK, wanted)),
    ]
}

pub fn generated(count: usize, bytes: RangeInclusive<usize>, wanted: &dyn Fn(&[u8]) -> bool) -> Vec<Vec<u8>> {
    let mut rng = Rng::new(1);
    let mut packs = Vec::new();
    let size = if *bytes.end() > 2_000 { gen::Size::Large } else { gen::Size::Medium };
    while packs.len() < count {
        let pack = encode_any(&gen::package(&mut rng, size)).0;
        if bytes.contains(&pack.len()) && wanted(&pack) {
            packs.push(pack);
        }
    }
    packs
}

/// A lowering's worst packs, and as one set those at its limits.
pub fn lowering(costly: Vec<Hostile>, limits: Vec<Hostile>) -> Vec<Set> {
    let limits = limits.into_iter().map(|h| h.pack).filter(|p| decode(p).is_ok()).collect();
    let limits = Set { name: "at the limits: states, levels, lengths", size: Size::Worst, packs: limits };
    costly.into_iter().map(worst).chain([limits]).collect()
}

pub fn worst(h: Hostile) -> Set {
    Set { name: h.name, size: Size::Worst, packs: vec![h.pack] }
}

/// The worst packs of the check.
pub fn check() -> Vec<Set> {
    let one = |name, p: Package| Set { name, size: Size::Worst, packs: vec![encode_any(&p).0] };
    let mixed = || special::mixed_names(&mut Rng::new(1), MAX_PACK);
    let crowd = |stem| special::names_of(MAX_PACK, special::crowded(stem, 15));
    let mixed_crowd = |stem| {
        let short = (63..6_000).map(special::short_name);
        special::names_of(MAX_PACK, short.chain(special::crowded(stem, 15)))
    };
    let padded = |mut p: Package| {
        special::pad(&mut p, MAX_PACK);
        p
    };
    vec![
        one("short names", special::names_only(MAX_PACK)),
        one("short names, mixed", mixed()),
        one("short names, last repeated", special::repeated(mixed(), mixed().old - 1)),
        one("names of five letters, 16 bits alike", special::names_of(MAX_PACK, special::crowded("", 16))),
        one("names of nine letters, 15 bits alike", crowd("door")),
        one("names of 16 letters, 15 bits alike", crowd("strongrooms")),
        one("names of 17 letters, 15 bits alike", crowd("strongrooms_")),
        one("names of 60 letters, 15 bits alike", crowd("strongroom_of_the_north_wing_below_the_hall_and_the_sta")),
        one("short names, then 17 letters, 15 bits alike", mixed_crowd("strongrooms_")),
        one("long names all alike", special::alike_names(MAX_PACK)),
        one("long names, last repeated", special::repeated(special::alike_names(MAX_PACK), 254)),
        one("long names of two stems", special::stem_names(MAX_PACK, 2)),
        one("long names of 40 stems", special::stem_names(MAX_PACK, 40)),
        one("names of 9 bytes", special::random_names(&mut Rng::new(1), MAX_PACK, 9)),
        one("names of 16 bytes", special::random_names(&mut Rng::new(1), MAX_PACK, 16)),
        one("names of 31 bytes", special::random_names(&mut Rng::new(1), MAX_PACK, 31)),
        one("names of 62 bytes", special::random_names(&mut Rng::new(1), MAX_PACK, 62)),
        one("names of all lengths", special::ragged_names(MAX_PACK)),
        one("second name repeated", special::repeated(mixed(), 1)),
        one("name 1000 repeated", special::repeated(mixed(), 1_000)),
        one("deep unary expression", padded(pre(65_000))),
        one("binary leaning left", padded(special::leaning(13_000, true))),
        one("many tiny states", padded(tiny_states())),
        one("many empty equations", padded(equations())),
        one("deep array type", padded(special::deep_type(13_000))),
    ]
}

fn pre(depth: usize) -> Package {
    let mut b = gen::Builder::new();
    let n = b.name("N");
    let rhs = b.p.expr((0..depth).map(|_| Tok::Pre).chain([Tok::Var(n)]));
    let mut node = special::node(n);
    node.equations.push(Equation { lhs: vec![], rhs });
    b.p.nodes.push(node);
    b.done()
}

/// States that share one name: 10 bytes each.
fn tiny_states() -> Package {
    let mut b = gen::Builder::new();
    let n = b.name("S");
    b.p.machines.push(special::machine(n, n, (0..6_540).map(|_| special::state(n)).collect()));
    b.done()
}

/// Equations of 5 bytes: no left names, a tuple of nothing.
fn equations() -> Package {
    let mut b = gen::Builder::new();
    let n = b.name("N");
    let mut node = special::node(n);
    let rhs = b.p.expr([Tok::Tuple(0)]);
    node.equations = vec![Equation { lhs: vec![], rhs }; 13_000];
    b.p.nodes.push(node);
    b.done()
}
