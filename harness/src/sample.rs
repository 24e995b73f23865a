//! Choosing few small packs that show much: each kind of refusal at each kind of field, each
//! section, tag, type, literal and level.

use crate::answer::check;
use crate::decode::{decode, refused_at};
use crate::encode::encode_any;
use crate::package::*;
use crate::special;
use crate::stream::{Aim, Stream};
use std::collections::{BTreeSet, HashMap};

/// Packs to choose from, the longest of them, and the most bytes of a whole sample.
const CANDIDATES: usize = 60_000;
const LONGEST: usize = 420;
const MOST_BYTES: usize = 150_000;

/// Of legal packs what they hold; of refused ones the field, and the answer with [`REFUSED`] added.
type Feature = (&'static str, usize);
const REFUSED: usize = 1_000_000;

/// One record: length, pack, the word that the check returns.
pub fn record(pack: &[u8]) -> Vec<u8> {
    let mut out = (pack.len() as u32).to_le_bytes().to_vec();
    out.extend_from_slice(pack);
    out.extend_from_slice(&check(pack).answer(0, 0).word().to_le_bytes());
    out
}

/// At most `count` packs, shortest first where they show the same.
pub fn choose(count: usize, seed: u64) -> Vec<Vec<u8>> {
    let candidates = candidates(seed);
    let features: Vec<BTreeSet<Feature>> = candidates.iter().map(|p| features(p)).collect();
    let mut shown: HashMap<Feature, usize> = HashMap::new();
    let mut taken = vec![false; candidates.len()];
    let (mut left, mut room) = (count, MOST_BYTES);
    // First every feature once, then twice, and so on.
    for times in 1..=count {
        for (i, pack) in candidates.iter().enumerate() {
            let wanted = features[i].iter().any(|f| shown.get(f).copied().unwrap_or(0) < times);
            let cost = pack.len() + 12;
            if left == 0 || taken[i] || !wanted || cost > room {
                continue;
            }
            taken[i] = true;
            left -= 1;
            room -= cost;
            for f in &features[i] {
                *shown.entry(*f).or_default() += 1;
            }
        }
    }
    candidates.into_iter().zip(taken).filter(|(_, t)| *t).map(|(p, _)| p).collect()
}

fn candidates(seed: u64) -> Vec<Vec<u8>> {
    let mut packs = Stream::new(seed, Aim::Check);
    let mut all: BTreeSet<(usize, Vec<u8>)> = BTreeSet::new();
    for level in 8..=9 {
        let p = encode_any(&special::nest(level, 1)).0;
        all.insert((p.len(), p));
    }
    for _ in 0..CANDIDATES {
        let p = packs.pack();
        if p.len() <= LONGEST {
            all.insert((p.len(), p));
        }
    }
    all.into_iter().map(|(_, p)| p).collect()
}

/// What a pack shows.
fn features(pack: &[u8]) -> BTreeSet<Feature> {
    let mut f = BTreeSet::new();
    match decode(pack) {
        Err(refusal) => {
            let what = refused_at(pack).map_or("", |(_, what)| what);
            f.insert((what, REFUSED + refusal.number as usize));
        }
        Ok(p) => {
            f.insert(("length", pack.len() / 60));
            sections(&p, &mut f);
            p.toks.iter().for_each(|t| token(t, &mut f));
            for m in &p.machines {
                f.insert(("owner", m.owner.is_some() as usize));
                states(&m.states, 1, &mut f);
            }
            for n in &p.nodes {
                f.insert(("node kind", n.kind as usize));
                ports(&n.inputs, &mut f);
                ports(&n.outputs, &mut f);
                ports(&n.locals, &mut f);
            }
            for a in &p.activations {
                ports(&a.outputs, &mut f);
                f.insert(("branches", a.branches.len().min(3)));
            }
            for o in &p.origins {
                f.insert(("origin kind", o.activation as usize));
            }
        }
    }
    f
}

fn sections(p: &Package, f: &mut BTreeSet<Feature>) {
    let counts = [p.names.len(), p.enums.len(), p.nodes.len(), p.machines.len(), p.activations.len(), p.origins.len()];
    for (i, count) in counts.into_iter().enumerate() {
        f.insert(("section", i * 3 + count.min(2)));
    }
}

fn token(t: &Tok, f: &mut BTreeSet<Feature>) {
    f.insert(("tag", t.tag() as usize));
    match t {
        Tok::Const(lit) => {
            let kind = match lit {
                Lit::Bool(b) => *b as usize,
                Lit::Int(_) => 2,
                Lit::Float(_) => 3,
                Lit::Char(_) => 4,
            };
            f.insert(("literal", kind));
        }
        Tok::Unary(op) => drop(f.insert(("unary", *op as usize))),
        Tok::Binary(op) => drop(f.insert(("binary", *op as usize))),
        Tok::Cast(t) => ty(t, f),
        Tok::Iterate { fold, init, .. } => drop(f.insert(("iterate", *fold as usize * 2 + *init as usize))),
        Tok::Call(_, n) | Tok::Tuple(n) | Tok::Array(n) => {
            f.insert(("arguments", t.tag() as usize * 4 + (*n).min(3) as usize));
        }
        Tok::Struct(s) => drop(f.insert(("fields", s.1.len().min(3)))),
        _ => {}
    }
}

fn ports(ports: &[Port], f: &mut BTreeSet<Feature>) {
    ports.iter().for_each(|p| ty(&p.ty, f));
}

fn ty(t: &Type, f: &mut BTreeSet<Feature>) {
    f.insert(("array", t.lens.len()));
    let base = match t.base {
        Base::Plain(b) => b,
        Base::Named(_) => TYPE_NAMED,
    };
    f.insert(("type", base as usize));
}

fn states(all: &[State], level: usize, f: &mut BTreeSet<Feature>) {
    f.insert(("level", level));
    for s in all {
        f.insert(("refinement", s.refines.is_some() as usize));
        f.insert(("transitions", s.transitions.len().min(3)));
        for r in &s.regions {
            f.insert(("history", r.history as usize));
            states(&r.states, level + 1, f);
        }
    }
}

/// A full legal pack, one a byte too long, and one of many names whose last is repeated.
pub fn big() -> Vec<Vec<u8>> {
    let mut legal = special::nest(8, 2);
    special::pad(&mut legal, 65_536);
    let mut long = special::leaning(4_000, true);
    special::pad(&mut long, 65_537);
    let mut names = special::names_only(65_530);
    names.names.push(b"ZZ");
    names.old += 1;
    [legal, long, names].iter().map(|p| encode_any(p).0).collect()
}

#[cfg(test)]
mod tests {
    use super::*;

    #[test]
    fn a_sample_shows_what_it_should() {
        let packs = choose(300, 1);
        assert!(packs.len() > 250 && packs.len() <= 300, "{}", packs.len());
        assert!(packs.iter().map(|p| p.len() + 12).sum::<usize>() <= MOST_BYTES);
        let shown: BTreeSet<Feature> = packs.iter().flat_map(|p| features(p)).collect();
        for tag in 0..17 {
            assert!(shown.contains(&("tag", tag)), "tag {tag}");
        }
        for byte in (0..14).filter(|b| *b != TYPE_ARRAY as usize) {
            assert!(shown.contains(&("type", byte)), "type {byte}");
        }
        for level in 1..=8 {
            assert!(shown.contains(&("level", level)), "level {level}");
        }
        let refused = |what, number| shown.contains(&(what, REFUSED + number));
        for what in ["repeated name", "tag", "type", "literal", "history", "refinement", "iterate kind", "target"] {
            assert!(refused(what, 3), "{what}");
        }
        assert!(refused("level", 4) && refused("after origins", 5) && refused("tag", 2));
        assert!(shown.contains(&("array", 1)));
    }

    #[test]
    fn big_packs_have_the_sizes_and_answers_meant() {
        let big = big();
        let word = |i: usize| check(&big[i]).answer(0, 0).word();
        assert_eq!((big[0].len(), word(0)), (65_536, 65_536));
        assert_eq!((big[1].len(), word(1)), (65_537, 1 << 32 | 65_536));
        assert_eq!((big[2].len() <= 65_536, word(2) >> 32), (true, 3));
    }
}
