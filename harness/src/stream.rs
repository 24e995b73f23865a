//! An endless row of packs from one seed: packages, then damaged copies of each.

use crate::damage::damage;
use crate::encode::{encode_any, Marks};
use crate::gen::{self, Size};
use crate::package::Package;
use crate::rng::Rng;
use crate::special;

/// What the packs are for: lowerings learn little from packs that do not read.
#[derive(Debug, Clone, Copy, PartialEq)]
pub enum Aim {
    Check,
    Lower,
}

/// Packs far over the limit teach nothing more.
const LONGEST: usize = 200_000;

pub struct Stream {
    rng: Rng,
    aim: Aim,
    base: Vec<u8>,
    marks: Marks,
    names: u16,
    /// Cuts still to come, from this length downwards, and random damage still to come.
    cuts: usize,
    damages: usize,
}

impl Stream {
    pub fn new(seed: u64, aim: Aim) -> Stream {
        let rng = Rng::new(seed);
        Stream { rng, aim, base: vec![], marks: vec![], names: 0, cuts: 0, damages: 0 }
    }

    /// The next pack.
    pub fn pack(&mut self) -> Vec<u8> {
        if self.cuts > 0 {
            self.cuts -= 1;
            return self.base[..self.cuts].to_vec();
        }
        if self.damages > 0 {
            self.damages -= 1;
            return damage(&mut self.rng, &self.base, &self.marks, self.names);
        }
        self.new_base();
        self.base.clone()
    }

    fn new_base(&mut self) {
        let p = self.package();
        self.names = p.old as u16;
        (self.base, self.marks) = encode_any(&p);
        self.base.truncate(LONGEST);
        self.marks.retain(|(at, _)| at + 2 <= LONGEST);
        let small = self.base.len() <= 400;
        let (cuts, damages) = match self.aim {
            Aim::Check => (self.rng.chance(1, 25), if small { 12 } else { 4 }),
            Aim::Lower => (self.rng.chance(1, 5_000), self.rng.pick(&[0, 0, 0, 0, 0, 1])),
        };
        self.cuts = if cuts && small { self.base.len() } else { 0 };
        self.damages = damages;
    }

    fn package(&mut self) -> Package {
        let rng = &mut self.rng;
        match rng.below(4_000) {
            0 => special::huge(rng),
            1 => edge(rng),
            2..=39 => gen::package(rng, Size::Large),
            40..=199 => special::any(rng),
            200..=799 => gen::package(rng, Size::Medium),
            _ => gen::package(rng, Size::Small),
        }
    }
}

/// Exactly 65,536 bytes, one less or one more.
fn edge(rng: &mut Rng) -> Package {
    let mut p = match rng.below(3) {
        0 => special::any(rng),
        1 => gen::package(rng, Size::Large),
        _ => gen::package(rng, Size::Small),
    };
    let size = rng.pick(&[65_535, 65_536, 65_536, 65_537, 65_537, 65_538]);
    special::pad(&mut p, size);
    p
}
