//! The calls that are timed, each with the Rust that it is held to.

use super::sets::{self, Set};
use crate::answer::Outcome;
use crate::calls::{self, LowerFn};
use crate::convert::to_project;
use crate::decode::decode;
use crate::hostile::{self, Hostile};
use crate::package::{Package, MAX_PACK};
use crate::{activations, machines};
use reference::project::Project;
use std::cell::RefCell;
use std::hint::black_box;
use std::time::Instant;

/// Where the reference's own call would write more tokens than this, it takes gigabytes.
const MOST_TOKENS: usize = 20_000_000;

/// A lowering, and how the reference does it.
pub struct Lowering {
    pub name: &'static str,
    pub linked: Option<LowerFn>,
    /// Whether the reference's own call can do it.
    plain: fn(&[u8]) -> bool,
    /// The reference's own call, with the conversions around it.
    at_once: fn(&Package) -> Outcome,
    /// The harness's shortcut, where that call cannot.
    expected: fn(&[u8]) -> Option<Outcome>,
    /// The call alone, on a project that is ready.
    alone: fn(&mut Project) -> bool,
    costly: fn() -> Vec<Hostile>,
    limits: fn() -> Vec<Hostile>,
    /// Packs that the Rust side takes minutes for.
    vast: fn() -> Vec<Hostile>,
}

pub fn lowerings() -> [Lowering; 2] {
    [
        Lowering {
            name: "machines",
            linked: calls::linked_machines(),
            plain: |p| decode(p).is_ok_and(|p| machines::tokens(&p).is_some_and(|tokens| tokens <= MOST_TOKENS)),
            at_once: machines::at_once,
            expected: machines::expected,
            alone: |project| project.lower_state_machines().is_ok(),
            costly: hostile::machines::costly,
            limits: hostile::machines::limits,
            vast: hostile::machines::vast,
        },
        Lowering {
            name: "activations",
            linked: calls::linked_activations(),
            plain: |p| decode(p).is_ok_and(|p| activations::tokens(&p).is_some_and(|tokens| tokens <= MOST_TOKENS)),
            at_once: activations::at_once,
            expected: activations::expected,
            alone: |project| project.lower_activations().is_ok(),
            costly: hostile::activations::costly,
            limits: hostile::activations::limits,
            vast: Vec::new,
        },
    ]
}

impl Lowering {
    pub fn sets(&self) -> Vec<Set> {
        let mut sets = sets::usual(&self.plain);
        sets.extend(sets::lowering((self.costly)(), (self.limits)()));
        sets
    }

    /// The packs on which the linked call is timed alone.
    pub fn vast(&self) -> Vec<Set> {
        (self.vast)().into_iter().map(sets::worst).collect()
    }

    /// Whether the reference's own call can lower every pack of the set.
    pub fn plain(&self, set: &Set) -> bool {
        set.packs.iter().all(|p| (self.plain)(p))
    }

    /// Decoding, the reference's call or the shortcut, and encoding.
    pub fn rust(&self, plain: bool, pack: &[u8]) -> u64 {
        let outcome = match decode(pack) {
            Ok(p) if plain => Some((self.at_once)(&p)),
            _ => (self.expected)(pack),
        };
        outcome.map_or(0, |o| o.bytes() as u64)
    }

    /// Microseconds that the reference's call takes of a typical pack, on a project that is ready: the best of several.
    pub fn alone(&self) -> f64 {
        let packs = sets::generated(60, 1_000..=20_000, &self.plain);
        let projects: Vec<_> = packs.iter().map(|p| to_project(&decode(p).unwrap())).collect();
        let mut best = f64::MAX;
        for _ in 0..16 {
            let mut ready = projects.clone();
            let start = Instant::now();
            for project in &mut ready {
                black_box((self.alone)(project));
            }
            best = best.min(start.elapsed().as_secs_f64() * 1e6 / projects.len() as f64);
        }
        best
    }
}

/// A lowering with buffers that all results and most reports fit in.
pub fn lower(f: LowerFn, pack: &[u8]) -> u64 {
    thread_local! {
        static BUFFERS: RefCell<[Vec<u8>; 2]> = RefCell::new([vec![0; MAX_PACK], vec![0; MAX_PACK]]);
    }
    BUFFERS.with_borrow_mut(|[output, report]| calls::lower(f, pack, output, report))
}
