//! The ids that lowering gives to regions: in preorder, the top region 0, a refinement's region after the state's own.

use crate::package::*;
use std::collections::HashMap;

pub struct Ids {
    /// Machines by name; of those with one name the last is meant.
    machines: HashMap<Name, usize>,
    /// How many regions are inside a machine's states, by the levels left below them and by machine.
    inside: Vec<Vec<usize>>,
}

impl Ids {
    pub fn new(p: &Package) -> Ids {
        let machines = p.machines.iter().enumerate().map(|(i, m)| (m.name, i)).collect();
        let mut ids = Ids { machines, inside: vec![] };
        for levels in 0..MAX_LEVEL {
            let counts = p.machines.iter().map(|m| ids.in_states(&m.states, levels)).collect();
            ids.inside.push(counts);
        }
        ids
    }

    /// The machine that is meant by a name.
    pub fn machine(&self, name: Name) -> Option<usize> {
        self.machines.get(&name).copied()
    }

    /// How many regions a state at this level has inside, refinements included. What is too deep is not lowered, and counts nothing.
    pub fn in_state(&self, s: &State, level: usize) -> usize {
        self.state(s, MAX_LEVEL - level.min(MAX_LEVEL))
    }

    /// The same of its regions alone.
    pub fn in_regions(&self, regions: &[Region], level: usize) -> usize {
        self.regions(regions, MAX_LEVEL - level.min(MAX_LEVEL))
    }

    fn in_states(&self, states: &[State], levels: usize) -> usize {
        states.iter().map(|s| self.state(s, levels)).fold(0, usize::saturating_add)
    }

    fn state(&self, s: &State, levels: usize) -> usize {
        let refined = s.refines.and_then(|m| self.machine(m)).filter(|_| levels > 0);
        let inlined = refined.map_or(0, |m| self.inside[levels - 1][m].saturating_add(1));
        self.regions(&s.regions, levels).saturating_add(inlined)
    }

    fn regions(&self, regions: &[Region], levels: usize) -> usize {
        let one = |r: &Region| if levels == 0 { 0 } else { self.in_states(&r.states, levels - 1).saturating_add(1) };
        regions.iter().map(one).fold(0, usize::saturating_add)
    }
}
