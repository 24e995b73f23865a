//! The walk of resolving, for what the reference does not have: a machine that is too large. It
//! goes over the definitions and makes nothing; of names it needs only how long they become.

use crate::package::*;
use std::collections::HashMap;

#[derive(Debug, Clone, Copy, PartialEq)]
pub enum Walk {
    /// Resolves, to this many states holding this many tokens.
    Fine {
        states: usize,
        tokens: usize,
    },
    TooLarge,
    /// A refinement error comes first; the reference says which.
    Refinement,
}

enum Stop {
    TooLarge,
    Refinement,
}

struct Walker<'a> {
    p: &'a Package,
    by_name: &'a HashMap<Name, usize>,
    /// Machines from the top one down to where the walk is.
    path: Vec<Name>,
    states: usize,
    tokens: usize,
}

/// Of machines with one name the last is meant.
pub fn by_name(p: &Package) -> HashMap<Name, usize> {
    p.machines.iter().enumerate().map(|(i, m)| (m.name, i)).collect()
}

pub fn walk(p: &Package, by_name: &HashMap<Name, usize>, m: &Machine) -> Walk {
    let mut w = Walker { p, by_name, path: vec![m.name], states: 0, tokens: 0 };
    match w.states(&m.states, 1) {
        Ok(_) => Walk::Fine { states: w.states, tokens: w.tokens },
        Err(Stop::TooLarge) => Walk::TooLarge,
        Err(Stop::Refinement) => Walk::Refinement,
    }
}

impl Walker<'_> {
    fn len(&self, name: Name) -> usize {
        self.p.names.get(name).len()
    }

    /// The length of the longest name that a refinement above would qualify.
    fn states(&mut self, states: &[State], level: usize) -> Result<usize, Stop> {
        let mut longest = 0;
        for s in states {
            longest = longest.max(self.state(s, level)?);
        }
        Ok(longest)
    }

    fn state(&mut self, s: &State, level: usize) -> Result<usize, Stop> {
        self.states += 1;
        if self.states > MAX_STATES {
            return Err(Stop::TooLarge);
        }
        self.tokens += tokens(s);
        let targets = s.transitions.iter().map(|t| self.len(t.target)).max();
        let mut longest = self.len(s.name).max(targets.unwrap_or(0));
        for r in &s.regions {
            longest = longest.max(self.region(r.initial, &r.states, level + 1)?);
        }
        if let Some(target) = s.refines {
            longest = longest.max(self.refinement(s, target, level)?);
        }
        Ok(longest)
    }

    fn region(&mut self, initial: Name, states: &[State], level: usize) -> Result<usize, Stop> {
        if level > MAX_LEVEL {
            return Err(Stop::TooLarge);
        }
        let inner = self.states(states, level)?;
        Ok(inner.max(self.len(initial)))
    }

    fn refinement(&mut self, s: &State, target: Name, level: usize) -> Result<usize, Stop> {
        if self.path.contains(&target) {
            return Err(Stop::Refinement);
        }
        let Some(&i) = self.by_name.get(&target) else { return Err(Stop::Refinement) };
        let p = self.p;
        let sub = &p.machines[i];
        self.path.push(target);
        let inner = self.region(sub.initial, &sub.states, level + 1)?;
        self.path.pop();
        let qualified = self.len(s.name) + 1 + inner;
        if qualified > MAX_NAME {
            return Err(Stop::TooLarge);
        }
        Ok(qualified)
    }
}

fn tokens(s: &State) -> usize {
    let size = |e: Expr| (e.end - e.start) as usize + 2;
    let equations: usize = s.equations.iter().map(|e| size(e.rhs) + e.lhs.len()).sum();
    let transitions: usize = s.transitions.iter().map(|t| size(t.guard)).sum();
    equations + transitions + 2
}

#[cfg(test)]
mod tests {
    use super::*;
    use crate::convert::{Expressions, To};
    use crate::decode::decode;
    use crate::stream::{Aim, Stream};
    use reference::state_machine::{resolve_refines, StateDef, StateMachineDef};

    /// States, deepest level and longest name of a resolved machine.
    fn measure(states: &[StateDef], level: usize, m: &mut (usize, usize, usize)) {
        m.1 = m.1.max(level);
        for s in states {
            m.0 += 1;
            let targets = s.transitions.iter().map(|t| t.target.len());
            m.2 = targets.chain([s.name.len(), m.2]).max().unwrap();
            for r in &s.regions {
                m.2 = m.2.max(r.initial_state.len());
                measure(&r.states, level + 1, m);
            }
        }
    }

    /// The walk against the machine that the reference resolves without limits.
    #[test]
    fn the_walk_finds_what_resolving_makes() {
        let mut packs = Stream::new(21, Aim::Lower);
        let (mut fine, mut large, mut refinement) = (0, 0, 0);
        for _ in 0..8_000 {
            let Ok(p) = decode(&packs.pack()) else { continue };
            // With many machines the reference's result could be beyond measure.
            if p.machines.len() > 5 {
                continue;
            }
            let to = To { p: &p, expressions: Expressions::Counted };
            let all: Vec<StateMachineDef> = p.machines.iter().map(|m| to.machine(m)).collect();
            let defs = all.iter().map(|m| (m.name.clone(), m.clone())).collect();
            let by_name = by_name(&p);
            for (m, def) in p.machines.iter().zip(&all) {
                let resolved = resolve_refines(def, &defs);
                let mut made = (0, 0, 0);
                if let Ok(r) = &resolved {
                    measure(&r.states, 1, &mut made);
                }
                let fits = made.0 <= MAX_STATES && made.1 <= MAX_LEVEL && made.2 <= MAX_NAME;
                match walk(&p, &by_name, m) {
                    Walk::Fine { states, .. } => {
                        assert!(resolved.is_ok() && fits && states == made.0);
                        fine += 1;
                    }
                    Walk::TooLarge => {
                        assert!(resolved.is_err() || !fits);
                        large += 1;
                    }
                    Walk::Refinement => {
                        assert!(resolved.is_err());
                        refinement += 1;
                    }
                }
            }
        }
        assert!(fine > 4_000 && large > 100 && refinement > 500, "{fine} {large} {refinement}");
    }
}
