//! What lowering the machines of a pack comes to, by the reference.

use crate::answer::Outcome;
use crate::convert::{children, from_project, to_project, Expressions, To};
use crate::decode::decode;
use crate::deep;
use crate::package::*;
use crate::report::{report, Refused};
use crate::walk::{by_name, walk, Walk};
use reference::expr::{Expr as RExpr, Literal};
use reference::project::{ConstructKind, ConstructOrigin, Project};
use reference::state_machine::{lower, resolve_refines, LowerError, LoweredMachine, StateMachineDef};
use std::collections::HashMap;

/// Tokens that the reference may be made to write before its result is estimated first.
const MODEST: usize = 300_000;

pub fn expected(pack: &[u8]) -> Option<Outcome> {
    Some(match decode(pack) {
        Err(refusal) => Outcome::Unreadable(refusal),
        Ok(p) => deep::run(pack.len(), || outcome(&p)),
    })
}

fn outcome(p: &Package) -> Outcome {
    let walks = walks(p);
    if walks.contains(&Walk::TooLarge) || most_tokens(p, &walks) > MODEST {
        one_by_one(p, &walks)
    } else {
        at_once(p)
    }
}

pub fn walks(p: &Package) -> Vec<Walk> {
    let by_name = by_name(p);
    p.machines.iter().map(|m| walk(p, &by_name, m)).collect()
}

/// How many tokens the reference's own call writes; nothing where it has no answer, as a machine is too large.
pub fn tokens(p: &Package) -> Option<usize> {
    if walks(p).contains(&Walk::TooLarge) {
        return None;
    }
    let to = To { p, expressions: Expressions::Counted };
    let counted = Named::new(p.machines.iter().map(|m| to.machine(m)).collect());
    // What is refused is not written.
    let written = (0..p.machines.len()).filter_map(|i| counted.lower_distinct(i).ok());
    Some(written.fold(0, usize::saturating_add))
}

/// No fewer tokens than the reference writes.
fn most_tokens(p: &Package, walks: &[Walk]) -> usize {
    let machines = p.machines.iter().zip(walks);
    machines
        .map(|(m, w)| match w {
            Walk::Fine { states, tokens } => (tokens + 8 * states) * (m.outputs.len() + 2),
            _ => 0,
        })
        .sum()
}

/// The reference's own call on the whole project.
pub fn at_once(p: &Package) -> Outcome {
    let mut project = to_project(p);
    match project.lower_state_machines() {
        Err(errors) => Outcome::Refused(report(&errors.iter().map(Refused::from).collect::<Vec<_>>())),
        Ok(()) => finish(p, &project),
    }
}

fn finish(p: &Package, project: &Project) -> Outcome {
    let mut made = from_project(p, project);
    made.machines.clear();
    Outcome::written(&made)
}

/// Machine by machine, where one is too large or the result may be: each is first lowered with
/// its expressions replaced by their sizes, and with them only if the result could still fit.
pub fn one_by_one(p: &Package, walks: &[Walk]) -> Outcome {
    let mut project = to_project(p);
    let machines = std::mem::take(&mut project.packages[0].state_machines);
    let counted: Vec<StateMachineDef> = {
        let to = To { p, expressions: Expressions::Counted };
        p.machines.iter().map(|m| to.machine(m)).collect()
    };
    let (whole, counted) = (Named::new(machines), Named::new(counted));
    let mut refused = Vec::new();
    let mut size = 0usize;
    for (i, walk) in walks.iter().enumerate() {
        let sm = &whole.all[i];
        if *walk == Walk::TooLarge {
            refused.push(Refused::too_large(&sm.name));
            continue;
        }
        let added = match counted.lower_distinct(i) {
            Ok(tokens) => tokens,
            Err(e) => {
                refused.push(Refused::from(&e));
                continue;
            }
        };
        size = size.saturating_add(added);
        // Every token takes a byte.
        let low = if size > MAX_PACK { counted.lower_distinct_node(i) } else { whole.lower(i) };
        if let Err(e) = merge(&mut project, sm, low.expect("accepted above")) {
            refused.push(Refused::from(&e));
        }
    }
    if !refused.is_empty() {
        Outcome::Refused(report(&refused))
    } else if size > MAX_PACK {
        Outcome::TooLong
    } else {
        finish(p, &project)
    }
}

/// Machines and how they are found by name.
struct Named {
    all: Vec<StateMachineDef>,
    by_name: HashMap<String, StateMachineDef>,
}

impl Named {
    fn new(all: Vec<StateMachineDef>) -> Named {
        let by_name = all.iter().map(|m| (m.name.clone(), m.clone())).collect();
        Named { all, by_name }
    }

    fn lower(&self, i: usize) -> Result<LoweredMachine, LowerError> {
        lower(&resolve_refines(&self.all[i], &self.by_name)?)
    }

    /// Each output port once: repeated ones are checked and written alike.
    fn lower_distinct_node(&self, i: usize) -> Result<LoweredMachine, LowerError> {
        let mut sm = resolve_refines(&self.all[i], &self.by_name)?;
        let mut seen = std::collections::HashSet::new();
        sm.outputs.retain(|o| seen.insert(o.name.clone()));
        lower(&sm)
    }

    /// The tokens that lowering machine `i` writes.
    fn lower_distinct(&self, i: usize) -> Result<usize, LowerError> {
        let low = self.lower_distinct_node(i)?;
        let mut times: HashMap<&str, usize> = HashMap::new();
        for o in &self.all[i].outputs {
            *times.entry(&o.name).or_default() += 1;
        }
        let equations = &low.node.equations;
        let outputs = equations.len() - low.node.outputs.len();
        let sizes = equations.iter().enumerate().map(|(k, e)| {
            let repeated = if k < outputs { 1 } else { times[e.lhs[0].as_str()] };
            counted_tokens(&e.rhs).saturating_mul(repeated)
        });
        Ok(sizes.fold(0, usize::saturating_add))
    }
}

/// Tokens, where an integer literal stands for as many as it says.
fn counted_tokens(e: &RExpr) -> usize {
    let mut tokens = 0usize;
    let mut todo = vec![e];
    while let Some(e) = todo.pop() {
        tokens += match e {
            RExpr::Const { lit: Literal::Int { value } } => *value as usize,
            _ => 1,
        };
        todo.extend(children(e));
    }
    tokens
}

/// Puts a lowered machine where it belongs, as the reference's project does.
fn merge(project: &mut Project, sm: &StateMachineDef, low: LoweredMachine) -> Result<(), LowerError> {
    let package = &mut project.packages[0];
    package.types.extend(low.state_types);
    let Some(owner) = &sm.owner else {
        package.nodes.push(low.node);
        return Ok(());
    };
    let Some(node) = package.nodes.iter_mut().find(|n| n.name == *owner) else {
        return Err(LowerError::UnknownOwner(sm.name.clone(), owner.clone()));
    };
    let first = node.equations.len();
    node.locals.extend(low.node.locals);
    node.equations.extend(low.node.equations);
    project.origins.push(ConstructOrigin {
        node: owner.clone(),
        kind: ConstructKind::StateMachine,
        name: sm.name.clone(),
        equations: first..node.equations.len(),
        branches: vec![],
    });
    Ok(())
}

#[cfg(test)]
mod tests {
    use super::*;
    use crate::stream::{Aim, Stream};

    /// Where the reference's own call can be used, both ways agree.
    #[test]
    fn one_by_one_is_at_once() {
        let mut packs = Stream::new(11, Aim::Lower);
        let (mut lowered, mut refused) = (0, 0);
        for _ in 0..6_000 {
            let pack = packs.pack();
            let Ok(p) = decode(&pack) else { continue };
            let walks = walks(&p);
            if walks.contains(&Walk::TooLarge) || most_tokens(&p, &walks) > MODEST {
                continue;
            }
            let (one, two) = deep::run(pack.len(), || (at_once(&p), one_by_one(&p, &walks)));
            assert_eq!(one, two, "{}", crate::compare::hex(&pack));
            lowered += matches!(one, Outcome::Lowered(_)) as usize;
            refused += matches!(one, Outcome::Refused(_)) as usize;
        }
        assert!(lowered > 1_500 && refused > 300, "{lowered} {refused}");
    }
}
