//! What lowering the activations of a pack comes to, by the reference.

use crate::answer::Outcome;
use crate::convert::{from_project, to_project};
use crate::decode::decode;
use crate::deep;
use crate::package::*;
use crate::report::{report, Refused};
use crate::scopes;
use reference::activation::{lower, ActivationDef, LoweredActivation};
use reference::node::{Equation as REquation, NodeDef};
use reference::project::{ConstructKind, ConstructOrigin, Project, TypeBody};
use reference::ActLowerError;
use std::collections::HashMap;

/// Tokens that the reference may be made to write before its result is estimated first.
const MODEST: usize = 400_000;

pub fn expected(pack: &[u8]) -> Option<Outcome> {
    Some(match decode(pack) {
        Err(refusal) => Outcome::Unreadable(refusal),
        Ok(p) => deep::run(pack.len(), || outcome(&p)),
    })
}

fn outcome(p: &Package) -> Outcome {
    match tokens(p) {
        Some(most) if most <= MODEST => at_once(p),
        _ => one_by_one(p),
    }
}

/// No fewer tokens than the reference's own call writes; nothing where it has no answer, as an equation has no left names.
pub fn tokens(p: &Package) -> Option<usize> {
    let whole = !p.activations.iter().any(has_empty_left);
    whole.then(|| p.activations.iter().map(most_tokens).sum())
}

fn scopes_of(a: &Activation) -> impl Iterator<Item = &Vec<Equation>> {
    a.branches.iter().map(|b| &b.equations).chain([&a.otherwise])
}

fn has_empty_left(a: &Activation) -> bool {
    scopes_of(a).flatten().any(|e| e.lhs.is_empty())
}

/// No fewer tokens than the reference writes: each token of a scope may be sampled, through as
/// many clocks as there are branches up to it.
fn most_tokens(a: &Activation) -> usize {
    let size = |e: Expr| (e.end - e.start) as usize;
    let scope = |(k, equations): (usize, &Vec<Equation>)| {
        let tokens: usize = equations.iter().map(|e| size(e.rhs) + 2).sum();
        tokens * (k + 4)
    };
    let scopes: usize = scopes_of(a).enumerate().map(scope).sum();
    let n = a.branches.len();
    let conditions: usize = a.branches.iter().map(|b| 2 * size(b.condition) + 8).sum();
    scopes + conditions + n * n + a.outputs.len() * (2 * n + 1)
}

/// The reference's own call on the whole project.
pub fn at_once(p: &Package) -> Outcome {
    let mut project = to_project(p);
    match project.lower_activations() {
        Err(errors) => Outcome::Refused(report(&errors.iter().map(Refused::from).collect::<Vec<_>>())),
        Ok(()) => finish(p, &project),
    }
}

fn finish(p: &Package, project: &Project) -> Outcome {
    let mut made = from_project(p, project);
    made.activations.clear();
    Outcome::written(&made)
}

/// Activation by activation, where one has an equation without left names or may be too long to
/// write out.
pub fn one_by_one(p: &Package) -> Outcome {
    let mut project = to_project(p);
    let activations = std::mem::take(&mut project.packages[0].activations);
    let first_variant = first_variants(&project);
    let mut refused = Vec::new();
    let mut long = false;
    for (act, own) in activations.iter().zip(&p.activations) {
        let nodes = &mut project.packages[0].nodes;
        let Some(node) = nodes.iter_mut().find(|n| n.name == act.owner) else {
            let e = ActLowerError::UnknownOwner(act.name.clone(), act.owner.clone());
            refused.push(Refused::from(&e));
            continue;
        };
        let low = if most_tokens(own) > MODEST {
            with_care(act, node, &first_variant)
        } else {
            with_empty_left(act, node, &first_variant).map(scopes::Lowered::from)
        };
        match low {
            Ok(low) => {
                // Every token takes a byte.
                long |= low.tokens > MAX_PACK;
                merge(&mut project.origins, node, act, low);
            }
            Err(e) => refused.push(e),
        }
    }
    if !refused.is_empty() {
        Outcome::Refused(report(&refused))
    } else if long {
        Outcome::TooLong
    } else {
        finish(p, &project)
    }
}

/// Asks the reference only for what has a chance to fit.
fn with_care(
    act: &ActivationDef,
    owner: &NodeDef,
    first_variant: &HashMap<String, String>,
) -> Result<scopes::Lowered, Refused> {
    let low = scopes::lower(act, owner, first_variant)?;
    if low.tokens > MAX_PACK {
        return Ok(low);
    }
    with_empty_left(act, owner, first_variant).map(scopes::Lowered::from)
}

/// Where the reference would panic, it gets two empty left names instead of none: that assigns
/// nothing either, and so its errors are those of the activation.
fn with_empty_left(
    act: &ActivationDef,
    owner: &NodeDef,
    first_variant: &HashMap<String, String>,
) -> Result<LoweredActivation, Refused> {
    let mut filled = act.clone();
    let mut empty = false;
    let mut fill = |equations: &mut Vec<REquation>| {
        for e in equations.iter_mut().filter(|e| e.lhs.is_empty()) {
            empty = true;
            e.lhs = vec![String::new(); 2];
        }
    };
    filled.branches.iter_mut().for_each(|b| fill(&mut b.equations));
    fill(&mut filled.else_equations);
    let low = lower(&filled, owner, first_variant).map_err(|e| Refused::from(&e))?;
    if empty {
        return Err(Refused::empty_left(&act.name));
    }
    Ok(low)
}

/// The first variant of each enum; of enums with one name the last that has variants.
fn first_variants(project: &Project) -> HashMap<String, String> {
    let mut first = HashMap::new();
    for t in &project.packages[0].types {
        if let TypeBody::Enum(e) = &t.body {
            if let Some(v) = e.variants.first() {
                first.insert(e.name.clone(), v.clone());
            }
        }
    }
    first
}

/// Puts what an activation made into its owner, as the reference's project does.
fn merge(origins: &mut Vec<ConstructOrigin>, node: &mut NodeDef, act: &ActivationDef, low: scopes::Lowered) {
    let first = node.equations.len();
    node.locals.extend(low.locals);
    node.equations.extend(low.equations);
    let branches = act.branches.iter().map(|b| b.name.clone()).chain(["else".to_string()]);
    origins.push(ConstructOrigin {
        node: act.owner.clone(),
        kind: ConstructKind::Activation,
        name: act.name.clone(),
        equations: first..node.equations.len(),
        branches: branches.collect(),
    });
}

#[cfg(test)]
mod tests {
    use super::*;
    use crate::stream::{Aim, Stream};

    /// Where the reference's own call can be used, the other ways agree with it.
    #[test]
    fn one_by_one_is_at_once() {
        let mut packs = Stream::new(12, Aim::Lower);
        let (mut lowered, mut refused) = (0, 0);
        for _ in 0..6_000 {
            let pack = packs.pack();
            let Ok(p) = decode(&pack) else { continue };
            let most: usize = p.activations.iter().map(most_tokens).sum();
            if p.activations.is_empty() || most > MODEST || p.activations.iter().any(has_empty_left) {
                continue;
            }
            let (one, two) = deep::run(pack.len(), || (at_once(&p), one_by_one(&p)));
            assert_eq!(one, two, "{}", crate::compare::hex(&pack));
            lowered += matches!(one, Outcome::Lowered(_)) as usize;
            refused += matches!(one, Outcome::Refused(_)) as usize;
        }
        assert!(lowered > 700 && refused > 300, "{lowered} {refused}");
    }

    /// The own checks, locals and size, used where the reference would write too much.
    #[test]
    fn own_scopes_are_the_references() {
        let mut packs = Stream::new(13, Aim::Lower);
        let (mut lowered, mut refused) = (0, 0);
        for _ in 0..8_000 {
            let pack = packs.pack();
            let Ok(p) = decode(&pack) else { continue };
            if p.activations.iter().map(most_tokens).sum::<usize>() > MODEST {
                continue;
            }
            let (l, r) = deep::run(pack.len(), || compare_scopes(&p));
            lowered += l;
            refused += r;
        }
        assert!(lowered > 1_000 && refused > 300, "{lowered} {refused}");
    }

    fn compare_scopes(p: &Package) -> (usize, usize) {
        let project = to_project(p);
        let first = first_variants(&project);
        let (mut lowered, mut refused) = (0, 0);
        for act in &project.packages[0].activations {
            let Some(node) = project.packages[0].find_node(&act.owner) else { continue };
            let want = with_empty_left(act, node, &first);
            match (scopes::lower(act, node, &first), want) {
                (Ok(got), Ok(want)) => {
                    assert_eq!(got.locals, want.locals);
                    let tokens: usize = want.equations.iter().map(|e| scopes::tokens(&e.rhs)).sum();
                    assert_eq!(got.tokens, tokens);
                    lowered += 1;
                }
                (Err(got), Err(want)) => {
                    assert_eq!(got, want);
                    refused += 1;
                }
                (got, want) => panic!("{:?} and {:?}", got.is_ok(), want.is_ok()),
            }
        }
        (lowered, refused)
    }
}
