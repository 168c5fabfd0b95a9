//! Document 01's rules for a proof step, and checking.

use super::meaning::valid;
use super::reading::{Body, File};
use super::{role, Membership, Refusal, Rules};

#[derive(Clone, Copy, PartialEq, Eq, Debug)]
pub struct Step {
    pub credential: u32,
    pub first: u32,
    pub second: u32,
    pub set: u32,
}

/// What a step shows, and its level.
pub type Shown = (Membership, usize);

/// What the step after the shown ones shows, if it keeps the rules.
pub fn shows(rules: &Rules, file: &File, minute: u32, shown: &[Shown], step: Step) -> Option<Shown> {
    let credential = file.credentials.get(step.credential as usize)?;
    if !valid(rules, credential, minute) {
        return None;
    }
    // A cited step that concerns a role: its set and its level.
    let cited = |place: u32, of: u32| {
        let &((role, set), level) = shown.get(place as usize)?;
        (role == of).then_some((set, level))
    };
    let (set, level) = match credential.body {
        Body::Entity(entity) => {
            if step.first != 0 || step.second != 0 {
                return None;
            }
            (1 << entity, 1)
        }
        Body::Role(of) => {
            let (set, level) = cited(step.first, of)?;
            if step.second != 0 {
                return None;
            }
            (set, level + 1)
        }
        Body::Linked(of, name) => {
            let (x, one) = cited(step.first, of)?;
            let entity = (rules.links)(x)?;
            let (y, other) = cited(step.second, role(entity, name))?;
            (y, one.max(other) + 1)
        }
        Body::Pair(kind, of, with) => {
            let (x, one) = cited(step.first, of)?;
            let (y, other) = cited(step.second, with)?;
            ((rules.combines)(kind, x, y)?, one.max(other) + 1)
        }
    };
    (step.set == set).then_some(((credential.head, set), level))
}

/// What the steps show, or 15 at the first that breaks the rules.
pub fn all_shown(rules: &Rules, file: &File, minute: u32, steps: &[Step]) -> Result<Vec<Shown>, Refusal> {
    let mut shown = Vec::new();
    for (place, &step) in steps.iter().enumerate() {
        match shows(rules, file, minute, &shown, step) {
            Some(next) => shown.push(next),
            None => return Err(Refusal { number: 15, place: place as u32 }),
        }
    }
    Ok(shown)
}

/// The level of one or more steps as a proof of the membership; 15 or 16.
pub fn check(rules: &Rules, file: &File, of: Membership, minute: u32, steps: &[Step]) -> Result<usize, Refusal> {
    let shown = all_shown(rules, file, minute, steps)?;
    match shown.last() {
        Some(&(membership, level)) if membership == of => Ok(level),
        _ => Err(Refusal { number: 16, place: 0 }),
    }
}
