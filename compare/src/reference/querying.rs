//! Document 01's demands on the proof that querying hands out, request Five's of document 02, and one proof that meets them.

use super::checking::{all_shown, Step};
use super::meaning::valid;
use super::reading::{Body, File};
use super::{Membership, Rules};
use std::collections::{BTreeMap, BTreeSet};

/// Whether the steps are a proof of the membership that querying may hand out; if not, why.
pub fn judge(rules: &Rules, file: &File, of: Membership, minute: u32, least: usize, level: usize, steps: &[Step]) -> Result<(), String> {
    let shown = match all_shown(rules, file, minute, steps) {
        Ok(shown) => shown,
        Err(refusal) => return Err(format!("step {} breaks the rules", refusal.place)),
    };
    let Some(&(last, own)) = shown.last() else { return Err("no steps".into()) };
    if last != of {
        return Err("the last step is not the queried membership".into());
    }
    if own != level {
        return Err(format!("level {level} returned, the steps' level is {own}"));
    }
    if own != least {
        return Err(format!("level {own}, the least is {least}"));
    }
    let distinct: BTreeSet<Membership> = shown.iter().map(|&(membership, _)| membership).collect();
    if distinct.len() != shown.len() {
        return Err("a membership is shown twice".into());
    }
    match resting(file, steps).iter().position(|&rested| !rested) {
        Some(place) => Err(format!("the last step does not rest on step {place}")),
        None => Ok(()),
    }
}

/// Document 02, request Five: the level is at most the number of memberships at the minute, which is at most L; every cited step is below the step
/// count, and every credential below the file's count. If not, why.
pub fn bounded(file: &File, held: usize, length: usize, level: usize, steps: &[Step]) -> Result<(), String> {
    if held > length {
        return Err(format!("{held} memberships at the minute, {length} entries"));
    }
    if level > held {
        return Err(format!("level {level} returned, {held} memberships at the minute"));
    }
    let beyond = |step: &Step| {
        let cited = [step.first, step.second].iter().any(|&place| place as usize >= steps.len());
        cited || step.credential as usize >= file.credentials.len()
    };
    match steps.iter().position(beyond) {
        Some(place) => Err(format!("step {place} cites a step not below {} or names a credential not below {}", steps.len(), file.credentials.len())),
        None => Ok(()),
    }
}

/// The steps that the last one rests on. The steps keep the rules.
fn resting(file: &File, steps: &[Step]) -> Vec<bool> {
    let mut rested = vec![false; steps.len()];
    let mut open = vec![steps.len() - 1];
    while let Some(place) = open.pop() {
        rested[place] = true;
        let step = steps[place];
        match file.credentials[step.credential as usize].body {
            Body::Entity(_) => {}
            Body::Role(_) => open.push(step.first as usize),
            Body::Linked(..) | Body::Pair(..) => open.extend([step.first as usize, step.second as usize]),
        }
        open.retain(|&place| !rested[place]);
    }
    rested
}

/// A proof of least level of a membership that has one.
pub fn proof(rules: &Rules, file: &File, minute: u32, levels: &BTreeMap<Membership, usize>, of: Membership) -> Vec<Step> {
    let mut steps = Vec::new();
    let search = Search { rules, file, minute, levels };
    search.show(of, &mut steps, &mut BTreeMap::new());
    steps
}

struct Search<'a> {
    rules: &'a Rules,
    file: &'a File,
    minute: u32,
    levels: &'a BTreeMap<Membership, usize>,
}

impl Search<'_> {
    /// The position of the step that shows the membership; it and those it rests on are added if it isn't there yet.
    fn show(&self, of: Membership, steps: &mut Vec<Step>, places: &mut BTreeMap<Membership, u32>) -> u32 {
        if let Some(&place) = places.get(&of) {
            return place;
        }
        let (credential, premises) = self.derivation(of);
        let cited: Vec<u32> = premises.into_iter().map(|premise| self.show(premise, steps, places)).collect();
        let word = |i: usize| cited.get(i).copied().unwrap_or(0);
        steps.push(Step { credential, first: word(0), second: word(1), set: of.1 });
        places.insert(of, steps.len() as u32 - 1);
        steps.len() as u32 - 1
    }

    /// A credential that gives the membership from memberships of lower levels, and these.
    fn derivation(&self, of: Membership) -> (u32, Vec<Membership>) {
        let credentials = self.file.credentials.iter().enumerate();
        let mut candidates = credentials.filter(|(_, c)| c.head == of.0 && valid(self.rules, c, self.minute));
        candidates.find_map(|(place, c)| Some((place as u32, self.premises(c.body, of)?))).expect("a membership of this level has a derivation")
    }

    fn premises(&self, body: Body, of: Membership) -> Option<Vec<Membership>> {
        let lower = |role: u32| {
            let own = self.levels[&of];
            self.levels.range((role, 0)..=(role, u32::MAX)).filter(move |&(_, &level)| level < own).map(|(&(_, set), _)| set)
        };
        match body {
            Body::Entity(entity) => (of.1 == 1 << entity).then(Vec::new),
            Body::Role(role) => lower(role).find(|&x| x == of.1).map(|x| vec![(role, x)]),
            Body::Linked(role, name) => lower(role).find_map(|x| {
                let linked = super::role((self.rules.links)(x)?, name);
                lower(linked).find(|&y| y == of.1).map(|y| vec![(role, x), (linked, y)])
            }),
            Body::Pair(kind, one, other) => lower(one).find_map(|x| {
                let mut ys = lower(other);
                ys.find(|&y| (self.rules.combines)(kind, x, y) == Some(of.1)).map(|y| vec![(one, x), (other, y)])
            }),
        }
    }
}
