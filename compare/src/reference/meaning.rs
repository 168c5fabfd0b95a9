//! Document 003, Definition 3, at one minute: S_0 is empty, and S_(k+1) is what the credentials valid at the minute
//! give from S_k. A membership's least level is the first k with the membership in S_k.

use super::reading::{Body, Credential, File};
use super::{role, Membership, Rules, MOST};
use std::collections::{BTreeMap, BTreeSet};

pub type Relation = BTreeSet<Membership>;

/// The memberships at a minute, each with its least level; or more than 1,024 of them.
pub enum Members {
    Levels(BTreeMap<Membership, usize>),
    TooMany,
}

pub fn valid(rules: &Rules, credential: &Credential, minute: u32) -> bool {
    let gone = credential.withdrawn.is_some_and(|withdrawn| (rules.gone)(withdrawn, minute));
    (rules.covers)(credential.from, credential.to, minute) && !gone
}

pub fn members(rules: &Rules, file: &File, minute: u32) -> Members {
    let mut levels = BTreeMap::new();
    let mut current = Relation::new();
    for k in 1.. {
        let mut next = Relation::new();
        for credential in file.credentials.iter().filter(|c| valid(rules, c, minute)) {
            for set in gives(rules, credential, &current) {
                next.insert((credential.head, set));
            }
            // The sequence grows, so that a later member of it is not smaller.
            if next.len() > MOST {
                return Members::TooMany;
            }
        }
        for &membership in &next {
            levels.entry(membership).or_insert(k);
        }
        if next == current || k == rules.rounds {
            break;
        }
        current = next;
    }
    Members::Levels(levels)
}

pub fn sets_of(relation: &Relation, role: u32) -> Vec<u32> {
    relation.range((role, 0)..=(role, u32::MAX)).map(|&(_, set)| set).collect()
}

/// The sets that a credential gives its head; not all of them if there are more than 1,024.
fn gives(rules: &Rules, credential: &Credential, relation: &Relation) -> BTreeSet<u32> {
    let mut sets = BTreeSet::new();
    match credential.body {
        Body::Entity(entity) => {
            sets.insert(1 << entity);
        }
        Body::Role(of) => sets.extend(sets_of(relation, of)),
        Body::Linked(of, name) => {
            for entity in sets_of(relation, of).into_iter().filter_map(rules.links) {
                sets.extend(sets_of(relation, role(entity, name)));
            }
        }
        Body::Pair(kind, one, other) => {
            let others = sets_of(relation, other);
            for x in sets_of(relation, one) {
                sets.extend(others.iter().filter_map(|&y| (rules.combines)(kind, x, y)));
                if sets.len() > MOST {
                    break;
                }
            }
        }
    }
    sets
}
