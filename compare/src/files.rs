//! Credentials files to compare on.

use crate::random::Random;
use crate::reference::{reading::uses, role};
use crate::serials;

/// From and to as the file has them; both minutes are covered.
pub type Period = (u32, u32);

/// Every minute.
pub const WHOLE: Period = (0, u32::MAX - 1);

/// The period that has these ends.
pub fn between(start: u32, stop: u32) -> Period {
    (start, stop - 1)
}

/// A file as statements, without their serials, and periods; it may hold more than the limits allow.
#[derive(Clone)]
pub struct Draft {
    pub entities: u32,
    pub names: u32,
    pub credentials: Vec<([u8; 8], Period)>,
}

impl Draft {
    pub fn new(entities: u32, names: u32) -> Draft {
        Draft { entities, names, credentials: Vec::new() }
    }

    fn add(&mut self, kind: u8, head: u32, parts: [u32; 4], period: Period) {
        let [b, s, c, t] = parts.map(|part| part as u8);
        self.credentials.push(([kind, (head / 32) as u8, (head % 32) as u8, b, s, c, t, 0], period));
    }

    /// head ← entity
    pub fn fact(&mut self, head: u32, entity: u32, period: Period) {
        self.add(0, head, [entity, 0, 0, 0], period);
    }

    /// head ← of
    pub fn include(&mut self, head: u32, of: u32, period: Period) {
        self.add(1, head, [of / 32, of % 32, 0, 0], period);
    }

    /// head ← of.name
    pub fn link(&mut self, head: u32, of: u32, name: u32, period: Period) {
        self.add(2, head, [of / 32, of % 32, 0, name], period);
    }

    /// head ← one ∩, ⊙ or ⊗ other
    pub fn pair(&mut self, kind: u8, head: u32, one: u32, other: u32, period: Period) {
        self.add(kind, head, [one / 32, one % 32, other / 32, other % 32], period);
    }

    /// The file in which a serial is position plus one.
    pub fn bytes(&self) -> Vec<u8> {
        self.bytes_with(&serials::ascending(self.credentials.len()))
    }

    /// The file with serials that no two credentials share, in some order. The random numbers stay as they are.
    pub fn numbered(&self, random: &Random) -> Vec<u8> {
        self.bytes_with(&serials::some(&mut random.clone(), self.credentials.len()))
    }

    /// The file with these serials.
    pub fn bytes_with(&self, serials: &[u32]) -> Vec<u8> {
        assert!(serials.len() == self.credentials.len());
        self.laid_out(|i| serials[i].to_le_bytes().to_vec())
    }

    /// The file as it was before it had serials.
    pub fn without_serials(&self) -> Vec<u8> {
        self.laid_out(|_| Vec::new())
    }

    /// Sizes, statements each with its serial, periods.
    fn laid_out(&self, serial: impl Fn(usize) -> Vec<u8>) -> Vec<u8> {
        let sizes = [self.entities as u16, self.names as u16, self.credentials.len() as u16];
        let mut bytes: Vec<u8> = sizes.iter().flat_map(|size| size.to_le_bytes()).collect();
        for (i, (statement, _)) in self.credentials.iter().enumerate() {
            bytes.extend(statement);
            bytes.extend(serial(i));
        }
        bytes.extend(self.credentials.iter().flat_map(|(_, (from, to))| [from.to_le_bytes(), to.to_le_bytes()]).flatten());
        bytes
    }
}

/// Distinct ends, ascending: from 0, up to the minute after the last, close together, far apart.
pub fn ends(random: &mut Random, count: usize) -> Vec<u32> {
    let last = count as u32 - 1;
    match random.below(5) {
        0 => (0..=last).collect(),
        1 => (0..=last).map(|i| u32::MAX - last + i).collect(),
        2 => (0..=last).map(|i| 10 + 5 * i).collect(),
        3 if count >= 4 => [0, 1].into_iter().chain((2..last - 1).map(|i| i * 40_000_000)).chain([u32::MAX - 1, u32::MAX]).collect(),
        _ => {
            let mut ends = std::collections::BTreeSet::new();
            while ends.len() < count {
                ends.insert(random.next() as u32);
            }
            ends.into_iter().collect()
        }
    }
}

/// A period between two ends, often the whole or between neighbours, so that periods touch and overlap.
pub fn period(random: &mut Random, ends: &[u32]) -> Period {
    let last = ends.len() - 1;
    match random.below(5) {
        0 => between(ends[0], ends[last]),
        1 => {
            let at = random.below(last);
            between(ends[at], ends[at + 1])
        }
        _ => loop {
            let (a, b) = (random.choose(ends), random.choose(ends));
            if a != b {
                return between(a.min(b), a.max(b));
            }
        },
    }
}

/// Kinds to draw from: all alike, delegation, products, products that must share no entity, links.
pub const MIXTURES: [&[u8]; 5] = [&[0, 0, 0, 1, 2, 3, 4, 5], &[0, 0, 1, 1, 2, 3, 5], &[0, 0, 0, 4, 5, 5], &[0, 0, 0, 5, 5], &[0, 0, 2, 2, 2, 4]];

/// Adds a random credential among these roles.
pub fn add_dense(draft: &mut Draft, random: &mut Random, roles: &[u32], kinds: &[u8], period: Period) {
    let head = random.choose(roles);
    let (one, other) = (random.choose(roles), random.choose(roles));
    match random.choose(kinds) {
        0 => draft.fact(head, random.below(draft.entities as usize) as u32, period),
        1 => draft.include(head, one, period),
        2 => draft.link(head, one, other % 32, period),
        kind => draft.pair(kind, head, one, other, period),
    }
}

/// Limits of a dense file: highest numbers of entities, names, roles in use, credentials, ends.
pub struct Size {
    pub entities: usize,
    pub names: usize,
    pub roles: usize,
    pub credentials: usize,
    pub ends: usize,
}

pub const SMALL: Size = Size { entities: 5, names: 2, roles: 4, credentials: 12, ends: 6 };
pub const MIDDLE: Size = Size { entities: 9, names: 4, roles: 12, credentials: 40, ends: 16 };

/// A few roles that occur in each other's credentials: they collide, links hit, cycles form, products repeat.
pub fn dense(random: &mut Random, size: &Size) -> Draft {
    let (entities, names) = (random.within(1, size.entities) as u32, random.within(1, size.names) as u32);
    let mut draft = Draft::new(entities, names);
    let roles = roles(random, entities, names, size.roles);
    let count = random.within(2, size.ends);
    let ends = ends(random, count);
    let kinds = random.choose(&MIXTURES);
    for _ in 0..random.within(0, size.credentials) {
        let period = period(random, &ends);
        add_dense(&mut draft, random, &roles, kinds, period);
    }
    draft
}

/// Few credentials at the limits of the numbers.
pub fn spread(random: &mut Random) -> Draft {
    let limits = [1, 2, 31, 32];
    let (entities, names) = (random.choose(&limits), random.choose(&limits));
    let mut draft = Draft::new(entities, names);
    let (last, middle) = (entities - 1, entities / 2);
    let roles = [role(0, 0), role(last, names - 1), role(last, 0), role(0, names - 1), role(middle, names / 2)];
    let count = random.within(2, 4);
    let ends = ends(random, count);
    for _ in 0..random.within(3, 14) {
        let period = period(random, &ends);
        match random.once_in(2) {
            true => draft.fact(random.choose(&roles), random.choose(&[0, last, middle]), period),
            false => add_dense(&mut draft, random, &roles, MIXTURES[0], period),
        }
    }
    draft
}

/// A few memberships, each given in many periods that touch, overlap and leave gaps, from minute 0 to the last.
pub fn timed(random: &mut Random) -> Draft {
    let ends = [0, 1, 2, 3, 10, 11, 4_000_000_000, u32::MAX - 2, u32::MAX - 1, u32::MAX];
    let mut draft = Draft::new(2, 2);
    let roles = [role(0, 0), role(0, 1), role(1, 0)];
    for _ in 0..random.within(4, 16) {
        let period = period(random, &ends);
        let kinds = random.choose(&[&[0][..], &[0, 1, 2, 3, 4, 5][..]]);
        add_dense(&mut draft, random, &roles, kinds, period);
    }
    draft
}

pub fn roles(random: &mut Random, entities: u32, names: u32, most: usize) -> Vec<u32> {
    let any = |random: &mut Random| role(random.below(entities as usize) as u32, random.below(names as usize) as u32);
    let count = random.within(1, most);
    (0..count).map(|_| any(random)).collect()
}

/// An office or a large firm: staff in base roles, departments with links, delegation, products over the upper roles.
pub fn layered(random: &mut Random, entities: u32, names: u32, count: usize, ends: &[u32]) -> Draft {
    let mut draft = Draft::new(entities, names);
    let any = |random: &mut Random, layer: u32| {
        let width = (names / 4).max(1);
        let name = (layer * width + random.below(width as usize) as u32).min(names - 1);
        role(random.below((entities as usize / 4).max(1)) as u32, name)
    };
    for _ in 0..count {
        let period = period(random, ends);
        match random.below(20) {
            0..=8 => {
                let head = any(random, 0);
                draft.fact(head, random.below(entities as usize) as u32, period);
            }
            9..=12 => {
                let below = random.below(2) as u32;
                let (head, of) = (any(random, 1), any(random, below));
                draft.include(head, of, period);
            }
            13..=14 => {
                let (head, of, linked) = (any(random, 1), any(random, 0), any(random, 0) % 32);
                draft.link(head, of, linked, period);
            }
            15..=16 => {
                let (head, one, other) = (any(random, 2), any(random, 1), any(random, 0));
                draft.pair(3, head, one, other, period);
            }
            kind => {
                let below = random.below(2) as u32;
                let (head, one, other) = (any(random, 2), any(random, below), any(random, below));
                draft.pair(if kind == 17 { 4 } else { 5 }, head, one, other, period);
            }
        }
    }
    draft
}

/// Every statement within these numbers.
pub fn statements(entities: u8, names: u8) -> Vec<[u8; 8]> {
    let mut all = Vec::new();
    for kind in 0..6 {
        let used = uses(kind);
        let limit = |at: usize| if !used[at] { 1 } else { [entities, names, entities, names][at] };
        for issuer in 0..entities {
            for name in 0..names {
                for (b, s) in pairs(limit(0), limit(1)) {
                    all.extend(pairs(limit(2), limit(3)).map(|(c, t)| [kind, issuer, name, b, s, c, t, 0]));
                }
            }
        }
    }
    all
}

fn pairs(one: u8, other: u8) -> impl Iterator<Item = (u8, u8)> {
    (0..one).flat_map(move |a| (0..other).map(move |b| (a, b)))
}
