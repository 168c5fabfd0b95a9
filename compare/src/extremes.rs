//! Files at the limits: of ends, of memberships, of levels, of credentials.

use crate::files::*;
use crate::random::Random;
use crate::reference::role;

/// A file with exactly so many ends.
pub fn with_ends(random: &mut Random, count: usize) -> Draft {
    with_ends_and(random, count, &[0, 1, 20, 256])
}

/// The same with one of these numbers of credentials more than its ends need, up to 256 in all.
pub fn with_ends_and(random: &mut Random, count: usize, more: &[usize]) -> Draft {
    let ends = ends(random, count);
    let (entities, names) = (random.within(2, 5) as u32, random.within(1, 3) as u32);
    let mut draft = Draft::new(entities, names);
    let roles = roles(random, entities, names, 6);
    let mut order: Vec<u32> = ends.clone();
    random.shuffle(&mut order);
    let of_two = |a: u32, b: u32| between(a.min(b), a.max(b));
    let mut periods: Vec<Period> = order.chunks(2).map(|pair| of_two(pair[0], *pair.get(1).unwrap_or(&order[0]))).collect();
    for _ in 0..random.choose(more).min(256 - periods.len()) {
        periods.push(period(random, &ends));
    }
    random.shuffle(&mut periods);
    for period in periods {
        add_dense(&mut draft, random, &roles, MIXTURES[0], period);
    }
    draft
}

/// A file with exactly so many memberships over all minutes: roles that hold every non-empty set of some entities,
/// copies of them, and a chain of single memberships that is complete last.
pub fn with_memberships(random: &mut Random, total: usize, widest: usize) -> Draft {
    let mut draft = Draft::new(32, 32);
    let mut free: Vec<u32> = (0..32 * 32).collect();
    random.shuffle(&mut free);
    let ends = [0, 7, 20, 21];
    let whole = between(ends[0], ends[3]);
    let mut closed: Vec<(usize, u32)> = Vec::new();
    let mut left = total;
    let mut width = widest;
    while left > 0 && draft.credentials.len() < 230 {
        while (1 << width) - 1 > left {
            width -= 1;
        }
        left -= (1 << width) - 1;
        let head = free.pop().unwrap();
        let same: Vec<u32> = closed.iter().filter(|(w, _)| *w == width).map(|&(_, role)| role).collect();
        if !same.is_empty() && !random.once_in(3) {
            draft.include(head, random.choose(&same), whole);
        } else {
            let period = if random.once_in(2) { whole } else { period(random, &ends) };
            let mut entities: Vec<u32> = (0..32).collect();
            random.shuffle(&mut entities);
            entities[..width].iter().for_each(|&entity| draft.fact(head, entity, period));
            if width > 1 {
                draft.pair(4, head, head, head, period);
            }
        }
        closed.push((width, head));
    }
    assert!(left == 0, "a file of {total} memberships");
    random.shuffle(&mut draft.credentials);
    draft
}

/// Depth sets × roles with sets + roles credentials: a set passes round a ring of roles, and each round turns {C} into {C + 1}.
pub fn ring(random: &mut Random, sets: u32, roles: u32) -> Draft {
    let mut draft = Draft::new(32, 32);
    let mut free: Vec<u32> = (0..32 * 32).filter(|role| role % 32 != 1).collect();
    random.shuffle(&mut free);
    let ring = &free[..roles as usize];
    draft.fact(ring[0], 0, WHOLE);
    for pair in ring.windows(2) {
        draft.include(pair[1], pair[0], WHOLE);
    }
    draft.link(ring[0], ring[roles as usize - 1], 1, WHOLE);
    (1..sets).for_each(|entity| draft.fact(role(entity - 1, 1), entity, WHOLE));
    match random.below(3) {
        0 => {}
        1 => draft.credentials.reverse(),
        _ => random.shuffle(&mut draft.credentials),
    }
    draft
}

/// The greatest least level that 1,024 memberships and 256 credentials allow, 1,022, with 215 credentials; the memberships are 1,024, and the deepest rests
/// on all of them. No file has more: 256 heads have at most 768 memberships of the three sets of two entities, so that more of them need three
/// entities, which are three memberships of level 1.
///
/// {0}, {1}, {2}, {0, 1} and {0, 1, 2} pass through the roles of a line one after the other. At its end {0} and {1} each give the next set by a
/// link, {2} opens the way to {0, 1}, which is let through once more for {0, 1, 2}.
pub fn deepest(random: &mut Random) -> Draft {
    let mut draft = Draft::new(32, 32);
    let mut free: Vec<u32> = (0..32 * 32).filter(|role| role % 32 > 1).collect();
    random.shuffle(&mut free);
    let (line, rest) = free.split_at(203);
    let (start, one, two) = (role(2, 1), role(0, 0), role(1, 0));
    let &[second, third, opened, both, again, all, ..] = rest else { unreachable!() };
    draft.fact(start, 0, WHOLE);
    draft.fact(one, 1, WHOLE);
    draft.fact(two, 2, WHOLE);
    draft.include(second, start, WHOLE);
    draft.include(third, second, WHOLE);
    draft.include(line[0], third, WHOLE);
    line.windows(2).for_each(|pair| draft.include(pair[1], pair[0], WHOLE));
    draft.link(line[0], line[202], 0, WHOLE);
    draft.link(opened, line[202], 1, WHOLE);
    draft.pair(4, both, opened, one, WHOLE);
    draft.include(line[0], both, WHOLE);
    draft.pair(3, again, line[202], both, WHOLE);
    draft.pair(4, all, again, two, WHOLE);
    draft.include(line[0], all, WHOLE);
    match random.below(3) {
        0 => {}
        1 => draft.credentials.reverse(),
        _ => random.shuffle(&mut draft.credentials),
    }
    draft
}

/// A chain of 256 roles, each of which includes the one before it: the greatest level that is the number of memberships. Each level then has one
/// membership, level 1 too, so that there is one set, and no more memberships than heads.
pub fn inclusions(random: &mut Random) -> Draft {
    let mut draft = Draft::new(32, 32);
    let mut free: Vec<u32> = (0..32 * 32).collect();
    random.shuffle(&mut free);
    draft.fact(free[0], random.below(32) as u32, WHOLE);
    free[..256].windows(2).for_each(|pair| draft.include(pair[1], pair[0], WHOLE));
    if random.once_in(2) {
        draft.credentials.reverse();
    }
    draft
}

/// A chain in which each role has one set, given by a random kind from the role before it.
pub fn chain(random: &mut Random, length: usize) -> Draft {
    let mut draft = Draft::new(32, 32);
    let mut free: Vec<u32> = (0..32 * 32).filter(|role| role % 32 > 1).collect();
    random.shuffle(&mut free);
    let mut last = free.pop().unwrap();
    let mut others: Vec<u32> = (1..32).collect();
    draft.fact(last, 0, WHOLE);
    while draft.credentials.len() < length {
        let head = free.pop().unwrap();
        match random.within(1, 8) as u8 {
            2 => {
                let issuer = free.pop().unwrap();
                draft.fact(issuer, last / 32, WHOLE);
                draft.link(head, issuer, last % 32, WHOLE);
            }
            kind @ 3..=4 => draft.pair(kind, head, last, last, WHOLE),
            5 if !others.is_empty() && random.once_in(4) => {
                let alone = role(others.len() as u32 - 1, 1);
                draft.fact(alone, others.pop().unwrap(), WHOLE);
                draft.pair(5, head, last, alone, WHOLE);
            }
            _ => draft.include(head, last, WHOLE),
        }
        last = head;
    }
    if random.once_in(2) {
        draft.credentials.reverse();
    }
    draft
}

/// A ring whose roles fill at other times in each span, so that spans reach the products over it one after the other.
pub fn staggered(random: &mut Random) -> Draft {
    let (sets, length, spans) = (4, 8, random.within(20, 63));
    let ends = ends(random, spans + 1);
    let whole = between(ends[0], ends[spans]);
    let mut draft = Draft::new(32, 32);
    let mut free: Vec<u32> = (0..32 * 32).filter(|role| role % 32 != 1).collect();
    random.shuffle(&mut free);
    let (ring, rest) = free.split_at(length);
    for span in 0..spans {
        let (at, entity) = (random.below(length), random.below(sets) as u32);
        draft.fact(ring[at], entity, between(ends[span], ends[span + 1]));
    }
    for pair in ring.windows(2) {
        draft.include(pair[1], pair[0], whole);
    }
    draft.link(ring[0], ring[length - 1], 1, whole);
    (1..sets as u32).for_each(|entity| draft.fact(role(entity - 1, 1), entity, whole));
    let (products, others) = (&rest[..3], rest[3]);
    draft.include(products[0], ring[length - 1], whole);
    (8..10).for_each(|entity| draft.fact(others, entity, whole));
    while draft.credentials.len() < 256 {
        let period = if random.once_in(3) { period(random, &ends) } else { whole };
        let from = [products[0], products[1], others, ring[3]];
        let (head, one, other) = (random.choose(products), random.choose(&from), random.choose(&from));
        draft.pair(random.within(3, 5) as u8, head, one, other, period);
    }
    draft.credentials.reverse();
    draft
}

/// Products over a role that holds every non-empty set of some entities, until there are 256 credentials.
pub fn wide(random: &mut Random) -> Draft {
    let mut draft = Draft::new(32, 32);
    let held = role(random.below(32) as u32, random.below(32) as u32);
    for _ in 0..random.within(6, 8) {
        draft.fact(held, random.below(32) as u32, WHOLE);
    }
    draft.pair(4, held, held, held, WHOLE);
    let heads = random.choose(&[1, 2, 200]);
    while draft.credentials.len() < 256 {
        let head = if random.once_in(3) { held } else { (held + 1 + random.below(heads) as u32) % 1024 };
        draft.pair(random.within(3, 5) as u8, head, held, held, WHOLE);
    }
    draft
}
