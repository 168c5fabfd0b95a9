//! Serials of a file's credentials: ones that are accepted, in every order, and changed ones.

use crate::random::Random;
use std::collections::BTreeSet;

/// Position plus one.
pub fn ascending(count: usize) -> Vec<u32> {
    (1..=count as u32).collect()
}

/// Of each, no serial is zero and no two are the same.
pub const ORDERS: &[fn(&mut Random, usize) -> Vec<u32>] = &[
    |_, count| ascending(count),
    |random, count| sorted(large(random, count)),
    |_, count| ascending(count).into_iter().rev().collect(),
    |random, count| sorted(large(random, count)).into_iter().rev().collect(),
    shuffled,
    large,
    |_, count| ascending(count).into_iter().map(|i| u32::MAX - count as u32 + i).collect(),
    // Alike in the lower half, or in the upper; in the bytes of one place or of another.
    |_, count| ascending(count).into_iter().map(|i| i << 16).collect(),
    |_, count| ascending(count).into_iter().rev().map(|i| 7 << 16 | i << 7).collect(),
    |_, count| ascending(count).into_iter().map(|i| (i % 2) << 31 | i).collect(),
    halves,
];

/// In one of these orders.
pub fn some(random: &mut Random, count: usize) -> Vec<u32> {
    random.choose(ORDERS)(random, count)
}

fn shuffled(random: &mut Random, count: usize) -> Vec<u32> {
    let mut serials = ascending(count);
    random.shuffle(&mut serials);
    serials
}

fn sorted(mut serials: Vec<u32>) -> Vec<u32> {
    serials.sort();
    serials
}

fn large(random: &mut Random, count: usize) -> Vec<u32> {
    let mut known = BTreeSet::from([0]);
    let mut serials = Vec::new();
    while serials.len() < count {
        let serial = random.next() as u32;
        if known.insert(serial) {
            serials.push(serial);
        }
    }
    serials
}

/// One half ascends, the other descends, in turn.
fn halves(_: &mut Random, count: usize) -> Vec<u32> {
    (0..count as u32).map(|i| if i % 2 == 0 { 1000 + i } else { 1000 - i }).collect()
}

/// Serials of which some are zero or used, or nearly so; with each the place where it shows, if it is one.
pub fn changed(random: &mut Random, right: &[u32]) -> Vec<(usize, Vec<u32>)> {
    let last = right.len() - 1;
    let middle = right.len() / 2;
    let mut all = vec![(0, vec![0; right.len()]), (1.min(last), vec![7; right.len()])];
    let mut with = |changes: &[(usize, u32)]| {
        let mut serials = right.to_vec();
        changes.iter().for_each(|&(place, serial)| serials[place] = serial);
        all.push((changes.iter().map(|&(place, _)| place).min().unwrap(), serials));
    };
    for place in BTreeSet::from([0, middle, last]) {
        with(&[(place, 0)]);
    }
    with(&[(0, 0), (last, 0)]);
    if last == 0 {
        return all;
    }
    // Another's: the neighbour's, the first one's, a far one's.
    for place in BTreeSet::from([1, middle.max(1), last]) {
        with(&[(place, right[place - 1])]);
        with(&[(place, right[0])]);
    }
    let place = random.within(1, last);
    with(&[(place, right[random.below(place)])]);
    with(&[(last, right[last / 2])]);
    with(&[(last, right[1.min(last - 1)])]);
    with(&[(last, right[last.saturating_sub(17)])]);
    // The greatest and the least of those before.
    with(&[(place, *right[..place].iter().max().unwrap())]);
    with(&[(place, *right[..place].iter().min().unwrap())]);
    // Two of them.
    with(&[(place, right[0]), (last, right[0])]);
    with(&[(1, right[0]), (last, 0)]);
    // The other half, one byte or the highest bit is another's; zero but for one byte.
    let other = right[random.below(place)];
    for changed in [other ^ 1 << 31, other ^ 1 << 16, other ^ 1, other ^ 0xFFFF_0000, other ^ 0xFFFF, other.rotate_left(8), other.swap_bytes()] {
        with(&[(place, changed)]);
    }
    for byte in 0..4 {
        with(&[(place, 0x80 << (8 * byte))]);
    }
    with(&[(place, u32::MAX)]);
    all
}
