//! Withdrawal lists to compare on: ones that are accepted, ones that 20 or 21 refuses, and ones that leave a number of ends.

use crate::random::Random;
use crate::reference::reading::{ends, Credential};
use crate::reference::withdrawals::Withdrawal;
use crate::reference::RIGHT;
use std::collections::BTreeSet;

/// The bytes of a list: count, serials, minutes.
pub fn bytes(list: &[Withdrawal]) -> Vec<u8> {
    counted(list.len(), list)
}

/// The same with a count of its own.
fn counted(count: usize, list: &[Withdrawal]) -> Vec<u8> {
    let words = |word: fn(&Withdrawal) -> u32| list.iter().flat_map(move |withdrawal| word(withdrawal).to_le_bytes());
    (count as u16).to_le_bytes().into_iter().chain(words(|w| w.serial)).chain(words(|w| w.minute)).collect()
}

/// What a withdrawal does to a period.
#[derive(Clone, Copy, PartialEq)]
pub enum Aim {
    Cuts,
    Empties,
    Nothing,
    Any,
}

/// A minute that does this to the period from..to, or to one of a single minute, which cannot be cut, anything.
pub fn minute(random: &mut Random, from: u32, to: u32, aim: Aim) -> u32 {
    let within = |random: &mut Random, low: u32, high: u32| random.within(low as usize, high as usize) as u32;
    let (last, any) = (u32::MAX, random.next() as u32);
    match aim {
        Aim::Cuts if from < to => {
            let inside = within(random, from + 1, to);
            random.choose(&[from + 1, inside, inside, to - (to > from + 1) as u32, to])
        }
        Aim::Empties => {
            let before = within(random, 0, from);
            random.choose(&[from, from, from.saturating_sub(1), before, 0])
        }
        Aim::Nothing => {
            let after = within(random, to + 1, last);
            random.choose(&[to + 1, to + 1, after, (to + 1).max(last - 1), last])
        }
        _ => random.choose(&[from, to, to + 1, from + 1, from.saturating_sub(1), 0, last, last - 1, any]),
    }
}

/// How many of a file's credentials a list names.
fn some_of(random: &mut Random, count: usize) -> usize {
    random.choose(&[1, 1, 2, 3, count / 2, count - 1, count]).clamp(1, count)
}

/// A list that is accepted, but perhaps for the ends that it leaves, of some of these credentials; of count 0 without any.
pub fn some(random: &mut Random, credentials: &[Credential]) -> Vec<Withdrawal> {
    match credentials.len() {
        0 => Vec::new(),
        count => {
            let named = some_of(random, count);
            naming(random, credentials, named)
        }
    }
}

/// A list of so many of these credentials: all of one aim, of any, at one minute, at ends of the file, or at minutes that are serials too.
pub fn naming(random: &mut Random, credentials: &[Credential], named: usize) -> Vec<Withdrawal> {
    let mut places: Vec<usize> = (0..credentials.len()).collect();
    random.shuffle(&mut places);
    places.truncate(named);
    let ends: Vec<u32> = credentials.iter().flat_map(|c| [c.from, c.to + 1]).collect();
    let shared = random.choose(&ends).wrapping_add(random.choose(&[0, 0, 1, u32::MAX]));
    let style = random.below(9);
    let mut list: Vec<Withdrawal> = Vec::new();
    for &place in &places {
        let Credential { serial, from, to, .. } = credentials[place];
        let minute = match style {
            0 | 1 => minute(random, from, to, Aim::Cuts),
            2 => minute(random, from, to, Aim::Empties),
            3 => minute(random, from, to, Aim::Nothing),
            4 => shared,
            5 => random.choose(&ends),
            6 => random.choose(credentials).serial,
            _ => minute(random, from, to, Aim::Any),
        };
        list.push(Withdrawal { serial, minute });
    }
    match random.below(5) {
        0 => list.sort_by_key(|withdrawal| withdrawal.serial),
        1 => list.sort_by_key(|withdrawal| std::cmp::Reverse(withdrawal.serial)),
        2 => list.sort_by_key(|withdrawal| credentials.iter().position(|c| c.serial == withdrawal.serial)),
        3 => list.sort_by_key(|withdrawal| withdrawal.minute),
        _ => {}
    }
    list
}

/// Lists of the wrong length, with a wrong count or of too many withdrawals, made of one that is accepted.
pub fn misshapen(random: &mut Random, list: &[Withdrawal]) -> Vec<Vec<u8>> {
    let (right, count) = (bytes(list), list.len());
    let mut all = vec![vec![], vec![0], vec![1], vec![255], right[..1].to_vec(), right[..2 + 4 * count].to_vec()];
    for by in [-9, -8, -4, -2, -1, 1, 2, 4, 6, 7, 8, 9, 16] {
        let mut resized = right.clone();
        resized.resize((right.len() as isize + by).max(0) as usize, 0);
        all.push(resized);
    }
    let (low, high) = (count % 256, count / 256);
    for other in [count + 1, count.saturating_sub(1), count + 256, count + 512, count ^ 1 << 15, 256 * low + high, 0, 1, 2, 255, 256, 257, 65_535] {
        all.push(counted(other, list));
    }
    // The count in one byte, in four, and its bytes exchanged with as many withdrawals as they then say.
    all.push([&right[..1], &right[2..]].concat());
    all.push([&right[..2], &[0, 0], &right[2..]].concat());
    let any = Withdrawal { serial: random.next() as u32, minute: random.next() as u32 };
    let cycled = |many: usize| -> Vec<Withdrawal> { list.iter().chain([&any]).cycle().take(many).copied().collect() };
    for many in [257, 258, 256 + count, 512] {
        all.push(bytes(&cycled(many)));
    }
    if random.once_in(8) {
        all.push(bytes(&cycled(16_383)));
    }
    all
}

/// Lists with a serial twice or on no credential, or nearly so, made of one that is accepted; and its numbers laid out otherwise.
pub fn misnamed(random: &mut Random, credentials: &[Credential], list: &[Withdrawal]) -> Vec<Vec<u8>> {
    let unknown = Withdrawal { serial: random.next() as u32, minute: random.next() as u32 };
    let mut all: Vec<Vec<Withdrawal>> = Vec::new();
    for added in [unknown, Withdrawal { minute: u32::MAX, ..unknown }, Withdrawal { serial: 0, ..unknown }, Withdrawal { serial: 1, minute: 0 }] {
        all.push([list, &[added]].concat());
        all.push([&[added], list].concat());
    }
    let Some(last) = list.len().checked_sub(1) else { return all.iter().map(|list| bytes(list)).collect() };
    let at = random.below(list.len());
    // One of the file's own, twice: at the end, at the start, beside itself; at the same minute, at another, at one that changes nothing.
    for withdrawal in [list[0], list[at], list[last]] {
        for minute in [withdrawal.minute, withdrawal.minute ^ 1, u32::MAX, 0] {
            let again = Withdrawal { minute, ..withdrawal };
            all.push([list, &[again]].concat());
            all.push([&[again], list].concat());
        }
        all.push([&list[..=at], &list[at..]].concat());
    }
    let mut with = |changes: &[(usize, u32)]| {
        let mut changed = list.to_vec();
        changes.iter().for_each(|&(place, serial)| changed[place].serial = serial);
        all.push(changed);
    };
    with(&[(last, list[0].serial)]);
    with(&[(0, list[last].serial)]);
    with(&[(at, list[(at + 1) % list.len()].serial)]);
    with(&(0..list.len()).map(|place| (place, list[at].serial)).collect::<Vec<_>>());
    for place in [0, at, last] {
        let own = list[place].serial;
        let near = [own.wrapping_add(1), own.wrapping_sub(1), own ^ 1 << 31, own ^ 1 << 24, own ^ 1 << 16, own ^ 1 << 8];
        for serial in near.into_iter().chain([own.swap_bytes(), own.rotate_left(8), !own, unknown.serial, 0, u32::MAX]) {
            with(&[(place, serial)]);
        }
    }
    // Positions in place of serials, counted from 0 and from 1.
    let place = |withdrawal: &Withdrawal| credentials.iter().position(|c| c.serial == withdrawal.serial).unwrap_or(0) as u32;
    for first in [0, 1] {
        with(&list.iter().enumerate().map(|(i, withdrawal)| (i, first + place(withdrawal))).collect::<Vec<_>>());
    }
    // Serials against minutes in another order; minutes for serials.
    all.push((0..=last).map(|i| Withdrawal { minute: list[last - i].minute, ..list[i] }).collect());
    all.push(list.iter().map(|w| Withdrawal { serial: w.minute, minute: w.serial }).collect());
    let mut all: Vec<Vec<u8>> = all.iter().map(|list| bytes(list)).collect();
    // Pairs in place of serials and then minutes.
    let pairs = list.iter().flat_map(|w| [w.serial, w.minute]).flat_map(u32::to_le_bytes);
    all.push((list.len() as u16).to_le_bytes().into_iter().chain(pairs).collect());
    all
}

/// How many ends these credentials have after the list.
fn left(credentials: &[Credential], list: &[Withdrawal]) -> usize {
    let withdrawn = |c: &Credential| list.iter().find(|w| w.serial == c.serial).map(|w| w.minute);
    let all: BTreeSet<u32> = credentials.iter().flat_map(|c| ends(&RIGHT, &Credential { withdrawn: withdrawn(c), ..*c })).collect();
    all.len()
}

/// A list that leaves so many ends, or nearly so many: withdrawals are kept as long as they come no less near.
pub fn leaving(random: &mut Random, credentials: &[Credential], ends: usize) -> Vec<Withdrawal> {
    let mut list: Vec<Withdrawal> = Vec::new();
    let mut now = left(credentials, &list);
    for _ in 0..400 {
        if now == ends {
            break;
        }
        let Credential { serial, from, to, .. } = random.choose(credentials);
        let aim = random.choose(&[Aim::Cuts, Aim::Empties, Aim::Any]);
        let mut tried = list.clone();
        tried.retain(|withdrawal| withdrawal.serial != serial);
        tried.push(Withdrawal { serial, minute: minute(random, from, to, aim) });
        let then = left(credentials, &tried);
        if then.abs_diff(ends) <= now.abs_diff(ends) {
            (list, now) = (tried, then);
        }
    }
    random.shuffle(&mut list);
    list
}
