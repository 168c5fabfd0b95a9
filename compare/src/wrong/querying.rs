//! Wrong ways to query.

use super::{accepted, known, number, on, query, refusal, unwritten, Wrong, RIGHT};
use crate::calls::{write_steps, zero, Calls, Given, Second, Slice};
use crate::reference::checking::{all_shown, Shown, Step};
use crate::reference::known::{steps, Question};
use crate::reference::meaning::{valid, Members};
use crate::reference::querying::proof;
use crate::reference::reading::{Body, File};
use crate::reference::{role, Membership};
use std::collections::BTreeMap;

pub const ALL: &[Wrong] = &[
    query("level-one-too-high", |s, f, q, l| on(s.query(f, q, l), &[0], |reply| reply + 65_536), "a level one too high"),
    query("level-one-too-low", |s, f, q, l| on(s.query(f, q, l), &[0], |reply| reply - 65_536), "a level one too low"),
    query("level-of-another", level_of_another, "the level of the next entry of the table at the minute"),
    query("level-of-the-first", level_of_the_first, "the level of the first entry of the table at the minute"),
    query("memberships-as-level", |s, f, q, l| leveled(s, f, q, l, |levels, _| levels.len()), "the number of memberships as level"),
    query("level-above-memberships", |s, f, q, l| leveled(s, f, q, l, |levels, _| levels.len() + 1), "one more than the memberships as level"),
    query("steps-as-level", |s, f, q, l| on(s.query(f, q, l), &[0], |reply| reply % 65_536 * 65_537), "the step count as level"),
    query("level-8-bits", |s, f, q, l| leveled(s, f, q, l, |_, level| level % 256), "the level's low 8 bits"),
    query("level-9-bits", |s, f, q, l| leveled(s, f, q, l, |_, level| level % 512), "the level's low 9 bits"),
    query("level-up-to-255", |s, f, q, l| leveled(s, f, q, l, |_, level| level.min(255)), "a level above 255 given as 255"),
    query("level-up-to-1000", |s, f, q, l| leveled(s, f, q, l, |_, level| level.min(1000)), "a level above 1,000 given as 1,000"),
    query("not-least", not_least, "a proof of the first derivations found in file order, not of least level"),
    query("thirteen-early", thirteen_early, "13 before deeper levels"),
    query("role-unchanged", role_unchanged, "13 when a round changed nothing for the queried role"),
    query("thirteen-not-cleared", thirteen_not_cleared, "lists left after 13"),
    query("ten-over-all-minutes", ten_over_all_minutes, "10 counted over all minutes"),
    query("thirteen-before-ten", thirteen_before_ten, "13 where 10 holds too"),
    query("proof-despite-ten", proof_despite_ten, "a proof although memberships exceed L"),
    query("query-ten-at-limit", query_ten_at_limit, "10 at exactly L memberships at the minute"),
    query("idle-step", |s, f, q, l| rewritten(s, f, q, l, idle_step), "a step that the last one does not rest on"),
    query("membership-twice", |s, f, q, l| rewritten(s, f, q, l, twice), "a membership shown twice"),
    query("first-step-only", |s, f, q, l| rewritten(s, f, q, l, |_, _, own| own[..1].to_vec()), "another membership shown last"),
    query("second-word-left", |s, f, q, l| rewritten(s, f, q, l, second_word_left), "second word not zero in kind 1"),
    query("citations-exchanged", |s, f, q, l| rewritten(s, f, q, l, citations_exchanged), "the two citations exchanged"),
    query("last-citations-exchanged", |s, f, q, l| rewritten(s, f, q, l, last_exchanged), "the two citations of the last step exchanged"),
    query("first-plus-65536", |s, f, q, l| rewritten(s, f, q, l, |f, _, own| cited(f, own, |i| i + 65_536, |i| i)), "first cited step plus 65,536"),
    query("second-plus-65536", |s, f, q, l| rewritten(s, f, q, l, |f, _, own| cited(f, own, |i| i, |i| i + 65_536)), "second cited step plus 65,536"),
    query(
        "last-first-plus-65536",
        |s, f, q, l| rewritten(s, f, q, l, |f, _, own| in_last(own, cited(f, own, |i| i + 65_536, |i| i))),
        "first cited step plus 65,536 in the last step alone",
    ),
    query(
        "last-second-plus-65536",
        |s, f, q, l| rewritten(s, f, q, l, |f, _, own| in_last(own, cited(f, own, |i| i, |i| i + 65_536))),
        "second cited step plus 65,536 in the last step alone",
    ),
    query("uncited-65536", |s, f, q, l| rewritten(s, f, q, l, uncited), "65,536 where no step is cited"),
    query("credential-plus-65536", |s, f, q, l| rewritten(s, f, q, l, credential_plus), "the credential plus 65,536"),
    query("cited-8-bits", |s, f, q, l| rewritten(s, f, q, l, |f, _, own| cited(f, own, |i| i % 256, |i| i % 256)), "a cited step's low 8 bits"),
    query("cited-9-bits", |s, f, q, l| rewritten(s, f, q, l, |f, _, own| cited(f, own, |i| i % 512, |i| i % 512)), "a cited step's low 9 bits"),
    query("cited-from-one", |s, f, q, l| rewritten(s, f, q, l, |f, _, own| cited(f, own, |i| i + 1, |i| i + 1)), "cited steps counted from 1"),
    query("query-tail-left", query_tail_left, "entries after the proof left"),
    query("steps-and-level-exchanged", |s, f, q, l| on(s.query(f, q, l), &[0], exchanged), "steps × 65,536 + level"),
    query("twelve-before-eleven", twelve_before_eleven, "12 before 11"),
    query("name-against-32", name_against_32, "the name compared with 32, not R"),
    query("empty-set-asked", empty_set_asked, "the empty set gives 13, not 11"),
    query("minute-after", |s, f, q, l| s.query(f, Question { minute: q.minute.saturating_add(1), ..q }, l), "another minute"),
    query("last-minute-asked", |s, f, q, l| s.query(f, Question { minute: q.minute.min(u32::MAX - 1), ..q }, l), "12 never given"),
];

fn exchanged(reply: u64) -> u64 {
    reply % 65_536 * 65_536 + reply / 65_536
}

/// The right call, and the proof in the lists changed where the new one fits.
pub fn rewritten(second: &Second, given: Given, q: Question, lists: [Slice; 4], change: impl Fn(&File, u32, &[Step]) -> Vec<Step>) -> u64 {
    let reply = second.query(given, q, lists);
    if number(reply) != 0 {
        return reply;
    }
    let bytes = lists.map(Slice::all);
    let own = steps(&[&bytes[0], &bytes[1], &bytes[2], &bytes[3]], reply as usize % 65_536);
    let new = change(&accepted(given).unwrap(), q.minute, &own);
    if 4 * new.len() > lists[0].length {
        return reply;
    }
    write_steps(&new, lists);
    reply / 65_536 * 65_536 + new.len() as u64
}

/// What an in-place search finds: each membership with the first step found for it.
fn found(file: &File, minute: u32) -> (Vec<Step>, Vec<Shown>) {
    let (mut steps, mut shown): (Vec<Step>, Vec<Shown>) = Default::default();
    loop {
        let before = steps.len();
        for (place, credential) in file.credentials.iter().enumerate().filter(|(_, c)| valid(&RIGHT, c, minute)) {
            for (first, second, set) in uses(credential.body, &shown) {
                if !shown.iter().any(|&(membership, _)| membership == (credential.head, set)) {
                    steps.push(Step { credential: place as u32, first: first as u32, second: second as u32, set });
                    shown = all_shown(&RIGHT, file, minute, &steps).expect("steps that keep the rules");
                }
            }
        }
        if steps.len() == before || steps.len() > 200 {
            return (steps, shown);
        }
    }
}

fn uses(body: Body, shown: &[Shown]) -> Vec<(usize, usize, u32)> {
    let of = |role: u32| (0..shown.len()).filter(move |&i| shown[i].0 .0 == role);
    let set = |i: usize| shown[i].0 .1;
    match body {
        Body::Entity(entity) => vec![(0, 0, 1 << entity)],
        Body::Role(role) => of(role).map(|i| (i, 0, set(i))).collect(),
        Body::Linked(from, name) => of(from)
            .filter_map(|i| Some((i, (RIGHT.links)(set(i))?)))
            .flat_map(|(i, entity)| of(role(entity, name)).map(move |j| (i, j, set(j))))
            .collect(),
        Body::Pair(kind, one, other) => {
            of(one).flat_map(|i| of(other).filter_map(move |j| Some((i, j, (RIGHT.combines)(kind, set(i), set(j))?)))).collect()
        }
    }
}

fn not_least(second: &Second, given: Given, q: Question, lists: [Slice; 4]) -> u64 {
    let reply = second.query(given, q, lists);
    if number(reply) != 0 {
        return reply;
    }
    let read = accepted(given).unwrap();
    let (all, shown) = found(&read, q.minute);
    let Some(place) = shown.iter().position(|&(membership, _)| membership == q.membership()) else { return reply };
    let mut kept = Vec::new();
    keep(&read, &all, place, &mut kept, &mut BTreeMap::new());
    if 4 * kept.len() > lists[0].length {
        return reply;
    }
    write_steps(&kept, lists);
    kept.len() as u64 + shown[place].1 as u64 * 65_536
}

/// Copies a step after those that it cites.
fn keep(file: &File, all: &[Step], place: usize, kept: &mut Vec<Step>, places: &mut BTreeMap<usize, u32>) -> u32 {
    if let Some(&at) = places.get(&place) {
        return at;
    }
    let mut step = all[place];
    let body = file.credentials[step.credential as usize].body;
    if !matches!(body, Body::Entity(_)) {
        step.first = keep(file, all, step.first as usize, kept, places);
    }
    if matches!(body, Body::Linked(..) | Body::Pair(..)) {
        step.second = keep(file, all, step.second as usize, kept, places);
    }
    kept.push(step);
    places.insert(place, kept.len() as u32 - 1);
    kept.len() as u32 - 1
}

fn thirteen(lists: [Slice; 4]) -> u64 {
    zero(&lists);
    refusal(13)
}

fn thirteen_early(second: &Second, given: Given, q: Question, lists: [Slice; 4]) -> u64 {
    let reply = second.query(given, q, lists);
    if number(reply) == 0 && reply / 65_536 > 4 {
        thirteen(lists)
    } else {
        reply
    }
}

fn levels(given: Given, minute: u32) -> Option<BTreeMap<Membership, usize>> {
    match &*known(given).members(minute) {
        Members::Levels(levels) => Some(levels.clone()),
        Members::TooMany => None,
    }
}

/// The right call with another level, by the levels at the minute and the right one.
fn leveled(second: &Second, given: Given, q: Question, lists: [Slice; 4], level: fn(&BTreeMap<Membership, usize>, usize) -> usize) -> u64 {
    let reply = second.query(given, q, lists);
    if number(reply) != 0 {
        return reply;
    }
    let levels = levels(given, q.minute).unwrap();
    reply % 65_536 + level(&levels, reply as usize / 65_536) as u64 * 65_536
}

/// The next entry's; of the last entry, its own.
fn level_of_another(second: &Second, given: Given, q: Question, lists: [Slice; 4]) -> u64 {
    let reply = second.query(given, q, lists);
    if number(reply) != 0 {
        return reply;
    }
    let levels = levels(given, q.minute).unwrap();
    let next = levels.range(q.membership()..).nth(1).map_or(reply / 65_536, |(_, &level)| level as u64);
    reply % 65_536 + next * 65_536
}

fn level_of_the_first(second: &Second, given: Given, q: Question, lists: [Slice; 4]) -> u64 {
    leveled(second, given, q, lists, |levels, _| *levels.values().next().unwrap())
}

fn role_unchanged(second: &Second, given: Given, q: Question, lists: [Slice; 4]) -> u64 {
    let reply = second.query(given, q, lists);
    if number(reply) != 0 {
        return reply;
    }
    let levels = levels(given, q.minute).unwrap();
    let changed = |k: usize| levels.iter().any(|(&(role, _), &level)| role == q.role && level == k);
    let first = (1..).find(|&k| changed(k)).unwrap();
    let all = (first..reply as usize / 65_536).all(changed);
    if all {
        reply
    } else {
        thirteen(lists)
    }
}

fn thirteen_not_cleared(second: &Second, given: Given, q: Question, lists: [Slice; 4]) -> u64 {
    let reply = unwritten(lists, || second.query(given, q, lists));
    if number(reply) == 13 {
        reply
    } else {
        second.query(given, q, lists)
    }
}

fn ten_over_all_minutes(second: &Second, given: Given, q: Question, lists: [Slice; 4]) -> u64 {
    let reply = second.query(given, q, lists);
    if [0, 13].contains(&number(reply)) {
        let known = known(given);
        if known.table().map_or(true, |table| 4 * table.len() > lists[0].length) {
            zero(&lists);
            return refusal(10);
        }
    }
    reply
}

fn thirteen_before_ten(second: &Second, given: Given, q: Question, lists: [Slice; 4]) -> u64 {
    let reply = second.query(given, q, lists);
    let held = || levels(given, q.minute).map_or(true, |levels| levels.contains_key(&q.membership()));
    if number(reply) == 10 && !held() {
        refusal(13)
    } else {
        reply
    }
}

fn proof_despite_ten(second: &Second, given: Given, q: Question, lists: [Slice; 4]) -> u64 {
    let reply = second.query(given, q, lists);
    if number(reply) != 10 {
        return reply;
    }
    let Some(levels) = levels(given, q.minute) else { return reply };
    let Some(&level) = levels.get(&q.membership()) else { return reply };
    let steps = proof(&RIGHT, &accepted(given).unwrap(), q.minute, &levels, q.membership());
    if 4 * steps.len() > lists[0].length {
        return reply;
    }
    write_steps(&steps, lists);
    steps.len() as u64 + level as u64 * 65_536
}

fn query_ten_at_limit(second: &Second, given: Given, q: Question, lists: [Slice; 4]) -> u64 {
    let reply = second.query(given, q, lists);
    if [0, 13].contains(&number(reply)) && levels(given, q.minute).map_or(false, |levels| 4 * levels.len() == lists[0].length) {
        zero(&lists);
        return refusal(10);
    }
    reply
}

fn idle_step(file: &File, minute: u32, own: &[Step]) -> Vec<Step> {
    let shown = all_shown(&RIGHT, file, minute, own).unwrap();
    let fact = |(place, c): (usize, &crate::reference::reading::Credential)| match c.body {
        Body::Entity(e) if valid(&RIGHT, c, minute) && !shown.iter().any(|&(m, _)| m == (c.head, 1 << e)) => {
            Some(Step { credential: place as u32, first: 0, second: 0, set: 1 << e })
        }
        _ => None,
    };
    let mut all = own.to_vec();
    if let Some(step) = file.credentials.iter().enumerate().find_map(fact) {
        all.insert(own.len() - 1, step);
    }
    all
}

fn twice(_: &File, _: u32, own: &[Step]) -> Vec<Step> {
    [own, &own[own.len() - 1..]].concat()
}

fn second_word_left(file: &File, _: u32, own: &[Step]) -> Vec<Step> {
    let one = |step: &Step| matches!(file.credentials[step.credential as usize].body, Body::Role(_));
    own.iter().map(|&step| if one(&step) { Step { second: step.first, ..step } } else { step }).collect()
}

fn citations_exchanged(_: &File, _: u32, own: &[Step]) -> Vec<Step> {
    own.iter().map(|&step| Step { first: step.second, second: step.first, ..step }).collect()
}

fn last_exchanged(file: &File, minute: u32, own: &[Step]) -> Vec<Step> {
    in_last(own, citations_exchanged(file, minute, own))
}

/// The steps, the last one as it is changed.
fn in_last(own: &[Step], changed: Vec<Step>) -> Vec<Step> {
    [&own[..own.len() - 1], &changed[own.len() - 1..]].concat()
}

/// How many steps a step cites.
fn cites(file: &File, step: &Step) -> usize {
    match file.credentials[step.credential as usize].body {
        Body::Entity(_) => 0,
        Body::Role(_) => 1,
        Body::Linked(..) | Body::Pair(..) => 2,
    }
}

/// The steps with the cited ones changed.
fn cited(file: &File, own: &[Step], first: fn(u32) -> u32, second: fn(u32) -> u32) -> Vec<Step> {
    let changed = |step: &Step| match cites(file, step) {
        0 => *step,
        1 => Step { first: first(step.first), ..*step },
        _ => Step { first: first(step.first), second: second(step.second), ..*step },
    };
    own.iter().map(changed).collect()
}

fn uncited(file: &File, _: u32, own: &[Step]) -> Vec<Step> {
    let changed = |step: &Step| match cites(file, step) {
        0 => Step { first: 65_536, second: 65_536, ..*step },
        1 => Step { second: 65_536, ..*step },
        _ => *step,
    };
    own.iter().map(changed).collect()
}

fn credential_plus(_: &File, _: u32, own: &[Step]) -> Vec<Step> {
    own.iter().map(|&step| Step { credential: step.credential + 65_536, ..step }).collect()
}

fn query_tail_left(second: &Second, given: Given, q: Question, lists: [Slice; 4]) -> u64 {
    let before = lists.map(Slice::all);
    let reply = second.query(given, q, lists);
    if number(reply) == 0 {
        let held = 4 * (reply as usize % 65_536);
        lists.iter().zip(before).for_each(|(list, before)| list.write(&[&list.all()[..held], &before[held..]].concat()));
    }
    reply
}

fn twelve_before_eleven(second: &Second, given: Given, q: Question, lists: [Slice; 4]) -> u64 {
    let reply = second.query(given, q, lists);
    if number(reply) == 11 && q.minute == u32::MAX {
        refusal(12)
    } else {
        reply
    }
}

fn name_against_32(second: &Second, given: Given, q: Question, lists: [Slice; 4]) -> u64 {
    let reply = second.query(given, q, lists);
    let only_name = |file: File| q.role / 32 < file.entities && q.set > 0 && (q.set as u64) < 1 << file.entities && q.minute < u32::MAX;
    if number(reply) == 11 && accepted(given).is_some_and(only_name) {
        thirteen(lists)
    } else {
        reply
    }
}

fn empty_set_asked(second: &Second, given: Given, q: Question, lists: [Slice; 4]) -> u64 {
    let reply = second.query(given, q, lists);
    if number(reply) == 11 && q.set == 0 && number(second.query(given, Question { set: 1, ..q }, lists)) != 11 {
        thirteen(lists)
    } else {
        reply
    }
}
