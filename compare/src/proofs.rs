//! Proofs to check: ones that keep the rules in unusual ways, and broken ones.

use crate::random::Random;
use crate::reference::checking::{shows, Shown, Step};
use crate::reference::meaning::valid;
use crate::reference::reading::{Body, File};
use crate::reference::{role, Rules, RIGHT};

/// Rules of which each lacks one condition; steps that keep them are nearly right.
pub const LAX: &[Rules] = &[
    Rules { combines: |_, x, y| Some(x | y), ..RIGHT },
    Rules { combines: |_, x, _| Some(x), ..RIGHT },
    Rules { links: |set| (0..32).find(|entity| set >> entity & 1 == 1), ..RIGHT },
    Rules { covers: |_, _, _| true, ..RIGHT },
    Rules { covers: |from, to, minute| from <= minute && minute <= to + 1, ..RIGHT },
];

/// Random steps that keep the rules: idle steps, memberships shown twice and needless levels included.
pub fn grown(random: &mut Random, rules: &Rules, file: &File, minute: u32, length: usize) -> (Vec<Step>, Vec<Shown>) {
    let (mut steps, mut shown) = (Vec::new(), Vec::new());
    let usable: Vec<u32> = (0..file.credentials.len() as u32).filter(|&c| valid(rules, &file.credentials[c as usize], minute)).collect();
    if usable.is_empty() {
        return (steps, shown);
    }
    for _ in 0..10 * length {
        let credential = random.choose(&usable);
        if let Some(step) = next_step(random, rules, file, credential, &shown) {
            shown.extend(shows(rules, file, minute, &shown, step));
            steps.push(step);
            assert!(steps.len() == shown.len(), "a step that keeps the rules");
            if steps.len() == length {
                break;
            }
        }
    }
    (steps, shown)
}

/// A step by this credential from steps already shown, if some fit.
fn next_step(random: &mut Random, rules: &Rules, file: &File, credential: u32, shown: &[Shown]) -> Option<Step> {
    let step = |first: usize, second: usize, set| Some(Step { credential, first: first as u32, second: second as u32, set });
    let mut any = |of: u32| {
        let places: Vec<usize> = (0..shown.len()).filter(|&i| shown[i].0 .0 == of).collect();
        (!places.is_empty()).then(|| random.choose(&places))
    };
    let set = |place: usize| shown[place].0 .1;
    match file.credentials[credential as usize].body {
        Body::Entity(entity) => step(0, 0, 1 << entity),
        Body::Role(of) => {
            let first = any(of)?;
            step(first, 0, set(first))
        }
        Body::Linked(of, name) => {
            let first = any(of)?;
            let second = any(role((rules.links)(set(first))?, name))?;
            step(first, second, set(second))
        }
        Body::Pair(kind, one, other) => {
            let (first, second) = (any(one)?, any(other)?);
            step(first, second, (rules.combines)(kind, set(first), set(second))?)
        }
    }
}

/// How many words of a step cite others.
fn cites(file: &File, step: &Step) -> usize {
    match file.credentials.get(step.credential as usize).map(|c| c.body) {
        Some(Body::Role(_)) => 1,
        Some(Body::Linked(..) | Body::Pair(..)) => 2,
        _ => 0,
    }
}

fn renumbered(file: &File, mut step: Step, number: impl Fn(u32) -> u32) -> Step {
    let cited = cites(file, &step);
    if cited > 0 {
        step.first = number(step.first);
    }
    if cited > 1 {
        step.second = number(step.second);
    }
    step
}

/// The proof with a step inserted, and the citations of later steps moved along.
fn inserted(file: &File, steps: &[Step], place: usize, step: Step) -> Vec<Step> {
    let mut all = steps.to_vec();
    all.insert(place, step);
    for later in &mut all[place + 1..] {
        *later = renumbered(file, *later, |cited| if cited >= place as u32 { cited + 1 } else { cited });
    }
    all
}

/// The proof with idle steps before it.
pub fn with_idle(random: &mut Random, file: &File, minute: u32, steps: &[Step], idle: usize) -> Vec<Step> {
    let (mut all, _) = grown(random, &RIGHT, file, minute, idle);
    let before = all.len() as u32;
    all.extend(steps.iter().map(|&step| renumbered(file, step, |cited| cited + before)));
    all
}

/// The proof with a step shown again right after it; later steps may cite either.
pub fn with_twice(random: &mut Random, file: &File, steps: &[Step]) -> Vec<Step> {
    let place = random.below(steps.len());
    let mut all = inserted(file, steps, place, steps[place]);
    for later in &mut all[place + 2..] {
        let either = place as u32 + random.below(2) as u32;
        *later = renumbered(file, *later, |cited| if cited == place as u32 + 1 { either } else { cited });
    }
    all
}

/// Values that a word may wrongly have.
fn values(file: &File, place: usize, word: u32) -> Vec<u32> {
    let (place, credentials) = (place as u32, file.credentials.len() as u32);
    let mut values = vec![0, 1, 2, place, place + 1, credentials, credentials + 1, u32::MAX, 1 << 31];
    values.extend([word.wrapping_add(1), word.wrapping_sub(1), word ^ 1, word ^ 2, word.wrapping_add(1 << 8), word | 1 << 16]);
    values.extend(place.checked_sub(1));
    values.sort();
    values.dedup();
    values.retain(|&value| value != word);
    values
}

fn with_word(steps: &[Step], place: usize, word: usize, value: u32) -> Vec<Step> {
    let mut all = steps.to_vec();
    *word_of(&mut all[place], word) = value;
    all
}

fn word_of(step: &mut Step, word: usize) -> &mut u32 {
    match word {
        0 => &mut step.credential,
        1 => &mut step.first,
        2 => &mut step.second,
        _ => &mut step.set,
    }
}

/// Each word changed to each wrong value.
pub fn each_word(file: &File, steps: &[Step]) -> Vec<Vec<Step>> {
    let mut all = Vec::new();
    for place in 0..steps.len() {
        for word in 0..4 {
            let own = *word_of(&mut steps[place].clone(), word);
            all.extend(values(file, place, own).into_iter().map(|value| with_word(steps, place, word, value)));
        }
    }
    all
}

/// One word changed.
pub fn some_word(random: &mut Random, file: &File, steps: &[Step]) -> Vec<Step> {
    let (place, word) = (random.below(steps.len()), random.below(4));
    let own = *word_of(&mut steps[place].clone(), word);
    let value = random.choose(&values(file, place, own));
    with_word(steps, place, word, value)
}

/// Each step removed, with and without renumbering; every two steps exchanged.
pub fn each_order(file: &File, steps: &[Step]) -> Vec<Vec<Step>> {
    let mut all = Vec::new();
    for place in 0..steps.len() {
        let mut fewer = steps.to_vec();
        fewer.remove(place);
        all.push(fewer.clone());
        for later in &mut fewer[place..] {
            *later = renumbered(file, *later, |cited| if cited > place as u32 { cited - 1 } else { cited });
        }
        all.push(fewer);
        for other in 0..place {
            let mut exchanged = steps.to_vec();
            exchanged.swap(place, other);
            all.push(exchanged);
        }
    }
    all.retain(|steps| !steps.is_empty());
    all
}

/// The two citations of a step exchanged, or both the same.
pub fn each_citation(steps: &[Step]) -> Vec<Vec<Step>> {
    let with = |place: usize, first: u32, second: u32| {
        let mut all = steps.to_vec();
        (all[place].first, all[place].second) = (first, second);
        all
    };
    (0..steps.len())
        .flat_map(|place| {
            let Step { first, second, .. } = steps[place];
            [with(place, second, first), with(place, first, first), with(place, second, second)]
        })
        .collect()
}
