//! Wrong ways to check a proof.

use super::{accepted, check, different, known, number, on, refusal, right, Wrong, RIGHT};
use crate::calls::{zero, Calls, Given, Second, Slice};
use crate::reference::checking::{all_shown, shows, Shown, Step};
use crate::reference::known::{steps, Question};
use crate::reference::meaning::Members;
use crate::reference::querying::judge;
use crate::reference::reading::{Body, File};
use crate::reference::Rules;

pub const ALL: &[Wrong] = &[
    check("checker-different", |_, f, q, l, n| Second { rules: DIFFERENT }.check(f, q, l, n), "⊗ as X ≠ Y in the checker only"),
    check("checker-sum", |_, f, q, l, n| Second { rules: SUM }.check(f, q, l, n), "⊙ by + in the checker"),
    check("checker-to-uncovered", |_, f, q, l, n| Second { rules: TO_UNCOVERED }.check(f, q, l, n), "minute `to` not covered in the checker"),
    check("passes-everything", |s, f, q, l, n| on(s.check(f, q, l, n), &[15, 16], |_| 1), "a checker that passes everything"),
    check("passes-nothing", |s, f, q, l, n| on(s.check(f, q, l, n), &[0], |_| refusal(15)), "a checker that passes nothing"),
    check("second-word-untested", second_word_untested, "kind 1's second word not tested"),
    check("last-credential-valid", last_credential_valid, "only the last credential's validity tested"),
    check("itself-cited", |s, f, q, l, n| lax(s, f, q, l, n, Lax::Itself), "a step may cite itself"),
    check("any-role-cited", |s, f, q, l, n| lax(s, f, q, l, n, Lax::Role), "the roles of cited steps not tested"),
    check("any-set", |s, f, q, l, n| lax(s, f, q, l, n, Lax::Set), "the resulting set not tested"),
    check("any-word-in-facts", |s, f, q, l, n| lax(s, f, q, l, n, Lax::Words), "kind 0's cited words not tested"),
    check("any-level", |s, f, q, l, n| lax(s, f, q, l, n, Lax::Level), "the second cited level ignored"),
    check("sixteen-before-fifteen", sixteen_before_fifteen, "16 before 15"),
    check("sixteen-never", sixteen_never, "16 never given"),
    check("place-from-one", |s, f, q, l, n| on(s.check(f, q, l, n), &[15], |reply| reply + 1), "15's place counted from 1"),
    check("highest-level", highest_level, "the highest level of all steps"),
    check("count-as-level", |s, f, q, l, n| if number(s.check(f, q, l, n)) == 0 { n } else { s.check(f, q, l, n) }, "the count as level"),
    check("count-cut", |s, f, q, l, n| s.check(f, q, l, n as u32 as u64), "step count cut to 32 bits"),
    check("count-against-1024", count_against_1024, "14 against 1,024 instead of L"),
    check("no-steps-pass", no_steps_pass, "no steps give level 0"),
    check("zeros-demanded", zeros_demanded, "zeros demanded past the step count"),
    check("idle-refused", |s, f, q, l, n| demanding(s, f, q, l, n, "the last step does not rest"), "idle steps refused"),
    check("twice-refused", |s, f, q, l, n| demanding(s, f, q, l, n, "a membership is shown twice"), "a membership shown twice refused"),
    check("not-least-refused", |s, f, q, l, n| demanding(s, f, q, l, n, "level"), "a level above the least refused"),
    check(
        "first-16-bits",
        |s, f, q, l, n| words_cut(s, f, q, l, n, |step| Step { first: step.first % 65_536, ..step }),
        "the first cited step's low 16 bits in the checker",
    ),
    check(
        "second-16-bits",
        |s, f, q, l, n| words_cut(s, f, q, l, n, |step| Step { second: step.second % 65_536, ..step }),
        "the second cited step's low 16 bits in the checker",
    ),
    check(
        "credential-16-bits",
        |s, f, q, l, n| words_cut(s, f, q, l, n, |step| Step { credential: step.credential % 65_536, ..step }),
        "the credential's low 16 bits in the checker",
    ),
    check("checker-level-8-bits", |s, f, q, l, n| on(s.check(f, q, l, n), &[0], |level| level % 256), "the level's low 8 bits in the checker"),
    check("checker-clears", checker_clears, "lists cleared after 15"),
];

const DIFFERENT: Rules = Rules { combines: different, ..RIGHT };
const TO_UNCOVERED: Rules = Rules { covers: |from, to, minute| from <= minute && minute < to, ..RIGHT };
const SUM: Rules = Rules { combines: |kind, x, y| if kind == 4 { x.checked_add(y) } else { right(kind, x, y) }, ..RIGHT };

#[derive(Clone, Copy, PartialEq)]
enum Lax {
    Itself,
    Role,
    Set,
    Words,
    Level,
}

/// The checker without one of its tests.
fn lax(second: &Second, given: Given, q: Question, lists: [Slice; 4], count: u64, lax: Lax) -> u64 {
    let Some(steps) = reads(second, given, q, lists, count) else { return second.check(given, q, lists, count) };
    let read = accepted(given).unwrap();
    let mut shown: Vec<Shown> = Vec::new();
    for (place, step) in steps.into_iter().enumerate() {
        match lax_step(&read, q.minute, &shown, step, lax) {
            Some(next) => shown.push(next),
            None => return refusal(15) + place as u64,
        }
    }
    let (last, level) = shown[shown.len() - 1];
    if last == q.membership() {
        level as u64
    } else {
        refusal(16)
    }
}

fn lax_step(file: &File, minute: u32, shown: &[Shown], mut step: Step, lax: Lax) -> Option<Shown> {
    let credential = file.credentials.get(step.credential as usize)?;
    let mut shown = shown.to_vec();
    match (lax, credential.body) {
        (Lax::Itself, _) => shown.push(((credential.head, step.set), 0)),
        (Lax::Words, Body::Entity(_)) => (step.first, step.second) = (0, 0),
        (Lax::Role, Body::Role(of)) => shown.get_mut(step.first as usize)?.0 .0 = of,
        (Lax::Role, Body::Pair(_, of, with)) if step.first != step.second => {
            shown.get_mut(step.first as usize)?.0 .0 = of;
            shown.get_mut(step.second as usize)?.0 .0 = with;
        }
        (Lax::Level, Body::Linked(..) | Body::Pair(..)) if step.first != step.second => shown.get_mut(step.second as usize)?.1 = 0,
        (Lax::Set, _) => {
            let own = (0..32).map(|e| 1 << e).chain(shown.iter().map(|&((_, set), _)| set)).chain(pairs(&shown));
            step.set = own.into_iter().find(|&set| shows(&RIGHT, file, minute, &shown, Step { set, ..step }).is_some())?;
        }
        _ => {}
    }
    shows(&RIGHT, file, minute, &shown, step)
}

fn pairs(shown: &[Shown]) -> Vec<u32> {
    shown.iter().flat_map(|&((_, x), _)| shown.iter().map(move |&((_, y), _)| x | y)).collect()
}

/// The first steps, if the right call comes as far as to read them.
pub fn reads(second: &Second, given: Given, q: Question, lists: [Slice; 4], count: u64) -> Option<Vec<Step>> {
    let reply = number(second.check(given, q, lists, count));
    matches!(reply, 0 | 15 | 16).then(|| {
        let bytes = lists.map(|list| list.first(4 * count as usize));
        steps(&[&bytes[0], &bytes[1], &bytes[2], &bytes[3]], count as usize)
    })
}

/// The right call on other steps.
pub fn instead(second: &Second, given: Given, q: Question, steps: &[Step]) -> u64 {
    let mut words = crate::input::words(steps);
    let lists = words.each_mut().map(|list| Slice { start: list.as_mut_ptr(), length: list.len() });
    second.check(given, q, lists, steps.len() as u64)
}

fn second_word_untested(second: &Second, given: Given, q: Question, lists: [Slice; 4], count: u64) -> u64 {
    let Some(mut steps) = reads(second, given, q, lists, count) else { return second.check(given, q, lists, count) };
    let read = accepted(given).unwrap();
    for step in &mut steps {
        if let Some(Body::Role(_)) = read.credentials.get(step.credential as usize).map(|c| c.body) {
            step.second = 0;
        }
    }
    instead(second, given, q, &steps)
}

fn words_cut(second: &Second, given: Given, q: Question, lists: [Slice; 4], count: u64, cut: fn(Step) -> Step) -> u64 {
    let Some(steps) = reads(second, given, q, lists, count) else { return second.check(given, q, lists, count) };
    instead(second, given, q, &steps.into_iter().map(cut).collect::<Vec<_>>())
}

fn no_steps_pass(second: &Second, given: Given, q: Question, lists: [Slice; 4], count: u64) -> u64 {
    let reply = second.check(given, q, lists, count);
    if count == 0 && number(reply) == 14 {
        0
    } else {
        reply
    }
}

/// All periods but the last credential's cover every minute.
fn last_credential_valid(second: &Second, given: Given, q: Question, lists: [Slice; 4], count: u64) -> u64 {
    let Some(steps) = reads(second, given, q, lists, count) else { return second.check(given, q, lists, count) };
    let mut bytes = given.file.all();
    let credentials = accepted(given).unwrap().credentials.len();
    for place in (0..credentials).filter(|&place| place as u32 != steps[steps.len() - 1].credential) {
        bytes[6 + 12 * credentials + 8 * place..][..8].copy_from_slice(&[0, 0, 0, 0, 254, 255, 255, 255]);
    }
    let wide = Slice { start: bytes.as_mut_ptr(), length: bytes.len() };
    instead(second, Given { file: wide, ..given }, q, &steps)
}

fn sixteen_before_fifteen(second: &Second, given: Given, q: Question, lists: [Slice; 4], count: u64) -> u64 {
    let reply = second.check(given, q, lists, count);
    if let Some(last) = reads(second, given, q, lists, count).and_then(|steps| steps.last().copied()) {
        let head = accepted(given).unwrap().credentials.get(last.credential as usize).map(|c| c.head);
        if head != Some(q.role) || last.set != q.set {
            return refusal(16);
        }
    }
    reply
}

/// The level of the last step, whatever it shows.
fn sixteen_never(second: &Second, given: Given, q: Question, lists: [Slice; 4], count: u64) -> u64 {
    let reply = second.check(given, q, lists, count);
    match reads(second, given, q, lists, count).map(|steps| all_shown(&RIGHT, &accepted(given).unwrap(), q.minute, &steps)) {
        Some(Ok(shown)) => shown[shown.len() - 1].1 as u64,
        _ => reply,
    }
}

fn highest_level(second: &Second, given: Given, q: Question, lists: [Slice; 4], count: u64) -> u64 {
    let reply = second.check(given, q, lists, count);
    if number(reply) != 0 {
        return reply;
    }
    let steps = reads(second, given, q, lists, count).unwrap();
    let shown = all_shown(&RIGHT, &accepted(given).unwrap(), q.minute, &steps).unwrap();
    shown.iter().map(|&(_, level)| level as u64).max().unwrap()
}

fn count_against_1024(second: &Second, given: Given, q: Question, lists: [Slice; 4], count: u64) -> u64 {
    let reply = second.check(given, q, lists, count);
    let length = lists[0].length as u64 / 4;
    if number(reply) == 14 && count > length && count <= 1024 {
        refusal(15) + length
    } else {
        reply
    }
}

fn zeros_demanded(second: &Second, given: Given, q: Question, lists: [Slice; 4], count: u64) -> u64 {
    let reply = second.check(given, q, lists, count);
    let past = |list: &Slice| list.all()[4 * count as usize..].iter().any(|&byte| byte != 0);
    if number(reply) == 0 && lists.iter().any(past) {
        refusal(15) + count
    } else {
        reply
    }
}

/// 15 at the last step where querying's demands fail in this way.
fn demanding(second: &Second, given: Given, q: Question, lists: [Slice; 4], count: u64, demand: &str) -> u64 {
    let reply = second.check(given, q, lists, count);
    if number(reply) != 0 {
        return reply;
    }
    let steps = reads(second, given, q, lists, count).unwrap();
    let known = known(given);
    let Members::Levels(levels) = &*known.members(q.minute) else { return reply };
    let (least, level) = (levels[&q.membership()], reply as usize);
    // Where the level is not what is demanded, it counts as the least.
    let least = if demand == "level" { least } else { level };
    match judge(&RIGHT, known.read.as_ref().unwrap(), q.membership(), q.minute, least, level, &steps) {
        Err(why) if why.starts_with(demand) => refusal(15) + count - 1,
        _ => reply,
    }
}

fn checker_clears(second: &Second, given: Given, q: Question, lists: [Slice; 4], count: u64) -> u64 {
    let reply = second.check(given, q, lists, count);
    if number(reply) == 15 {
        zero(&lists);
    }
    reply
}
