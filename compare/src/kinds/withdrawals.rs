//! Withdrawal lists: what they cut, proofs with one list and another, lists that are refused, ends before and after the cut.

use super::faults::{damaged_calls, dense_of, plain};
use crate::damage;
use crate::explore::*;
use crate::extremes::{with_ends, with_ends_and};
use crate::files::*;
use crate::input::{Ends, Intervals, Source};
use crate::judge::{known, Compared, Comparison};
use crate::proofs;
use crate::random::Random;
use crate::reference::checking::Step;
use crate::reference::ends::BYTES;
use crate::reference::known::{Known, Question};
use crate::reference::reading::{credentials, Credential};
use crate::reference::withdrawals::{Withdrawal, NONE};
use crate::reference::{MOST, RIGHT};
use crate::serials;
use crate::withdrawals::*;

/// The credentials of a file that 1 to 7 and 17 pass.
pub fn credentials_of(file: &[u8]) -> Vec<Credential> {
    credentials(&RIGHT, file).expect("a file that is not refused").credentials
}

/// Two credentials with every period, each withdrawn from every minute or not at all, within the first numbers and at the last ones.
pub fn cuts(c: &mut Comparison, random: &mut Random, per_thousand: usize) -> Compared<()> {
    let last = u32::MAX;
    let few = (&[0, 1, 2, 3][..], &[0, 1, 2, 3, 4, last][..]);
    let far = (&[0, 1, last - 2, last - 1][..], &[0, 1, 2, last - 3, last - 2, last - 1, last][..]);
    for (values, minutes) in [few, far] {
        let periods = values.iter().flat_map(|&from| values.iter().map(move |&to| (from, to))).filter(|(from, to)| from <= to);
        let withdrawn = |period: Period| [None].into_iter().chain(minutes.iter().copied().map(Some)).map(move |minute| (period, minute));
        let all: Vec<(Period, Option<u32>)> = periods.flat_map(withdrawn).collect();
        for &one in &all {
            for &other in &all {
                if random.below(1000) < per_thousand {
                    cut(c, random, [one, other])?;
                }
            }
        }
    }
    Ok(())
}

/// Demand 3 on 0.0 ← 0 and 0.1 ← 0.0, the ends and some intervals.
fn cut(c: &mut Comparison, random: &mut Random, both: [(Period, Option<u32>); 2]) -> Compared<()> {
    let mut draft = Draft::new(1, 2);
    draft.fact(0, 0, both[0].0);
    draft.include(1, 0, both[1].0);
    let serials = serials::some(random, 2);
    let file = draft.bytes_with(&serials);
    let mut list: Vec<Withdrawal> = (0..2).filter_map(|i| Some(Withdrawal { serial: serials[i], minute: both[i].1? })).collect();
    random.shuffle(&mut list);
    let list = bytes(&list);
    let source = Source { file: &file, withdrawals: &list };
    c.counted();
    let known = known(source);
    let spans = known.read.as_ref().map_or(0, |file| file.ends.len().saturating_sub(1));
    c.ends(&known, Ends { source, length: BYTES, fill: random.next() })?;
    for spans in [(1 << spans) - 1, random.next() >> (64 - spans.max(1)), 1 << spans] {
        c.intervals(&known, Intervals { source, spans, length: BYTES, fill: random.next() })?;
    }
    joint(c, random, source, &known, 4)
}

/// Files with lists of every sort: all calls with each list, and proofs with one list checked with the others.
pub fn withdrawn(c: &mut Comparison, random: &mut Random, count: usize) -> Compared<()> {
    for i in 0..count {
        let draft = match i % 8 {
            0 => timed(random),
            1 => spread(random),
            2 => dense(random, &MIDDLE),
            _ => dense(random, &SMALL),
        };
        let file = draft.numbered(random);
        let credentials = credentials_of(&file);
        c.counted();
        let mut lists = vec![NONE.to_vec()];
        for _ in 0..3 {
            lists.push(bytes(&some(random, &credentials)));
        }
        lists.extend(refused(random, &credentials));
        let all: Vec<(Source, Known)> = lists.iter().map(|list| Source { file: &file, withdrawals: list }).map(|s| (s, known(s))).collect();
        for (source, known) in &all[1..] {
            complete_all(c, random, *source, known)?;
            query_some(c, random, *source, known, 3, 1)?;
            damaged_calls(c, random, *source, known)?;
        }
        for (source, known) in &all {
            checked_with_others(c, random, *source, known, &all)?;
        }
        grown_with_each(c, random, &all)?;
        if i % 8 == 3 {
            joint(c, random, all[1].0, &all[1].1, MOST)?;
        }
    }
    Ok(())
}

/// Steps that keep the rules without a list, checked with each at a minute that matters for one of them.
fn grown_with_each(c: &mut Comparison, random: &mut Random, all: &[(Source, Known)]) -> Compared<()> {
    let (uncut, lists) = (all[0].1.read.as_ref().unwrap(), all.iter().filter_map(|(_, known)| known.read.as_ref().ok()).collect::<Vec<_>>());
    for length in [2, 9, 40] {
        let minutes = minutes(random.choose(&lists));
        let minute = random.choose(&minutes);
        let (steps, shown) = proofs::grown(random, &RIGHT, uncut, minute, length);
        let Some(&((role, set), _)) = shown.last() else { continue };
        for (source, known) in all {
            steps_checked(c, random, *source, known, Question { role, set, minute }, &steps)?;
        }
    }
    Ok(())
}

/// A file of another kind with a list as well, once in so many times: all calls. The random numbers stay as they are.
pub fn listed_once_in(c: &mut Comparison, random: &Random, file: &[u8], times: usize) -> Compared<()> {
    let random = &mut random.clone();
    if random.once_in(times) {
        let list = bytes(&some(random, &credentials_of(file)));
        listed(c, random, Source { file, withdrawals: &list })?;
    }
    Ok(())
}

/// A file of another kind with a list that empties one of its credentials out. The random numbers stay as they are.
pub fn one_emptied(c: &mut Comparison, random: &Random, file: &[u8]) -> Compared<()> {
    let random = &mut random.clone();
    let Credential { serial, from, .. } = random.choose(&credentials_of(file));
    listed(c, random, Source { file, withdrawals: &bytes(&[Withdrawal { serial, minute: from }]) })
}

/// A list that 20 refuses and one that 21 does, or nearly so.
fn refused(random: &mut Random, credentials: &[Credential]) -> [Vec<u8>; 2] {
    let right = some(random, credentials);
    refused_of(random, credentials, &right)
}

fn refused_of(random: &mut Random, credentials: &[Credential], right: &[Withdrawal]) -> [Vec<u8>; 2] {
    let (twenty, twentyone) = (misshapen(random, right), misnamed(random, credentials, right));
    [random.choose(&twenty), random.choose(&twentyone)]
}

/// Proofs handed out with one list: checked with it, with the others, and with lists that withdraw a credential of the proof near the minute.
/// Each passes without a list, at the same level.
fn checked_with_others(c: &mut Comparison, random: &mut Random, source: Source, known: &Known, all: &[(Source, Known)]) -> Compared<()> {
    let Ok(read) = &known.read else { return Ok(()) };
    let minutes = minutes(read);
    for _ in 0..3 {
        let minute = random.choose(&minutes);
        let question = some_question(random, read, known, minute);
        let Some(proof) = c.query(known, queried(source, question, MOST, random.next()))? else { continue };
        handed_out(c, source, known, question, &proof, MOST, random.next())?;
        handed_out(c, source.file, &all[0].1, question, &proof, MOST, random.next())?;
        for (other, known) in all {
            steps_checked(c, random, *other, known, question, &proof.steps)?;
        }
        checked_withdrawn(c, random, source.file, question, &proof.steps)?;
    }
    Ok(())
}

/// A proof checked with lists that withdraw the credential of one of its steps at, before and after the minute, and with one that withdraws
/// all of its credentials. The random numbers stay as they are.
pub fn checked_withdrawn(c: &mut Comparison, random: &Random, file: &[u8], q: Question, steps: &[Step]) -> Compared<()> {
    let random = &mut random.clone();
    let credentials = credentials_of(file);
    let mut used: Vec<Credential> = steps.iter().map(|step| credentials[step.credential as usize]).collect();
    used.sort_by_key(|credential| credential.serial);
    used.dedup();
    let one = random.choose(&used);
    let other = minute(random, one.from, one.to, Aim::Any);
    for minute in [q.minute.saturating_sub(1), q.minute, q.minute + 1, other] {
        let mut list = vec![Withdrawal { serial: one.serial, minute }];
        if minute == other {
            list = used.iter().map(|credential| Withdrawal { serial: credential.serial, minute }).collect();
        }
        let list = bytes(&list);
        let source = Source { file, withdrawals: &list };
        steps_checked(c, random, source, &known(source), q, steps)?;
    }
    Ok(())
}

/// Every fault of a list, with and without faults of the call's other arguments, with files of no credentials, of 5, of 256 and of 64 and 65
/// ends; and with every fault of the file.
pub fn list_faults(c: &mut Comparison, random: &mut Random, count: usize) -> Compared<()> {
    for i in 0..count {
        let mut drafts = vec![Draft::new(2, 2), dense_of(random, 5), with_ends(random, 64), with_ends(random, 65)];
        drafts.extend((i % 3 == 0).then(|| plain(random, 256)));
        for draft in drafts {
            let file = draft.numbered(random);
            let credentials = credentials_of(&file);
            let right = some(random, &credentials);
            let mut lists = vec![NONE.to_vec(), bytes(&right)];
            lists.extend(misshapen(random, &right));
            lists.extend(misnamed(random, &credentials, &right));
            c.counted();
            for list in &lists {
                let source = Source { file: &file, withdrawals: list };
                damaged_calls(c, random, source, &known(source))?;
            }
            for fault in damage::all() {
                let mut damaged = file.clone();
                let count = draft.credentials.len();
                damage::make(fault, &mut damaged, count, random.below(count.max(1)));
                c.counted();
                for _ in 0..3 {
                    let source = Source { file: &damaged, withdrawals: &lists[random.below(lists.len())] };
                    damaged_calls(c, random, source, &known(source))?;
                }
            }
        }
    }
    Ok(())
}

/// Files of fewer and of more than 64 ends, with lists that leave 63, 64 and 65; files of 256 credentials with lists that name all.
pub fn cut_ends(c: &mut Comparison, random: &mut Random, count: usize) -> Compared<()> {
    for i in 0..count {
        for left in [63, 64, 65] {
            let (fewer, by) = random.choose(&[(2, 256), (30, 256), (60, 20), (61, 20), (62, 20), (64, 20)]);
            let more = random.choose(&[65, 66, 67, 70, 80]);
            for draft in [with_ends_and(random, fewer, &[by]), with_ends_and(random, more, &[0, 1, 5])] {
                let file = draft.numbered(random);
                c.counted();
                let list = bytes(&leaving(random, &credentials_of(&file), left));
                listed(c, random, Source { file: &file, withdrawals: &list })?;
            }
        }
        let draft = if i % 2 == 0 { plain(random, 256) } else { with_ends_and(random, 60, &[256]) };
        let file = draft.numbered(random);
        let credentials = credentials_of(&file);
        c.counted();
        let all = naming(random, &credentials, 256);
        listed(c, random, Source { file: &file, withdrawals: &bytes(&all) })?;
        for list in refused_of(random, &credentials, &all) {
            let source = Source { file: &file, withdrawals: &list };
            damaged_calls(c, random, source, &known(source))?;
        }
    }
    Ok(())
}

/// All calls on a file with a list.
fn listed(c: &mut Comparison, random: &mut Random, source: Source) -> Compared<()> {
    let known = known(source);
    complete_all(c, random, source, &known)?;
    query_some(c, random, source, &known, 6, 1)?;
    damaged_calls(c, random, source, &known)
}
