//! Faults of a file and of a call's other arguments, one, two and more at once.

use crate::carried::opened;
use crate::damage;
use crate::explore::*;
use crate::extremes::with_ends;
use crate::files::*;
use crate::input::{words, Check, Complete, Ends, Intervals, Query, Source};
use crate::judge::{Compared, Comparison};
use crate::random::Random;
use crate::reference::checking::Step;
use crate::reference::ends::BYTES;
use crate::reference::known::{Known, Question};
use crate::serials;

/// Every two faults of the file, with and without faults of the call's other arguments.
pub fn damaged(c: &mut Comparison, random: &mut Random, count: usize) -> Compared<()> {
    let faults = damage::all();
    for round in 0..count {
        let draft = match round % 3 {
            0 => with_ends(random, 65),
            1 => dense_of(random, 5),
            _ => with_ends(random, 64),
        };
        for one in &faults {
            for other in &faults {
                let mut file = draft.numbered(random);
                let credentials = draft.credentials.len();
                let places = (random.below(credentials), random.below(credentials));
                damage::make(*one, &mut file, credentials, places.0);
                damage::make(*other, &mut file, credentials, places.1);
                let known = opened(c, random, &file)?;
                damaged_calls(c, random, &file, &known)?;
            }
        }
    }
    Ok(())
}

/// Serials in every order, as they are and with some that are zero or used; with each, also a fault of 4 to 7 in the credential
/// before, in the same one or in the next. And files without serials.
pub fn serials(c: &mut Comparison, random: &mut Random, count: usize) -> Compared<()> {
    use damage::{Bounds, Fault};
    let others = [Fault::Kind(6), Fault::Limit(1), Fault::Byte(7, 1), Fault::Period(Bounds::ToBeyond), Fault::Period(Bounds::Next)];
    for _ in 0..count {
        for draft in [dense_of(random, 1), dense_of(random, 2), dense_of(random, 3), dense_of(random, 11), with_ends(random, 65), plain(random, 256)]
        {
            let credentials = draft.credentials.len();
            whole(c, random, &draft.without_serials())?;
            for order in serials::ORDERS {
                let right = order(random, credentials);
                whole(c, random, &draft.bytes_with(&right))?;
                for (place, wrong) in serials::changed(random, &right) {
                    let file = draft.bytes_with(&wrong);
                    whole(c, random, &file)?;
                    for at in place.saturating_sub(1)..=(place + 1).min(credentials - 1) {
                        for other in [random.choose(&others), Fault::Period(Bounds::ToBeyond)] {
                            let mut file = file.clone();
                            damage::make(other, &mut file, credentials, at);
                            let known = opened(c, random, &file)?;
                            damaged_calls(c, random, &file, &known)?;
                        }
                    }
                }
            }
        }
    }
    Ok(())
}

/// All calls on a file, and questions where it is accepted.
fn whole(c: &mut Comparison, random: &mut Random, file: &[u8]) -> Compared<()> {
    let known = opened(c, random, file)?;
    query_some(c, random, file, &known, 3, 1)?;
    damaged_calls(c, random, file, &known)
}

/// So many credentials with few memberships.
pub fn plain(random: &mut Random, count: u32) -> Draft {
    let mut draft = Draft::new(4, 4);
    for i in 0..count {
        draft.fact(random.below(4) as u32, i % 4, between(0, 1 + random.below(4) as u32));
    }
    draft
}

/// A dense file with exactly so many credentials.
pub fn dense_of(random: &mut Random, count: usize) -> Draft {
    loop {
        let draft = dense(random, &SMALL);
        if draft.credentials.len() == count {
            return draft;
        }
    }
}

/// All calls but forward and back, without and with faults of their other arguments.
pub fn damaged_calls<'a>(c: &mut Comparison, random: &mut Random, source: impl Into<Source<'a>>, known: &Known) -> Compared<()> {
    let source = source.into();
    for faulty in [false, true] {
        let length = random.within(1, 40);
        let mut lengths = [4 * length; 4];
        let mut question = Question { role: random.below(64) as u32 % 34, set: random.within(1, 3) as u32, minute: random.below(30) as u32 };
        let mut count = random.within(1, length) as u64;
        for _ in 0..if faulty { 2 } else { 0 } {
            match random.below(7) {
                0 => lengths[random.below(4)] += random.within(1, 4),
                1 => lengths = [4 * random.choose(&[0, 1025, 5000]); 4],
                2 => question.role = random.choose(&[31, 32 * 32 - 1, 1024, 1056, u32::MAX, 1 << 16, 33 * 32]),
                3 => question.set = random.choose(&[0, 1 << 31, u32::MAX, 32]),
                4 => question.minute = u32::MAX,
                5 => count = random.choose(&[0, length as u64 + 1, 1 << 32]),
                _ => {}
            }
        }
        let [a, b, spans, _] = lengths;
        c.complete(known, Complete { source, lengths: [a, b, 2 * spans], fill: random.next() })?;
        c.query(known, Query { source, question, lengths, fill: random.next() })?;
        let steps = few_steps(random, length);
        let check = Check { source, question, lists: words(&steps), lengths, count, hidden: false, fill: random.next() };
        c.check(known, check)?;
        damaged_ends(c, random, source, known, faulty)?;
    }
    Ok(())
}

/// The ends and the intervals, with faults of the list and of the span number; the random numbers stay as they are.
fn damaged_ends(c: &mut Comparison, random: &Random, source: Source, known: &Known, faulty: bool) -> Compared<()> {
    let random = &mut random.clone();
    let lengths = if faulty { &LISTS[..] } else { &[BYTES] };
    let spans = if faulty { random.choose(&[0, 1, u64::MAX, 1 << 63, 1 << 32]) } else { 0 };
    c.ends(known, Ends { source, length: random.choose(lengths), fill: random.next() })?;
    c.intervals(known, Intervals { source, spans, length: random.choose(lengths), fill: random.next() })
}

/// Steps with small words, which hold now and then.
fn few_steps(random: &mut Random, length: usize) -> Vec<Step> {
    let mut word = |limit| random.below(limit) as u32;
    (0..length).map(|_| Step { credential: word(5), first: word(2), second: word(2), set: word(4) }).collect()
}

/// Every role up to beyond the last number and sets of all widths, each also with the last minute, with lists too short
/// for the memberships and with a wrong step count.
pub fn questions(c: &mut Comparison, random: &mut Random, count: usize) -> Compared<()> {
    for i in 0..count {
        let file = if i % 2 == 0 { spread(random).numbered(random) } else { dense(random, &SMALL).numbered(random) };
        let known = opened(c, random, &file)?;
        complete_all(c, random, &file, &known)?;
        query_some(c, random, &file, &known, 20, 2)?;
        let read = known.read.as_ref().unwrap();
        let sets = [0, 1, 2, 1 << (read.entities - 1), 1u32.checked_shl(read.entities).unwrap_or(3), u32::MAX, 1 << 31];
        let beyond = [1 << 16, (1 << 16) + 1, 1 << 31, u32::MAX, u32::MAX - 31];
        for role in (0..1100).chain(beyond) {
            let minute = random.choose(&[0, 1, 12, u32::MAX - 2, u32::MAX - 1, u32::MAX]);
            let question = Question { role, set: random.choose(&sets), minute };
            let length = random.choose(&[1, 2, 20, 0]);
            c.query(&known, queried(&file, question, length, random.next()))?;
            let mut check = checked(&file, question, &few_steps(random, 2), length, random.next());
            check.count = random.choose(&[0, 1, 2, 3]);
            c.check(&known, check)?;
        }
    }
    Ok(())
}

pub fn random_bytes(c: &mut Comparison, random: &mut Random, count: usize) -> Compared<()> {
    for i in 0..count {
        let mut file = vec![0; random.choose(&[0, 5, 6, 26, 46, 66, 86, 300, 5126, 5146, 60_000][..if i % 100 == 0 { 11 } else { 8 }])];
        random.fill(&mut file);
        // Most of the time a right head for the length, often low bytes.
        if file.len() > 6 && !random.once_in(4) {
            let limit = random.choose(&[2, 3, 6, 256]);
            file[6..].iter_mut().for_each(|byte| *byte = if *byte < 128 { 0 } else { (*byte as usize % limit) as u8 });
            file[..4].copy_from_slice(&[random.within(1, 32) as u8, 0, random.within(1, 32) as u8, 0]);
            let count = ((file.len() - 6) / 20).min(256);
            file[4..6].copy_from_slice(&(count as u16).to_le_bytes());
            // Half of the time serials that no two credentials share.
            for (i, serial) in serials::some(random, count).into_iter().enumerate().take(if random.once_in(2) { count } else { 0 }) {
                file[6 + 12 * i + 8..6 + 12 * i + 12].copy_from_slice(&serial.to_le_bytes());
            }
        }
        let known = opened(c, random, &file)?;
        damaged_calls(c, random, &file, &known)?;
    }
    Ok(())
}

pub fn lists(c: &mut Comparison, random: &mut Random, count: usize) -> Compared<()> {
    for _ in 0..count {
        let file = dense(random, &SMALL).numbered(random);
        let known = opened(c, random, &file)?;
        let source = Source::from(&file);
        let fits = known.table().map_or(1, |table| table.len());
        let mut entries = vec![0, 1, 2, fits.saturating_sub(1), fits, fits + 1, 1023, 1024, 1025, 2000];
        entries.dedup();
        let lengths: Vec<usize> = entries.iter().flat_map(|&n| [(4 * n).saturating_sub(1), 4 * n, 4 * n + 1, 4 * n + 2, 4 * n + 3]).collect();
        for &roles in &lengths {
            for &sets in &[roles, random.choose(&lengths)] {
                for spans in [2 * roles, roles, 2 * roles + 1, 2 * roles + 4, 8 * (roles / 4), random.choose(&lengths)] {
                    c.complete(&known, Complete { source, lengths: [roles, sets, spans], fill: random.next() })?;
                }
            }
            query_lists(c, random, source, &known, roles, &lengths)?;
        }
        let random = &mut random.clone();
        for length in 0..1100 {
            c.ends(&known, Ends { source, length, fill: random.next() })?;
            c.intervals(&known, Intervals { source, spans: random.choose(&[0, 1, 1 << 63]), length, fill: random.next() })?;
        }
    }
    Ok(())
}

/// All four lists of one length, and one of them of another.
fn query_lists(c: &mut Comparison, random: &mut Random, source: Source, known: &Known, length: usize, others: &[usize]) -> Compared<()> {
    for odd in 0..5 {
        for other in [length + 1, length + 4, length.saturating_sub(4), 4 * (length / 4), random.choose(others)] {
            let mut lengths = [length; 4];
            if odd < 4 {
                lengths[odd] = other;
            }
            let question = Question { role: 0, set: random.within(0, 3) as u32, minute: random.choose(&[0, 12, u32::MAX - 2, u32::MAX]) };
            c.query(known, Query { source, question, lengths, fill: random.next() })?;
            let count = random.choose(&[0, 1, length as u64 / 4, length as u64 / 4 + 1]);
            let lists = words(&few_steps(random, 3));
            c.check(known, Check { source, question, lists, lengths, count, hidden: false, fill: random.next() })?;
        }
    }
    Ok(())
}
