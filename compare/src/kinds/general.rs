//! Files of all sizes and shapes that are within the limits or just beyond one.

use super::faults::damaged_calls;
use super::withdrawals::{checked_withdrawn, listed_once_in, one_emptied};
use crate::carried::opened;
use crate::explore::*;
use crate::extremes::*;
use crate::files::*;
use crate::judge::{Compared, Comparison};
use crate::proofs;
use crate::random::Random;
use crate::reference::known::Question;
use crate::reference::meaning::Members;
use crate::reference::MOST;

pub fn small(c: &mut Comparison, random: &mut Random, count: usize) -> Compared<()> {
    for _ in 0..count {
        let file = dense(random, &SMALL).numbered(random);
        let known = opened(c, random, &file)?;
        complete_all(c, random, &file, &known)?;
        query_some(c, random, &file, &known, 12, 4)?;
    }
    Ok(())
}

pub fn joint_small(c: &mut Comparison, random: &mut Random, count: usize) -> Compared<()> {
    for _ in 0..count {
        let file = dense(random, &SMALL).numbered(random);
        let known = opened(c, random, &file)?;
        let fits = known.table().map_or(0, |table| table.len());
        let length = random.choose(&[fits, fits + 1, MOST]).clamp(1, MOST);
        joint(c, random, &file, &known, length)?;
    }
    Ok(())
}

pub fn periods(c: &mut Comparison, random: &mut Random, count: usize) -> Compared<()> {
    for _ in 0..count {
        let file = timed(random).numbered(random);
        let known = opened(c, random, &file)?;
        complete_all(c, random, &file, &known)?;
        joint(c, random, &file, &known, 16)?;
    }
    Ok(())
}

/// Two periods whose from and to are 0, 1 or one of the last three numbers: some are accepted, among them from = to and `to` 4,294,967,294, and some refused.
pub fn bounds(c: &mut Comparison, random: &mut Random, count: usize) -> Compared<()> {
    let values = [0, 1, u32::MAX - 2, u32::MAX - 1, u32::MAX];
    let all: Vec<Period> = values.into_iter().flat_map(|from| values.map(|to| (from, to))).collect();
    for (one, other) in all.iter().flat_map(|&one| all.iter().map(move |&other| (one, other))).cycle().take(count * all.len() * all.len()) {
        let mut draft = Draft::new(1, 2);
        draft.fact(0, 0, one);
        draft.include(1, 0, other);
        let file = draft.bytes();
        let known = opened(c, random, &file)?;
        if known.read.is_err() {
            damaged_calls(c, random, &file, &known)?;
            continue;
        }
        ends_and_intervals(c, random, &file, &known)?;
        joint(c, random, &file, &known, 4)?;
    }
    Ok(())
}

pub fn medium(c: &mut Comparison, random: &mut Random, count: usize) -> Compared<()> {
    for i in 0..count {
        let draft = if i % 2 == 0 {
            dense(random, &MIDDLE)
        } else {
            let many = random.within(2, 20);
            let ends = ends(random, many);
            let (entities, credentials) = (random.within(4, 12) as u32, random.within(20, 80));
            layered(random, entities, 8, credentials, &ends)
        };
        let file = draft.numbered(random);
        let known = opened(c, random, &file)?;
        complete_all(c, random, &file, &known)?;
        query_some(c, random, &file, &known, 40, 2)?;
        listed_once_in(c, random, &file, 4)?;
    }
    Ok(())
}

pub fn many_ends(c: &mut Comparison, random: &mut Random, count: usize) -> Compared<()> {
    for i in 0..count {
        let ends = [63, 64, 65][i % 3];
        let file = with_ends(random, ends).numbered(random);
        let known = opened(c, random, &file)?;
        assert!(known.read.as_ref().map_or(65, |file| file.ends.len()) == ends);
        complete_all(c, random, &file, &known)?;
        query_some(c, random, &file, &known, 60, 1)?;
        if known.read.is_err() {
            damaged_calls(c, random, &file, &known)?;
        }
    }
    Ok(())
}

pub fn full(c: &mut Comparison, random: &mut Random, count: usize) -> Compared<()> {
    for i in 0..count {
        let draft = match i % 6 {
            0 | 1 => staggered(random),
            2 => wide(random),
            _ => {
                let many = random.within(30, 64);
                let ends = ends(random, many);
                let entities = random.within(12, 32) as u32;
                layered(random, entities, 32, 256, &ends)
            }
        };
        let file = draft.numbered(random);
        let known = opened(c, random, &file)?;
        complete_all(c, random, &file, &known)?;
        query_some(c, random, &file, &known, 60, 2)?;
        if i % 10 == 3 {
            listed_once_in(c, random, &file, 1)?;
        }
    }
    Ok(())
}

pub fn deep(c: &mut Comparison, random: &mut Random, count: usize) -> Compared<()> {
    for i in 0..count {
        let draft = match i % 6 {
            0 => deepest(random),
            1 => ring(random, 32, 31),
            2 => chain(random, 255),
            3 => inclusions(random),
            _ => {
                let sets = random.within(12, 31) as u32;
                ring(random, sets, 29)
            }
        };
        let file = draft.numbered(random);
        let known = opened(c, random, &file)?;
        complete_all(c, random, &file, &known)?;
        let Members::Levels(levels) = &*known.members(0) else { continue };
        let mut by_level: Vec<(usize, (u32, u32))> = levels.iter().map(|(&m, &level)| (level, m)).collect();
        by_level.sort();
        let greatest = (by_level[by_level.len() - 1].0, by_level.len());
        assert!(i % 6 != 0 || greatest == (1022, MOST));
        assert!(i % 6 != 3 || greatest == (256, 256));
        // The deepest, and some others.
        for i in 0..6 {
            let (_, (role, set)) = by_level[if i == 0 { by_level.len() - 1 } else { random.below(by_level.len()) }];
            let question = Question { role, set, minute: random.choose(&[0, 1, u32::MAX - 1]) };
            let length = random.choose(&[levels.len(), MOST]);
            c.query(&known, queried(&file, question, levels.len() - 1, random.next()))?;
            let Some(proof) = c.query(&known, queried(&file, question, length, random.next()))? else { continue };
            handed_out(c, &file, &known, question, &proof, length, random.next())?;
            checked_withdrawn(c, random, &file, question, &proof.steps)?;
            let read = known.read.as_ref().unwrap();
            for _ in 0..10 {
                let steps = proofs::some_word(random, read, &proof.steps);
                steps_checked(c, random, &file, &known, question, &steps)?;
            }
        }
    }
    Ok(())
}

pub fn limit(c: &mut Comparison, random: &mut Random, count: usize) -> Compared<()> {
    for i in 0..count {
        let total = [1024, 1025, 1023][i % 3];
        let widest = if i < 6 { 10 } else { random.within(6, 9) };
        let file = with_memberships(random, total, widest).numbered(random);
        let known = opened(c, random, &file)?;
        assert!(known.table().map_or(1025, |table| table.len()) == total);
        for length in [1022, 1023, 1024, 1025] {
            c.complete(&known, completed(&file, length, random.next()))?;
        }
        query_some(c, random, &file, &known, 8, 2)?;
        if total == 1025 && i % 2 == 1 {
            one_emptied(c, random, &file)?;
        }
    }
    Ok(())
}
