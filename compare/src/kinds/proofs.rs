//! Proofs that keep the rules in unusual ways, nearly keep them, or break them; step counts.

use crate::carried::opened;
use crate::explore::*;
use crate::files::*;
use crate::judge::{known, Compared, Comparison};
use crate::proofs;
use crate::random::Random;
use crate::reference::known::{Known, Question};
use crate::reference::meaning::Members;
use crate::reference::{Rules, MOST, RIGHT};

/// A small file that has memberships, with a minute at which it has some and one of these.
fn provable(c: &mut Comparison, random: &mut Random) -> Compared<(Vec<u8>, Known, Question)> {
    loop {
        let file = dense(random, &SMALL).numbered(random);
        let known = known(&file);
        let minute = random.choose(&minutes(known.read.as_ref().unwrap()));
        let Members::Levels(levels) = &*known.members(minute) else { continue };
        // Rather a deep one.
        let wanted = random.within(1, 4);
        let deep: Vec<(u32, u32)> = levels.iter().filter(|(_, &level)| level >= wanted).map(|(&m, _)| m).collect();
        if !deep.is_empty() {
            let (role, set) = random.choose(&deep);
            return Ok((file.clone(), opened(c, random, &file)?, Question { role, set, minute }));
        }
    }
}

pub fn broken(c: &mut Comparison, random: &mut Random, count: usize) -> Compared<()> {
    for _ in 0..count {
        let (file, known, q) = provable(c, random)?;
        let Some(proof) = c.query(&known, queried(&file, q, MOST, random.next()))? else { continue };
        let read = known.read.as_ref().unwrap();
        let mut all = proofs::each_word(read, &proof.steps);
        all.extend(proofs::each_order(read, &proof.steps));
        all.extend(proofs::each_citation(&proof.steps));
        for _ in 0..4 {
            let idle = proofs::with_idle(random, read, q.minute, &proof.steps, 5);
            all.push(proofs::with_twice(random, read, &idle));
            all.push(proofs::some_word(random, read, &idle));
            all.push(idle);
        }
        for steps in &all {
            steps_checked(c, random, &file, &known, q, steps)?;
        }
        grown_proofs(c, random, &file, &known, q, &RIGHT)?;
        for rules in proofs::LAX {
            grown_proofs(c, random, &file, &known, q, rules)?;
        }
    }
    Ok(())
}

/// Steps that keep some rules, taken as a proof of what the last one shows, of what another one shows and of the question;
/// then with a broken step.
fn grown_proofs(c: &mut Comparison, random: &mut Random, file: &[u8], known: &Known, q: Question, rules: &Rules) -> Compared<()> {
    let read = known.read.as_ref().unwrap();
    for length in [3, 9, 40, if random.once_in(40) { MOST } else { 100 }] {
        let (steps, shown) = proofs::grown(random, rules, read, q.minute, length);
        let Some(&((role, set), _)) = shown.last() else { continue };
        let other = random.choose(&shown).0;
        for (role, set) in [(role, set), other, q.membership()] {
            let q = Question { role, set, minute: q.minute };
            steps_checked(c, random, file, known, q, &steps)?;
            let changed = proofs::some_word(random, read, &steps);
            steps_checked(c, random, file, known, q, &changed)?;
        }
    }
    Ok(())
}

pub fn counts(c: &mut Comparison, random: &mut Random, count: usize) -> Compared<()> {
    for _ in 0..count {
        let (file, known, q) = provable(c, random)?;
        let Some(proof) = c.query(&known, queried(&file, q, MOST, random.next()))? else { continue };
        let steps = proof.steps.len() as u64;
        for length in [steps, steps + 1, steps + 5, MOST as u64, MOST as u64 + 1] {
            let beyond = |n: u64| (n << 32) + steps;
            let counts = [0, 1, steps - 1, steps, steps + 1, length - 1, length, length + 1, 1 << 32, beyond(1), beyond(7), beyond(u32::MAX as u64)];
            for count in counts.into_iter().chain([u64::MAX, u64::MAX - 1, 1 << 16, (1 << 16) + steps, 1 << 63, (1 << 63) + steps]) {
                let mut check = checked(&file, q, &proof.steps, length as usize, random.next());
                check.count = count;
                check.hidden = count <= steps && random.once_in(3);
                c.check(&known, check)?;
            }
        }
    }
    Ok(())
}
