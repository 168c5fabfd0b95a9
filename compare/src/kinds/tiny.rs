//! Every file and every proof within small numbers.

use crate::carried::carried;
use crate::explore::*;
use crate::files::*;
use crate::judge::{Compared, Comparison};
use crate::random::Random;
use crate::reference::checking::Step;
use crate::reference::known::Question;

/// Every file within these numbers: ordered or not, with all or one of the periods 0..0, 0..1, 1..1.
struct Tiny {
    entities: u8,
    names: u8,
    credentials: usize,
    ordered: bool,
    periods: usize,
}

const TINY: [Tiny; 6] = [
    Tiny { entities: 2, names: 1, credentials: 2, ordered: true, periods: 3 },
    Tiny { entities: 2, names: 2, credentials: 2, ordered: true, periods: 1 },
    Tiny { entities: 1, names: 2, credentials: 3, ordered: true, periods: 1 },
    Tiny { entities: 2, names: 1, credentials: 3, ordered: true, periods: 1 },
    Tiny { entities: 2, names: 1, credentials: 3, ordered: false, periods: 3 },
    Tiny { entities: 3, names: 1, credentials: 3, ordered: false, periods: 1 },
];

/// Forward and back are compared on all of these files, the memberships by the old reading on one in so many.
const SELDOM: usize = 16;

pub fn tiny(c: &mut Comparison, random: &mut Random, per_thousand: usize) -> Compared<()> {
    for size in &TINY {
        let mut credentials = Vec::new();
        for statement in statements(size.entities, size.names) {
            credentials.extend([(0, 0), (0, 1), (1, 1)][..size.periods].iter().map(|&period| (statement, period)));
        }
        let mut chosen = vec![0; size.credentials];
        loop {
            if random.below(1000) < per_thousand {
                let mut draft = Draft::new(size.entities as u32, size.names as u32);
                draft.credentials = chosen.iter().map(|&i: &usize| credentials[i]).collect();
                tiny_file(c, random, &draft)?;
            }
            if !next_choice(&mut chosen, credentials.len(), size.ordered) {
                break;
            }
        }
    }
    Ok(())
}

/// Demand 3 on the file; without a fact there are no memberships, and one question is enough.
fn tiny_file(c: &mut Comparison, random: &mut Random, draft: &Draft) -> Compared<()> {
    let file = draft.bytes();
    let known = c.known(&file);
    carried(c, random, &file, SELDOM)?;
    if draft.credentials.iter().any(|(statement, _)| statement[0] == 0) {
        return joint(c, random, &file, &known, 16);
    }
    c.complete(&known, completed(&file, 16, random.next()))?;
    let question = Question { role: 0, set: 1, minute: random.below(2) as u32 };
    c.query(&known, queried(&file, question, 16, random.next())).map(|_| ())
}

/// The next tuple below a limit; of unordered ones only that which does not descend.
fn next_choice(chosen: &mut [usize], limit: usize, ordered: bool) -> bool {
    for at in (0..chosen.len()).rev() {
        chosen[at] += 1;
        if chosen[at] < limit {
            let least = if ordered { 0 } else { chosen[at] };
            chosen[at + 1..].fill(least);
            return true;
        }
    }
    false
}

pub fn tiny_proofs(c: &mut Comparison, random: &mut Random, per_thousand: usize) -> Compared<()> {
    let mut steps = Vec::new();
    for credential in 0..3 {
        for (first, second) in [(0, 0), (0, 1), (1, 0), (1, 1)] {
            steps.extend((0..4).map(|set| Step { credential, first, second, set }));
        }
    }
    let statements = statements(2, 1);
    for one in &statements {
        for other in &statements {
            let mut draft = Draft::new(2, 1);
            draft.credentials = vec![(*one, (0, 1)), (*other, (0, 0))];
            let file = draft.bytes();
            let known = c.known(&file);
            carried(c, random, &file, SELDOM)?;
            for i in 0..steps.len() * (steps.len() + 1) {
                if random.below(1000) >= per_thousand {
                    continue;
                }
                let (last, before) = (steps[i % steps.len()], steps.get(i / steps.len()));
                let proof: Vec<Step> = before.copied().into_iter().chain([last]).collect();
                let head = if last.credential == 1 { other[1] } else { one[1] };
                let question = Question { role: 32 * head as u32, set: last.set.max(1), minute: random.below(2) as u32 };
                c.check(&known, checked(&file, question, &proof, random.within(proof.len(), 3), random.next()))?;
            }
        }
    }
    Ok(())
}
