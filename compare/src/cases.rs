//! Document 01's cases, with the results that it states, as requests One and Two of document 02 change them: a serial is position
//! plus one. And the cases as document 01 first has them, brought forward by request Three.

use crate::calls::Call;
use crate::carried::{carried_old, opened};
use crate::explore::{completed, handed_out, queried};
use crate::files::{Draft, Period};
use crate::input::{Ends, Forward, Intervals, Source};
use crate::judge::{known, Compared, Comparison, Failure};
use crate::random::Random;
use crate::reference::ends::{listed, BYTES};
use crate::reference::known::{Known, Question};
use crate::reference::old::OLD;
use crate::reference::reading::word;
use crate::reference::withdrawals::NONE;
use crate::reference::{Refusal, MOST};
use crate::withdrawn_cases;

/// The bytes of set P as document 01 prints them, with a serial after each statement: 66.
const P: &str =
    "030002000300 0000000100000000 01000000 0000000200000000 02000000 0500010000000000 03000000 0A00000014000000 0F0000001E000000 0000000012000000";

/// The bytes of set P as document 01 prints them: 54.
const OLD_P: &str = "030002000300 0000000100000000 0000000200000000 0500010000000000 0A00000014000000 0F0000001E000000 0000000012000000";

/// The same brought forward: position plus one as serial, and 19, 29 and 17 as `to`.
const OLD_P_FORWARD: &str =
    "030002000300 0000000100000000 01000000 0000000200000000 02000000 0500010000000000 03000000 0A00000013000000 0F0000001D000000 0000000011000000";

pub fn bytes(text: &str) -> Vec<u8> {
    let digits: String = text.split(' ').collect();
    (0..digits.len()).step_by(2).map(|at| u8::from_str_radix(&digits[at..at + 2], 16).unwrap()).collect()
}

pub fn set_p() -> Vec<u8> {
    bytes(P)
}

/// Set P with ⊙ in place of ⊗.
fn set_p_union() -> Vec<u8> {
    let mut bytes = set_p();
    bytes[6 + 2 * 12] = 4;
    bytes
}

/// A table's rows: role, set, spans.
pub type Rows = Vec<(u32, u32, u64)>;

fn k7() -> Vec<u8> {
    let mut draft = Draft::new(2, 1);
    draft.include(0, 32, (0, 10));
    draft.include(32, 0, (0, 10));
    draft.bytes()
}

fn k8() -> Vec<u8> {
    let mut draft = Draft::new(3, 1);
    draft.include(0, 32, (0, 10));
    draft.fact(32, 2, (0, 5));
    draft.fact(32, 2, (5, 10));
    draft.bytes()
}

/// 1.0 has only {1,2}, by helpers 0.1 and 0.2; the linked entities' own roles have sets, so that a wrong link would show.
fn k9() -> Vec<u8> {
    let mut draft = Draft::new(4, 3);
    let period: Period = (0, 10);
    draft.link(0, 32, 0, period);
    draft.fact(1, 1, period);
    draft.fact(2, 2, period);
    draft.pair(5, 32, 1, 2, period);
    draft.fact(64, 3, period);
    draft.bytes()
}

/// Document 003's Example 1: entities F, Alex, Betty, David, John, Emily; names student, phdStudent, students, activeSubject.
fn k10() -> Vec<u8> {
    let mut draft = Draft::new(6, 4);
    let period: Period = (0, 100);
    draft.pair(5, 2, 0, 0, period);
    draft.pair(4, 3, 1, 2, period);
    (1..5).for_each(|entity| draft.fact(0, entity, period));
    draft.fact(1, 4, period);
    draft.fact(1, 5, period);
    draft.bytes()
}

fn tables() -> Vec<(&'static str, Vec<u8>, Rows)> {
    let k9_rows = vec![(1, 2, 1), (2, 4, 1), (32, 6, 1), (64, 8, 1)];
    vec![
        ("P", set_p(), vec![(0, 2, 14), (0, 4, 28), (1, 6, 4)]),
        ("K7", k7(), vec![]),
        ("K8", k8(), vec![(0, 4, 7), (32, 4, 7)]),
        ("K9", k9(), k9_rows),
        ("K11", Draft::new(1, 1).bytes(), vec![]),
    ]
}

pub fn run(c: &mut Comparison, random: &mut Random, count: usize) -> Compared<()> {
    for _ in 0..count {
        for (name, file, rows) in tables() {
            let found = rows_of(c, random, &file)?;
            expect(found.is_none() || found.as_ref() == Some(&rows), name)?;
        }
        if let Some(rows) = rows_of(c, random, &k10())? {
            expect(rows.len() == 24 && rows.iter().filter(|row| row.0 == 3).count() == 12, "K10")?;
        }
        for (name, file, set, minute, proof) in [
            ("K1", set_p(), 6, 15, Some((2, 3))),
            ("K2", set_p(), 6, 17, Some((2, 3))),
            ("K3", set_p(), 6, 18, Some((2, 3))),
            ("K3, minute 19", set_p(), 6, 19, None),
            ("K4", set_p(), 6, 14, None),
            ("K5", set_p_union(), 2, 10, Some((2, 2))),
            ("K6", set_p(), 2, 10, None),
        ] {
            let known = opened(c, random, &file)?;
            let question = Question { role: 1, set, minute };
            let given = c.query(&known, queried(&file, question, 8, random.next()))?;
            expect(given.as_ref().map(|proof| (proof.level, proof.steps.len())) == proof, name)?;
            if let Some(given) = given {
                handed_out(c, &file, &known, question, &given, 8, random.next())?;
            }
        }
        ends_of_cases(c, random)?;
        old_cases(c, random)?;
        chains(c, random)?;
        withdrawn_cases::run(c, random)?;
    }
    Ok(())
}

/// So many roles, of which the first has {0} and each other one includes the one before it, in 0..9.
pub fn chain(length: u32) -> Draft {
    let mut draft = Draft::new(2, 32);
    draft.fact(0, 0, (0, 9));
    (1..length).for_each(|role| draft.include(role, role - 1, (0, 9)));
    draft
}

/// Request Five's bound is reached: each level has one membership, so that the last role's level is their number. With L that number there is a
/// proof of as many steps, with L one less 10.
fn chains(c: &mut Comparison, random: &Random) -> Compared<()> {
    let random = &mut random.clone();
    for length in [1, 2, 3, 16, 32] {
        let file = chain(length as u32).bytes();
        let known = opened(c, random, &file)?;
        let last = Question { role: length as u32 - 1, set: 1, minute: 9 };
        at_most(c, random, &file, &known, last, length)?;
        expect(c.query(&known, queried(&file, Question { minute: 10, ..last }, length, random.next()))?.is_none(), "a chain after its minutes")?;
    }
    Ok(())
}

/// A chain's last membership: its level and its steps are the number of memberships at the minute, which is the least L.
pub fn at_most<'a>(
    c: &mut Comparison,
    random: &mut Random,
    source: impl Into<Source<'a>>,
    known: &Known,
    last: Question,
    held: usize,
) -> Compared<()> {
    let source = source.into();
    for length in [held, held + 1, MOST] {
        let given = c.query(known, queried(source, last, length, random.next()))?;
        expect(given.as_ref().map(|proof| (proof.level, proof.steps.len())) == Some((held, held)), "a level equal to the number of memberships")?;
        handed_out(c, source, known, last, &given.unwrap(), length, random.next())?;
    }
    let number = if held > 1 { 10 } else { 9 };
    let refused = known.query(last, [4 * (held - 1); 4]).map_err(|(refusal, _)| refusal);
    expect(refused == Err(Refusal { number, place: 0 }), "one membership more than entries")?;
    c.query(known, queried(source, last, held - 1, random.next())).map(|_| ())
}

/// Set P's bytes before and after the way forward; the tables and the ends that document 01 first states of P, K8 and K11; K1 to K4 of P.
fn old_cases(c: &mut Comparison, random: &Random) -> Compared<()> {
    let random = &mut random.clone();
    let new_p = bytes(OLD_P_FORWARD);
    expect(c.forward(Forward { file: &bytes(OLD_P), length: 66, fill: random.next() })? == Some(new_p.clone()), "P, forward")?;
    let mut old_k8 = Draft::new(3, 1);
    old_k8.include(0, 32, (0, 10));
    old_k8.fact(32, 2, (0, 5));
    old_k8.fact(32, 2, (5, 10));
    for (name, old, rows, ends) in [
        ("P, old", bytes(OLD_P), vec![(0, 2, 14), (0, 4, 28), (1, 6, 4)], &[0, 10, 15, 18, 20, 30][..]),
        ("K8, old", old_k8.without_serials(), vec![(0, 4, 3), (32, 4, 3)], &[0, 5, 10]),
        ("K11, old", Draft::new(1, 1).without_serials(), vec![], &[]),
    ] {
        let known = Known::new(OLD, &old, NONE);
        expect(known.ends(BYTES) == Ok((ends.len() as u64, listed(ends.iter().copied()))), name)?;
        let table = known.table().into_iter().flatten().map(|(&(role, set), &spans)| (role, set, spans));
        expect(table.collect::<Rows>() == rows, name)?;
        carried_old(c, random, &old)?;
    }
    let known = opened(c, random, &new_p)?;
    for (name, minute, holds) in [("K1, old", 15, true), ("K2, old", 17, true), ("K3, old", 18, false), ("K4, old", 14, false)] {
        let question = Question { role: 1, set: 6, minute };
        expect(c.query(&known, queried(&new_p, question, 8, random.next()))?.is_some() == holds, name)?;
    }
    Ok(())
}

/// The ends that document 02's request One gives, and the intervals of spans that `members` prints or a case has; 11 where there is no span.
fn ends_of_cases(c: &mut Comparison, random: &Random) -> Compared<()> {
    let random = &mut random.clone();
    let p: &[(u64, &[u32])] = &[(14, &[10, 21]), (28, &[15, 31]), (4, &[15, 19]), (0, &[]), (21, &[0, 10, 15, 19, 21, 31])];
    let k8_intervals: &[(u64, &[u32])] = &[(7, &[0, 11]), (1, &[0, 5]), (2, &[5, 6]), (4, &[6, 11]), (5, &[0, 5, 6, 11])];
    for (name, file, ends, intervals) in [
        ("P, ends", set_p(), &[0, 10, 15, 19, 21, 31][..], p),
        ("K8, ends", k8(), &[0, 5, 6, 11], k8_intervals),
        ("K11, ends", Draft::new(1, 1).bytes(), &[], &[(0, &[])]),
    ] {
        let known = known(&file);
        expect(known.ends(BYTES) == Ok((ends.len() as u64, listed(ends.iter().copied()))), name)?;
        c.ends(&known, Ends { source: (&file).into(), length: BYTES, fill: random.next() })?;
        for &(spans, bounds) in intervals {
            let stated = (bounds.len() as u64 / 2, listed(bounds.iter().copied()));
            expect(known.intervals(spans, BYTES) == Ok(stated), name)?;
            c.intervals(&known, Intervals { source: (&file).into(), spans, length: BYTES, fill: random.next() })?;
        }
        let beyond = 1 << ends.len().saturating_sub(1);
        expect(known.intervals(beyond, BYTES) == Err(Refusal { number: 11, place: 0 }), name)?;
        c.intervals(&known, Intervals { source: (&file).into(), spans: beyond, length: BYTES, fill: random.next() })?;
    }
    Ok(())
}

/// The rows that completing writes; none without the call.
fn rows_of(c: &mut Comparison, random: &mut Random, file: &[u8]) -> Compared<Option<Rows>> {
    let known = opened(c, random, file)?;
    if !c.has(Call::Complete) {
        return Ok(None);
    }
    let Some(written) = c.complete(&known, completed(file, 30, random.next()))? else { return Ok(Some(vec![(0, 0, 0)])) };
    let [roles, sets, spans] = &written.lists;
    let row = |i| (word(roles, i), word(sets, i), word(spans, 2 * i) as u64);
    Ok(Some((0..written.count).map(row).collect()))
}

pub fn expect(holds: bool, name: &str) -> Compared<()> {
    match holds {
        true => Ok(()),
        false => Err(Failure(format!("case {name} is not as the documents state"))),
    }
}
