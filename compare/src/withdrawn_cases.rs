//! Withdrawal lists whose results are worked out by hand from requests Four and Five of document 02.

use crate::cases::{at_most, bytes, chain, expect, set_p, Rows};
use crate::explore::{checked, completed, handed_out, queried};
use crate::files::{between, Draft};
use crate::input::{Complete, Ends, Intervals, Query, Source};
use crate::judge::{known, Compared, Comparison};
use crate::random::Random;
use crate::reference::checking::Step;
use crate::reference::ends::{listed, BYTES};
use crate::reference::known::Question;
use crate::reference::withdrawals::{Withdrawal, NONE};
use crate::reference::Refusal;
use crate::withdrawals::bytes as list_of;

pub fn run(c: &mut Comparison, random: &Random) -> Compared<()> {
    let random = &mut random.clone();
    set_p_withdrawn(c, random)?;
    deeper(c, random)?;
    chain_cut(c, random)?;
    refused_lists(c, random)?;
    refused_files(c, random)?;
    over_64(c, random)?;
    of_256(c, random)
}

/// A list of serials and minutes.
fn list(withdrawals: &[(u32, u32)]) -> Vec<u8> {
    list_of(&withdrawals.iter().map(|&(serial, minute)| Withdrawal { serial, minute }).collect::<Vec<_>>())
}

/// Set P: 0.0 ← 1 in 10..20 has serial 1, 0.0 ← 2 in 15..30 serial 2 and 0.1 ← 0.0 ⊗ 0.0 in 0..18 serial 3. Of each list the ends, the table
/// and the minutes up to 31 at which 0.1 has {1,2}.
fn set_p_withdrawn(c: &mut Comparison, random: &mut Random) -> Compared<()> {
    let file = set_p();
    c.counted();
    let whole: (&[u32], &[(u32, u32, u64)], _) = (&[0, 10, 15, 19, 21, 31], &[(0, 2, 14), (0, 4, 28), (1, 6, 4)], 15..19);
    for (name, withdrawals, (ends, rows, holds)) in [
        ("P, count 0", &[][..], whole.clone()),
        ("P, 1 from 16", &[(1, 16)], (&[0, 10, 15, 16, 19, 31], &[(0, 2, 6), (0, 4, 28), (1, 6, 4)], 15..16)),
        ("P, 1 from 15", &[(1, 15)], (&[0, 10, 15, 19, 31], &[(0, 2, 2), (0, 4, 12)], 0..0)),
        ("P, 1 from 11", &[(1, 11)], (&[0, 10, 11, 15, 19, 31], &[(0, 2, 2), (0, 4, 24)], 0..0)),
        ("P, 1 from 10", &[(1, 10)], (&[0, 15, 19, 31], &[(0, 4, 6)], 0..0)),
        ("P, 1 from 9", &[(1, 9)], (&[0, 15, 19, 31], &[(0, 4, 6)], 0..0)),
        ("P, 1 from 0", &[(1, 0)], (&[0, 15, 19, 31], &[(0, 4, 6)], 0..0)),
        ("P, 1 from 20", &[(1, 20)], (&[0, 10, 15, 19, 20, 31], &[(0, 2, 14), (0, 4, 28), (1, 6, 4)], 15..19)),
        ("P, 1 from 21", &[(1, 21)], whole.clone()),
        ("P, 1 from 4,294,967,295", &[(1, u32::MAX)], whole.clone()),
        ("P, 3 from 18", &[(3, 18)], (&[0, 10, 15, 18, 21, 31], &[(0, 2, 14), (0, 4, 28), (1, 6, 4)], 15..18)),
        ("P, 3 from 15", &[(3, 15)], (&[0, 10, 15, 21, 31], &[(0, 2, 6), (0, 4, 12)], 0..0)),
        ("P, 3 from 17 and 2 from 15", &[(3, 17), (2, 15)], (&[0, 10, 17, 21], &[(0, 2, 6)], 0..0)),
        ("P, 2 from 16, 3 from 0 and 1 from 30", &[(2, 16), (3, 0), (1, 30)], (&[10, 15, 16, 21], &[(0, 2, 7), (0, 4, 2)], 0..0)),
        ("P, all from 0", &[(1, 0), (2, 0), (3, 0)], (&[], &[], 0..0)),
    ] {
        let list = list(withdrawals);
        let source = Source { file: &file, withdrawals: &list };
        let known = known(source);
        expect(known.ends(BYTES) == Ok((ends.len() as u64, listed(ends.iter().copied()))), name)?;
        c.ends(&known, Ends { source, length: BYTES, fill: random.next() })?;
        let table: Rows = known.table().into_iter().flatten().map(|(&(role, set), &spans)| (role, set, spans)).collect();
        expect(table == rows, name)?;
        c.complete(&known, completed(source, 3, random.next()))?;
        c.complete(&known, completed(source, rows.len().clamp(1, 3), random.next()))?;
        for spans in table.iter().map(|&(_, _, spans)| spans).chain([1 << 4]) {
            c.intervals(&known, Intervals { source, spans, length: BYTES, fill: random.next() })?;
        }
        for minute in 0..32 {
            let question = Question { role: 1, set: 6, minute };
            let given = c.query(&known, queried(source, question, 3, random.next()))?;
            expect(given.is_some() == holds.contains(&minute), name)?;
            if let Some(given) = given {
                handed_out(c, source, &known, question, &given, 3, random.next())?;
            }
            // The uncut file's proof, which holds where no step's credential is withdrawn.
            let steps = [step(0, 0, 0, 2), step(1, 0, 0, 4), step(2, 0, 1, 6)];
            let reply = c.check(&known, checked(source, question, &steps, 3, random.next()))?;
            expect((reply == 2) == holds.contains(&minute) && (reply == 2 || reply >> 32 == 15), name)?;
        }
    }
    Ok(())
}

fn step(credential: u32, first: u32, second: u32, set: u32) -> Step {
    Step { credential, first, second, set }
}

/// 0.0 ← 1.0, 1.0 ← 2 and 0.0 ← 2, all in 0..9: without the third from minute 5, 0.0 has {2} at a level more, by another proof.
fn deeper(c: &mut Comparison, random: &mut Random) -> Compared<()> {
    let mut draft = Draft::new(3, 1);
    draft.include(0, 32, (0, 9));
    draft.fact(32, 2, (0, 9));
    draft.fact(0, 2, (0, 9));
    let (file, list) = (draft.bytes(), list(&[(3, 5)]));
    c.counted();
    let source = Source { file: &file, withdrawals: &list };
    let known = known(source);
    for (minute, level) in [(0, 1), (4, 1), (5, 2), (9, 2)] {
        let question = Question { role: 0, set: 4, minute };
        let proof = c.query(&known, queried(source, question, 2, random.next()))?;
        expect(proof.is_some_and(|proof| (proof.level, proof.steps.len()) == (level, level)), "a deeper proof after a withdrawal")?;
        let reply = c.check(&known, checked(source, question, &[step(2, 0, 0, 4)], 2, random.next()))?;
        expect(reply == if level == 1 { 1 } else { Refusal { number: 15, place: 0 }.reply() }, "a withdrawn step")?;
        c.check(&known, checked(source, question, &[step(1, 0, 0, 4), step(0, 0, 0, 4)], 2, random.next()))?;
    }
    Ok(())
}

/// A chain of 16 roles without the ninth's credential from minute 5: before it the last role's level is 16, the number of memberships; from it on
/// the eighth's is 8, likewise, and the roles above it have nothing. Without the first credential nothing is left.
fn chain_cut(c: &mut Comparison, random: &mut Random) -> Compared<()> {
    let (file, middle, first) = (chain(16).bytes(), list(&[(9, 5)]), list(&[(1, 5)]));
    c.counted();
    let [cut, emptied] = [&middle, &first].map(|withdrawals| Source { file: &file, withdrawals });
    let [known_cut, known_emptied] = [cut, emptied].map(known);
    let held = |role: u32, minute: u32| Question { role, set: 1, minute };
    at_most(c, random, cut, &known_cut, held(15, 4), 16)?;
    at_most(c, random, cut, &known_cut, held(7, 5), 8)?;
    for role in 8..16 {
        expect(c.query(&known_cut, queried(cut, held(role, 5), 8, random.next()))?.is_none(), "a chain above the withdrawal")?;
    }
    at_most(c, random, emptied, &known_emptied, held(15, 4), 16)?;
    expect(c.query(&known_emptied, queried(emptied, held(0, 5), 1, random.next()))?.is_none(), "a chain without its first")
}

/// The calls on a file and a list that give this refusal, alone and with every other argument out of its limits too.
fn refused(c: &mut Comparison, random: &mut Random, source: Source, number: u32, place: u32) -> Compared<()> {
    let known = known(source);
    expect(known.read == Err(Refusal { number, place }), &format!("a file and a list that {number} refuses"))?;
    for length in [BYTES, 0] {
        c.ends(&known, Ends { source, length, fill: random.next() })?;
        c.intervals(&known, Intervals { source, spans: 0, length, fill: random.next() })?;
    }
    c.intervals(&known, Intervals { source, spans: 1 << 63, length: BYTES, fill: random.next() })?;
    let right = Question { role: 1, set: 6, minute: 15 };
    for (question, length) in [(right, 3), (right, 0), (Question { set: 0, ..right }, 3), (Question { minute: u32::MAX, ..right }, 3)] {
        c.complete(&known, completed(source, length, random.next()))?;
        c.query(&known, queried(source, question, length, random.next()))?;
        for count in [1, 0] {
            let mut check = checked(source, question, &[step(0, 0, 0, 2)], length, random.next());
            check.count = count;
            c.check(&known, check)?;
        }
    }
    c.complete(&known, Complete { source, lengths: [12, 12, 12], fill: random.next() })?;
    c.query(&known, Query { source, question: right, lengths: [12, 12, 12, 8], fill: random.next() }).map(|_| ())
}

/// 20 and 21 of set P.
fn refused_lists(c: &mut Comparison, random: &mut Random) -> Compared<()> {
    let file = set_p();
    for (number, list) in [
        // Under two bytes; bytes more and less than the count asks for; a count with its bytes exchanged, above 256, in one byte, in four.
        (20, ""),
        (20, "00"),
        (20, "01"),
        (20, "0100"),
        (20, "0000 00"),
        (20, "0000 01000000 10000000"),
        (20, "0100 01000000"),
        (20, "0100 01000000 10000000 00"),
        (20, "0100 01000000 100000"),
        (20, "0200 01000000 10000000"),
        (20, "0001 01000000 10000000"),
        (20, "0101 01000000 10000000"),
        (20, "0180 01000000 10000000"),
        (20, "01 01000000 10000000"),
        (20, "01000000 01000000 10000000"),
        // And a serial on no credential, or one twice.
        (20, "0100 04000000 10000000 00"),
        (20, "0200 01000000 01000000 10000000 10000000 00000000"),
        // On no credential: above, zero, a byte or a half exchanged, positions.
        (21, "0100 04000000 10000000"),
        (21, "0100 04000000 FFFFFFFF"),
        (21, "0100 00000000 10000000"),
        (21, "0100 00000001 10000000"),
        (21, "0100 01000080 10000000"),
        (21, "0100 01000100 10000000"),
        (21, "0200 02000000 04000000 10000000 10000000"),
        (21, "0200 04000000 02000000 10000000 10000000"),
        (21, "0300 01000000 00000000 02000000 10000000 10000000 10000000"),
        // Twice: at the same minute and at another; beside each other and not.
        (21, "0200 01000000 01000000 10000000 10000000"),
        (21, "0200 01000000 01000000 10000000 11000000"),
        (21, "0200 02000000 02000000 FFFFFFFF FFFFFFFF"),
        (21, "0300 01000000 02000000 01000000 10000000 11000000 12000000"),
        (21, "0300 01000000 02000000 02000000 10000000 11000000 12000000"),
        // Pairs.
        (21, "0200 01000000 10000000 02000000 10000000"),
    ] {
        let list = bytes(list);
        refused(c, random, Source { file: &file, withdrawals: &list }, number, 0)?;
    }
    let many = [257, 258, 300, 512];
    for list in many.map(|count| list(&[(1, 16), (2, 16)].into_iter().cycle().take(count).collect::<Vec<_>>())) {
        refused(c, random, Source { file: &file, withdrawals: &list }, 20, 0)?;
    }
    Ok(())
}

/// Files that are refused, whatever the list: set P cut, with a size or a length that is wrong, with a credential at fault.
fn refused_files(c: &mut Comparison, random: &mut Random) -> Compared<()> {
    let lists = ["0000", "", "0100", "0100 09000000 10000000", "0200 01000000 01000000 10000000 10000000", "0100 01000000 10000000"].map(bytes);
    let with = |changes: &[(usize, u8)]| {
        let mut file = set_p();
        changes.iter().for_each(|&(at, byte)| file[at] = byte);
        file
    };
    for (number, place, file) in [
        (1, 0, set_p()[..5].to_vec()),
        (1, 0, vec![]),
        (2, 0, with(&[(0, 0)])),
        (2, 0, with(&[(5, 2)])),
        (3, 0, [set_p(), vec![0]].concat()),
        (3, 0, set_p()[..54].to_vec()),
        (4, 1, with(&[(18, 6)])),
        (5, 2, with(&[(31, 3)])),
        (6, 0, with(&[(13, 1)])),
        (7, 0, with(&[(42, 21)])),
        (7, 2, with(&[(62, 255), (63, 255), (64, 255), (65, 255)])),
        (17, 2, with(&[(38, 1)])),
        (17, 0, with(&[(14, 0)])),
    ] {
        c.counted();
        for list in &lists {
            refused(c, random, Source { file: &file, withdrawals: list }, number, place)?;
        }
    }
    Ok(())
}

/// 0.0 ← 1 in so many periods of four minutes, ten minutes apart; two ends each.
fn apart(periods: u32) -> Draft {
    let mut draft = Draft::new(3, 2);
    (0..periods).for_each(|i| draft.fact(0, 1, between(10 * i, 10 * i + 4)));
    draft
}

/// Files of 66 and of 64 ends, with lists that leave 64 and 65; 20 and 21 stand before 8.
fn over_64(c: &mut Comparison, random: &mut Random) -> Compared<()> {
    let mut twice = apart(32);
    twice.fact(0, 1, between(10, 14));
    let of_66: &[(&str, usize, &[(u32, u32)])] = &[
        ("66 ends", 66, &[]),
        ("66 ends, 33 from 322", 66, &[(33, 322)]),
        ("66 ends, 33 from 324", 66, &[(33, 324)]),
        ("66 ends, 33 from 320", 64, &[(33, 320)]),
        ("66 ends, 1 from 0", 64, &[(1, 0)]),
        ("66 ends, 5 from 42 and 1 from 0", 64, &[(5, 42), (1, 0)]),
        ("66 ends, 9 and 1 from 0", 62, &[(9, 0), (1, 0)]),
    ];
    let of_64: &[(&str, usize, &[(u32, u32)])] = &[
        ("64 ends", 64, &[]),
        ("64 ends, 33 from 10", 64, &[(33, 10)]),
        ("64 ends, 33 from 12", 65, &[(33, 12)]),
        ("64 ends, 33 and 2 from 12", 64, &[(33, 12), (2, 12)]),
        ("64 ends, 33 from 12 and 1 from 0", 63, &[(33, 12), (1, 0)]),
    ];
    for (file, rows) in [(apart(33).bytes(), of_66), (twice.bytes(), of_64)] {
        c.counted();
        for &(name, ends, withdrawals) in rows {
            let list = list(withdrawals);
            let source = Source { file: &file, withdrawals: &list };
            if ends > 64 {
                refused(c, random, source, 8, 0)?;
            } else {
                accepted(c, random, source, ends, name)?;
            }
        }
        for (number, list) in [(20, vec![]), (20, bytes("0100 63000000 0000000000")), (21, list(&[(1, 0), (99, 0)])), (21, list(&[(1, 0), (1, 0)]))] {
            refused(c, random, Source { file: &file, withdrawals: &list }, number, 0)?;
        }
    }
    Ok(())
}

/// The calls on a file and a list that leave so many ends.
fn accepted(c: &mut Comparison, random: &mut Random, source: Source, ends: usize, name: &str) -> Compared<()> {
    let known = known(source);
    expect(known.read.as_ref().is_ok_and(|file| file.ends.len() == ends), name)?;
    c.ends(&known, Ends { source, length: BYTES, fill: random.next() })?;
    c.intervals(&known, Intervals { source, spans: 1, length: BYTES, fill: random.next() })?;
    c.complete(&known, completed(source, 1, random.next()))?;
    for minute in [0, 5, 41, 42, 322] {
        let question = Question { role: 0, set: 2, minute };
        c.query(&known, queried(source, question, 1, random.next()))?;
        c.check(&known, checked(source, question, &[step(0, 0, 0, 2)], 1, random.next()))?;
    }
    Ok(())
}

/// 0.0 ← 1 in 0..9, 256 times, all withdrawn; and with a serial of the 256 wrong.
fn of_256(c: &mut Comparison, random: &mut Random) -> Compared<()> {
    let mut draft = Draft::new(3, 2);
    (0..256).for_each(|_| draft.fact(0, 1, (0, 9)));
    let file = draft.bytes();
    c.counted();
    let all = |minute: fn(u32) -> u32| (1..=256).rev().map(|serial| (serial, minute(serial))).collect::<Vec<_>>();
    for (name, ends, withdrawals) in [
        ("256, all from 0", 0, all(|_| 0)),
        ("256, all from 5", 2, all(|_| 5)),
        ("256, all but one from 0", 2, all(|serial| if serial == 1 { 9 } else { 0 })),
        ("256, all from 1 to 8", 9, all(|serial| 1 + serial % 8)),
        ("256, all from 10", 2, all(|_| 10)),
    ] {
        let withdrawals = list(&withdrawals);
        accepted(c, random, Source { file: &file, withdrawals: &withdrawals }, ends, name)?;
    }
    let with = |place: usize, serial: u32| {
        let mut list = all(|_| 0);
        list[place].0 = serial;
        list
    };
    for withdrawals in [with(255, 257), with(255, 0), with(255, 256), with(255, 2), with(0, 257), with(0, 1), with(100, 300)] {
        refused(c, random, Source { file: &file, withdrawals: &list(&withdrawals) }, 21, 0)?;
    }
    let more = [all(|_| 0), vec![(257, 0)]].concat();
    refused(c, random, Source { file: &file, withdrawals: &list(&more) }, 20, 0)?;
    refused(c, random, Source { file: &file, withdrawals: &NONE[..1] }, 20, 0)
}
