//! What is compared on one file, or on a file and a withdrawal list.

use crate::calls::Call;
use crate::input::{words, Check, Complete, Ends, Input, Intervals, Query, Source};
use crate::judge::{Compared, Comparison, Proof, Written};
use crate::proofs;
use crate::random::Random;
use crate::reference::checking::Step;
use crate::reference::ends::BYTES;
use crate::reference::known::{Known, Question};
use crate::reference::meaning::Members;
use crate::reference::reading::{word, Credential, File};
use crate::reference::{role, Membership, MOST};
use std::collections::BTreeSet;

/// Every minute at, before and after each end; and each withdrawal and each end that the file has without it.
pub fn minutes(file: &File) -> Vec<u32> {
    let near = |&end: &u32| [end.saturating_sub(1), end, end.saturating_add(1)];
    let mut minutes: Vec<u32> = file.ends.iter().flat_map(near).collect();
    let gone = |c: &Credential| c.withdrawn.map(|minute| [c.from, c.to + 1, minute]);
    let gone: BTreeSet<u32> = file.credentials.iter().filter_map(gone).flatten().filter(|end| !file.ends.contains(end)).collect();
    minutes.extend(gone.iter().flat_map(near));
    minutes.extend(minutes.is_empty().then_some(0));
    minutes.dedup();
    minutes
}

/// Lengths at which a count of memberships just fits or just doesn't, and others.
fn lengths(random: &mut Random, count: usize) -> Vec<usize> {
    let mut lengths = vec![count.saturating_sub(1), count, count + 1, random.within(1, MOST)];
    lengths.retain(|&length| length <= MOST + 1);
    lengths.dedup();
    lengths
}

pub fn completed<'a>(source: impl Into<Source<'a>>, length: usize, fill: u64) -> Complete<'a> {
    Complete { source: source.into(), lengths: [4 * length, 4 * length, 8 * length], fill }
}

pub fn queried<'a>(source: impl Into<Source<'a>>, question: Question, length: usize, fill: u64) -> Query<'a> {
    Query { source: source.into(), question, lengths: [4 * length; 4], fill }
}

/// Steps in lists of a length; garbage after the steps.
pub fn checked<'a>(source: impl Into<Source<'a>>, question: Question, steps: &[Step], length: usize, fill: u64) -> Check<'a> {
    let (lists, lengths) = (words(steps), [4 * length; 4]);
    Check { source: source.into(), question, lists, lengths, count: steps.len() as u64, hidden: false, fill }
}

/// Completing at all the lengths that matter for this file.
pub fn complete_all<'a>(c: &mut Comparison, random: &mut Random, source: impl Into<Source<'a>>, known: &Known) -> Compared<()> {
    let source = source.into();
    let count = known.table().map_or(MOST, |table| table.len());
    for length in lengths(random, count) {
        c.complete(known, completed(source, length, random.next()))?;
    }
    c.complete(known, completed(source, MOST, random.next()))?;
    ends_and_intervals(c, random, source, known)
}

/// Lengths of the list that is lent for the ends and for the intervals.
pub const LISTS: [usize; 7] = [0, 252, 255, BYTES, 257, 260, 1024];

/// Span numbers: none, all, alternate, gaps, those of memberships, and with bits beyond the last span.
fn span_numbers(random: &mut Random, known: &Known) -> Vec<u64> {
    let spans = known.read.as_ref().map_or(0, |file| file.ends.len().saturating_sub(1));
    let all = (1 << spans) - 1;
    let some = [random.next(), random.next() | random.next(), random.next() & random.next(), !(1 << random.below(64)), 1 << random.below(64)];
    let mut numbers: Vec<u64> = some.into_iter().chain([0, u64::MAX, 0x5555_5555_5555_5555]).map(|number| number & all).collect();
    numbers.extend([1 << spans, all | 1 << spans, 1 << 63, u64::MAX, random.next(), 1 << random.within(spans, 63)]);
    let table: Vec<u64> = known.table().into_iter().flat_map(|table| table.values()).copied().collect();
    numbers.extend((0..table.len().min(3)).map(|_| random.choose(&table)));
    numbers
}

/// The ends in lists of all these lengths; the intervals of span numbers, each in 256 bytes and in one of these lengths.
/// The random numbers stay as they are.
pub fn ends_and_intervals<'a>(c: &mut Comparison, random: &Random, source: impl Into<Source<'a>>, known: &Known) -> Compared<()> {
    let (source, random) = (source.into(), &mut random.clone());
    for length in LISTS {
        c.ends(known, Ends { source, length, fill: random.next() })?;
    }
    for spans in span_numbers(random, known) {
        for length in [BYTES, random.choose(&LISTS)] {
            c.intervals(known, Intervals { source, spans, length, fill: random.next() })?;
        }
    }
    Ok(())
}

/// A membership at the minute, or at another, or any.
pub fn some_question(random: &mut Random, file: &File, known: &Known, minute: u32) -> Question {
    let any = |random: &mut Random| {
        let set = random.next() as u32 >> (32 - file.entities);
        (role(random.below(file.entities as usize) as u32, random.below(file.names as usize) as u32), set.max(1))
    };
    let among = |random: &mut Random, all: Vec<&Membership>| if all.is_empty() { any(random) } else { *random.choose(&all) };
    let (role, set) = match (random.below(20), &*known.members(minute), known.table()) {
        (0..=13, Members::Levels(levels), _) => among(random, levels.keys().collect()),
        (14..=17, _, Some(table)) => among(random, table.keys().collect()),
        _ => any(random),
    };
    Question { role, set, minute }
}

/// Some questions of an accepted file, each with a length that just fits, just doesn't, or is the greatest; each proof
/// is checked as it was handed out, and in other forms.
pub fn query_some<'a>(
    c: &mut Comparison,
    random: &mut Random,
    source: impl Into<Source<'a>>,
    known: &Known,
    questions: usize,
    forms: usize,
) -> Compared<()> {
    let source = source.into();
    let Ok(read) = &known.read else { return Ok(()) };
    let minutes = minutes(read);
    for _ in 0..questions {
        let minute = random.choose(&minutes);
        let mut question = some_question(random, read, known, minute);
        if random.once_in(5) {
            question.minute = random.choose(&minutes);
        }
        let count = match &*known.members(question.minute) {
            Members::Levels(levels) => levels.len(),
            Members::TooMany => MOST,
        };
        let lengths = lengths(random, count);
        let length = if random.once_in(2) { MOST } else { random.choose(&lengths) };
        if let Some(proof) = c.query(known, queried(source, question, length, random.next()))? {
            handed_out(c, source, known, question, &proof, length, random.next())?;
            for _ in 0..forms {
                other_form(c, random, source, known, question, &proof.steps)?;
            }
        }
    }
    Ok(())
}

/// A proof given to the checker as querying left it: zeros after the steps.
pub fn handed_out<'a>(
    c: &mut Comparison,
    source: impl Into<Source<'a>>,
    known: &Known,
    question: Question,
    proof: &Proof,
    length: usize,
    fill: u64,
) -> Compared<()> {
    let mut check = checked(source, question, &proof.steps, length, fill);
    check.lists.iter_mut().for_each(|list| list.resize(4 * length, 0));
    let input = Input::Check(check.clone());
    let reply = c.check(known, check)?;
    match reply == proof.level as u64 {
        true => Ok(()),
        false => Err(c.failure(&input, format!("level {} from querying, reply {reply} from checking", proof.level))),
    }
}

/// The proof changed at random; a change may keep the rules.
fn other_form(c: &mut Comparison, random: &mut Random, source: Source, known: &Known, q: Question, steps: &[Step]) -> Compared<()> {
    let file = known.read.as_ref().unwrap();
    let steps = match random.below(8) {
        0 => proofs::with_idle(random, file, q.minute, steps, 4),
        1 => proofs::with_twice(random, file, steps),
        2 => random.choose(&proofs::each_citation(steps)),
        3 if steps.len() > 1 && steps.len() < 40 => random.choose(&proofs::each_order(file, steps)),
        4 => {
            let steps = proofs::some_word(random, file, steps);
            proofs::some_word(random, file, &steps)
        }
        _ => proofs::some_word(random, file, steps),
    };
    steps_checked(c, random, source, known, q, &steps)
}

/// Steps checked in lists that just hold them or are longer, with what follows them garbage or unreadable.
pub fn steps_checked<'a>(
    c: &mut Comparison,
    random: &mut Random,
    source: impl Into<Source<'a>>,
    known: &Known,
    q: Question,
    steps: &[Step],
) -> Compared<()> {
    let longer = (steps.len() + random.below(9)).min(MOST).max(steps.len());
    let length = random.choose(&[steps.len(), longer, MOST.max(steps.len())]);
    let mut check = checked(source, q, steps, length, random.next());
    check.hidden = steps.len() <= MOST && random.once_in(4);
    c.check(known, check).map(|_| ())
}

/// Demand 3 on one file: every role, every set and every minute at, before and after each end.
pub fn joint<'a>(c: &mut Comparison, random: &mut Random, source: impl Into<Source<'a>>, known: &Known, length: usize) -> Compared<()> {
    let source = source.into();
    let Ok(read) = &known.read else { return Ok(()) };
    let Some(written) = joint_table(c, random, source, known, length)? else { return Ok(()) };
    for minute in minutes(read) {
        for role in (0..read.entities).flat_map(|issuer| (0..read.names).map(move |name| role(issuer, name))) {
            for set in 1..1 << read.entities {
                let question = Question { role, set, minute };
                let query = queried(source, question, length, random.next());
                let input = Input::Query(query.clone());
                let proof = c.query(known, query)?;
                if minute < u32::MAX && proof.is_some() != validity(read, &written, question) {
                    let what = format!("proof {}, written validity says otherwise", proof.is_some());
                    return Err(c.failure(&input, what));
                }
                if let Some(proof) = proof {
                    handed_out(c, source, known, question, &proof, length, random.next())?;
                }
            }
        }
    }
    Ok(())
}

/// The table as completing wrote it; without the call, as the second implementation has it.
fn joint_table(c: &mut Comparison, random: &mut Random, source: Source, known: &Known, length: usize) -> Compared<Option<Written>> {
    use crate::reference::known::After::Holds;
    match (c.has(Call::Complete), known.complete([4 * length, 4 * length, 8 * length])) {
        (false, (count, Holds(lists))) => Ok(Some(Written { count: count as usize, lists })),
        _ => c.complete(known, completed(source, length, random.next())),
    }
}

/// Whether the minute stands in the membership's written validity.
fn validity(file: &File, written: &Written, q: Question) -> bool {
    let [roles, sets, spans] = &written.lists;
    let Some(entry) = (0..written.count).find(|&i| word(roles, i) == q.role && word(sets, i) == q.set) else { return false };
    let spans = word(spans, 2 * entry) as u64 | (word(spans, 2 * entry + 1) as u64) << 32;
    let ends = &file.ends;
    (1..ends.len()).any(|end| spans >> (end - 1) & 1 == 1 && ends[end - 1] <= q.minute && q.minute < ends[end])
}
