//! Holds the calls of one implementation, input by input, against what the second implementation says.

use crate::calls::{Call, Calls, Given, Slice};
use crate::input::{words, Back, Check, Complete, Ends, Forward, Input, Intervals, Query, Source};
use crate::lent::Lent;
use crate::random::Random;
use crate::reference::checking::Step;
use crate::reference::known::{steps, After, Effect, Known, Question};
use crate::reference::meaning::Members;
use crate::reference::withdrawals::NONE;
use crate::reference::{carrying, querying, Refusal, RIGHT};
use crate::watch;
use std::collections::BTreeMap;

/// An input on which the two differ, as text.
#[derive(Debug)]
pub struct Failure(pub String);

pub type Compared<T> = Result<T, Failure>;

/// Inputs compared: by kind and call, by call and refusal number (0 for success), and by call and what the withdrawal list does.
#[derive(Default)]
pub struct Counts {
    pub kinds: BTreeMap<&'static str, [u64; 8]>,
    pub replies: BTreeMap<(&'static str, u32), u64>,
    pub effects: [[u64; Effect::ALL.len()]; Call::ALL.len()],
    pub longest: u64,
    pub deepest: u64,
    /// Queries whose level is the number of memberships at the minute: with a withdrawal list of count 0, and with another.
    pub reached: [u64; 2],
}

/// By these the list of count 0 lies in two places: against the unreadable page after it, and at an odd address.
const PLACES: [u64; 2] = [6, 0];

pub struct Comparison<'a> {
    subject: &'a dyn Calls,
    file: Lent,
    /// Lists of count 0, which stay where they are from call to call, and then any other list.
    withdrawals: [Lent; PLACES.len() + 1],
    /// Which of them the call is lent.
    listed: usize,
    lists: [Lent; 4],
    /// Whether entries past the step count may be made unreadable.
    hides: bool,
    pub kind: &'static str,
    pub counts: Counts,
}

/// A proof that was handed out, with its level.
pub struct Proof {
    pub steps: Vec<Step>,
    pub level: usize,
}

/// The table as completing left it in the lists.
pub struct Written {
    pub count: usize,
    pub lists: [Vec<u8>; 3],
}

impl<'a> Comparison<'a> {
    pub fn new(subject: &'a dyn Calls, hides: bool) -> Comparison<'a> {
        let lists = [(); 4].map(|_| Lent::new());
        let mut withdrawals = [(); PLACES.len() + 1].map(|_| Lent::new());
        withdrawals.iter_mut().zip(PLACES).for_each(|(list, place)| _ = list.lend(NONE, &mut Random(place)));
        Comparison { subject, file: Lent::new(), withdrawals, listed: 0, lists, hides, kind: "", counts: Counts::default() }
    }

    pub fn has(&self, call: Call) -> bool {
        self.subject.has(call)
    }

    /// One file more, as its kind counts it.
    pub fn counted(&mut self) {
        self.counts.kinds.entry(self.kind).or_default()[0] += 1;
    }

    /// A file, as its kind counts it, with what the second implementation knows of it.
    pub fn known(&mut self, file: &[u8]) -> Known {
        self.counted();
        known(file)
    }

    fn lend(&mut self, source: Source, at: &mut Random) -> Given {
        let file = self.file.lend(source.file, at);
        let none = source.withdrawals == NONE;
        self.listed = if none { at.below(PLACES.len()) } else { PLACES.len() };
        let list = &mut self.withdrawals[self.listed];
        Given { file, withdrawals: if none { list.lent() } else { list.lend(source.withdrawals, at) } }
    }

    pub fn input(&mut self, known: &Known, input: Input) -> Compared<()> {
        match input {
            Input::Complete(i) => self.complete(known, i).map(|_| ()),
            Input::Query(i) => self.query(known, i).map(|_| ()),
            Input::Check(i) => self.check(known, i).map(|_| ()),
            Input::Ends(i) => self.ends(known, i),
            Input::Intervals(i) => self.intervals(known, i),
            Input::Forward(i) => self.forward(i).map(|_| ()),
            Input::Back(i) => self.back(i).map(|_| ()),
        }
    }

    /// Completing; the table that was written, if one was.
    pub fn complete(&mut self, known: &Known, input: Complete) -> Compared<Option<Written>> {
        if !self.subject.has(Call::Complete) {
            return Ok(None);
        }
        let mut at = Random(input.fill);
        let given = self.lend(input.source, &mut at);
        let lists = [0, 1, 2].map(|i| self.lists[i].lend_garbage(input.lengths[i], &mut at));
        let before = lists.map(Slice::all);
        let lengths = input.lengths;
        let input = Input::Complete(input);
        let reply = watch::during(&input, || self.subject.complete(given, lists));
        let (expected, after) = known.complete(lengths);
        self.reply(&input, reply, expected)?;
        self.effect(Call::Complete, known);
        let held = match after {
            After::Unchanged => before,
            After::Zero => lengths.map(|length| vec![0; length]),
            After::Holds(table) => table,
        };
        self.lent(&input, &held)?;
        Ok((expected >> 32 == 0).then(|| Written { count: reply as usize, lists: held }))
    }

    /// Querying; the proof that was handed out, if one was. Without the call, the second implementation's proof.
    pub fn query(&mut self, known: &Known, input: Query) -> Compared<Option<Proof>> {
        let (question, lengths) = (input.question, input.lengths);
        let expected = known.query(question, lengths);
        if !self.subject.has(Call::Query) {
            return Ok(expected.ok().map(|level| Proof { steps: own_proof(known, question), level }));
        }
        let mut at = Random(input.fill);
        let given = self.lend(input.source, &mut at);
        let lists = [0, 1, 2, 3].map(|i| self.lists[i].lend_garbage(lengths[i], &mut at));
        let before = match &expected {
            Err((_, After::Unchanged)) => lists.map(Slice::all),
            _ => lengths.map(|length| vec![0; length]),
        };
        let input = Input::Query(input);
        let reply = watch::during(&input, || self.subject.query(given, question, lists));
        self.effect(Call::Query, known);
        match expected {
            Err((refusal, _)) => {
                self.reply(&input, reply, refusal.reply())?;
                self.lent(&input, &before)?;
                Ok(None)
            }
            Ok(least) => self.proof(&input, known, question, reply, least).map(Some),
        }
    }

    /// A success reply of querying and the lists after it, judged by the rules.
    fn proof(&mut self, input: &Input, known: &Known, q: Question, reply: u64, least: usize) -> Compared<Proof> {
        let (count, level) = ((reply % 65_536) as usize, (reply / 65_536) as usize);
        let length = self.lists[0].now().len() / 4;
        if reply >> 32 != 0 || count < 1 || count > length {
            let what = format!("reply {}, expected a proof of level {least}", shown(input, reply));
            return Err(self.failure(input, what));
        }
        let now = [0, 1, 2, 3].map(|i| self.lists[i].now());
        let steps = steps(&now, count);
        let file = known.read.as_ref().expect("an accepted file");
        let Members::Levels(levels) = &*known.members(q.minute) else { unreachable!("a proof was expected") };
        let bounded = querying::bounded(file, levels.len(), length, level, &steps);
        if let Err(why) = bounded.and_then(|_| querying::judge(&RIGHT, file, q.membership(), q.minute, least, level, &steps)) {
            return Err(self.failure(input, format!("reply {}: {why}; steps {steps:?}", shown(input, reply))));
        }
        // The words of the steps, then zeros.
        let held = words(&steps).map(|mut bytes| {
            bytes.resize(4 * length, 0);
            bytes
        });
        self.reply(input, reply, reply)?;
        self.lent(input, &held)?;
        self.counts.longest = self.counts.longest.max(count as u64);
        self.counts.deepest = self.counts.deepest.max(level as u64);
        self.counts.reached[(known.effect() != Effect::None) as usize] += (level == levels.len()) as u64;
        Ok(Proof { steps, level })
    }

    /// Checking; the reply.
    pub fn check(&mut self, known: &Known, mut input: Check) -> Compared<u64> {
        input.hidden &= self.hides;
        let (question, lengths, count) = (input.question, input.lengths, input.count);
        let mut at = Random(input.fill);
        let all: [Vec<u8>; 4] = [0, 1, 2, 3].map(|i| {
            let mut bytes = input.lists[i].clone();
            if input.hidden {
                bytes.truncate(4 * count as usize);
            } else {
                let given = bytes.len();
                bytes.resize(lengths[i], 0);
                at.fill(&mut bytes[given.min(lengths[i])..]);
            }
            bytes
        });
        let expected = known.check(question, lengths, count, |n| steps(&[&all[0], &all[1], &all[2], &all[3]], n));
        if !self.subject.has(Call::Check) {
            return Ok(expected);
        }
        let given = self.lend(input.source, &mut at);
        let lists = [0, 1, 2, 3].map(|i| match input.hidden {
            true => self.lists[i].lend_part(&all[i], lengths[i], &mut at),
            false => self.lists[i].lend(&all[i], &mut at),
        });
        let input = Input::Check(input);
        let reply = watch::during(&input, || self.subject.check(given, question, lists, count));
        self.effect(Call::Check, known);
        self.reply(&input, reply, expected)?;
        self.lent(&input, &all)?;
        Ok(reply)
    }

    pub fn ends(&mut self, known: &Known, input: Ends) -> Compared<()> {
        if !self.subject.has(Call::Ends) {
            return Ok(());
        }
        let (expected, length, fill) = (known.ends(input.length), input.length, input.fill);
        self.effect(Call::Ends, known);
        self.one_list(Input::Ends(input), length, fill, expected, |subject, given, list| subject.ends(given, list))
    }

    pub fn intervals(&mut self, known: &Known, input: Intervals) -> Compared<()> {
        if !self.subject.has(Call::Intervals) {
            return Ok(());
        }
        let (spans, length, fill) = (input.spans, input.length, input.fill);
        let expected = known.intervals(spans, length);
        self.effect(Call::Intervals, known);
        self.one_list(Input::Intervals(input), length, fill, expected, |subject, given, list| subject.intervals(given, spans, list))
    }

    /// The new file, if one was written. Without the call, the second implementation's.
    pub fn forward(&mut self, input: Forward) -> Compared<Option<Vec<u8>>> {
        let (expected, length, fill) = (carrying::forward(&RIGHT, input.file, input.length), input.length, input.fill);
        let new = expected.as_ref().ok().map(|(_, bytes)| bytes.clone());
        if self.subject.has(Call::Forward) {
            self.one_list(Input::Forward(input), length, fill, expected, |subject, given, list| subject.forward(given.file, list))?;
        }
        Ok(new)
    }

    /// The old file likewise.
    pub fn back(&mut self, input: Back) -> Compared<Option<Vec<u8>>> {
        let (expected, length, fill) = (carrying::back(&RIGHT, input.file, input.length), input.length, input.fill);
        let old = expected.as_ref().ok().map(|(_, bytes)| bytes.clone());
        if self.subject.has(Call::Back) {
            self.one_list(Input::Back(input), length, fill, expected, |subject, given, list| subject.back(given.file, list))?;
        }
        Ok(old)
    }

    /// A call that is lent one list: the reply and the bytes are an equation.
    fn one_list(
        &mut self,
        input: Input,
        length: usize,
        fill: u64,
        expected: Result<(u64, Vec<u8>), Refusal>,
        call: impl FnOnce(&dyn Calls, Given, Slice) -> u64,
    ) -> Compared<()> {
        let mut at = Random(fill);
        let given = self.lend(input.source(), &mut at);
        let list = self.lists[0].lend_garbage(length, &mut at);
        let before = list.all();
        let reply = watch::during(&input, || call(self.subject, given, list));
        let (expected, held) = expected.unwrap_or_else(|refusal| (refusal.reply(), before));
        self.reply(&input, reply, expected)?;
        self.lent(&input, &[held])
    }

    fn reply(&mut self, input: &Input, reply: u64, expected: u64) -> Compared<()> {
        if reply != expected {
            let what = format!("reply {}, expected {}", shown(input, reply), shown(input, expected));
            return Err(self.failure(input, what));
        }
        let call = input.call();
        self.counts.kinds.entry(self.kind).or_default()[1 + call as usize] += 1;
        *self.counts.replies.entry((call.name(), (reply >> 32) as u32)).or_default() += 1;
        Ok(())
    }

    /// One call more with a list that does what this one does.
    fn effect(&mut self, call: Call, known: &Known) {
        self.counts.effects[call as usize][known.effect() as usize] += 1;
    }

    /// File and withdrawal list as they were, the lists as expected, the bytes around them as they were.
    fn lent(&self, input: &Input, lists: &[Vec<u8>]) -> Compared<()> {
        let source = input.source();
        let list = &self.withdrawals[self.listed];
        for (lent, bytes, what) in [(&self.file, source.file, "file"), (list, source.withdrawals, "withdrawal list")] {
            if lent.now() != bytes || !lent.guarded() {
                return Err(self.failure(input, format!("the {what} or a byte beside it was changed")));
            }
        }
        for (i, expected) in lists.iter().enumerate() {
            let now = self.lists[i].now();
            if now != expected {
                let at = (0..now.len()).find(|&at| now[at] != expected[at]).unwrap_or(0);
                let difference = format!("list {i}, byte {at}: {:02x}, expected {:02x}", now[at], expected[at]);
                return Err(self.failure(input, difference));
            }
            if !self.lists[i].guarded() {
                return Err(self.failure(input, format!("a byte beside list {i} was changed")));
            }
        }
        Ok(())
    }

    pub fn failure(&self, input: &Input, what: String) -> Failure {
        Failure(format!("{} ({}): {what}\nrepeat with: --replay {input}", input.call().name(), self.kind))
    }
}

/// What the second implementation knows of a file, or of a file and a withdrawal list.
pub fn known<'a>(source: impl Into<Source<'a>>) -> Known {
    let Source { file, withdrawals } = source.into();
    Known::new(RIGHT, file, withdrawals)
}

/// The second implementation's proof.
pub fn own_proof(known: &Known, q: Question) -> Vec<Step> {
    let Members::Levels(levels) = &*known.members(q.minute) else { unreachable!("a proof was expected") };
    querying::proof(&RIGHT, known.read.as_ref().unwrap(), q.minute, levels, q.membership())
}

/// A reply in words.
fn shown(input: &Input, reply: u64) -> String {
    match (reply >> 32, input.call()) {
        (0, Call::Query) => format!("{reply} (steps {}, level {})", reply % 65_536, reply / 65_536),
        (0, _) => format!("{reply}"),
        (number, _) => format!("{reply} (refusal {number}, place {})", reply % 4_294_967_296),
    }
}
