//! Wrong variants of the second implementation, to show that the comparison can fail.

mod carrying;
mod checking;
mod completing;
mod ends;
mod querying;
mod serials;
mod withdrawals;

use crate::calls::{zero, Call, Calls, Given, Second, Slice};
use crate::reference::known::{Known, Question};
use crate::reference::reading::File;
use crate::reference::{Rules, RIGHT};

type Completing = fn(&Second, Given, [Slice; 3]) -> u64;
type Querying = fn(&Second, Given, Question, [Slice; 4]) -> u64;
type Checking = fn(&Second, Given, Question, [Slice; 4], u64) -> u64;
type Ends = fn(&Second, Given, Slice) -> u64;
type Intervals = fn(&Second, Given, u64, Slice) -> u64;
type Carrying = fn(&Second, Slice, Slice) -> u64;

/// The second implementation with other rules, or with another call around one of its calls.
#[derive(Clone, Copy)]
pub struct Wrong {
    pub name: &'static str,
    pub what: &'static str,
    /// Whether it is wrong about withdrawal lists.
    pub withdraws: bool,
    rules: Rules,
    complete: Completing,
    query: Querying,
    check: Checking,
    ends: Ends,
    intervals: Intervals,
    forward: Carrying,
    back: Carrying,
}

impl Calls for Wrong {
    fn has(&self, _: Call) -> bool {
        true
    }

    fn complete(&self, given: Given, lists: [Slice; 3]) -> u64 {
        (self.complete)(&Second { rules: self.rules }, given, lists)
    }

    fn query(&self, given: Given, q: Question, lists: [Slice; 4]) -> u64 {
        (self.query)(&Second { rules: self.rules }, given, q, lists)
    }

    fn check(&self, given: Given, q: Question, lists: [Slice; 4], count: u64) -> u64 {
        (self.check)(&Second { rules: self.rules }, given, q, lists, count)
    }

    fn ends(&self, given: Given, list: Slice) -> u64 {
        (self.ends)(&Second { rules: self.rules }, given, list)
    }

    fn intervals(&self, given: Given, spans: u64, list: Slice) -> u64 {
        (self.intervals)(&Second { rules: self.rules }, given, spans, list)
    }

    fn forward(&self, old: Slice, list: Slice) -> u64 {
        (self.forward)(&Second { rules: self.rules }, old, list)
    }

    fn back(&self, file: Slice, list: Slice) -> u64 {
        (self.back)(&Second { rules: self.rules }, file, list)
    }
}

const NOT_WRONG: Wrong = Wrong {
    name: "",
    what: "",
    withdraws: false,
    rules: RIGHT,
    complete: Second::complete,
    query: Second::query,
    check: Second::check,
    ends: Second::ends,
    intervals: Second::intervals,
    forward: Second::forward,
    back: Second::back,
};

const fn rules(name: &'static str, rules: Rules, what: &'static str) -> Wrong {
    Wrong { name, what, rules, ..NOT_WRONG }
}

const fn complete(name: &'static str, complete: Completing, what: &'static str) -> Wrong {
    Wrong { name, what, complete, ..NOT_WRONG }
}

const fn query(name: &'static str, query: Querying, what: &'static str) -> Wrong {
    Wrong { name, what, query, ..NOT_WRONG }
}

const fn check(name: &'static str, check: Checking, what: &'static str) -> Wrong {
    Wrong { name, what, check, ..NOT_WRONG }
}

const fn ends(name: &'static str, ends: Ends, what: &'static str) -> Wrong {
    Wrong { name, what, ends, ..NOT_WRONG }
}

const fn intervals(name: &'static str, intervals: Intervals, what: &'static str) -> Wrong {
    Wrong { name, what, intervals, ..NOT_WRONG }
}

const fn forward(name: &'static str, forward: Carrying, what: &'static str) -> Wrong {
    Wrong { name, what, forward, ..NOT_WRONG }
}

const fn back(name: &'static str, back: Carrying, what: &'static str) -> Wrong {
    Wrong { name, what, back, ..NOT_WRONG }
}

/// Document 01's kinds, of which a variant changes one.
fn right(kind: u8, x: u32, y: u32) -> Option<u32> {
    (RIGHT.combines)(kind, x, y)
}

fn different(kind: u8, x: u32, y: u32) -> Option<u32> {
    if kind == 5 {
        (x != y).then_some(x | y)
    } else {
        right(kind, x, y)
    }
}

const RULES: &[Wrong] = &[
    rules("different-for-disjoint", Rules { combines: different, ..RIGHT }, "⊗ as X ≠ Y"),
    rules("union-for-disjoint", Rules { combines: |k, x, y| if k == 5 { Some(x | y) } else { right(k, x, y) }, ..RIGHT }, "⊙ for ⊗"),
    rules(
        "no-union-with-itself",
        Rules { combines: |k, x, y| if k == 4 && x == y { None } else { right(k, x, y) }, ..RIGHT },
        "⊙ of different sets only",
    ),
    rules("second-set-ignored", Rules { combines: |k, x, y| if k == 3 { Some(x) } else { right(k, x, y) }, ..RIGHT }, "∩ of sets that differ"),
    rules("no-intersection", Rules { combines: |k, x, y| if k == 3 { None } else { right(k, x, y) }, ..RIGHT }, "∩ gives nothing"),
    rules("link-through-two", Rules { links: |set| (0..32).find(|e| set >> e & 1 == 1), ..RIGHT }, "links through the lowest entity of any set"),
    rules("no-link", Rules { links: |_| None, ..RIGHT }, "links give nothing"),
    rules("to-uncovered", Rules { covers: |from, to, minute| from <= minute && minute < to, ..RIGHT }, "minute `to` not covered"),
    rules("after-to-covered", Rules { covers: |from, to, minute| from <= minute && minute <= to + 1, ..RIGHT }, "the minute after `to` covered"),
    rules("from-not-covered", Rules { covers: |from, to, minute| from < minute && minute <= to, ..RIGHT }, "minute `from` not covered"),
    rules("half-open", HALF_OPEN, "7 at from ≥ to, `to` not covered, `to` among the ends: document 01's reading before request One"),
    rules("seven-at-equal", Rules { refuses: |from, to| from >= to || to == u32::MAX, ..RIGHT }, "7 at from = to"),
    rules("seven-without-order", Rules { refuses: |_, to| to == u32::MAX, ..RIGHT }, "7 for `to` 4,294,967,295 alone"),
    rules(
        "seven-from-two",
        Rules { refuses: |from, to| to == u32::MAX || from > to + 1, ..RIGHT },
        "from = to + 1 accepted, as a period without minutes",
    ),
    rules("last-to-accepted", Rules { refuses: |from, to| from > to, end: |to| to.saturating_add(1), ..RIGHT }, "`to` 4,294,967,295 accepted"),
    rules("last-to-wraps", LAST_TO_WRAPS, "`to` 4,294,967,295 accepted, and to + 1 wraps to 0"),
    rules("last-minute-refused", Rules { refuses: |from, to| from > to || to >= u32::MAX - 1, ..RIGHT }, "7 for `to` 4,294,967,294 too"),
    rules("sum-tested", SUM_TESTED, "7 tested on to + 1, which wraps, in place of `to`"),
    rules("ends-without-one", Rules { end: |to| to, ..RIGHT }, "`to` among the ends, not to + 1"),
    rules("few-rounds", Rules { rounds: 6, ..RIGHT }, "stops after six rounds"),
];

const HALF_OPEN: Rules = Rules { refuses: |from, to| from >= to, covers: |from, to, minute| from <= minute && minute < to, end: |to| to, ..RIGHT };

const LAST_TO_WRAPS: Rules = Rules {
    refuses: |from, to| from > to,
    covers: |from, to, minute| from <= minute && minute < to.wrapping_add(1),
    end: |to| to.wrapping_add(1),
    ..RIGHT
};

const SUM_TESTED: Rules =
    Rules { refuses: |from, to| from > to.wrapping_add(1) || to.wrapping_add(1) == u32::MAX, end: |to| to.wrapping_add(1), ..RIGHT };

/// Every wrong variant.
pub fn all() -> Vec<Wrong> {
    let withdrawing = withdrawals::ALL.iter().map(|wrong| Wrong { withdraws: true, ..*wrong });
    let others = [RULES, serials::ALL, completing::ALL, querying::ALL, checking::ALL, ends::ALL, carrying::ALL];
    others.concat().into_iter().chain(withdrawing).collect()
}

fn number(reply: u64) -> u64 {
    reply >> 32
}

/// The reply changed where its refusal number is one of these, 0 for success.
fn on(reply: u64, numbers: &[u64], change: fn(u64) -> u64) -> u64 {
    if numbers.contains(&number(reply)) {
        change(reply)
    } else {
        reply
    }
}

fn refusal(number: u64) -> u64 {
    number << 32
}

fn known(given: Given) -> Known {
    Known::new(RIGHT, &given.file.all(), &given.withdrawals.all())
}

fn accepted(given: Given) -> Option<File> {
    known(given).read.ok()
}

/// The list cleared after a refusal.
fn cleared(list: Slice, reply: u64, on: u64) -> u64 {
    if number(reply) == on {
        zero(&[list]);
    }
    reply
}

/// The call, then the lists as they were before it.
fn unwritten<const N: usize>(lists: [Slice; N], call: impl FnOnce() -> u64) -> u64 {
    let before = lists.map(Slice::all);
    let reply = call();
    lists.iter().zip(before).for_each(|(list, bytes)| list.write(&bytes));
    reply
}
