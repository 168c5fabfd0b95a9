//! The calls as they cross the C interface, by the library and by the second implementation.

use crate::reference::known::{steps, After, Known, Question};
use crate::reference::meaning::Members;
use crate::reference::{carrying, querying, Refusal, Rules};

/// A lent slice: pointer and length in bytes.
#[derive(Clone, Copy)]
#[repr(C)]
pub struct Slice {
    pub start: *mut u8,
    pub length: usize,
}

impl Slice {
    /// The first bytes.
    pub fn first(self, count: usize) -> Vec<u8> {
        assert!(count <= self.length);
        let mut bytes = vec![0; count];
        if count > 0 {
            // SAFETY: the slice is lent for the call, and nobody else writes to it meanwhile.
            unsafe { std::ptr::copy_nonoverlapping(self.start, bytes.as_mut_ptr(), count) };
        }
        bytes
    }

    pub fn all(self) -> Vec<u8> {
        self.first(self.length)
    }

    pub fn write(self, bytes: &[u8]) {
        assert!(bytes.len() == self.length);
        if !bytes.is_empty() {
            // SAFETY: as for reading.
            unsafe { std::ptr::copy_nonoverlapping(bytes.as_ptr(), self.start, bytes.len()) };
        }
    }
}

/// A file and a withdrawal list, as five of the calls are lent them.
#[derive(Clone, Copy)]
pub struct Given {
    pub file: Slice,
    pub withdrawals: Slice,
}

#[derive(Clone, Copy, PartialEq, Eq, Debug)]
pub enum Call {
    Complete,
    Query,
    Check,
    Ends,
    Intervals,
    Forward,
    Back,
}

impl Call {
    pub const ALL: [Call; 7] = [Call::Complete, Call::Query, Call::Check, Call::Ends, Call::Intervals, Call::Forward, Call::Back];

    pub fn name(self) -> &'static str {
        match self {
            Call::Complete => "rtt_complete",
            Call::Query => "rtt_query",
            Call::Check => "rtt_check",
            Call::Ends => "rtt_ends",
            Call::Intervals => "rtt_intervals",
            Call::Forward => "rtt_forward",
            Call::Back => "rtt_back",
        }
    }
}

pub trait Calls {
    fn has(&self, call: Call) -> bool;
    fn complete(&self, given: Given, lists: [Slice; 3]) -> u64;
    fn query(&self, given: Given, q: Question, lists: [Slice; 4]) -> u64;
    fn check(&self, given: Given, q: Question, lists: [Slice; 4], count: u64) -> u64;
    fn ends(&self, given: Given, list: Slice) -> u64;
    fn intervals(&self, given: Given, spans: u64, list: Slice) -> u64;
    fn forward(&self, old: Slice, list: Slice) -> u64;
    fn back(&self, file: Slice, list: Slice) -> u64;
}

/// The functions of librtt.a; those that the archive lacks must not be called.
pub struct Library;

#[allow(dead_code)]
mod c {
    extern "C" {
        pub fn rtt_complete(
            file: *const u8,
            file_length: usize,
            withdrawals: *const u8,
            withdrawals_length: usize,
            roles: *mut u8,
            roles_length: usize,
            sets: *mut u8,
            sets_length: usize,
            spans: *mut u8,
            spans_length: usize,
        ) -> u64;
        pub fn rtt_query(
            file: *const u8,
            file_length: usize,
            withdrawals: *const u8,
            withdrawals_length: usize,
            role: u32,
            set: u32,
            minute: u32,
            credential: *mut u8,
            credential_length: usize,
            first: *mut u8,
            first_length: usize,
            second: *mut u8,
            second_length: usize,
            sets: *mut u8,
            sets_length: usize,
        ) -> u64;
        pub fn rtt_check(
            file: *const u8,
            file_length: usize,
            withdrawals: *const u8,
            withdrawals_length: usize,
            role: u32,
            set: u32,
            minute: u32,
            credential: *const u8,
            credential_length: usize,
            first: *const u8,
            first_length: usize,
            second: *const u8,
            second_length: usize,
            sets: *const u8,
            sets_length: usize,
            steps: u64,
        ) -> u64;
        pub fn rtt_ends(
            file: *const u8,
            file_length: usize,
            withdrawals: *const u8,
            withdrawals_length: usize,
            ends: *mut u8,
            ends_length: usize,
        ) -> u64;
        pub fn rtt_intervals(
            file: *const u8,
            file_length: usize,
            withdrawals: *const u8,
            withdrawals_length: usize,
            spans: u64,
            bounds: *mut u8,
            bounds_length: usize,
        ) -> u64;
        pub fn rtt_forward(old: *const u8, old_length: usize, file: *mut u8, file_length: usize) -> u64;
        pub fn rtt_back(file: *const u8, file_length: usize, old: *mut u8, old_length: usize) -> u64;
    }
}

#[allow(unused_variables)]
impl Calls for Library {
    fn has(&self, call: Call) -> bool {
        match call {
            Call::Complete => cfg!(rtt_complete),
            Call::Query => cfg!(rtt_query),
            Call::Check => cfg!(rtt_check),
            Call::Ends => cfg!(rtt_ends),
            Call::Intervals => cfg!(rtt_intervals),
            Call::Forward => cfg!(rtt_forward),
            Call::Back => cfg!(rtt_back),
        }
    }

    fn complete(&self, Given { file: f, withdrawals: w }: Given, [a, b, c]: [Slice; 3]) -> u64 {
        #[cfg(rtt_complete)]
        // SAFETY: the slices are lent as the interface asks, and apart from each other.
        return unsafe { c::rtt_complete(f.start, f.length, w.start, w.length, a.start, a.length, b.start, b.length, c.start, c.length) };
        #[cfg(not(rtt_complete))]
        unreachable!("not in the archive")
    }

    fn query(&self, Given { file: f, withdrawals: w }: Given, q: Question, [a, b, c, d]: [Slice; 4]) -> u64 {
        #[cfg(rtt_query)]
        // SAFETY: as for completing.
        return unsafe {
            c::rtt_query(
                f.start, f.length, w.start, w.length, q.role, q.set, q.minute, a.start, a.length, b.start, b.length, c.start, c.length, d.start,
                d.length,
            )
        };
        #[cfg(not(rtt_query))]
        unreachable!("not in the archive")
    }

    fn check(&self, Given { file: f, withdrawals: w }: Given, q: Question, [a, b, c, d]: [Slice; 4], count: u64) -> u64 {
        #[cfg(rtt_check)]
        // SAFETY: as for completing.
        return unsafe {
            c::rtt_check(
                f.start, f.length, w.start, w.length, q.role, q.set, q.minute, a.start, a.length, b.start, b.length, c.start, c.length, d.start,
                d.length, count,
            )
        };
        #[cfg(not(rtt_check))]
        unreachable!("not in the archive")
    }

    fn ends(&self, Given { file: f, withdrawals: w }: Given, list: Slice) -> u64 {
        #[cfg(rtt_ends)]
        // SAFETY: as for completing.
        return unsafe { c::rtt_ends(f.start, f.length, w.start, w.length, list.start, list.length) };
        #[cfg(not(rtt_ends))]
        unreachable!("not in the archive")
    }

    fn intervals(&self, Given { file: f, withdrawals: w }: Given, spans: u64, list: Slice) -> u64 {
        #[cfg(rtt_intervals)]
        // SAFETY: as for completing.
        return unsafe { c::rtt_intervals(f.start, f.length, w.start, w.length, spans, list.start, list.length) };
        #[cfg(not(rtt_intervals))]
        unreachable!("not in the archive")
    }

    fn forward(&self, old: Slice, list: Slice) -> u64 {
        #[cfg(rtt_forward)]
        // SAFETY: as for completing.
        return unsafe { c::rtt_forward(old.start, old.length, list.start, list.length) };
        #[cfg(not(rtt_forward))]
        unreachable!("not in the archive")
    }

    fn back(&self, f: Slice, list: Slice) -> u64 {
        #[cfg(rtt_back)]
        // SAFETY: as for completing.
        return unsafe { c::rtt_back(f.start, f.length, list.start, list.length) };
        #[cfg(not(rtt_back))]
        unreachable!("not in the archive")
    }
}

/// The second implementation behind the same interface.
pub struct Second {
    pub rules: Rules,
}

impl Second {
    fn known(&self, given: Given) -> Known {
        Known::new(self.rules, &given.file.all(), &given.withdrawals.all())
    }
}

impl Calls for Second {
    fn has(&self, _: Call) -> bool {
        true
    }

    fn complete(&self, given: Given, lists: [Slice; 3]) -> u64 {
        let (reply, after) = self.known(given).complete(lists.map(|list| list.length));
        match after {
            After::Unchanged => {}
            After::Zero => zero(&lists),
            After::Holds(bytes) => lists.iter().zip(bytes).for_each(|(list, bytes)| list.write(&bytes)),
        }
        reply
    }

    fn query(&self, given: Given, q: Question, lists: [Slice; 4]) -> u64 {
        let known = self.known(given);
        match known.query(q, lists.map(|list| list.length)) {
            Err((refusal, after)) => {
                if after == After::Zero {
                    zero(&lists);
                }
                refusal.reply()
            }
            Ok(level) => {
                let Members::Levels(levels) = &*known.members(q.minute) else { unreachable!() };
                let file = known.read.as_ref().unwrap();
                let steps = querying::proof(&self.rules, file, q.minute, levels, q.membership());
                write_steps(&steps, lists);
                steps.len() as u64 + level as u64 * 65_536
            }
        }
    }

    fn check(&self, given: Given, q: Question, lists: [Slice; 4], count: u64) -> u64 {
        let first = |count: usize| {
            let bytes = lists.map(|list| list.first(4 * count));
            steps(&[&bytes[0], &bytes[1], &bytes[2], &bytes[3]], count)
        };
        self.known(given).check(q, lists.map(|list| list.length), count, first)
    }

    fn ends(&self, given: Given, list: Slice) -> u64 {
        written(self.known(given).ends(list.length), list)
    }

    fn intervals(&self, given: Given, spans: u64, list: Slice) -> u64 {
        written(self.known(given).intervals(spans, list.length), list)
    }

    fn forward(&self, old: Slice, list: Slice) -> u64 {
        written(carrying::forward(&self.rules, &old.all(), list.length), list)
    }

    fn back(&self, file: Slice, list: Slice) -> u64 {
        written(carrying::back(&self.rules, &file.all(), list.length), list)
    }
}

/// The reply, with the list as it says.
fn written(answer: Result<(u64, Vec<u8>), Refusal>, list: Slice) -> u64 {
    match answer {
        Ok((reply, bytes)) => {
            list.write(&bytes);
            reply
        }
        Err(refusal) => refusal.reply(),
    }
}

pub fn zero(lists: &[Slice]) {
    lists.iter().for_each(|list| list.write(&vec![0; list.length]));
}

/// The steps' words in the four lists, zeros after them.
pub fn write_steps(steps: &[crate::reference::checking::Step], lists: [Slice; 4]) {
    let words = crate::input::words(steps);
    for (list, mut bytes) in lists.into_iter().zip(words) {
        bytes.resize(list.length, 0);
        list.write(&bytes);
    }
}
