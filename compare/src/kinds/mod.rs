//! The kinds of inputs, each with how many of them a run compares.

mod faults;
mod general;
mod old;
mod proofs;
mod tiny;
mod withdrawals;

use crate::cases;
use crate::judge::{Compared, Comparison};
use crate::random::Random;

#[derive(Clone, Copy)]
pub struct Kind {
    pub name: &'static str,
    pub what: &'static str,
    /// How many a run compares if not told otherwise; of exhaustive kinds, how many in a thousand.
    pub count: usize,
    pub exhaustive: bool,
    /// Whether it is about withdrawal lists.
    pub withdraws: bool,
    pub run: Run,
}

impl Kind {
    /// Whether a variant that is wrong about withdrawal lists, or one that is not, is tried on it before others.
    pub fn tried_first(&self, withdraws: bool) -> bool {
        self.withdraws == withdraws || self.name == CASES
    }
}

const CASES: &str = "cases";

type Run = fn(&mut Comparison, &mut Random, usize) -> Compared<()>;

const fn kind(name: &'static str, count: usize, run: Run, what: &'static str) -> Kind {
    Kind { name, what, count, exhaustive: false, withdraws: false, run }
}

const fn every(name: &'static str, run: Run, what: &'static str) -> Kind {
    Kind { name, what, count: 1000, exhaustive: true, withdraws: false, run }
}

const fn withdrawing(kind: Kind) -> Kind {
    Kind { withdraws: true, ..kind }
}

pub const KINDS: &[Kind] = &[
    kind(CASES, 1, cases::run, "set P and K1 to K11, with the results that documents 01 and 02 give; withdrawal lists worked out by hand"),
    kind("small", 8000, general::small, "small dense files, proofs and changed proofs"),
    kind("joint", 600, general::joint_small, "small files: every role, set and minute at, before and after each end"),
    kind("periods", 600, general::periods, "the same with periods of one minute and more that touch and overlap, from minute 0 to 4,294,967,294"),
    kind("bounds", 1, general::bounds, "every from and to among 0, 1 and the last three numbers, for two credentials"),
    kind("serials", 4, faults::serials, "serials in every order; zero and used ones at chosen places, with other faults before, at and after them"),
    kind("old", 2, old::old, "old files with every two faults, lists of all lengths; new files whose serials are right but at some places"),
    withdrawing(every(
        "cuts",
        withdrawals::cuts,
        "two credentials, every period and every minute of withdrawal within small numbers and at the last ones",
    )),
    withdrawing(kind("withdrawn", 500, withdrawals::withdrawn, "withdrawal lists of every sort, proofs with one list and with another")),
    withdrawing(kind(
        "list-faults",
        9,
        withdrawals::list_faults,
        "withdrawal lists that are refused, with every fault of the file and with other faults",
    )),
    withdrawing(kind("cut-ends", 20, withdrawals::cut_ends, "63, 64 and 65 ends after the cut, of fewer and of more; lists of 256 withdrawals")),
    kind("damaged", 9, faults::damaged, "every two faults at once, with faults of the lists and the question"),
    kind("questions", 40, faults::questions, "questions within and beyond a file's numbers, with other faults"),
    kind("bytes", 30000, faults::random_bytes, "random bytes"),
    kind("lists", 12, faults::lists, "lists of all lengths, equal or not, whole entries or not"),
    kind("broken", 800, proofs::broken, "each word of a proof changed, steps removed, exchanged, added, repeated"),
    kind("counts", 600, proofs::counts, "step counts at the limits and beyond 32 bits"),
    kind("ends", 90, general::many_ends, "63, 64 and 65 ends"),
    kind("medium", 400, general::medium, "files of tens of credentials"),
    kind("deep", 20, general::deep, "levels several hundred deep"),
    kind("full", 30, general::full, "256 credentials"),
    kind("limit", 36, general::limit, "1,023, 1,024 and 1,025 memberships"),
    every("tiny", tiny::tiny, "every file of two or three credentials within small numbers"),
    every("steps", tiny::tiny_proofs, "every list of one or two steps for files of two credentials"),
];
