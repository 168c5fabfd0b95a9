//! A second implementation of the calls of document 01, written from documents 01, 02 (requests One to Five) and 003 and not from the library.
//! It is as slow and as plain as it can be: every minute's memberships are Definition 3's sequence from nothing.

pub mod carrying;
pub mod checking;
pub mod completing;
pub mod ends;
pub mod known;
pub mod meaning;
pub mod old;
pub mod querying;
pub mod reading;
pub mod withdrawals;

use reading::{credentials, File};
use withdrawals::{misnames, read_withdrawn, withdraw, withdrawals, Withdrawal};

/// The parts of the rules that a wrong variant may replace.
#[derive(Clone, Copy)]
pub struct Rules {
    /// The file that the bytes are, without its ends, or the first of the refusals 1 to 7 and 17.
    pub reads: fn(rules: &Rules, bytes: &[u8]) -> Result<File, Refusal>,
    /// Whether 17 refuses a serial after those of the earlier credentials, which are in file order.
    pub taken: fn(earlier: &[u32], serial: u32) -> bool,
    /// Whether 7 refuses the period from..to.
    pub refuses: fn(from: u32, to: u32) -> bool,
    /// Whether the period from..to covers the minute.
    pub covers: fn(from: u32, to: u32, minute: u32) -> bool,
    /// The end that `to` makes.
    pub end: fn(to: u32) -> u32,
    /// How many ends 8 allows.
    pub most_ends: usize,
    /// The file that the bytes and a withdrawal list make, or the refusal.
    pub reads_withdrawn: fn(rules: &Rules, bytes: &[u8], list: &[u8]) -> Result<File, Refusal>,
    /// The withdrawals that the bytes are, or 20.
    pub lists: fn(list: &[u8]) -> Result<Vec<Withdrawal>, Refusal>,
    /// Whether 21 refuses the list.
    pub misnames: fn(file: &File, list: &[Withdrawal]) -> bool,
    /// Notes which credentials the list withdraws.
    pub withdraws: fn(file: &mut File, list: &[Withdrawal]),
    /// Whether a credential that is withdrawn from one minute has gone at another.
    pub gone: fn(withdrawn: u32, minute: u32) -> bool,
    /// The ends of such a credential, by its `from` and the end that its `to` makes.
    pub left: fn(from: u32, end: u32, withdrawn: u32) -> Vec<u32>,
    /// The entity C for which a set is {C}.
    pub links: fn(set: u32) -> Option<u32>,
    /// What the kinds 3, 4 and 5 give from X in b.s and Y in c.t.
    pub combines: fn(kind: u8, x: u32, y: u32) -> Option<u32>,
    /// How many members of the sequence are computed at most.
    pub rounds: usize,
    /// The old file that the bytes are, or the refusal.
    pub reads_old: fn(bytes: &[u8]) -> Result<File, Refusal>,
    /// The serial that a position gets on the way forward.
    pub numbers: fn(position: usize) -> u32,
    /// Whether 19 refuses the serial at a position.
    pub strange: fn(position: usize, serial: u32) -> bool,
    /// What becomes of from and to on the way forward, and on the way back.
    pub lowers: fn(from: u32, to: u32) -> (u32, u32),
    pub raises: fn(from: u32, to: u32) -> (u32, u32),
}

pub const RIGHT: Rules = Rules {
    reads: credentials,
    taken,
    refuses,
    covers,
    end,
    most_ends: 64,
    reads_withdrawn: read_withdrawn,
    lists: withdrawals,
    misnames,
    withdraws: withdraw,
    gone,
    left,
    links,
    combines,
    rounds: usize::MAX,
    reads_old,
    numbers,
    strange,
    lowers,
    raises,
};

fn taken(earlier: &[u32], serial: u32) -> bool {
    serial == 0 || earlier.contains(&serial)
}

fn refuses(from: u32, to: u32) -> bool {
    from > to || to == 4_294_967_295
}

fn covers(from: u32, to: u32, minute: u32) -> bool {
    from <= minute && minute <= to
}

/// Of a period that is not refused.
fn end(to: u32) -> u32 {
    to + 1
}

fn gone(withdrawn: u32, minute: u32) -> bool {
    withdrawn <= minute
}

/// None where the withdrawal is at or before `from`; else it ends where the withdrawal begins, if that is earlier.
fn left(from: u32, end: u32, withdrawn: u32) -> Vec<u32> {
    if withdrawn <= from {
        Vec::new()
    } else if withdrawn < end {
        vec![from, withdrawn]
    } else {
        vec![from, end]
    }
}

fn links(set: u32) -> Option<u32> {
    (0..32).find(|&entity| set == 1 << entity)
}

fn combines(kind: u8, x: u32, y: u32) -> Option<u32> {
    match kind {
        3 => (x == y).then_some(x),
        4 => Some(x | y),
        _ => (x & y == 0).then_some(x | y),
    }
}

fn reads_old(bytes: &[u8]) -> Result<File, Refusal> {
    old::read_old(&old::OLD, bytes)
}

fn numbers(position: usize) -> u32 {
    position as u32 + 1
}

fn strange(position: usize, serial: u32) -> bool {
    serial != position as u32 + 1
}

/// Of an old period that is not refused, so that `to` is above 0.
fn lowers(from: u32, to: u32) -> (u32, u32) {
    (from, to.wrapping_sub(1))
}

/// Of a period that is not refused, so that `to` is below 4,294,967,295.
fn raises(from: u32, to: u32) -> (u32, u32) {
    (from, to.wrapping_add(1))
}

/// Role issuer.name as a number.
pub fn role(issuer: u32, name: u32) -> u32 {
    issuer * 32 + name
}

/// A role and one of its sets.
pub type Membership = (u32, u32);

#[derive(Clone, Copy, PartialEq, Eq, Debug)]
pub struct Refusal {
    pub number: u32,
    pub place: u32,
}

pub fn refuse<T>(number: u32) -> Result<T, Refusal> {
    Err(Refusal { number, place: 0 })
}

impl Refusal {
    /// The refusal as the 64-bit reply of the C interface.
    pub fn reply(self) -> u64 {
        self.number as u64 * 4_294_967_296 + self.place as u64
    }
}

/// Length of the longest list that may be lent.
pub const MOST: usize = 1024;
