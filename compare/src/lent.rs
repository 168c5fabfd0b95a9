//! Memory to lend: each slice lies against an unreadable page on one side and between guard bytes.

use crate::calls::Slice;
use crate::random::Random;

const PAGE: usize = 4096;
const ROOM: usize = 32 * PAGE;
const GUARD: usize = 64;

extern "C" {
    fn mmap(address: *mut u8, length: usize, protection: i32, flags: i32, file: i32, offset: i64) -> *mut u8;
    fn mprotect(address: *mut u8, length: usize, protection: i32) -> i32;
}

/// Room for one lent slice, an unreadable page before and after it.
pub struct Lent {
    room: *mut u8,
    /// Where the slice lies in the room, and the bytes around it that are watched.
    slice: std::ops::Range<usize>,
    watched: std::ops::Range<usize>,
    guards: [u8; 2 * GUARD],
    null: bool,
}

impl Lent {
    pub fn new() -> Lent {
        const READ_WRITE: i32 = 3;
        const PRIVATE_ANONYMOUS: i32 = 0x22;
        // SAFETY: a fresh mapping that is never given back; only its middle is used.
        let room = unsafe {
            let start = mmap(std::ptr::null_mut(), ROOM + 2 * PAGE, 0, PRIVATE_ANONYMOUS, -1, 0);
            assert!(start as isize != -1, "no memory");
            assert!(mprotect(start.add(PAGE), ROOM, READ_WRITE) == 0, "no memory");
            start.add(PAGE)
        };
        Lent { room, slice: 0..0, watched: 0..0, guards: [0; 2 * GUARD], null: false }
    }

    fn bytes(&self, range: std::ops::Range<usize>) -> &[u8] {
        // SAFETY: the range is within the room.
        unsafe { std::slice::from_raw_parts(self.room.add(range.start), range.len()) }
    }

    fn bytes_mut(&mut self, range: std::ops::Range<usize>) -> &mut [u8] {
        // SAFETY: the range is within the room.
        unsafe { std::slice::from_raw_parts_mut(self.room.add(range.start), range.len()) }
    }

    /// Puts a slice of a length somewhere, with guard bytes around it; `at` decides where.
    fn place(&mut self, length: usize, at: &mut Random) {
        assert!(length <= ROOM, "a slice too long to lend");
        let choice = at.next();
        let shift = ((choice >> 8) as usize % 8).min(ROOM - length);
        let shift = if choice & 2 == 0 { 0 } else { shift };
        let start = if choice & 1 == 0 { ROOM - length - shift } else { shift };
        self.null = length == 0 && choice & 4 == 0;
        self.slice = start..start + length;
        self.watched = start.saturating_sub(GUARD)..(start + length + GUARD).min(ROOM);
        let mut guards = [0; 2 * GUARD];
        at.fill(&mut guards);
        self.guards = guards;
        let (before, after) = self.around();
        let lengths = (before.len(), after.len());
        self.bytes_mut(before).copy_from_slice(&guards[..lengths.0]);
        self.bytes_mut(after).copy_from_slice(&guards[GUARD..][..lengths.1]);
    }

    fn around(&self) -> (std::ops::Range<usize>, std::ops::Range<usize>) {
        (self.watched.start..self.slice.start, self.slice.end..self.watched.end)
    }

    /// The slice as it is.
    pub fn lent(&self) -> Slice {
        if self.null {
            return Slice { start: std::ptr::null_mut(), length: 0 };
        }
        // SAFETY: within the room.
        Slice { start: unsafe { self.room.add(self.slice.start) }, length: self.slice.len() }
    }

    /// Lends these bytes.
    pub fn lend(&mut self, bytes: &[u8], at: &mut Random) -> Slice {
        self.place(bytes.len(), at);
        let range = self.slice.clone();
        self.bytes_mut(range).copy_from_slice(bytes);
        self.lent()
    }

    /// Lends garbage.
    pub fn lend_garbage(&mut self, length: usize, at: &mut Random) -> Slice {
        self.place(length, at);
        let range = self.slice.clone();
        at.fill(self.bytes_mut(range));
        self.lent()
    }

    /// Lends a slice of which only these first bytes can be read.
    pub fn lend_part(&mut self, bytes: &[u8], length: usize, at: &mut Random) -> Slice {
        self.place(bytes.len(), at);
        self.slice = ROOM - bytes.len()..ROOM;
        self.watched = self.slice.clone();
        self.null = false;
        let range = self.slice.clone();
        self.bytes_mut(range).copy_from_slice(bytes);
        Slice { start: self.lent().start, length }
    }

    /// The slice's bytes as they are now; of a part, its readable bytes.
    pub fn now(&self) -> &[u8] {
        self.bytes(self.slice.clone())
    }

    /// Whether the bytes around the slice are as they were.
    pub fn guarded(&self) -> bool {
        let (before, after) = self.around();
        let lengths = (before.len(), after.len());
        self.bytes(before) == &self.guards[..lengths.0] && self.bytes(after) == &self.guards[GUARD..][..lengths.1]
    }
}

#[cfg(test)]
mod tests {
    use super::*;

    #[test]
    fn a_byte_beside_the_slice_is_noticed() {
        let mut lent = Lent::new();
        for seed in 0..100 {
            let slice = lent.lend_garbage(40, &mut Random(seed));
            assert!(lent.guarded());
            let (before, after) = lent.around();
            for side in [before.end.wrapping_sub(1), after.start] {
                if !lent.watched.contains(&side) {
                    continue;
                }
                lent.bytes_mut(side..side + 1)[0] ^= 1;
                assert!(!lent.guarded());
                lent.bytes_mut(side..side + 1)[0] ^= 1;
            }
            assert!(lent.guarded() && slice.all() == lent.now());
        }
    }
}
