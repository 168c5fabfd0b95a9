//! Document 01, "Completing the table": the spans between a file's ends, and the intervals that a span number stands for.
//! For C both cross in one list of exactly 256 bytes: 64 ends, or 32 pairs of from and to.

use super::{refuse, Refusal};

/// The bytes of the list: 64 numbers of 4 bytes, or 32 pairs of them.
pub const BYTES: usize = 256;

/// Whether span i is there and its bit is set. Span i runs from end i to end i + 1.
fn set(ends: &[u32], spans: u64, i: usize) -> bool {
    i + 1 < ends.len() && spans >> i & 1 == 1
}

/// The intervals of a span number, or 11 for a bit beyond the last span. An interval starts at an end from which a span
/// runs that is set, but to which none does, and stops where it is the other way round.
pub fn intervals(ends: &[u32], spans: u64) -> Result<Vec<(u32, u32)>, Refusal> {
    if (0..64).any(|i| spans >> i & 1 == 1 && !set(ends, spans, i)) {
        return refuse(11);
    }
    let before = |i: usize| i > 0 && set(ends, spans, i - 1);
    let starts = (0..ends.len()).filter(|&i| set(ends, spans, i) && !before(i));
    let stops = (0..ends.len()).filter(|&i| !set(ends, spans, i) && before(i));
    Ok(starts.zip(stops).map(|(start, stop)| (ends[start], ends[stop])).collect())
}

/// 9 for a list of any other length.
pub fn whole_list(length: usize) -> Result<(), Refusal> {
    if length == BYTES {
        Ok(())
    } else {
        refuse(9)
    }
}

/// The list that holds these numbers, and zeros after them.
pub fn listed(numbers: impl IntoIterator<Item = u32>) -> Vec<u8> {
    let mut bytes: Vec<u8> = numbers.into_iter().flat_map(u32::to_le_bytes).collect();
    bytes.resize(BYTES, 0);
    bytes
}
