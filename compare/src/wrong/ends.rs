//! Wrong ways to list the ends, and the intervals of a span number.

use super::{accepted, cleared, ends, intervals, number, refusal, unwritten, Wrong, RIGHT};
use crate::calls::{Calls, Given, Second, Slice};
use crate::reference::ends::{intervals as right, listed, BYTES};
use crate::reference::reading::ends as own_ends;
use crate::reference::Rules;

pub const ALL: &[Wrong] = &[
    ends("ends-in-file-order", |s, f, l| relisted(s, f, l, |f| file_order(f, false)), "ends in file order"),
    ends("ends-neighbours-distinct", |s, f, l| relisted(s, f, l, |f| file_order(f, true)), "only neighbours in file order compared"),
    ends("ends-with-zero", |s, f, l| relisted(s, f, l, with_zero), "0 always among the ends"),
    ends("ends-at-to", |_, f, l| Second { rules: AT_TO }.ends(f, l), "`to` listed, not to + 1, by this call only"),
    ends("ends-of-the-first", |s, f, l| relisted(s, f, l, first_only), "the first credential's ends alone"),
    ends("ends-tail-left", |s, f, l| tail_left(l, 4, || s.ends(f, l)), "bytes after the last end left"),
    ends("ends-not-written", |s, f, l| unwritten([l], || s.ends(f, l)), "list untouched after success"),
    ends("ends-highest-first", |s, f, l| highest_first(l, s.ends(f, l)), "highest byte first"),
    ends("ends-longer-list", |s, f, l| in_longer(l, |l| s.ends(f, l)), "lists of more than 256 bytes taken"),
    ends("ends-shorter-list", |s, f, l| in_shorter(s, f, l), "lists that just hold the ends taken"),
    ends("ends-nine-first", |s, f, l| if l.length != BYTES { refusal(9) } else { s.ends(f, l) }, "9 before 1 to 8 and 17"),
    ends("ends-cleared-on-9", |s, f, l| cleared(l, s.ends(f, l), 9), "list cleared after 9"),
    ends("ends-cleared-on-7", |s, f, l| cleared(l, s.ends(f, l), 7), "list cleared after 7"),
    ends("ends-sixty-four-refused", |s, f, l| if s.ends(f, l) == 64 { refusal(8) } else { s.ends(f, l) }, "64 ends refused"),
    ends("ends-spans-counted", |s, f, l| on_success(s.ends(f, l), |count| count.saturating_sub(1)), "count of spans"),
    ends("ends-exchanged", |s, f, l| s.ends(f, l).rotate_left(32), "place and number exchanged"),
    intervals("intervals-not-joined", |s, f, n, l| rewritten(s, f, n, l, |e, n| each_span(e, n)), "touching spans not joined"),
    intervals("intervals-over-gaps", |s, f, n, l| rewritten(s, f, n, l, over_gaps), "one interval from the first span to the last"),
    intervals("intervals-at-to", |_, f, n, l| Second { rules: AT_TO }.intervals(f, n, l), "spans between `to` values, not to + 1, in this call only"),
    intervals("intervals-inclusive", |s, f, n, l| rewritten(s, f, n, l, inclusive), "intervals that end with their last minute"),
    intervals("intervals-exchanged", |s, f, n, l| rewritten(s, f, n, l, |e, n| each_pair(e, n, |(from, to)| (to, from))), "to before from"),
    intervals("intervals-falling", |s, f, n, l| rewritten(s, f, n, l, falling), "descending"),
    intervals("intervals-next-span", |s, f, n, l| rewritten(s, f, n, l, |e, n| right(e, n >> 1).unwrap()), "bit i for span i - 1"),
    intervals("intervals-spans-counted", spans_counted, "count of spans"),
    intervals("intervals-numbers-counted", |s, f, n, l| on_success(s.intervals(f, n, l), |count| 2 * count), "count of numbers, not of pairs"),
    intervals("intervals-tail-left", |s, f, n, l| tail_left(l, 8, || s.intervals(f, n, l)), "bytes after the last pair left"),
    intervals("intervals-not-written", |s, f, n, l| unwritten([l], || s.intervals(f, n, l)), "list untouched after success"),
    intervals("intervals-highest-first", |s, f, n, l| highest_first(l, s.intervals(f, n, l)), "highest byte first"),
    intervals("intervals-of-32-bits", |s, f, n, l| s.intervals(f, n as u32 as u64, l), "the span number's lower half"),
    intervals("intervals-without-sign", |s, f, n, l| s.intervals(f, n << 1 >> 1, l), "bit 63 ignored"),
    intervals("intervals-beyond-ignored", |s, f, n, l| s.intervals(f, within(f, n, 0), l), "bits beyond the last span ignored"),
    intervals(
        "intervals-one-beyond",
        |s, f, n, l| if within(f, n, 1) == n { s.intervals(f, within(f, n, 0), l) } else { s.intervals(f, n, l) },
        "as many spans as ends",
    ),
    intervals("intervals-eleven-first", eleven_before_nine, "11 before 9"),
    intervals("intervals-nine-first", |s, f, n, l| if l.length != BYTES { refusal(9) } else { s.intervals(f, n, l) }, "9 before 1 to 8 and 17"),
    intervals("intervals-longer-list", |s, f, n, l| in_longer(l, |l| s.intervals(f, n, l)), "lists of more than 256 bytes taken"),
    intervals("intervals-cleared-on-9", |s, f, n, l| cleared(l, s.intervals(f, n, l), 9), "list cleared after 9"),
    intervals("intervals-cleared-on-11", |s, f, n, l| cleared(l, s.intervals(f, n, l), 11), "list cleared after 11"),
    intervals(
        "intervals-none-refused",
        |s, f, n, l| if s.intervals(f, n, l) == 0 { refusal(11) } else { s.intervals(f, n, l) },
        "11 for a number without spans",
    ),
];

const AT_TO: Rules = Rules { end: |to| to, ..RIGHT };

fn on_success(reply: u64, change: impl FnOnce(u64) -> u64) -> u64 {
    if number(reply) == 0 {
        change(reply)
    } else {
        reply
    }
}

/// Other ends where the right call writes some.
fn relisted(second: &Second, given: Given, list: Slice, change: fn(Given) -> Vec<u32>) -> u64 {
    on_success(second.ends(given, list), |_| {
        let mut ends = change(given);
        ends.truncate(64);
        list.write(&listed(ends.iter().copied()));
        ends.len() as u64
    })
}

/// The ends as the credentials have them, each once, or each but where it follows itself.
fn file_order(given: Given, neighbours: bool) -> Vec<u32> {
    let mut ends = Vec::new();
    for end in accepted(given).unwrap().credentials.iter().flat_map(|credential| own_ends(&RIGHT, credential)) {
        let known = if neighbours { ends.last() == Some(&end) } else { ends.contains(&end) };
        if !known {
            ends.push(end);
        }
    }
    ends
}

fn with_zero(given: Given) -> Vec<u32> {
    let mut ends = accepted(given).unwrap().ends;
    if !ends.contains(&0) {
        ends.insert(0, 0);
    }
    ends
}

fn first_only(given: Given) -> Vec<u32> {
    accepted(given).unwrap().credentials.first().map_or(vec![], |credential| own_ends(&RIGHT, credential))
}

/// The list as it was after the first entries of so many bytes.
fn tail_left(list: Slice, width: usize, call: impl FnOnce() -> u64) -> u64 {
    let before = list.all();
    on_success(call(), |count| {
        let held = width * count as usize;
        list.write(&[&list.all()[..held], &before[held..]].concat());
        count
    })
}

fn highest_first(list: Slice, reply: u64) -> u64 {
    on_success(reply, |count| {
        let bytes: Vec<u8> = list.all().chunks(4).flat_map(|entry| entry.iter().rev().copied()).collect();
        list.write(&bytes);
        count
    })
}

fn in_longer(list: Slice, call: impl FnOnce(Slice) -> u64) -> u64 {
    call(Slice { start: list.start, length: if list.length > BYTES { BYTES } else { list.length } })
}

fn in_shorter(second: &Second, given: Given, list: Slice) -> u64 {
    let reply = second.ends(given, list);
    match accepted(given).map(|file| file.ends) {
        Some(ends) if number(reply) == 9 && list.length < BYTES && list.length % 4 == 0 && ends.len() * 4 <= list.length => {
            list.write(&listed(ends.iter().copied())[..list.length]);
            ends.len() as u64
        }
        _ => reply,
    }
}

/// Other intervals where the right call writes some.
fn rewritten(second: &Second, given: Given, spans: u64, list: Slice, change: fn(&[u32], u64) -> Vec<(u32, u32)>) -> u64 {
    on_success(second.intervals(given, spans, list), |_| {
        let mut intervals = change(&accepted(given).unwrap().ends, spans);
        intervals.truncate(32);
        list.write(&listed(intervals.iter().flat_map(|&(from, to)| [from, to])));
        intervals.len() as u64
    })
}

fn each_span(ends: &[u32], spans: u64) -> Vec<(u32, u32)> {
    (1..ends.len()).filter(|i| spans >> (i - 1) & 1 == 1).map(|i| (ends[i - 1], ends[i])).collect()
}

fn each_pair(ends: &[u32], spans: u64, change: fn((u32, u32)) -> (u32, u32)) -> Vec<(u32, u32)> {
    right(ends, spans).unwrap().into_iter().map(change).collect()
}

fn over_gaps(ends: &[u32], spans: u64) -> Vec<(u32, u32)> {
    let all = right(ends, spans).unwrap();
    all.first().map_or(vec![], |first| vec![(first.0, all[all.len() - 1].1)])
}

fn inclusive(ends: &[u32], spans: u64) -> Vec<(u32, u32)> {
    each_pair(ends, spans, |(from, to)| (from, to - 1))
}

fn falling(ends: &[u32], spans: u64) -> Vec<(u32, u32)> {
    right(ends, spans).unwrap().into_iter().rev().collect()
}

fn spans_counted(second: &Second, given: Given, spans: u64, list: Slice) -> u64 {
    on_success(second.intervals(given, spans, list), |_| spans.count_ones() as u64)
}

/// The bits of a number that are among the spans of an accepted file, and some more.
fn within(given: Given, spans: u64, more: usize) -> u64 {
    let count = accepted(given).map_or(63, |file| file.ends.len().saturating_sub(1));
    (0..64).filter(|&i| i < count + more && spans >> i & 1 == 1).map(|i| 1 << i).sum()
}

fn eleven_before_nine(second: &Second, given: Given, spans: u64, list: Slice) -> u64 {
    let reply = second.intervals(given, spans, list);
    if number(reply) == 9 && within(given, spans, 0) != spans {
        return refusal(11);
    }
    reply
}
