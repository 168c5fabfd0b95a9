//! Wrong ways to read a file and to complete its table.

use super::{accepted, complete, number, refusal, unwritten, Wrong, RIGHT};
use crate::calls::{zero, Calls, Given, Second, Slice};
use crate::reference::completing::{table, written, Table};
use crate::reference::known::entries;
use crate::reference::meaning::valid;
use crate::reference::reading::{word, Body, Credential, File};
use crate::reference::{role, Rules};

pub const ALL: &[Wrong] = &[
    complete("one-pass", |_, f, l| Second { rules: Rules { rounds: 2, ..RIGHT } }.complete(f, l), "one pass over the facts, then finished"),
    complete("ten-at-limit", ten_at_limit, "10 at exactly L memberships"),
    complete("ten-not-cleared", |s, f, l| if number(dry(s, f, l)) == 10 { refusal(10) } else { s.complete(f, l) }, "lists left after 10"),
    complete("ten-clears-roles-only", ten_clears_roles_only, "one list cleared after 10"),
    complete("first-validity", first_validity, "the first derivation's validity kept, never joined"),
    complete("one-premise", one_premise, "the spans of one premise only"),
    complete("ten-in-a-span", ten_in_a_span, "10 counted in each span instead of over all"),
    complete("zero-always-an-end", |s, f, l| changed(s, f, l, zero_always_an_end), "0 always among the ends"),
    complete("ends-not-distinct", |s, f, l| if ends_listed(f) > 64 { refusal(8) } else { s.complete(f, l) }, "equal ends counted twice"),
    complete("next-span", |s, f, l| changed(s, f, l, |_, spans| spans << 1), "bit i for span i + 1"),
    complete("tail-not-cleared", tail_not_cleared, "entries after the last membership left"),
    complete("not-ascending", not_ascending, "ascending by set, then by role"),
    complete("sixty-four-ends-refused", |s, f, l| if ends(f) == 64 { refusal(8) } else { s.complete(f, l) }, "64 ends refused"),
    complete("nine-before-eight", nine_before_eight, "9 before 8"),
    complete("all-kinds-first", all_kinds_first, "4 of all credentials before 5 to 7 and 17 of any"),
    complete("all-periods-first", all_periods_first, "7 of all credentials before 4 to 6 and 17 of any"),
    complete("spans-length-ignored", spans_length_ignored, "the third list's length not compared"),
    complete("length-rounded-down", length_rounded_down, "lengths that are not whole entries rounded down"),
    complete("exchanged", |s, f, l| s.complete(f, l).rotate_left(32), "place and number exchanged"),
    complete("always-empty", always_empty, "a table that is always empty"),
    complete("cleared-on-refusal", cleared_on_refusal, "lists cleared on other refusals than 10"),
    complete("file-changed", file_changed, "a byte of the file changed"),
    complete("lists-untouched", |s, f, l| dry(s, f, l), "lists untouched after success"),
];

fn dry(second: &Second, given: Given, lists: [Slice; 3]) -> u64 {
    unwritten(lists, || second.complete(given, lists))
}

fn ends(given: Given) -> usize {
    accepted(given).map_or(0, |file| file.ends.len())
}

fn ten_at_limit(second: &Second, given: Given, lists: [Slice; 3]) -> u64 {
    let reply = second.complete(given, lists);
    if reply == lists[0].length as u64 / 4 && reply > 0 {
        zero(&lists);
        return refusal(10);
    }
    reply
}

fn ten_clears_roles_only(second: &Second, given: Given, lists: [Slice; 3]) -> u64 {
    let reply = dry(second, given, lists);
    if number(reply) != 10 {
        return second.complete(given, lists);
    }
    zero(&lists[..1]);
    reply
}

/// Puts a table in the lists where the right call has one.
fn replaced(second: &Second, given: Given, lists: [Slice; 3], table: impl FnOnce(File) -> Table) -> u64 {
    let reply = second.complete(given, lists);
    if number(reply) != 0 {
        return reply;
    }
    let table = table(accepted(given).unwrap());
    lists.iter().zip(written(&table, lists[0].length / 4)).for_each(|(list, bytes)| list.write(&bytes));
    table.len() as u64
}

fn changed(second: &Second, given: Given, lists: [Slice; 3], change: fn(&File, u64) -> u64) -> u64 {
    let table = |file: File| table(&RIGHT, &file).unwrap().into_iter().map(|(m, spans)| (m, change(&file, spans))).collect();
    replaced(second, given, lists, table)
}

fn zero_always_an_end(file: &File, spans: u64) -> u64 {
    if file.ends[0] == 0 {
        spans
    } else {
        spans << 1
    }
}

fn ends_listed(given: Given) -> usize {
    accepted(given).map_or(0, |file| 2 * file.credentials.len())
}

fn ten_in_a_span(second: &Second, given: Given, lists: [Slice; 3]) -> u64 {
    let reply = second.complete(given, lists);
    let length = lists[0].length / 4;
    match accepted(given).and_then(|file| table(&RIGHT, &file)) {
        Some(table) if number(reply) == 10 && (0..64).all(|i| table.values().filter(|&spans| spans >> i & 1 == 1).count() <= length) => {
            let first: Table = table.into_iter().take(length).collect();
            lists.iter().zip(written(&first, length)).for_each(|(list, bytes)| list.write(&bytes));
            length as u64
        }
        _ => reply,
    }
}

fn own_spans(file: &File, credential: &Credential) -> u64 {
    let ends = &file.ends;
    (0..ends.len().min(63)).filter(|&i| valid(&RIGHT, credential, ends[i])).map(|i| 1 << i).sum()
}

/// All spans of the first premise, whether the second has them or not.
fn one_premise(second: &Second, given: Given, lists: [Slice; 3]) -> u64 {
    replaced(second, given, lists, |file| {
        let mut table = Table::new();
        loop {
            let before = table.clone();
            for credential in &file.credentials {
                for (set, spans) in derived(credential.body, &before, own_spans(&file, credential), |one, _| one) {
                    *table.entry((credential.head, set)).or_insert(0) |= spans;
                }
            }
            if table == before {
                return table.into_iter().take(1000).collect();
            }
        }
    })
}

/// Each membership with the spans of its first derivation only, credentials in file order until nothing new is found.
fn first_validity(second: &Second, given: Given, lists: [Slice; 3]) -> u64 {
    replaced(second, given, lists, |file| {
        let mut table = Table::new();
        loop {
            let before = table.len();
            for credential in &file.credentials {
                for (set, spans) in derived(credential.body, &table, own_spans(&file, credential), |one, other| one & other) {
                    table.entry((credential.head, set)).or_insert(spans);
                }
            }
            if table.len() == before {
                return table;
            }
        }
    })
}

fn derived(body: Body, table: &Table, own: u64, common: fn(u64, u64) -> u64) -> Vec<(u32, u64)> {
    let sets = |of: u32| table.range((of, 0)..=(of, u32::MAX)).map(|(&(_, set), &spans)| (set, spans));
    let mut all: Vec<(u32, u64)> = match body {
        Body::Entity(entity) => vec![(1 << entity, own)],
        Body::Role(of) => sets(of).collect(),
        Body::Linked(of, name) => sets(of)
            .filter_map(|(x, one)| Some(((RIGHT.links)(x)?, one)))
            .flat_map(|(entity, one)| sets(role(entity, name)).map(move |(y, other)| (y, common(one, other))))
            .collect(),
        Body::Pair(kind, one, other) => {
            sets(one).flat_map(|(x, a)| sets(other).filter_map(move |(y, b)| Some(((RIGHT.combines)(kind, x, y)?, common(a, b))))).collect()
        }
    };
    all.iter_mut().for_each(|(_, spans)| *spans &= own);
    all.retain(|&(_, spans)| spans != 0);
    all
}

fn tail_not_cleared(second: &Second, given: Given, lists: [Slice; 3]) -> u64 {
    let before = lists.map(Slice::all);
    let reply = second.complete(given, lists);
    if number(reply) == 0 {
        for (i, list) in lists.iter().enumerate() {
            let held = reply as usize * [4, 4, 8][i];
            list.write(&[&list.all()[..held], &before[i][held..]].concat());
        }
    }
    reply
}

fn not_ascending(second: &Second, given: Given, lists: [Slice; 3]) -> u64 {
    let reply = second.complete(given, lists);
    if number(reply) == 0 {
        let table = table(&RIGHT, &accepted(given).unwrap()).unwrap();
        let exchanged: Table = table.into_iter().map(|((role, set), spans)| ((set, role), spans)).collect();
        let [sets, roles, spans] = written(&exchanged, lists[0].length / 4);
        lists.iter().zip([roles, sets, spans]).for_each(|(list, bytes)| list.write(&bytes));
    }
    reply
}

fn nine_before_eight(second: &Second, given: Given, lists: [Slice; 3]) -> u64 {
    let reply = second.complete(given, lists);
    let nine = entries(&lists.map(|list| list.length), &[4, 4, 8]).is_err();
    if number(reply) == 8 && nine {
        refusal(9)
    } else {
        reply
    }
}

fn all_kinds_first(second: &Second, given: Given, lists: [Slice; 3]) -> u64 {
    let reply = second.complete(given, lists);
    let bytes = given.file.all();
    if matches!(number(reply), 4..=8 | 17) {
        let count = u16::from_le_bytes([bytes[4], bytes[5]]) as u64;
        if let Some(place) = (0..count).find(|&i| bytes[6 + 12 * i as usize] > 5) {
            return refusal(4) + place;
        }
    }
    reply
}

fn all_periods_first(second: &Second, given: Given, lists: [Slice; 3]) -> u64 {
    let reply = second.complete(given, lists);
    let bytes = given.file.all();
    if matches!(number(reply), 4..=8 | 17) {
        let count = u16::from_le_bytes([bytes[4], bytes[5]]) as usize;
        let period = |i: usize| (word(&bytes[6 + 12 * count + 8 * i..], 0), word(&bytes[6 + 12 * count + 8 * i..], 1));
        if let Some(place) = (0..count).find(|&i| (RIGHT.refuses)(period(i).0, period(i).1)) {
            return refusal(7) + place as u64;
        }
    }
    reply
}

fn spans_length_ignored(second: &Second, given: Given, lists: [Slice; 3]) -> u64 {
    let reply = second.complete(given, lists);
    let lengths = [lists[0].length, lists[1].length, 2 * lists[0].length];
    if number(reply) != 9 || entries(&lengths, &[4, 4, 8]).is_err() || lists[2].length < lengths[2] {
        return reply;
    }
    let fitting = Slice { start: lists[2].start, length: lengths[2] };
    second.complete(given, [lists[0], lists[1], fitting])
}

fn length_rounded_down(second: &Second, given: Given, lists: [Slice; 3]) -> u64 {
    let whole = |list: Slice, width: usize| Slice { start: list.start, length: list.length / width * width };
    second.complete(given, [whole(lists[0], 4), whole(lists[1], 4), whole(lists[2], 8)])
}

fn always_empty(second: &Second, given: Given, lists: [Slice; 3]) -> u64 {
    replaced(second, given, lists, |_| Table::new())
}

fn cleared_on_refusal(second: &Second, given: Given, lists: [Slice; 3]) -> u64 {
    let reply = second.complete(given, lists);
    if number(reply) != 0 {
        zero(&lists);
    }
    reply
}

fn file_changed(second: &Second, given: Given, lists: [Slice; 3]) -> u64 {
    let reply = second.complete(given, lists);
    let mut bytes = given.file.all();
    if let Some(last) = bytes.last_mut() {
        *last ^= 1;
    }
    given.file.write(&bytes);
    reply
}
