//! Wrong ways to read serials, and to give 17.

use super::checking::{instead, reads};
use super::querying::rewritten;
use super::{accepted, check, cleared, complete, ends, intervals, number, query, refusal, rules, unwritten, Wrong, RIGHT};
use crate::calls::{zero, Calls, Given, Second, Slice};
use crate::reference::checking::Step;
use crate::reference::known::Question;
use crate::reference::reading::{credentials, read, word, File};
use crate::reference::{Refusal, Rules};

pub const ALL: &[Wrong] = &[
    rules("serial-unjudged", UNJUDGED, "17 never given"),
    rules("serial-neighbour", tests(|earlier, x| x == 0 || earlier.last() == Some(&x)), "only the neighbour compared"),
    rules("serial-first", tests(|earlier, x| x == 0 || earlier.first() == Some(&x)), "only the first compared"),
    rules("serial-not-the-first", tests(|earlier, x| x == 0 || earlier.iter().skip(1).any(|&y| y == x)), "all compared but the first"),
    rules("serial-near", tests(|earlier, x| x == 0 || earlier.iter().rev().take(16).any(|&y| y == x)), "an equal serial allowed when far"),
    rules("serial-far", tests(|earlier, x| x == 0 || earlier.iter().take(200).any(|&y| y == x)), "only the first 200 compared"),
    rules("serial-zero-allowed", tests(|earlier, x| earlier.contains(&x)), "zero allowed, once"),
    rules("serial-zeros-allowed", tests(|earlier, x| x != 0 && earlier.contains(&x)), "zero allowed"),
    rules("serial-zero-at-first", tests(|earlier, x| x == 0 && earlier.is_empty() || earlier.contains(&x)), "zero refused only at the first"),
    rules("serial-zero-after", tests(|earlier, x| x == 0 && !earlier.is_empty() || earlier.contains(&x)), "zero allowed at the first"),
    rules("serial-one-refused", tests(|earlier, x| x <= 1 || earlier.contains(&x)), "1 refused"),
    rules("serial-last-refused", tests(|earlier, x| x == u32::MAX || taken(earlier, x)), "4,294,967,295 refused"),
    rules("serial-ascending", tests(|earlier, x| x == 0 || earlier.last().is_some_and(|&y| x <= y)), "ascending serials demanded"),
    rules("serial-above-all", tests(|earlier, x| x == 0 || earlier.iter().any(|&y| x <= y)), "a serial above all earlier ones demanded"),
    rules("serial-greatest", tests(|earlier, x| x == 0 || earlier.iter().max() == Some(&x)), "only the greatest compared"),
    rules(
        "serial-not-the-greatest",
        tests(|earlier, x| taken(earlier, x) && (x == 0 || earlier.iter().max() != Some(&x))),
        "all compared but the greatest",
    ),
    rules("serial-not-the-neighbour", tests(|earlier, x| taken(&earlier[..earlier.len().saturating_sub(1)], x)), "all compared but the neighbour"),
    rules(
        "serial-above-the-last",
        tests(|earlier, x| taken(earlier, x) && !earlier.last().is_some_and(|&y| y < x)),
        "not searched for where it is above the one before",
    ),
    rules("serial-halved", tests(|earlier, x| x == 0 || earlier.binary_search(&x).is_ok()), "searched as if they ascended"),
    rules("serial-position", tests(|earlier, x| x != earlier.len() as u32 + 1), "position plus one demanded"),
    rules("serial-lower-half", tests(|earlier, x| taken_by(earlier, x, |y| y & 0xFFFF)), "compared by the lower 16 bits"),
    rules("serial-upper-half", tests(|earlier, x| x == 0 || taken_by(earlier, x, upper_half)), "compared by the upper 16 bits, unless these are 0"),
    rules("serial-zero-lower", tests(|earlier, x| x & 0xFFFF == 0 || earlier.contains(&x)), "zero in the lower 16 bits refused"),
    rules("serial-31-bits", tests(|earlier, x| taken_by(earlier, x, |y| y & 0x7FFF_FFFF)), "the highest bit ignored"),
    rules("serial-byte-twice", tests(|earlier, x| taken_by(earlier, x, byte_twice)), "the second byte in the place of the third"),
    rules("serial-at-7", Rules { reads: |_, bytes| credentials(&RIGHT, &moved(bytes, 7)), ..RIGHT }, "read a byte too early"),
    rules("serial-at-9", Rules { reads: |_, bytes| credentials(&RIGHT, &moved(bytes, 9)), ..RIGHT }, "read a byte too late"),
    rules("serial-of-the-next", Rules { reads: |_, bytes| credentials(&RIGHT, &moved(bytes, 20)), ..RIGHT }, "read from the next credential"),
    rules("serials-apart", Rules { reads: |_, bytes| credentials(&RIGHT, &apart(bytes)), ..RIGHT }, "serials read after all statements"),
    rules("periods-old-offset", Rules { reads: |_, bytes| credentials(&RIGHT, &periods_from(bytes, 8)), ..RIGHT }, "periods read at the old offset"),
    rules("old-files-read", Rules { reads: old_read, ..RIGHT }, "a file without serials read, with position plus one"),
    rules("seventeen-before-seven", Rules { reads: |_, bytes| sooner(bytes, 7), ..RIGHT }, "17 before 7"),
    rules("seventeen-before-six", Rules { reads: |_, bytes| sooner(bytes, 6), ..RIGHT }, "17 before 6 and 7"),
    rules("seventeen-before-four", Rules { reads: |_, bytes| sooner(bytes, 4), ..RIGHT }, "17 before 4 to 7"),
    rules("seventeen-after-all", Rules { reads: |_, bytes| later(bytes, 7), ..RIGHT }, "17 after all credentials' 7"),
    rules("seventeen-after-eight", Rules { reads: |_, bytes| later(bytes, 8), ..RIGHT }, "17 after 8"),
    rules("seventeen-next", Rules { reads: after_next, ..RIGHT }, "17 after 4 to 7 of the next credential"),
    rules("serial-earlier-place", Rules { reads: |_, bytes| placed(bytes, earlier_place), ..RIGHT }, "the earlier credential as place"),
    rules("serial-no-place", Rules { reads: |_, bytes| placed(bytes, |_, _| 0), ..RIGHT }, "17 without a place"),
    rules("serial-last-place", Rules { reads: |_, bytes| placed(bytes, last_place), ..RIGHT }, "the last such credential as place"),
    rules("serial-as-place", Rules { reads: |_, bytes| placed(bytes, |serials, at| serials[at]), ..RIGHT }, "the serial as place"),
    rules("serial-struck", Rules { reads: struck, ..RIGHT }, "a credential with a used serial left out"),
    rules("serial-order", Rules { reads: by_serial, ..RIGHT }, "credentials in the order of their serials"),
    complete("complete-without-17", |_, f, l| Second { rules: UNJUDGED }.complete(f, l), "17 never given by completing"),
    query("query-without-17", |_, f, q, l| Second { rules: UNJUDGED }.query(f, q, l), "17 never given by querying"),
    check("check-without-17", |_, f, q, l, n| Second { rules: UNJUDGED }.check(f, q, l, n), "17 never given by checking"),
    ends("ends-without-17", |_, f, l| Second { rules: UNJUDGED }.ends(f, l), "17 never given with the ends"),
    intervals("intervals-without-17", |_, f, n, l| Second { rules: UNJUDGED }.intervals(f, n, l), "17 never given with the intervals"),
    complete("complete-cleared-on-17", |s, f, l| emptied(&l, s.complete(f, l)), "completing's lists cleared after 17"),
    query("query-cleared-on-17", |s, f, q, l| emptied(&l, s.query(f, q, l)), "querying's lists cleared after 17"),
    ends("ends-cleared-on-17", |s, f, l| cleared(l, s.ends(f, l), 17), "the list of ends cleared after 17"),
    intervals("intervals-cleared-on-17", |s, f, n, l| cleared(l, s.intervals(f, n, l), 17), "the list of intervals cleared after 17"),
    complete("nine-before-seventeen", nine_first, "9 before 17 in completing"),
    query("query-nine-before-17", |s, f, q, l| query_first(s, f, q, l, 9), "9 before 17 in querying"),
    query("query-eleven-before-17", |s, f, q, l| query_first(s, f, q, l, 11), "11 before 17 in querying"),
    query("query-twelve-before-17", |s, f, q, l| query_first(s, f, q, l, 12), "12 before 17 in querying"),
    check("check-nine-before-17", |s, f, q, l, n| check_first(s, f, q, l, n, 9), "9 before 17 in checking"),
    check("check-eleven-before-17", |s, f, q, l, n| check_first(s, f, q, l, n, 11), "11 before 17 in checking"),
    check("check-twelve-before-17", |s, f, q, l, n| check_first(s, f, q, l, n, 12), "12 before 17 in checking"),
    check("check-fourteen-before-17", |s, f, q, l, n| check_first(s, f, q, l, n, 14), "14 before 17 in checking"),
    intervals("intervals-eleven-before-17", |s, f, n, l| intervals_first(s, f, n, l, 11), "11 before 17 with the intervals"),
    query("query-cites-serials", |s, f, q, l| rewritten(s, f, q, l, |file, _, own| by_serials(file, own)), "serials cited in place of positions"),
    check("check-cites-serials", cited_by_serial, "the checker takes a step's credential for a serial"),
];

const UNJUDGED: Rules = tests(|_, _| false);

const fn tests(taken: fn(&[u32], u32) -> bool) -> Rules {
    Rules { taken, ..RIGHT }
}

fn taken(earlier: &[u32], serial: u32) -> bool {
    (RIGHT.taken)(earlier, serial)
}

/// 17 by a part of each serial.
fn taken_by(earlier: &[u32], serial: u32, part: fn(u32) -> u32) -> bool {
    let parts: Vec<u32> = earlier.iter().map(|&y| part(y)).collect();
    taken(&parts, part(serial))
}

fn upper_half(serial: u32) -> u32 {
    if serial < 65_536 {
        serial
    } else {
        serial & 0xFFFF_0000
    }
}

fn byte_twice(serial: u32) -> u32 {
    let [a, b, _, d] = serial.to_le_bytes();
    u32::from_le_bytes([a, b, b, d])
}

/// How many credentials the bytes have, where 1 to 3 do not refuse them.
fn count(bytes: &[u8]) -> usize {
    match read(&RIGHT, bytes) {
        Err(Refusal { number: 1..=3, .. }) => 0,
        _ => u16::from_le_bytes([bytes[4], bytes[5]]) as usize,
    }
}

fn serials(bytes: &[u8]) -> Vec<u32> {
    (0..count(bytes)).map(|i| word(&bytes[6 + 12 * i + 8..], 0)).collect()
}

/// The file with each serial taken from so many bytes after its statement's first.
fn moved(bytes: &[u8], by: usize) -> Vec<u8> {
    let mut new = bytes.to_vec();
    for at in (0..count(bytes)).map(|i| 6 + 12 * i) {
        new[at + 8..at + 12].copy_from_slice(&bytes[at + by..][..4]);
    }
    new
}

/// The file with statements of 8 bytes, then all serials, read as the layout that the call knows.
fn apart(bytes: &[u8]) -> Vec<u8> {
    let (mut new, count) = (bytes.to_vec(), count(bytes));
    for i in 0..count {
        let at = 6 + 12 * i;
        new[at..at + 8].copy_from_slice(&bytes[6 + 8 * i..][..8]);
        new[at + 8..at + 12].copy_from_slice(&bytes[6 + 8 * count + 4 * i..][..4]);
    }
    new
}

/// The file with its periods taken from where they stand after statements of so many bytes.
fn periods_from(bytes: &[u8], statement: usize) -> Vec<u8> {
    let (mut new, count) = (bytes.to_vec(), count(bytes));
    if count > 0 {
        new[6 + 12 * count..].copy_from_slice(&bytes[6 + statement * count..][..8 * count]);
    }
    new
}

fn old_read(_: &Rules, bytes: &[u8]) -> Result<File, Refusal> {
    match credentials(&RIGHT, bytes) {
        Err(Refusal { number: 3, .. }) => {
            let count = u16::from_le_bytes([bytes[4], bytes[5]]) as usize;
            if bytes.len() != 6 + 16 * count {
                return credentials(&RIGHT, bytes);
            }
            let mut new = bytes[..6].to_vec();
            for i in 0..count {
                new.extend(&bytes[6 + 8 * i..][..8]);
                new.extend((i as u32 + 1).to_le_bytes());
            }
            new.extend(&bytes[6 + 8 * count..]);
            credentials(&RIGHT, &new)
        }
        other => other,
    }
}

/// 17 of a credential before its refusals from this number to 7.
fn sooner(bytes: &[u8], from: u32) -> Result<File, Refusal> {
    match credentials(&RIGHT, bytes) {
        Err(Refusal { number, place }) if (from..=7).contains(&number) => {
            let serials = serials(bytes);
            let at = place as usize;
            Err(Refusal { number: if taken(&serials[..at], serials[at]) { 17 } else { number }, place })
        }
        other => other,
    }
}

/// 17 after all other refusals up to this number.
fn later(bytes: &[u8], to: u32) -> Result<File, Refusal> {
    match credentials(&RIGHT, bytes) {
        Err(seventeen) if seventeen.number == 17 => match read(&UNJUDGED, bytes) {
            Err(refusal) if refusal.number <= to => Err(refusal),
            _ => Err(seventeen),
        },
        other => other,
    }
}

fn after_next(_: &Rules, bytes: &[u8]) -> Result<File, Refusal> {
    match credentials(&RIGHT, bytes) {
        Err(seventeen) if seventeen.number == 17 => match read(&UNJUDGED, bytes) {
            Err(refusal) if refusal.number <= 7 && refusal.place == seventeen.place + 1 => Err(refusal),
            _ => Err(seventeen),
        },
        other => other,
    }
}

/// 17 with another place.
fn placed(bytes: &[u8], place: fn(&[u32], usize) -> u32) -> Result<File, Refusal> {
    credentials(&RIGHT, bytes).map_err(|refusal| match refusal.number {
        17 => Refusal { number: 17, place: place(&serials(bytes), refusal.place as usize) },
        _ => refusal,
    })
}

fn earlier_place(serials: &[u32], at: usize) -> u32 {
    serials.iter().position(|&serial| serial == serials[at]).unwrap_or(at) as u32
}

fn last_place(serials: &[u32], _: usize) -> u32 {
    (0..serials.len()).rev().find(|&at| taken(&serials[..at], serials[at])).unwrap_or(0) as u32
}

fn struck(_: &Rules, bytes: &[u8]) -> Result<File, Refusal> {
    let mut file = credentials(&tests(|_, serial| serial == 0), bytes)?;
    let mut known = std::collections::BTreeSet::new();
    file.credentials.retain(|credential| known.insert(credential.serial));
    Ok(file)
}

fn by_serial(_: &Rules, bytes: &[u8]) -> Result<File, Refusal> {
    let mut file = credentials(&RIGHT, bytes)?;
    file.credentials.sort_by_key(|credential| credential.serial);
    Ok(file)
}

fn emptied(lists: &[Slice], reply: u64) -> u64 {
    if number(reply) == 17 {
        zero(lists);
    }
    reply
}

fn nine_first(second: &Second, given: Given, lists: [Slice; 3]) -> u64 {
    let reply = second.complete(given, lists);
    let nine = crate::reference::known::entries(&lists.map(|list| list.length), &[4, 4, 8]).is_err();
    if number(reply) == 17 && nine {
        refusal(9)
    } else {
        reply
    }
}

/// The refusal of this number in place of 17, where the call gives it without 17's test.
fn first(reply: u64, wanted: u64, unjudged: impl FnOnce() -> u64) -> u64 {
    if number(reply) != 17 {
        return reply;
    }
    let other = unjudged();
    if number(other) == wanted {
        other
    } else {
        reply
    }
}

fn query_first(second: &Second, given: Given, q: Question, lists: [Slice; 4], wanted: u64) -> u64 {
    let unjudged = || unwritten(lists, || Second { rules: UNJUDGED }.query(given, q, lists));
    first(second.query(given, q, lists), wanted, unjudged)
}

fn check_first(second: &Second, given: Given, q: Question, lists: [Slice; 4], count: u64, wanted: u64) -> u64 {
    first(second.check(given, q, lists, count), wanted, || Second { rules: UNJUDGED }.check(given, q, lists, count))
}

fn intervals_first(second: &Second, given: Given, spans: u64, list: Slice, wanted: u64) -> u64 {
    let unjudged = || unwritten([list], || Second { rules: UNJUDGED }.intervals(given, spans, list));
    first(second.intervals(given, spans, list), wanted, unjudged)
}

fn by_serials(file: &File, own: &[Step]) -> Vec<Step> {
    own.iter().map(|&step| Step { credential: file.credentials[step.credential as usize].serial, ..step }).collect()
}

fn cited_by_serial(second: &Second, given: Given, q: Question, lists: [Slice; 4], count: u64) -> u64 {
    let Some(mut steps) = reads(second, given, q, lists, count) else { return second.check(given, q, lists, count) };
    let read = accepted(given).unwrap();
    for step in &mut steps {
        let place = read.credentials.iter().position(|credential| credential.serial == step.credential);
        step.credential = place.map_or(u32::MAX, |place| place as u32);
    }
    instead(second, given, q, &steps)
}
