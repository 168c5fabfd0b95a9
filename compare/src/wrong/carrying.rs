//! Wrong ways to bring a file forward and back.

use super::{back, cleared, forward, number, on, refusal, rules, unwritten, Wrong, RIGHT};
use crate::calls::{zero, Calls, Second, Slice};
use crate::carried::{new_length, old_length, said};
use crate::reference::carrying;
use crate::reference::old::{old_credentials, read_old, OLD};
use crate::reference::reading::{read, word, File};
use crate::reference::{Refusal, Rules};

pub const ALL: &[Wrong] = &[
    // The period.
    rules("forward-to-kept", Rules { lowers: |from, to| (from, to), ..RIGHT }, "`to` not lowered"),
    rules("forward-lowered-twice", Rules { lowers: |from, to| (from, to.wrapping_sub(2)), ..RIGHT }, "`to` lowered by two"),
    rules("forward-raised", Rules { lowers: |from, to| (from, to.wrapping_add(1)), ..RIGHT }, "`to` raised"),
    rules("forward-from-lowered", Rules { lowers: |from, to| (from.wrapping_sub(1), to - 1), ..RIGHT }, "`from` lowered too"),
    rules("forward-from-for-to", Rules { lowers: |from, to| (from.wrapping_sub(1), to), ..RIGHT }, "`from` lowered in place of `to`"),
    rules("forward-low-half", Rules { lowers: |from, to| (from, low_half(to, u16::wrapping_sub)), ..RIGHT }, "lowered in the low 16 bits alone"),
    rules("forward-low-byte", Rules { lowers: |from, to| (from, to & !0xFF | to.wrapping_sub(1) & 0xFF), ..RIGHT }, "lowered in the low byte alone"),
    rules(
        "forward-24-bits",
        Rules { lowers: |from, to| (from, to & 0xFF00_0000 | to.wrapping_sub(1) & 0xFF_FFFF), ..RIGHT },
        "lowered in the low 24 bits alone",
    ),
    forward("forward-first-lowered", |s, o, l| to_changed(s.forward(o, l), l, |i, _| i > 0, 1), "only the first `to` lowered"),
    forward("forward-last-kept", |s, o, l| to_changed(s.forward(o, l), l, |i, n| i + 1 == n, 1), "all but the last `to` lowered"),
    rules("back-not-raised", Rules { raises: |from, to| (from, to), ..RIGHT }, "`to` not raised"),
    rules("back-raised-twice", Rules { raises: |from, to| (from, to.wrapping_add(2)), ..RIGHT }, "`to` raised by two"),
    rules("back-lowered", Rules { raises: |from, to| (from, to.wrapping_sub(1)), ..RIGHT }, "`to` lowered going back"),
    rules("back-from-raised", Rules { raises: |from, to| (from + 1, to + 1), ..RIGHT }, "`from` raised too"),
    rules("back-low-half", Rules { raises: |from, to| (from, low_half(to, u16::wrapping_add)), ..RIGHT }, "raised in the low 16 bits alone"),
    rules("back-low-byte", Rules { raises: |from, to| (from, to & !0xFF | to.wrapping_add(1) & 0xFF), ..RIGHT }, "raised in the low byte alone"),
    rules(
        "back-24-bits",
        Rules { raises: |from, to| (from, to & 0xFF00_0000 | to.wrapping_add(1) & 0xFF_FFFF), ..RIGHT },
        "raised in the low 24 bits alone",
    ),
    back("back-first-raised", |s, f, l| to_changed(s.back(f, l), l, |i, _| i > 0, u32::MAX), "only the first `to` raised"),
    back("back-last-kept", |s, f, l| to_changed(s.back(f, l), l, |i, n| i + 1 == n, u32::MAX), "all but the last `to` raised"),
    rules("carried-to-kept", Rules { lowers: |from, to| (from, to), raises: |from, to| (from, to), ..RIGHT }, "`to` kept both ways"),
    // The serial.
    rules("forward-position", Rules { numbers: |i| i as u32, ..RIGHT }, "the position as serial"),
    rules("forward-plus-two", Rules { numbers: |i| i as u32 + 2, ..RIGHT }, "position plus two as serial"),
    rules("forward-8-bits", Rules { numbers: |i| (i as u32 + 1) % 256, ..RIGHT }, "the serial's low 8 bits"),
    rules("forward-or-one", Rules { numbers: |i| i as u32 | 1, ..RIGHT }, "the position with its lowest bit set as serial"),
    rules("forward-highest-first", Rules { numbers: |i| (i as u32 + 1).swap_bytes(), ..RIGHT }, "the serial's highest byte first"),
    rules("forward-two-exchanged", Rules { numbers: |i| (i as u16 + 1).swap_bytes() as u32, ..RIGHT }, "the serial's low two bytes exchanged"),
    rules("forward-serial-twice", Rules { numbers: |i| (i as u32 + 1) * 65_537, ..RIGHT }, "the serial in both halves"),
    forward("forward-descending", |s, o, l| serials(s.forward(o, l), l, |i, n| (n - i) as u32), "serials descending"),
    forward("forward-from-head", |s, o, l| serials(s.forward(o, l), l, |i, n| (n + i) as u32), "N plus position as serial"),
    forward("forward-last-serial", |s, o, l| serials(s.forward(o, l), l, |i, n| if i + 1 == n { 0 } else { i as u32 + 1 }), "no last serial"),
    rules("carried-position", Rules { numbers: |i| i as u32 + 2, strange: |i, x| x != i as u32 + 2, ..RIGHT }, "position plus two both ways"),
    // 19.
    rules("nineteen-never", STRANGE_PASSES, "19 never given"),
    rules("nineteen-position", Rules { strange: |i, x| x != i as u32, ..RIGHT }, "the position demanded as serial"),
    rules("nineteen-first-only", Rules { strange: |i, x| i == 0 && x != 1, ..RIGHT }, "19 for the first credential alone"),
    rules("nineteen-not-the-first", Rules { strange: |i, x| i > 0 && x != i as u32 + 1, ..RIGHT }, "19 not for the first credential"),
    rules("nineteen-8-bits", Rules { strange: |i, x| x as u8 != (i + 1) as u8, ..RIGHT }, "19 by the low 8 bits"),
    rules("nineteen-16-bits", Rules { strange: |i, x| x as u16 != (i + 1) as u16, ..RIGHT }, "19 by the low 16 bits"),
    rules("nineteen-24-bits", Rules { strange: |i, x| x << 8 != (i as u32 + 1) << 8, ..RIGHT }, "19 by the low 24 bits"),
    rules("nineteen-31-bits", Rules { strange: |i, x| x << 1 != (i as u32 + 1) << 1, ..RIGHT }, "the highest bit ignored by 19"),
    rules("nineteen-below", Rules { strange: |i, x| x < i as u32 + 1, ..RIGHT }, "19 for a serial below position plus one alone"),
    rules("nineteen-up-to-256", Rules { strange: |_, x| x > 256, ..RIGHT }, "19 for serials above 256 alone"),
    back("nineteen-not-the-last", |s, f, l| lax_where(s, f, l, |serials| place(&serials[..serials.len() - 1]).is_none()), "19 not for the last"),
    back("nineteen-any-order", |s, f, l| lax_where(s, f, l, in_any_order), "1 to N in any order taken"),
    back("nineteen-ascending", |s, f, l| lax_where(s, f, l, |serials| serials.windows(2).all(|two| two[0] < two[1])), "ascending serials taken"),
    back("nineteen-last-place", |s, f, l| placed(s.back(f, l), f, last_place), "the last such credential as place"),
    back("nineteen-no-place", |s, f, l| placed(s.back(f, l), f, |_| 0), "19 without a place"),
    back("nineteen-place-from-one", |s, f, l| on(s.back(f, l), &[19], |reply| reply + 1), "19's place counted from 1"),
    back("nineteen-serial-as-place", |s, f, l| placed(s.back(f, l), f, |serials| serials[place(serials).unwrap()]), "the serial as place"),
    back("nineteen-for-18", nineteen_before_18, "19 before 18"),
    back("nineteen-for-8", |s, f, l| nineteen_before(s.back(f, l), f, &[8]), "19 before 8"),
    back("nineteen-for-17", |s, f, l| nineteen_before(s.back(f, l), f, &[17]), "19 before 17"),
    back("nineteen-in-17", |_, f, l| Second { rules: UNJUDGED }.back(f, l), "17 left to 19"),
    back("nineteen-written-first", |s, f, l| written_before_19(s, f, l, usize::MAX), "the list written before 19 is known"),
    back("nineteen-written-so-far", written_so_far, "the list written up to the credential that 19 refuses"),
    back("nineteen-head-written", |s, f, l| written_before_19(s, f, l, 6), "the head written before 19 is known"),
    back("nineteen-cleared", |s, f, l| cleared(l, s.back(f, l), 19), "the list cleared after 19"),
    // 18.
    forward("forward-18-first", |s, o, l| eighteen(s.forward(o, l), l, new_length(&o.all()), &[1, 2, 3, 4, 5, 6, 7, 8]), "18 before 1 to 8"),
    forward("forward-18-before-3", |s, o, l| eighteen(s.forward(o, l), l, new_length(&o.all()), &[3]), "18 before 3 alone"),
    forward("forward-18-before-4", |s, o, l| eighteen(s.forward(o, l), l, new_length(&o.all()), &[4, 5, 6, 7, 8]), "18 before 4 to 8"),
    forward("forward-18-before-7", |s, o, l| eighteen(s.forward(o, l), l, new_length(&o.all()), &[7]), "18 before 7 alone"),
    forward("forward-18-before-8", |s, o, l| eighteen(s.forward(o, l), l, new_length(&o.all()), &[8]), "18 before 8 alone"),
    back("back-18-first", |s, f, l| eighteen(s.back(f, l), l, old_length(&f.all()), &[1, 2, 3, 4, 5, 6, 7, 8, 17]), "18 before 1 to 8 and 17"),
    back("back-18-before-4", |s, f, l| eighteen(s.back(f, l), l, old_length(&f.all()), &[4, 5, 6, 7, 8, 17]), "18 before 4 to 8 and 17"),
    back("back-18-before-8", |s, f, l| eighteen(s.back(f, l), l, old_length(&f.all()), &[8]), "18 before 8 alone"),
    back("back-18-before-17", |s, f, l| eighteen(s.back(f, l), l, old_length(&f.all()), &[17]), "18 before 17 alone"),
    forward("forward-longer", |s, o, l| misfit(s.forward(o, l), l, forth(o), true, |has, right| has > right), "a longer list taken"),
    forward("forward-shorter", |s, o, l| misfit(s.forward(o, l), l, forth(o), true, |has, right| has < right), "a shorter list taken, cut"),
    forward("forward-one-longer", |s, o, l| misfit(s.forward(o, l), l, forth(o), true, |has, right| has == right + 1), "a byte more taken"),
    forward("forward-as-far-as-fits", |s, o, l| misfit(s.forward(o, l), l, forth(o), false, |_, _| true), "written as far as it fits with 18"),
    back("back-longer", |s, f, l| misfit(s.back(f, l), l, and_back(f), true, |has, right| has > right), "a longer list taken"),
    back("back-shorter", |s, f, l| misfit(s.back(f, l), l, and_back(f), true, |has, right| has < right), "a shorter list taken, cut"),
    back("back-one-shorter", |s, f, l| misfit(s.back(f, l), l, and_back(f), true, |has, right| has + 1 == right), "a byte less taken"),
    back("back-as-far-as-fits", |s, f, l| misfit(s.back(f, l), l, and_back(f), false, |_, _| true), "written as far as it fits with 18"),
    back(
        "back-in-its-own-length",
        |s, f, l| misfit(s.back(f, l), l, and_back(f), true, |has, right| 4 * has + 6 == 5 * right),
        "a list as long as the input taken",
    ),
    forward("forward-cleared-on-18", |s, o, l| cleared(l, s.forward(o, l), 18), "the list cleared after 18"),
    back("back-cleared-on-18", |s, f, l| cleared(l, s.back(f, l), 18), "the list cleared after 18"),
    forward("forward-cleared", |s, o, l| cleared_on_any(l, s.forward(o, l)), "the list cleared on a refusal"),
    back("back-cleared", |s, f, l| cleared_on_any(l, s.back(f, l)), "the list cleared on a refusal"),
    forward("forward-cleared-on-7", |s, o, l| cleared(l, s.forward(o, l), 7), "the list cleared after 7"),
    back("back-cleared-on-17", |s, f, l| cleared(l, s.back(f, l), 17), "the list cleared after 17"),
    // The input's refusals.
    rules("old-seven-new", old_by(|b| read_old(&Rules { refuses: |from, to| from > to || to == u32::MAX, ..OLD }, b)), "the old 7 by the new rule"),
    rules("old-seven-order", old_by(|b| read_old(&Rules { refuses: |from, to| from > to, ..OLD }, b)), "the old 7 at from > to"),
    rules("old-seven-last", old_by(|b| read_old(&Rules { refuses: |from, to| from >= to || to == u32::MAX, ..OLD }, b)), "the last `to` refused"),
    rules(
        "old-seven-minute",
        old_by(|b| read_old(&Rules { refuses: |from, to| from.wrapping_add(1) >= to, ..OLD }, b)),
        "a period of a minute refused",
    ),
    rules("old-seven-never", old_by(|b| read_old(&Rules { refuses: |_, _| false, ..OLD }, b)), "no 7 going forward"),
    rules("old-eight-next", old_by(|b| read_old(&Rules { end: |to| to.wrapping_add(1), ..OLD }, b)), "the old 8 counted by `to` plus one"),
    rules("old-eight-lowered", old_by(|b| read_old(&Rules { end: |to| to.wrapping_sub(1), ..OLD }, b)), "the old 8 counted by the lowered `to`"),
    rules("old-eight-never", old_by(|b| old_credentials(&OLD, b)), "no 8 going forward"),
    rules("old-eight-at-64", old_by(at_64), "64 ends refused going forward"),
    rules(
        "old-eight-in-place",
        old_by(|b| read_old(&OLD, b).map_err(|r| if r.number == 8 { Refusal { place: 64, ..r } } else { r })),
        "8 with a place",
    ),
    rules("old-seventeen", old_by(seventeen), "17 going forward for a statement used before"),
    rules("old-seventeen-256", old_by(|b| read_old(&OLD, b).and_then(refused_at_256)), "17 going forward for position 255"),
    rules("old-kind-six", old_by(|b| read_old(&OLD, &with_kind(b, 6, 5))), "kind 6 taken for kind 5 going forward"),
    forward("forward-kind-six", kind_six, "kind 6 carried forward"),
    forward("forward-byte-seven", byte_seven, "byte 7 not tested and zeroed going forward"),
    forward("forward-new-file", new_file, "a new file taken as it is going forward"),
    forward("forward-none", |s, o, l| none_refused(o, l, || s.forward(o, l)), "no credentials refused with 2 going forward"),
    back("back-none", |s, f, l| none_refused(f, l, || s.back(f, l)), "no credentials refused with 2 going back"),
    forward("forward-255", |s, o, l| if said(&o.all()) > 255 { refusal(2) } else { s.forward(o, l) }, "256 credentials refused going forward"),
    back("back-old-seven", |_, f, l| Second { rules: Rules { refuses: |from, to| from >= to, ..RIGHT } }.back(f, l), "the new 7 by the old rule"),
    back(
        "back-seven-order",
        |_, f, l| Second { rules: Rules { refuses: |from, to| from > to, end: wrapping, ..RIGHT } }.back(f, l),
        "the last `to` taken back",
    ),
    back("back-eight-never", |_, f, l| Second { rules: Rules { most_ends: usize::MAX, ..RIGHT } }.back(f, l), "no 8 going back"),
    back("back-eight-at-to", |_, f, l| Second { rules: Rules { end: |to| to, ..RIGHT } }.back(f, l), "8 counted by `to` going back"),
    back(
        "back-old-file",
        |s, f, l| if number(s.back(f, l)) == 3 { as_it_is(s, f, l) } else { s.back(f, l) },
        "an old file taken as it is going back",
    ),
    forward("forward-place-from-one", |s, o, l| on(s.forward(o, l), &[4, 5, 6, 7], |reply| reply + 1), "places counted from 1"),
    // The list.
    forward("forward-last-skipped", |s, o, l| last_skipped(l, 12, || s.forward(o, l)), "the last credential left out"),
    back("back-last-skipped", |s, f, l| last_skipped(l, 8, || s.back(f, l)), "the last credential left out"),
    forward("forward-blocks-exchanged", |s, o, l| changed(s.forward(o, l), l, |new| blocks_exchanged(new, 12)), "periods before statements"),
    back("back-blocks-exchanged", |s, f, l| changed(s.back(f, l), l, |old| blocks_exchanged(old, 8)), "periods before statements"),
    forward("forward-interleaved", |s, o, l| changed(s.forward(o, l), l, |new| interleaved(new, 12)), "each period after its statement"),
    back("back-interleaved", |s, f, l| changed(s.back(f, l), l, |old| interleaved(old, 8)), "each period after its statement"),
    forward("forward-serials-apart", |s, o, l| changed(s.forward(o, l), l, serials_apart), "serials after all statements"),
    forward("forward-serial-first", |s, o, l| changed(s.forward(o, l), l, serial_first), "the serial before its statement"),
    forward("forward-period-exchanged", |s, o, l| changed(s.forward(o, l), l, |new| to_first(new, 12)), "to before from"),
    forward("forward-reversed", |s, o, l| changed(s.forward(o, l), l, reversed), "credentials in reverse order"),
    back(
        "back-serials-kept",
        |s, f, l| changed(s.back(f, l), l, |old| [&f.all()[..6 + 12 * said(old)], &old[..]].concat()[..old.len()].to_vec()),
        "serials kept, the end cut",
    ),
    forward("forward-head-left", |s, o, l| head_left(l, || s.forward(o, l)), "the head's bytes not written"),
    back("back-head-left", |s, f, l| head_left(l, || s.back(f, l)), "the head's bytes not written"),
    forward("forward-head-count", |s, o, l| changed(s.forward(o, l), l, |new| counted(new, 1)), "N plus one in the result's head"),
    forward(
        "forward-head-byte",
        |s, o, l| changed(s.forward(o, l), l, |new| [&new[..5], &[0], &new[6..]].concat()),
        "N in one byte of the result's head",
    ),
    back("back-head-count", |s, f, l| changed(s.back(f, l), l, |old| counted(old, 1)), "N plus one in the result's head"),
    forward("forward-head-exchanged", |s, o, l| changed(s.forward(o, l), l, |new| [&new[2..4], &new[..2], &new[4..]].concat()), "R before E"),
    forward("forward-not-written", |s, o, l| unwritten([l], || s.forward(o, l)), "the list untouched after success"),
    back("back-not-written", |s, f, l| unwritten([l], || s.back(f, l)), "the list untouched after success"),
    forward("forward-input-changed", |s, o, l| touched(o, s.forward(o, l)), "a byte of the input changed"),
    back("back-input-changed", |s, f, l| touched(f, s.back(f, l)), "a byte of the input changed"),
    // The reply.
    forward("forward-replies-length", |s, o, l| replied(s.forward(o, l), || l.length as u64), "the length as reply"),
    forward("forward-replies-more", |s, o, l| on(s.forward(o, l), &[0], |count| count + 1), "N plus one as reply"),
    forward("forward-replies-zero", |s, o, l| on(s.forward(o, l), &[0], |_| 0), "0 as reply"),
    forward("forward-replies-byte", |s, o, l| on(s.forward(o, l), &[0], |count| count % 256), "N's low byte as reply"),
    forward("forward-exchanged", |s, o, l| s.forward(o, l).rotate_left(32), "place and number exchanged"),
    back("back-replies-length", |s, f, l| replied(s.back(f, l), || l.length as u64), "the length as reply"),
    back("back-replies-more", |s, f, l| on(s.back(f, l), &[0], |count| count + 1), "N plus one as reply"),
    back("back-replies-zero", |s, f, l| on(s.back(f, l), &[0], |_| 0), "0 as reply"),
    back("back-replies-ends", |s, f, l| replied(s.back(f, l), || uncut(f).unwrap().ends.len() as u64), "the count of ends as reply"),
    back("back-exchanged", |s, f, l| s.back(f, l).rotate_left(32), "place and number exchanged"),
];

const STRANGE_PASSES: Rules = Rules { strange: |_, _| false, ..RIGHT };
const UNJUDGED: Rules = Rules { taken: |_, _| false, ..RIGHT };

const fn old_by(reads_old: fn(&[u8]) -> Result<File, Refusal>) -> Rules {
    Rules { reads_old, ..RIGHT }
}

fn wrapping(to: u32) -> u32 {
    to.wrapping_add(1)
}

fn low_half(to: u32, change: fn(u16, u16) -> u16) -> u32 {
    to & 0xFFFF_0000 | change(to as u16, 1) as u32
}

/// The file, where going back reads it.
fn uncut(file: Slice) -> Option<File> {
    read(&RIGHT, &file.all()).ok()
}

/// What a call that passed wrote, changed.
fn changed(reply: u64, list: Slice, change: impl FnOnce(&[u8]) -> Vec<u8>) -> u64 {
    if number(reply) == 0 {
        list.write(&change(&list.all()));
    }
    reply
}

/// The bytes of a statement in a file of this length with so many credentials: 12 in a new one, 8 in an old one.
fn width(bytes: &[u8]) -> usize {
    if bytes.len() == new_length(bytes) {
        12
    } else {
        8
    }
}

/// So much added to the `to` values at some positions.
fn to_changed(reply: u64, list: Slice, at: fn(usize, usize) -> bool, by: u32) -> u64 {
    changed(reply, list, |bytes| {
        let (mut new, count, width) = (bytes.to_vec(), said(bytes), width(bytes));
        for i in (0..count).filter(|&i| at(i, count)) {
            let place = 6 + width * count + 8 * i + 4;
            new[place..place + 4].copy_from_slice(&word(&bytes[place..], 0).wrapping_add(by).to_le_bytes());
        }
        new
    })
}

/// Other serials in the new file.
fn serials(reply: u64, list: Slice, serial: fn(usize, usize) -> u32) -> u64 {
    changed(reply, list, |bytes| {
        let (mut new, count) = (bytes.to_vec(), said(bytes));
        (0..count).for_each(|i| new[6 + 12 * i + 8..6 + 12 * i + 12].copy_from_slice(&serial(i, count).to_le_bytes()));
        new
    })
}

/// The serials of a file that has the length its head gives.
fn serials_of(file: Slice) -> Vec<u32> {
    let bytes = file.all();
    match bytes.len() >= 6 && bytes.len() == new_length(&bytes) {
        true => (0..said(&bytes)).map(|i| word(&bytes[6 + 12 * i + 8..], 0)).collect(),
        false => Vec::new(),
    }
}

/// The first position whose serial is not position plus one.
fn place(serials: &[u32]) -> Option<usize> {
    (0..serials.len()).find(|&i| serials[i] != i as u32 + 1)
}

fn last_place(serials: &[u32]) -> u32 {
    (0..serials.len()).rev().find(|&i| serials[i] != i as u32 + 1).unwrap() as u32
}

fn in_any_order(serials: &[u32]) -> bool {
    let mut sorted = serials.to_vec();
    sorted.sort();
    place(&sorted).is_none()
}

/// No 19 for some serials.
fn lax_where(second: &Second, file: Slice, list: Slice, passes: fn(&[u32]) -> bool) -> u64 {
    let reply = second.back(file, list);
    if number(reply) == 19 && passes(&serials_of(file)) {
        return Second { rules: STRANGE_PASSES }.back(file, list);
    }
    reply
}

/// 19 with another place.
fn placed(reply: u64, file: Slice, place: fn(&[u32]) -> u32) -> u64 {
    if number(reply) == 19 {
        refusal(19) + place(&serials_of(file)) as u64
    } else {
        reply
    }
}

/// 19 in place of these refusals.
fn nineteen_before(reply: u64, file: Slice, numbers: &[u64]) -> u64 {
    match place(&serials_of(file)) {
        Some(place) if numbers.contains(&number(reply)) => refusal(19) + place as u64,
        _ => reply,
    }
}

fn nineteen_before_18(second: &Second, file: Slice, list: Slice) -> u64 {
    nineteen_before(second.back(file, list), file, &[18])
}

/// The first bytes of what the call would write without 19, and then 19.
fn written_before_19(second: &Second, file: Slice, list: Slice, bytes: usize) -> u64 {
    let (reply, before) = (second.back(file, list), list.all());
    if number(reply) == 19 {
        Second { rules: STRANGE_PASSES }.back(file, list);
        let held = bytes.min(list.length);
        list.write(&[&list.all()[..held], &before[held..]].concat());
    }
    reply
}

fn written_so_far(second: &Second, file: Slice, list: Slice) -> u64 {
    let held = 6 + 8 * place(&serials_of(file)).unwrap_or(0);
    written_before_19(second, file, list, held)
}

/// 18 in place of these refusals, for a list of another length than that of so many credentials as the head gives.
fn eighteen(reply: u64, list: Slice, right: usize, numbers: &[u64]) -> u64 {
    if numbers.contains(&number(reply)) && list.length != right {
        refusal(18)
    } else {
        reply
    }
}

type Answer = Result<(u64, Vec<u8>), Refusal>;

/// What belongs in a list of the right length.
fn forth(old: Slice) -> Answer {
    carrying::forward(&RIGHT, &old.all(), new_length(&old.all()))
}

fn and_back(file: Slice) -> Answer {
    carrying::back(&RIGHT, &file.all(), old_length(&file.all()))
}

/// 18 for a list of some wrong lengths: what fits in it is written, and the call passes or not.
fn misfit(reply: u64, list: Slice, answer: Answer, passes: bool, lengths: fn(has: usize, right: usize) -> bool) -> u64 {
    match answer {
        Ok((count, bytes)) if number(reply) == 18 && lengths(list.length, bytes.len()) => {
            let held = bytes.len().min(list.length);
            list.write(&[&bytes[..held], &list.all()[held..]].concat());
            if passes {
                count
            } else {
                reply
            }
        }
        _ => reply,
    }
}

fn cleared_on_any(list: Slice, reply: u64) -> u64 {
    if number(reply) != 0 {
        zero(&[list]);
    }
    reply
}

fn at_64(bytes: &[u8]) -> Result<File, Refusal> {
    match read_old(&OLD, bytes) {
        Ok(file) if file.ends.len() == 64 => Err(Refusal { number: 8, place: 0 }),
        other => other,
    }
}

fn seventeen(bytes: &[u8]) -> Result<File, Refusal> {
    let file = read_old(&OLD, bytes)?;
    let statement = |i: usize| (file.credentials[i].head, file.credentials[i].body);
    match (0..file.credentials.len()).find(|&i| (0..i).any(|earlier| statement(earlier) == statement(i))) {
        Some(place) => Err(Refusal { number: 17, place: place as u32 }),
        None => Ok(file),
    }
}

fn refused_at_256(file: File) -> Result<File, Refusal> {
    match file.credentials.len() {
        256 => Err(Refusal { number: 17, place: 255 }),
        _ => Ok(file),
    }
}

/// An old file's bytes with another kind in the place of this one.
fn with_kind(bytes: &[u8], kind: u8, other: u8) -> Vec<u8> {
    let mut new = bytes.to_vec();
    if bytes.len() >= 6 && bytes.len() == old_length(bytes) {
        (0..said(bytes)).map(|i| 6 + 8 * i).filter(|&at| bytes[at] == kind).for_each(|at| new[at] = other);
    }
    new
}

/// The right call on other bytes.
fn instead(bytes: &[u8], list: Slice, call: impl FnOnce(Slice, Slice) -> u64) -> u64 {
    let mut bytes = bytes.to_vec();
    call(Slice { start: bytes.as_mut_ptr(), length: bytes.len() }, list)
}

fn kind_six(second: &Second, old: Slice, list: Slice) -> u64 {
    let bytes = old.all();
    let reply = instead(&with_kind(&bytes, 6, 5), list, |old, list| second.forward(old, list));
    changed(reply, list, |new| {
        let mut new = new.to_vec();
        (0..said(&bytes)).for_each(|i| new[6 + 12 * i] = bytes[6 + 8 * i]);
        new
    })
}

fn byte_seven(second: &Second, old: Slice, list: Slice) -> u64 {
    let mut bytes = old.all();
    if bytes.len() >= 6 && bytes.len() == old_length(&bytes) {
        (0..said(&bytes)).for_each(|i| bytes[6 + 8 * i + 7] = 0);
    }
    instead(&bytes, list, |old, list| second.forward(old, list))
}

fn new_file(second: &Second, old: Slice, list: Slice) -> u64 {
    let reply = second.forward(old, list);
    match uncut(old) {
        Some(file) if number(reply) == 3 && list.length == old.length => {
            list.write(&old.all());
            file.credentials.len() as u64
        }
        _ => reply,
    }
}

/// An old file that going back hands over as it is, where going forward takes it.
fn as_it_is(second: &Second, file: Slice, list: Slice) -> u64 {
    match forth(file) {
        Ok((count, _)) if list.length == file.length => {
            list.write(&file.all());
            count
        }
        _ => second.back(file, list),
    }
}

fn none_refused(input: Slice, list: Slice, call: impl FnOnce() -> u64) -> u64 {
    if input.length == 6 && said(&input.all()) == 0 {
        let reply = unwritten([list], call);
        return if number(reply) == 0 { refusal(2) } else { reply };
    }
    call()
}

fn last_skipped(list: Slice, width: usize, call: impl FnOnce() -> u64) -> u64 {
    let before = list.all();
    changed(call(), list, |bytes| {
        let (mut new, count) = (bytes.to_vec(), said(bytes));
        if let Some(last) = count.checked_sub(1) {
            for (at, length) in [(6 + width * last, width), (6 + width * count + 8 * last, 8)] {
                new[at..at + length].copy_from_slice(&before[at..at + length]);
            }
        }
        new
    })
}

fn blocks(bytes: &[u8], width: usize) -> (&[u8], &[u8], &[u8]) {
    let (head, rest) = bytes.split_at(6);
    let (statements, periods) = rest.split_at(width * said(bytes));
    (head, statements, periods)
}

fn blocks_exchanged(bytes: &[u8], width: usize) -> Vec<u8> {
    let (head, statements, periods) = blocks(bytes, width);
    [head, periods, statements].concat()
}

fn interleaved(bytes: &[u8], width: usize) -> Vec<u8> {
    let (head, statements, periods) = blocks(bytes, width);
    let both = statements.chunks(width).zip(periods.chunks(8)).flat_map(|(statement, period)| [statement, period].concat());
    head.iter().copied().chain(both).collect()
}

fn serials_apart(new: &[u8]) -> Vec<u8> {
    let (head, statements, periods) = blocks(new, 12);
    let part = |from: usize, to: usize| statements.chunks(12).flat_map(move |statement| &statement[from..to]).copied().collect::<Vec<u8>>();
    [head, &part(0, 8), &part(8, 12), periods].concat()
}

fn serial_first(new: &[u8]) -> Vec<u8> {
    let (head, statements, periods) = blocks(new, 12);
    let turned: Vec<u8> = statements.chunks(12).flat_map(|statement| [&statement[8..], &statement[..8]].concat()).collect();
    [head, &turned, periods].concat()
}

fn to_first(bytes: &[u8], width: usize) -> Vec<u8> {
    let (head, statements, periods) = blocks(bytes, width);
    let turned: Vec<u8> = periods.chunks(8).flat_map(|period| [&period[4..], &period[..4]].concat()).collect();
    [head, statements, &turned].concat()
}

/// Statements and periods from the last to the first; the serials ascend.
fn reversed(new: &[u8]) -> Vec<u8> {
    let (head, statements, periods) = blocks(new, 12);
    let serials = statements.chunks(12).map(|statement| &statement[8..]);
    let turned: Vec<u8> = statements.chunks(12).rev().zip(serials).flat_map(|(statement, serial)| [&statement[..8], serial].concat()).collect();
    let periods: Vec<u8> = periods.chunks(8).rev().flatten().copied().collect();
    [head, &turned, &periods].concat()
}

fn head_left(list: Slice, call: impl FnOnce() -> u64) -> u64 {
    let before = list.all();
    changed(call(), list, |bytes| [&before[..6], &bytes[6..]].concat())
}

/// More credentials in the head.
fn counted(bytes: &[u8], more: u16) -> Vec<u8> {
    [&bytes[..4], &(said(bytes) as u16 + more).to_le_bytes(), &bytes[6..]].concat()
}

fn touched(input: Slice, reply: u64) -> u64 {
    let mut bytes = input.all();
    if let Some(last) = bytes.last_mut() {
        *last ^= 1;
    }
    input.write(&bytes);
    reply
}

fn replied(reply: u64, other: impl FnOnce() -> u64) -> u64 {
    if number(reply) == 0 {
        other()
    } else {
        reply
    }
}
