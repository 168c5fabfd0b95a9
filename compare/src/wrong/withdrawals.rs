//! Wrong ways to read a withdrawal list, to cut by it and to refuse it.

use super::checking::reads;
use super::{accepted, check, complete, ends, intervals, known, number, query, refusal, rules, unwritten, Wrong, RIGHT};
use crate::calls::{write_steps, zero, Calls, Given, Second, Slice};
use crate::reference::checking;
use crate::reference::known::Question;
use crate::reference::meaning::Members;
use crate::reference::querying::proof;
use crate::reference::reading::{self, read, with_ends, word, Body, Credential, File};
use crate::reference::withdrawals::{misnames, read_withdrawn, withdraw, withdrawals, Withdrawal, NONE};
use crate::reference::{refuse, Refusal, Rules};

pub const ALL: &[Wrong] = &[
    // The cut.
    rules("withdrawal-covered", cut(|f, l| periods(f, l, |from, to, w| until(from, to, w.saturating_add(1)))), "the withdrawal's minute covered"),
    rules("withdrawal-early", cut(|f, l| periods(f, l, |from, to, w| until(from, to, w.saturating_sub(1)))), "the minute before it uncovered too"),
    rules(
        "withdrawal-at-to",
        cut(|f, l| periods(f, l, |from, to, w| until(from, to, if w == to { to + 1 } else { w }))),
        "nothing withdrawn where the minute is `to`",
    ),
    rules(
        "withdrawal-after-to",
        cut(|f, l| periods(f, l, |from, to, w| until(from, to, if w == to + 1 { to } else { w }))),
        "the last minute withdrawn where the minute is to + 1",
    ),
    rules("withdrawal-extends", cut(|f, l| periods(f, l, |from, _, w| (w > from).then(|| (from, w - 1)))), "a later minute extends the period"),
    rules(
        "withdrawal-at-from",
        cut(|f, l| periods(f, l, |from, to, w| until(from, to, if w == from { from + 1 } else { w }))),
        "one minute left where the minute is `from`",
    ),
    rules("withdrawal-minute-left", cut(|f, l| periods(f, l, |from, to, w| until(from, to, w.max(from + 1)))), "one minute always left"),
    rules(
        "withdrawal-before-from",
        cut(|f, l| periods(f, l, |from, to, w| if w < from { Some((from, to)) } else { until(from, to, w) })),
        "nothing withdrawn before `from`",
    ),
    rules(
        "withdrawal-up-to-from",
        cut(|f, l| periods(f, l, |from, to, w| if w <= from { Some((from, to)) } else { until(from, to, w) })),
        "nothing withdrawn at or before `from`",
    ),
    rules("withdrawal-cuts-from", cut(|f, l| periods(f, l, |from, to, w| (w <= to).then_some((from.max(w), to)))), "`from` cut in place of `to`"),
    rules("withdrawal-empties", cut(|f, l| periods(f, l, |from, to, w| (w > to).then_some((from, to)))), "emptied where it should be cut"),
    rules("withdrawal-always-empties", cut(|f, l| periods(f, l, |_, _, _| None)), "emptied by any minute"),
    rules(
        "withdrawal-zero",
        cut(|f, l| periods(f, l, |from, to, w| if w == 0 { Some((from, to)) } else { until(from, to, w) })),
        "nothing withdrawn from minute 0",
    ),
    rules("withdrawal-last", cut(|f, l| periods(f, l, |from, to, w| until(from, to, w.wrapping_add(1).saturating_sub(1)))), "4,294,967,295 as 0"),
    rules("withdrawal-31-bits", cut(|f, l| periods(f, l, |from, to, w| until(from, to, w << 1 >> 1))), "the minute's highest bit ignored"),
    rules("withdrawal-16-bits", cut(|f, l| periods(f, l, |from, to, w| until(from, to, w & 0xFFFF))), "the minute's low 16 bits"),
    rules(
        "withdrawal-signed",
        cut(|f, l| periods(f, l, |from, to, w| if (w as i32) <= from as i32 { None } else { until(from, to, w.max(from + 1)) })),
        "minute and `from` compared with a sign",
    ),
    rules("withdrawal-first-only", cut(|f, l| withdraw(f, &l[..l.len().min(1)])), "only the list's first withdrawal made"),
    rules("withdrawal-not-the-last", cut(|f, l| withdraw(f, &l[..l.len().saturating_sub(1)])), "the list's last withdrawal not made"),
    rules("withdrawal-255", cut(|f, l| withdraw(f, &l[..l.len().min(255)])), "only 255 withdrawals made"),
    rules("withdrawal-not-of-first", cut(|f, l| only(f, l, |i, _, _| i > 0)), "the first credential not withdrawn"),
    rules("withdrawal-not-of-last", cut(|f, l| only(f, l, |i, n, _| i + 1 < n)), "the last credential not withdrawn"),
    rules("withdrawal-of-facts", cut(|f, l| only(f, l, |_, _, c| matches!(c.body, Body::Entity(_)))), "only kind 0 withdrawn"),
    rules("withdrawal-not-of-facts", cut(|f, l| only(f, l, |_, _, c| !matches!(c.body, Body::Entity(_)))), "kind 0 not withdrawn"),
    rules("withdrawal-earliest", cut(earliest), "all named credentials withdrawn from the earliest minute"),
    rules("withdrawal-of-all", cut(of_all), "the first withdrawal made of all credentials"),
    rules("withdrawal-of-role", cut(|f, l| alike(f, l, |a, b| a.head == b.head)), "a withdrawal made of all credentials of its role"),
    rules(
        "withdrawal-of-statement",
        cut(|f, l| alike(f, l, |a, b| (a.head, a.body) == (b.head, b.body))),
        "a withdrawal made of all equal statements",
    ),
    rules("withdrawal-of-before", cut(of_before), "a withdrawal made of the credential before the named one"),
    rules("withdrawal-struck", cut(struck), "emptied credentials struck out, so that positions shift"),
    // Which credential a withdrawal names.
    rules("withdrawal-by-position", cut(|f, l| by(f, l, |place| place)), "cut by position, not by serial"),
    rules("withdrawal-by-number", cut(|f, l| by(f, l, |place| place + 1)), "cut by position plus one"),
    rules("withdrawal-positions", Rules { misnames: no_position, withdraws: |f, l| by(f, l, |place| place), ..RIGHT }, "positions read, not serials"),
    rules("withdrawal-in-turn", cut(in_turn), "the credential at the withdrawal's own place in the list cut"),
    rules("withdrawal-halved", cut(halved), "the list searched as if its serials ascended"),
    rules("withdrawal-8-bits", by_bits(|f, l| twice_or_unknown(f, l, 0xFF), |f, l| masked(f, l, 0xFF)), "serials compared by 8 bits"),
    rules(
        "withdrawal-lower-half",
        by_bits(|f, l| twice_or_unknown(f, l, 0xFFFF), |f, l| masked(f, l, 0xFFFF)),
        "serials compared by the lower 16 bits",
    ),
    rules(
        "withdrawal-upper-half",
        by_bits(|f, l| twice_or_unknown(f, l, !0xFFFF), |f, l| masked(f, l, !0xFFFF)),
        "serials compared by the upper 16 bits",
    ),
    rules("withdrawal-24-bits", by_bits(|f, l| twice_or_unknown(f, l, !0 >> 8), |f, l| masked(f, l, !0 >> 8)), "serials compared by 24 bits"),
    rules("withdrawal-serial-sign", by_bits(|f, l| twice_or_unknown(f, l, !0 >> 1), |f, l| masked(f, l, !0 >> 1)), "serials compared by 31 bits"),
    // The ends, and what is valid.
    rules(
        "emptied-ends-kept",
        Rules { left: |from, end, w| if w <= from { vec![from, end] } else { left(from, end, w) }, ..RIGHT },
        "both ends of an emptied credential kept",
    ),
    rules(
        "emptied-from-kept",
        Rules { left: |from, end, w| if w <= from { vec![from] } else { left(from, end, w) }, ..RIGHT },
        "`from` of an emptied credential kept as an end",
    ),
    rules(
        "emptied-end-kept",
        Rules { left: |from, end, w| if w <= from { vec![end] } else { left(from, end, w) }, ..RIGHT },
        "to + 1 of an emptied credential kept as an end",
    ),
    rules(
        "emptied-at-minute",
        Rules { left: |from, end, w| if w <= from { vec![w] } else { left(from, end, w) }, ..RIGHT },
        "the minute of an emptied credential's withdrawal as an end",
    ),
    rules("withdrawn-ends-uncut", Rules { left: |from, end, _| vec![from, end], ..RIGHT }, "memberships cut, ends not"),
    rules("withdrawn-ends-both", Rules { left: ends_both, ..RIGHT }, "to + 1 an end beside the withdrawal's minute"),
    rules("withdrawn-ends-only", Rules { gone: |_, _| false, ..RIGHT }, "ends cut, memberships not"),
    rules("withdrawn-ends-after", Rules { left: ends_after, ..RIGHT }, "the minute after the withdrawal's as an end"),
    rules("withdrawn-minute-gone", Rules { gone: |w, minute| w == minute, ..RIGHT }, "gone at the withdrawal's minute alone"),
    rules("withdrawn-minute-stays", Rules { gone: |w, minute| w < minute, ..RIGHT }, "valid at the withdrawal's minute, which is an end"),
    // The list's bytes.
    rules("list-256-refused", listed(|b| if said(b) > 255 { refuse(20) } else { withdrawals(b) }), "256 withdrawals refused"),
    rules("list-257-taken", listed(|b| of_count(b, said(b), 257)), "257 withdrawals allowed"),
    rules("list-any-count", listed(|b| of_count(b, said(b), usize::MAX)), "any number of withdrawals allowed"),
    rules("list-low-byte", listed(|b| of_count(b, said(b) % 256, 256)), "the count in one byte, the next skipped"),
    rules("list-highest-first", listed(|b| of_count(b, said(b) % 256 * 256 + said(b) / 256, 256)), "the count's highest byte first"),
    rules("list-count-of-15", listed(|b| of_count(b, said(b) % 32_768, 256)), "the count's highest bit ignored"),
    rules("list-count-ignored", listed(|b| of_count(b, b.len().saturating_sub(2) / 8, 256)), "the count taken from the length"),
    rules("list-count-of-1", listed(|b| withdrawals(&[&b[..b.len().min(1)], &[0], &b[b.len().min(1)..]].concat())), "a count of one byte"),
    rules("list-count-of-4", listed(count_of_four), "a count of four bytes"),
    rules("list-longer", listed(|b| withdrawals(&b[..b.len().min(2 + 8 * said(b))])), "a longer list taken"),
    rules("list-byte-longer", listed(|b| withdrawals(&b[..b.len() - (b.len() == 3 + 8 * said(b)) as usize])), "a byte more taken"),
    rules("list-shorter", listed(shorter), "a shorter list taken as far as it goes"),
    rules("list-rounded", listed(|b| withdrawals(&b[..b.len() - b.len().saturating_sub(2) % 8])), "a length that is not whole rounded down"),
    rules("list-empty", listed(|b| if b.is_empty() { Ok(vec![]) } else { withdrawals(b) }), "no bytes taken for count 0"),
    rules("list-one-byte", listed(|b| if b.len() == 1 { Ok(vec![]) } else { withdrawals(b) }), "one byte taken for count 0"),
    rules("list-zero-byte", listed(|b| if b == [0] { Ok(vec![]) } else { withdrawals(b) }), "one byte 0 taken for count 0"),
    rules("list-none", listed(|b| if b == NONE { refuse(20) } else { withdrawals(b) }), "count 0 refused"),
    rules("list-none-longer", listed(|b| if b.starts_with(NONE) { Ok(vec![]) } else { withdrawals(b) }), "any length taken with count 0"),
    rules("list-serials-only", listed(|b| serials_only(b)), "a list without minutes taken"),
    rules("list-pairs", listed(|b| relaid(b, |word, _, i| (word(2 * i), word(2 * i + 1)))), "pairs of serial and minute"),
    rules("list-minutes-first", listed(|b| relaid(b, |word, n, i| (word(n + i), word(i)))), "minutes before serials"),
    rules("list-pairs-turned", listed(|b| relaid(b, |word, _, i| (word(2 * i + 1), word(2 * i)))), "pairs of minute and serial"),
    rules("list-minutes-turned", listed(|b| relaid(b, |word, n, i| (word(i), word(2 * n - 1 - i)))), "minutes from the last to the first"),
    rules("list-minutes-moved", listed(|b| relaid(b, |word, n, i| (word(i), word(n + (i + 1) % n)))), "each serial with the next one's minute"),
    rules("list-one-minute", listed(|b| relaid(b, |word, n, i| (word(i), word(n)))), "the first minute for all"),
    rules("list-serial-bytes", listed(|b| relaid(b, |word, n, i| (word(i).swap_bytes(), word(n + i)))), "a serial's highest byte first"),
    rules("list-minute-bytes", listed(|b| relaid(b, |word, n, i| (word(i), word(n + i).swap_bytes()))), "a minute's highest byte first"),
    rules("list-last-minute", listed(last_minute), "20 for the minute 4,294,967,295"),
    rules("twenty-never", NO_20, "20 never given, the list as if of count 0"),
    rules("twenty-place", Rules { reads_withdrawn: |r, b, l| placed(r, b, l, 20, |_, l| l.len() as u32), ..RIGHT }, "20 with the length as place"),
    rules("twenty-as-9", Rules { reads_withdrawn: |r, b, l| renumbered(r, b, l, 20, 9), ..RIGHT }, "9 in place of 20"),
    rules("twenty-as-21", Rules { reads_withdrawn: |r, b, l| renumbered(r, b, l, 20, 21), ..RIGHT }, "21 in place of 20"),
    // The list's serials.
    rules("twenty-one-never", NO_21, "21 never given"),
    rules("unknown-ignored", named(|_, l| repeated(l)), "a serial on no credential ignored"),
    rules("unknown-zero", named(|f, l| misnames(f, l) && !others_named(f, l, |w| w.serial == 0)), "serial 0 ignored"),
    rules(
        "unknown-without-effect",
        named(|f, l| misnames(f, l) && !others_named(f, l, |w| w.minute == u32::MAX)),
        "a serial on no credential ignored with the last minute",
    ),
    rules("unknown-first", named(|f, l| repeated(l) || l.first().is_some_and(|w| unknown(f, w))), "only the first serial searched for"),
    rules("unknown-last", named(|f, l| repeated(l) || l.last().is_some_and(|w| unknown(f, w))), "only the last serial searched for"),
    rules("unknown-not-last", named(|f, l| repeated(l) || l.iter().rev().skip(1).any(|w| unknown(f, w))), "all searched for but the last"),
    rules("unknown-all", named(|f, l| repeated(l) || !l.is_empty() && l.iter().all(|w| unknown(f, w))), "21 only where no serial is on a credential"),
    rules(
        "unknown-range",
        named(|f, l| repeated(l) || l.iter().any(|w| unknown(f, w) && !within_serials(f, w.serial))),
        "any serial from the least to the greatest taken",
    ),
    rules(
        "unknown-position",
        named(|f, l| repeated(l) || l.iter().any(|w| unknown(f, w) && w.serial as usize > f.credentials.len())),
        "any serial from 1 to N taken",
    ),
    rules("unknown-more", named(|f, l| repeated(l) || l.len() > f.credentials.len()), "only more withdrawals than credentials refused"),
    rules("repeated-ignored", named(any_unknown), "a serial twice allowed, the first counts"),
    rules(
        "repeated-last",
        Rules { misnames: any_unknown, withdraws: |f, l| withdraw(f, &turned(l)), ..RIGHT },
        "a serial twice allowed, the last counts",
    ),
    rules(
        "repeated-earliest",
        Rules { misnames: any_unknown, withdraws: first_minute, ..RIGHT },
        "a serial twice allowed, the earlier minute counts",
    ),
    rules("repeated-alike", named(|f, l| any_unknown(f, l) || repeated_unlike(l)), "a serial twice allowed at the same minute"),
    rules(
        "repeated-neighbours",
        named(|f, l| any_unknown(f, l) || l.windows(2).any(|two| two[0].serial == two[1].serial)),
        "a serial twice allowed but for neighbours",
    ),
    rules("repeated-apart", named(|f, l| any_unknown(f, l) || repeated_apart(l)), "a serial twice allowed in neighbours"),
    rules(
        "repeated-first",
        named(|f, l| any_unknown(f, l) || l.iter().skip(1).any(|w| w.serial == l[0].serial)),
        "a serial twice allowed but for the first",
    ),
    rules(
        "repeated-not-last",
        named(|f, l| any_unknown(f, l) || repeated(&l[..l.len().saturating_sub(1)])),
        "the last serial not compared with the others",
    ),
    rules("repeated-minute", named(|f, l| misnames(f, l) || minute_twice(l)), "21 for a minute twice"),
    rules("named-descending", named(|f, l| misnames(f, l) || l.windows(2).any(|two| two[0].serial > two[1].serial)), "ascending serials demanded"),
    rules("named-out-of-order", named(|f, l| misnames(f, l) || out_of_order(f, l)), "the file's order demanded"),
    rules("named-all", named(|f, l| misnames(f, l) || !l.is_empty() && l.len() == f.credentials.len()), "21 where all are named"),
    rules("named-emptied", named(|f, l| misnames(f, l) || touches(f, l, |c, w| w <= c.from)), "21 where a credential is emptied"),
    rules("named-late", named(|f, l| misnames(f, l) || touches(f, l, |c, w| w > c.to)), "21 where the minute is after the period"),
    rules(
        "named-late-by-two",
        named(|f, l| misnames(f, l) || touches(f, l, |c, w| w > c.to + 1)),
        "21 where the minute is two after the period or more",
    ),
    rules("named-last", named(|f, l| misnames(f, l) || l.iter().any(|w| w.minute == u32::MAX)), "21 for the minute 4,294,967,295"),
    rules("twenty-one-place", Rules { reads_withdrawn: |r, b, l| placed(r, b, l, 21, wrong_entry), ..RIGHT }, "21 with the withdrawal as place"),
    rules("twenty-one-as-17", Rules { reads_withdrawn: |r, b, l| renumbered(r, b, l, 21, 17), ..RIGHT }, "17 in place of 21"),
    rules("emptied-seven", Rules { reads_withdrawn: seven, ..RIGHT }, "7 for an emptied credential"),
    rules("emptied-none-left", Rules { reads_withdrawn: none_left, ..RIGHT }, "21 where no credential has minutes left"),
    // The order of refusals.
    rules("twenty-first", Rules { reads_withdrawn: |r, b, l| sooner(r, b, l, &[1, 2, 3, 4, 5, 6, 7, 17]), ..RIGHT }, "20 before the file"),
    rules("twenty-before-1", Rules { reads_withdrawn: |r, b, l| sooner(r, b, l, &[1]), ..RIGHT }, "20 before 1 alone"),
    rules("twenty-before-2", Rules { reads_withdrawn: |r, b, l| sooner(r, b, l, &[2]), ..RIGHT }, "20 before 2 alone"),
    rules("twenty-before-3", Rules { reads_withdrawn: |r, b, l| sooner(r, b, l, &[3]), ..RIGHT }, "20 before 3 alone"),
    rules("twenty-before-4", Rules { reads_withdrawn: |r, b, l| sooner(r, b, l, &[4, 5, 6, 7, 17]), ..RIGHT }, "20 before the credentials"),
    rules("twenty-before-7", Rules { reads_withdrawn: |r, b, l| sooner(r, b, l, &[7]), ..RIGHT }, "20 before 7 alone"),
    rules("twenty-before-17", Rules { reads_withdrawn: |r, b, l| sooner(r, b, l, &[17]), ..RIGHT }, "20 before 17 alone"),
    rules("twenty-one-first", Rules { reads_withdrawn: repeated_sooner, ..RIGHT }, "a serial twice refused before the file"),
    rules("twenty-one-before-17", Rules { reads_withdrawn: named_sooner, ..RIGHT }, "21 before 17"),
    rules("twenty-one-before-20", Rules { reads_withdrawn: named_before_20, ..RIGHT }, "21 before 20"),
    rules("eight-before-20", Rules { reads_withdrawn: |r, b, l| uncut_sooner(r, b, l, &[20]), ..RIGHT }, "8 before 20"),
    rules("eight-before-21", Rules { reads_withdrawn: |r, b, l| uncut_sooner(r, b, l, &[21]), ..RIGHT }, "8 before 21"),
    rules("eight-cut-before-21", Rules { reads_withdrawn: cut_before_21, ..RIGHT }, "8 after the cut, before 21"),
    rules("eight-uncut", EIGHT_UNCUT, "8 counted uncut"),
    rules("eight-either", Rules { reads_withdrawn: |r, b, l| uncut_sooner(r, b, l, &[0, 20, 21]), ..RIGHT }, "8 counted uncut too"),
    rules("eight-emptied", Rules { reads_withdrawn: eight_emptied, ..RIGHT }, "8 counts the ends of emptied credentials"),
    rules("eight-cut-only", Rules { reads_withdrawn: eight_cut_only, ..RIGHT }, "8 where both the file and what is left have over 64 ends"),
    rules("eight-at-64-cut", Rules { reads_withdrawn: eight_at_64, ..RIGHT }, "64 ends refused with a list"),
    // One call alone.
    complete("complete-uncut", |_, f, l| Second { rules: UNCUT }.complete(f, l), "completing uncut"),
    query("query-uncut", |_, f, q, l| Second { rules: UNCUT }.query(f, q, l), "querying uncut"),
    check("check-uncut", |_, f, q, l, n| Second { rules: UNCUT }.check(f, q, l, n), "checking uncut"),
    ends("ends-uncut", |_, f, l| Second { rules: UNCUT }.ends(f, l), "ends uncut"),
    intervals("intervals-uncut", |_, f, n, l| Second { rules: UNCUT }.intervals(f, n, l), "intervals uncut"),
    complete("complete-list-unread", |s, f, l| s.complete(unlisted(f), l), "completing reads no list"),
    query("query-list-unread", |s, f, q, l| s.query(unlisted(f), q, l), "querying reads no list"),
    check("check-list-unread", |s, f, q, l, n| s.check(unlisted(f), q, l, n), "checking reads no list"),
    ends("ends-list-unread", |s, f, l| s.ends(unlisted(f), l), "the ends read no list"),
    intervals("intervals-list-unread", |s, f, n, l| s.intervals(unlisted(f), n, l), "the intervals read no list"),
    complete("complete-without-20", |_, f, l| Second { rules: NO_20 }.complete(f, l), "20 never given by completing"),
    query("query-without-20", |_, f, q, l| Second { rules: NO_20 }.query(f, q, l), "20 never given by querying"),
    check("check-without-20", |_, f, q, l, n| Second { rules: NO_20 }.check(f, q, l, n), "20 never given by checking"),
    ends("ends-without-20", |_, f, l| Second { rules: NO_20 }.ends(f, l), "20 never given with the ends"),
    intervals("intervals-without-20", |_, f, n, l| Second { rules: NO_20 }.intervals(f, n, l), "20 never given with the intervals"),
    complete("complete-without-21", |_, f, l| Second { rules: NO_21 }.complete(f, l), "21 never given by completing"),
    query("query-without-21", |_, f, q, l| Second { rules: NO_21 }.query(f, q, l), "21 never given by querying"),
    check("check-without-21", |_, f, q, l, n| Second { rules: NO_21 }.check(f, q, l, n), "21 never given by checking"),
    ends("ends-without-21", |_, f, l| Second { rules: NO_21 }.ends(f, l), "21 never given with the ends"),
    intervals("intervals-without-21", |_, f, n, l| Second { rules: NO_21 }.intervals(f, n, l), "21 never given with the intervals"),
    complete("complete-eight-uncut", |_, f, l| Second { rules: EIGHT_UNCUT }.complete(f, l), "8 counted uncut by completing"),
    query("query-eight-uncut", |_, f, q, l| Second { rules: EIGHT_UNCUT }.query(f, q, l), "8 counted uncut by querying"),
    check("check-eight-uncut", |_, f, q, l, n| Second { rules: EIGHT_UNCUT }.check(f, q, l, n), "8 counted uncut by checking"),
    ends("ends-eight-uncut", |_, f, l| Second { rules: EIGHT_UNCUT }.ends(f, l), "8 counted uncut with the ends"),
    intervals("intervals-eight-uncut", |_, f, n, l| Second { rules: EIGHT_UNCUT }.intervals(f, n, l), "8 counted uncut with the intervals"),
    complete("complete-ten-uncut", complete_ten, "10 counted on the uncut memberships"),
    query("query-ten-uncut", query_ten, "10 counted on the uncut memberships at the minute"),
    query("query-level-uncut", query_level, "the least level of the uncut file"),
    query("query-proof-uncut", query_proof, "where there is a proof, one of the uncut file"),
    check("check-last-withdrawn", |s, f, q, l, n| lax(s, f, q, l, n, |i, last| i == last), "only the last step's credential withdrawn"),
    check("check-first-withdrawn", |s, f, q, l, n| lax(s, f, q, l, n, |i, _| i == 0), "only the first step's credential withdrawn"),
    check("check-premises-withdrawn", |s, f, q, l, n| lax(s, f, q, l, n, |i, last| i != last), "the last step's credential not withdrawn"),
    check("check-emptied-uncut", |_, f, q, l, n| Second { rules: EMPTIED_UNCUT }.check(f, q, l, n), "emptied credentials pass uncut in checking"),
    check("check-minute-covered", |_, f, q, l, n| Second { rules: COVERED }.check(f, q, l, n), "the withdrawal's minute covered in checking"),
    query("query-minute-covered", |_, f, q, l| Second { rules: COVERED }.query(f, q, l), "the withdrawal's minute covered in querying"),
    // The other arguments before the list.
    complete("complete-nine-before-20", |s, f, l| for_other(s.complete(f, l), 20, 9, || uncut_complete(s, f, l)), "9 before 20 in completing"),
    complete("complete-nine-before-21", |s, f, l| for_other(s.complete(f, l), 21, 9, || uncut_complete(s, f, l)), "9 before 21 in completing"),
    query("query-nine-before-20", |s, f, q, l| for_other(s.query(f, q, l), 20, 9, || uncut_query(s, f, q, l)), "9 before 20 in querying"),
    query("query-nine-before-21", |s, f, q, l| for_other(s.query(f, q, l), 21, 9, || uncut_query(s, f, q, l)), "9 before 21 in querying"),
    query("query-eleven-before-20", |s, f, q, l| for_other(s.query(f, q, l), 20, 11, || uncut_query(s, f, q, l)), "11 before 20 in querying"),
    query("query-eleven-before-21", |s, f, q, l| for_other(s.query(f, q, l), 21, 11, || uncut_query(s, f, q, l)), "11 before 21 in querying"),
    query("query-twelve-before-20", |s, f, q, l| for_other(s.query(f, q, l), 20, 12, || uncut_query(s, f, q, l)), "12 before 20 in querying"),
    query("query-twelve-before-21", |s, f, q, l| for_other(s.query(f, q, l), 21, 12, || uncut_query(s, f, q, l)), "12 before 21 in querying"),
    check("check-nine-before-20", |s, f, q, l, n| for_other(s.check(f, q, l, n), 20, 9, || s.check(unlisted(f), q, l, n)), "9 before 20 in checking"),
    check("check-nine-before-21", |s, f, q, l, n| for_other(s.check(f, q, l, n), 21, 9, || s.check(unlisted(f), q, l, n)), "9 before 21 in checking"),
    check(
        "check-eleven-before-20",
        |s, f, q, l, n| for_other(s.check(f, q, l, n), 20, 11, || s.check(unlisted(f), q, l, n)),
        "11 before 20 in checking",
    ),
    check(
        "check-eleven-before-21",
        |s, f, q, l, n| for_other(s.check(f, q, l, n), 21, 11, || s.check(unlisted(f), q, l, n)),
        "11 before 21 in checking",
    ),
    check(
        "check-twelve-before-20",
        |s, f, q, l, n| for_other(s.check(f, q, l, n), 20, 12, || s.check(unlisted(f), q, l, n)),
        "12 before 20 in checking",
    ),
    check(
        "check-twelve-before-21",
        |s, f, q, l, n| for_other(s.check(f, q, l, n), 21, 12, || s.check(unlisted(f), q, l, n)),
        "12 before 21 in checking",
    ),
    check("check-14-before-20", |s, f, q, l, n| for_other(s.check(f, q, l, n), 20, 14, || s.check(unlisted(f), q, l, n)), "14 before 20 in checking"),
    check("check-14-before-21", |s, f, q, l, n| for_other(s.check(f, q, l, n), 21, 14, || s.check(unlisted(f), q, l, n)), "14 before 21 in checking"),
    ends("ends-nine-before-20", |s, f, l| for_other(s.ends(f, l), 20, 9, || uncut_ends(s, f, l)), "9 before 20 with the ends"),
    ends("ends-nine-before-21", |s, f, l| for_other(s.ends(f, l), 21, 9, || uncut_ends(s, f, l)), "9 before 21 with the ends"),
    intervals(
        "intervals-9-before-20",
        |s, f, n, l| for_other(s.intervals(f, n, l), 20, 9, || uncut_intervals(s, f, n, l)),
        "9 before 20 with the intervals",
    ),
    intervals(
        "intervals-9-before-21",
        |s, f, n, l| for_other(s.intervals(f, n, l), 21, 9, || uncut_intervals(s, f, n, l)),
        "9 before 21 with the intervals",
    ),
    intervals(
        "intervals-11-before-20",
        |s, f, n, l| for_other(s.intervals(f, n, l), 20, 11, || uncut_intervals(s, f, n, l)),
        "11 before 20 with the intervals",
    ),
    intervals(
        "intervals-11-before-21",
        |s, f, n, l| for_other(s.intervals(f, n, l), 21, 11, || uncut_intervals(s, f, n, l)),
        "11 before 21 with the intervals",
    ),
    complete("complete-nine-before-cut", |s, f, l| nine_for_8(s.complete(f, l), f, || uncut_complete(s, f, l)), "9 before an 8 that the cut makes"),
    // What is written after 20 and 21.
    complete("complete-cleared-on-20", |s, f, l| cleared(&l, s.complete(f, l), 20), "completing's lists cleared after 20"),
    complete("complete-cleared-on-21", |s, f, l| cleared(&l, s.complete(f, l), 21), "completing's lists cleared after 21"),
    query("query-cleared-on-20", |s, f, q, l| cleared(&l, s.query(f, q, l), 20), "querying's lists cleared after 20"),
    query("query-cleared-on-21", |s, f, q, l| cleared(&l, s.query(f, q, l), 21), "querying's lists cleared after 21"),
    check("check-cleared-on-20", |s, f, q, l, n| cleared(&l, s.check(f, q, l, n), 20), "checking's lists cleared after 20"),
    check("check-cleared-on-21", |s, f, q, l, n| cleared(&l, s.check(f, q, l, n), 21), "checking's lists cleared after 21"),
    ends("ends-cleared-on-20", |s, f, l| cleared(&[l], s.ends(f, l), 20), "the list of ends cleared after 20"),
    ends("ends-cleared-on-21", |s, f, l| cleared(&[l], s.ends(f, l), 21), "the list of ends cleared after 21"),
    intervals("intervals-cleared-on-20", |s, f, n, l| cleared(&[l], s.intervals(f, n, l), 20), "the list of intervals cleared after 20"),
    intervals("intervals-cleared-on-21", |s, f, n, l| cleared(&[l], s.intervals(f, n, l), 21), "the list of intervals cleared after 21"),
    complete("complete-written-on-21", |s, f, l| on_21(s.complete(f, l), || Second { rules: NO_21 }.complete(f, l)), "the table written before 21"),
    ends("ends-written-on-21", |s, f, l| on_21(s.ends(f, l), || Second { rules: NO_21 }.ends(f, l)), "the ends written before 21"),
    complete("complete-list-changed", |s, f, l| touched(f, s.complete(f, l)), "a byte of the withdrawal list changed by completing"),
    query("query-list-changed", |s, f, q, l| touched(f, s.query(f, q, l)), "a byte of the withdrawal list changed by querying"),
    check("check-list-changed", |s, f, q, l, n| touched(f, s.check(f, q, l, n)), "a byte of the withdrawal list changed by checking"),
    ends("ends-list-changed", |s, f, l| touched(f, s.ends(f, l)), "a byte of the withdrawal list changed with the ends"),
    intervals("intervals-list-changed", |s, f, n, l| touched(f, s.intervals(f, n, l)), "a byte of the withdrawal list changed with the intervals"),
];

const UNCUT: Rules = cut(|_, _| {});
const NO_20: Rules = listed(|bytes| Ok(withdrawals(bytes).unwrap_or_default()));
const NO_21: Rules = named(|_, _| false);
const EIGHT_UNCUT: Rules = Rules { reads_withdrawn: eight_uncut, ..RIGHT };
const EMPTIED_UNCUT: Rules = cut(|file, list| periods(file, list, |from, to, w| until(from, to, w).or(Some((from, to)))));
const COVERED: Rules = cut(|file, list| periods(file, list, |from, to, w| until(from, to, w.saturating_add(1))));

const fn cut(withdraws: fn(&mut File, &[Withdrawal])) -> Rules {
    Rules { withdraws, ..RIGHT }
}

const fn listed(lists: fn(&[u8]) -> Result<Vec<Withdrawal>, Refusal>) -> Rules {
    Rules { lists, ..RIGHT }
}

const fn named(misnames: fn(&File, &[Withdrawal]) -> bool) -> Rules {
    Rules { misnames, ..RIGHT }
}

const fn by_bits(misnames: fn(&File, &[Withdrawal]) -> bool, withdraws: fn(&mut File, &[Withdrawal])) -> Rules {
    Rules { misnames, withdraws, ..RIGHT }
}

/// The right ends of what is left.
fn left(from: u32, end: u32, w: u32) -> Vec<u32> {
    (RIGHT.left)(from, end, w)
}

/// A period's minutes before a minute.
fn until(from: u32, to: u32, w: u32) -> Option<(u32, u32)> {
    (w > from).then(|| (from, to.min(w - 1)))
}

/// The withdrawal of a credential, if the list has one.
fn of<'a>(list: &'a [Withdrawal], credential: &Credential) -> Option<&'a Withdrawal> {
    list.iter().find(|withdrawal| withdrawal.serial == credential.serial)
}

/// The periods of named credentials changed, or emptied.
fn periods(file: &mut File, list: &[Withdrawal], change: fn(u32, u32, u32) -> Option<(u32, u32)>) {
    for credential in &mut file.credentials {
        if let Some(withdrawal) = of(list, credential) {
            match change(credential.from, credential.to, withdrawal.minute) {
                Some((from, to)) => (credential.from, credential.to) = (from, to),
                None => credential.withdrawn = Some(0),
            }
        }
    }
}

/// The withdrawals of some credentials made.
fn only(file: &mut File, list: &[Withdrawal], keep: fn(usize, usize, &Credential) -> bool) {
    withdraw(file, list);
    let count = file.credentials.len();
    for (place, credential) in file.credentials.iter_mut().enumerate() {
        if !keep(place, count, credential) {
            credential.withdrawn = None;
        }
    }
}

fn earliest(file: &mut File, list: &[Withdrawal]) {
    let minute = list.iter().map(|withdrawal| withdrawal.minute).min();
    let all = file.credentials.iter_mut().filter(|credential| of(list, credential).is_some());
    all.for_each(|credential| credential.withdrawn = minute);
}

fn of_all(file: &mut File, list: &[Withdrawal]) {
    let minute = list.first().map(|withdrawal| withdrawal.minute);
    file.credentials.iter_mut().for_each(|credential| credential.withdrawn = minute);
}

fn alike(file: &mut File, list: &[Withdrawal], alike: fn(&Credential, &Credential) -> bool) {
    withdraw(file, list);
    let all = file.credentials.clone();
    for credential in &mut file.credentials {
        credential.withdrawn = all.iter().filter(|other| alike(credential, other)).filter_map(|other| other.withdrawn).min();
    }
}

fn of_before(file: &mut File, list: &[Withdrawal]) {
    let all = file.credentials.clone();
    for (place, credential) in file.credentials.iter_mut().enumerate() {
        credential.withdrawn = all.get(place + 1).and_then(|next| of(list, next)).map(|withdrawal| withdrawal.minute);
    }
}

fn struck(file: &mut File, list: &[Withdrawal]) {
    withdraw(file, list);
    file.credentials.retain(|credential| !reading::ends(&RIGHT, credential).is_empty());
}

/// Each credential cut by what the list has for a number that its position gives.
fn by(file: &mut File, list: &[Withdrawal], number: fn(u32) -> u32) {
    for (place, credential) in file.credentials.iter_mut().enumerate() {
        credential.withdrawn = list.iter().find(|withdrawal| withdrawal.serial == number(place as u32)).map(|withdrawal| withdrawal.minute);
    }
}

fn no_position(file: &File, list: &[Withdrawal]) -> bool {
    repeated(list) || list.iter().any(|withdrawal| withdrawal.serial as usize >= file.credentials.len())
}

fn in_turn(file: &mut File, list: &[Withdrawal]) {
    for (credential, withdrawal) in file.credentials.iter_mut().zip(list) {
        credential.withdrawn = Some(withdrawal.minute);
    }
}

fn halved(file: &mut File, list: &[Withdrawal]) {
    for credential in &mut file.credentials {
        let place = list.binary_search_by_key(&credential.serial, |withdrawal| withdrawal.serial);
        credential.withdrawn = place.ok().map(|place| list[place].minute);
    }
}

fn twice_or_unknown(file: &File, list: &[Withdrawal], mask: u32) -> bool {
    let masked: Vec<Withdrawal> = list.iter().map(|w| Withdrawal { serial: w.serial & mask, ..*w }).collect();
    repeated(&masked) || masked.iter().any(|w| !file.credentials.iter().any(|c| c.serial & mask == w.serial))
}

fn masked(file: &mut File, list: &[Withdrawal], mask: u32) {
    for credential in &mut file.credentials {
        credential.withdrawn = list.iter().find(|w| w.serial & mask == credential.serial & mask).map(|w| w.minute);
    }
}

fn ends_both(from: u32, end: u32, w: u32) -> Vec<u32> {
    if from < w && w < end {
        vec![from, w, end]
    } else {
        left(from, end, w)
    }
}

fn ends_after(from: u32, end: u32, w: u32) -> Vec<u32> {
    left(from, end, if from < w && w < end { w + 1 } else { w })
}

/// The count that the first two bytes give, 0 without them.
fn said(list: &[u8]) -> usize {
    match list {
        [low, high, ..] => *low as usize + 256 * *high as usize,
        _ => 0,
    }
}

/// A list read with another count, up to a limit.
fn of_count(list: &[u8], count: usize, most: usize) -> Result<Vec<Withdrawal>, Refusal> {
    if list.len() < 2 || count > most || list.len() != 2 + 8 * count {
        return refuse(20);
    }
    let (serials, minutes) = list[2..].split_at(4 * count);
    Ok((0..count).map(|i| Withdrawal { serial: word(serials, i), minute: word(minutes, i) }).collect())
}

fn count_of_four(list: &[u8]) -> Result<Vec<Withdrawal>, Refusal> {
    match list {
        [low, high, 0, 0, rest @ ..] => withdrawals(&[&[*low, *high], rest].concat()),
        _ => refuse(20),
    }
}

fn shorter(list: &[u8]) -> Result<Vec<Withdrawal>, Refusal> {
    let count = said(list);
    if count > 256 || list.len() < 2 || list.len() >= 2 + 8 * count {
        return withdrawals(list);
    }
    let mut whole = list.to_vec();
    whole.resize(2 + 8 * count, 0);
    let held = list.len().saturating_sub(2 + 4 * count) / 4;
    withdrawals(&whole).map(|all| all.into_iter().take(held).collect())
}

fn serials_only(list: &[u8]) -> Result<Vec<Withdrawal>, Refusal> {
    let count = said(list);
    if count == 0 || list.len() != 2 + 4 * count {
        return withdrawals(list);
    }
    let mut whole = list.to_vec();
    whole.resize(2 + 8 * count, 0);
    withdrawals(&whole)
}

/// Serial and minute of each withdrawal from other places among the list's words, by the count.
type Layout = fn(&dyn Fn(usize) -> u32, usize, usize) -> (u32, u32);

fn relaid(list: &[u8], layout: Layout) -> Result<Vec<Withdrawal>, Refusal> {
    let count = withdrawals(list)?.len();
    let read = |i: usize| word(&list[2..], i);
    let of = |i: usize| layout(&read, count, i);
    Ok((0..count).map(of).map(|(serial, minute)| Withdrawal { serial, minute }).collect())
}

fn last_minute(list: &[u8]) -> Result<Vec<Withdrawal>, Refusal> {
    let all = withdrawals(list)?;
    if all.iter().any(|withdrawal| withdrawal.minute == u32::MAX) {
        return refuse(20);
    }
    Ok(all)
}

/// 20 or 21 with another place.
fn placed(rules: &Rules, bytes: &[u8], list: &[u8], number: u32, place: fn(&[u8], &[u8]) -> u32) -> Result<File, Refusal> {
    read_withdrawn(rules, bytes, list)
        .map_err(|refusal| if refusal.number == number { Refusal { number, place: place(bytes, list) } } else { refusal })
}

/// 20 or 21 with another number.
fn renumbered(rules: &Rules, bytes: &[u8], list: &[u8], number: u32, other: u32) -> Result<File, Refusal> {
    read_withdrawn(rules, bytes, list).map_err(|refusal| if refusal.number == number { Refusal { number: other, place: 0 } } else { refusal })
}

/// The place of the first withdrawal after which 21 holds.
fn wrong_entry(bytes: &[u8], list: &[u8]) -> u32 {
    let (file, list) = (read_credentials(bytes), withdrawals(list).unwrap_or_default());
    (0..list.len()).find(|&i| misnames(&file, &list[..=i])).unwrap_or(0) as u32
}

/// The credentials of a file that 1 to 7 and 17 pass.
fn read_credentials(bytes: &[u8]) -> File {
    (RIGHT.reads)(&RIGHT, bytes).expect("a file whose list is judged")
}

fn unknown(file: &File, withdrawal: &Withdrawal) -> bool {
    !file.credentials.iter().any(|credential| credential.serial == withdrawal.serial)
}

fn any_unknown(file: &File, list: &[Withdrawal]) -> bool {
    list.iter().any(|withdrawal| unknown(file, withdrawal))
}

fn repeated(list: &[Withdrawal]) -> bool {
    (1..list.len()).any(|i| list[..i].iter().any(|earlier| earlier.serial == list[i].serial))
}

fn repeated_unlike(list: &[Withdrawal]) -> bool {
    list.iter().any(|one| list.iter().any(|other| one.serial == other.serial && one.minute != other.minute))
}

fn repeated_apart(list: &[Withdrawal]) -> bool {
    (1..list.len()).any(|i| list[..i - 1].iter().any(|earlier| earlier.serial == list[i].serial))
}

fn minute_twice(list: &[Withdrawal]) -> bool {
    (1..list.len()).any(|i| list[..i].iter().any(|earlier| earlier.minute == list[i].minute))
}

/// Whether 21 no longer refuses the list without its unknown withdrawals of a sort.
fn others_named(file: &File, list: &[Withdrawal], without: fn(&Withdrawal) -> bool) -> bool {
    let others: Vec<Withdrawal> = list.iter().filter(|w| !(unknown(file, w) && without(w))).copied().collect();
    !misnames(file, &others)
}

fn within_serials(file: &File, serial: u32) -> bool {
    let serials = || file.credentials.iter().map(|credential| credential.serial);
    serials().min() <= Some(serial) && Some(serial) <= serials().max()
}

fn turned(list: &[Withdrawal]) -> Vec<Withdrawal> {
    list.iter().rev().copied().collect()
}

fn first_minute(file: &mut File, list: &[Withdrawal]) {
    for credential in &mut file.credentials {
        credential.withdrawn = list.iter().filter(|w| w.serial == credential.serial).map(|w| w.minute).min();
    }
}

fn out_of_order(file: &File, list: &[Withdrawal]) -> bool {
    let place = |w: &Withdrawal| file.credentials.iter().position(|credential| credential.serial == w.serial);
    list.windows(2).any(|two| place(&two[0]) > place(&two[1]))
}

/// Whether some withdrawal stands so to its credential's period.
fn touches(file: &File, list: &[Withdrawal], stands: fn(&Credential, u32) -> bool) -> bool {
    file.credentials.iter().any(|credential| of(list, credential).is_some_and(|w| stands(credential, w.minute)))
}

fn seven(rules: &Rules, bytes: &[u8], list: &[u8]) -> Result<File, Refusal> {
    let file = read_withdrawn(rules, bytes, list)?;
    match file.credentials.iter().position(|credential| reading::ends(rules, credential).is_empty()) {
        Some(place) => Err(Refusal { number: 7, place: place as u32 }),
        None => Ok(file),
    }
}

fn none_left(rules: &Rules, bytes: &[u8], list: &[u8]) -> Result<File, Refusal> {
    let file = read_withdrawn(rules, bytes, list)?;
    if file.ends.is_empty() && !file.credentials.is_empty() {
        return refuse(21);
    }
    Ok(file)
}

/// 20 in place of these refusals of the file.
fn sooner(rules: &Rules, bytes: &[u8], list: &[u8], numbers: &[u32]) -> Result<File, Refusal> {
    read_withdrawn(rules, bytes, list).map_err(|refusal| match withdrawals(list) {
        Err(twenty) if numbers.contains(&refusal.number) => twenty,
        _ => refusal,
    })
}

fn repeated_sooner(rules: &Rules, bytes: &[u8], list: &[u8]) -> Result<File, Refusal> {
    if withdrawals(list).is_ok_and(|list| repeated(&list)) {
        return refuse(21);
    }
    read_withdrawn(rules, bytes, list)
}

fn named_sooner(rules: &Rules, bytes: &[u8], list: &[u8]) -> Result<File, Refusal> {
    let unjudged = Rules { taken: |_, _| false, ..*rules };
    match (read_withdrawn(rules, bytes, list), read_withdrawn(&unjudged, bytes, list)) {
        (Err(Refusal { number: 17, .. }), Err(Refusal { number: 21, .. })) => refuse(21),
        (right, _) => right,
    }
}

/// 21 by as many withdrawals as the bytes hold, where 20 refuses them.
fn named_before_20(rules: &Rules, bytes: &[u8], list: &[u8]) -> Result<File, Refusal> {
    match read_withdrawn(rules, bytes, list) {
        Err(Refusal { number: 20, .. }) if list.len() >= 10 => {
            let count = said(list).min((list.len() - 2) / 8);
            let all = of_count(&list[..2 + 8 * count], count, usize::MAX)?;
            refuse(if misnames(&read_credentials(bytes), &all) { 21 } else { 20 })
        }
        other => other,
    }
}

/// 8 by the uncut ends in place of these refusals, 0 for none.
fn uncut_sooner(rules: &Rules, bytes: &[u8], list: &[u8], numbers: &[u32]) -> Result<File, Refusal> {
    let right = read_withdrawn(rules, bytes, list);
    match read(rules, bytes) {
        Err(eight) if eight.number == 8 && numbers.contains(&right.as_ref().map_or_else(|refusal| refusal.number, |_| 0)) => Err(eight),
        _ => right,
    }
}

fn cut_before_21(rules: &Rules, bytes: &[u8], list: &[u8]) -> Result<File, Refusal> {
    match read_withdrawn(rules, bytes, list) {
        Err(Refusal { number: 21, .. }) => read_withdrawn(&NO_21, bytes, list).and_then(|_| refuse(21)),
        other => other,
    }
}

fn eight_uncut(rules: &Rules, bytes: &[u8], list: &[u8]) -> Result<File, Refusal> {
    let file = read_withdrawn(&Rules { most_ends: usize::MAX, ..*rules }, bytes, list)?;
    read(rules, bytes).map(|_| file)
}

fn eight_emptied(rules: &Rules, bytes: &[u8], list: &[u8]) -> Result<File, Refusal> {
    let kept = |from: u32, end: u32, w: u32| if w <= from { vec![from, end] } else { left(from, end, w) };
    let file = read_withdrawn(rules, bytes, list)?;
    with_ends(&Rules { left: kept, ..*rules }, file.clone()).map(|_| file)
}

fn eight_cut_only(rules: &Rules, bytes: &[u8], list: &[u8]) -> Result<File, Refusal> {
    match (read_withdrawn(rules, bytes, list), read(rules, bytes)) {
        (Err(Refusal { number: 8, .. }), Ok(_)) => read_withdrawn(&Rules { most_ends: usize::MAX, ..*rules }, bytes, list),
        (right, _) => right,
    }
}

fn eight_at_64(rules: &Rules, bytes: &[u8], list: &[u8]) -> Result<File, Refusal> {
    let most_ends = if list == NONE { 64 } else { 63 };
    read_withdrawn(&Rules { most_ends, ..*rules }, bytes, list)
}

/// The same file with the list of count 0.
fn unlisted(given: Given) -> Given {
    // Only read.
    Given { withdrawals: Slice { start: NONE.as_ptr().cast_mut(), length: NONE.len() }, ..given }
}

fn uncut_complete(second: &Second, given: Given, lists: [Slice; 3]) -> u64 {
    unwritten(lists, || second.complete(unlisted(given), lists))
}

fn uncut_query(second: &Second, given: Given, q: Question, lists: [Slice; 4]) -> u64 {
    unwritten(lists, || second.query(unlisted(given), q, lists))
}

fn uncut_ends(second: &Second, given: Given, list: Slice) -> u64 {
    unwritten([list], || second.ends(unlisted(given), list))
}

fn uncut_intervals(second: &Second, given: Given, spans: u64, list: Slice) -> u64 {
    unwritten([list], || second.intervals(unlisted(given), spans, list))
}

/// The refusal of this number in place of 20 or 21, where the call gives it with the list of count 0.
fn for_other(reply: u64, instead_of: u64, wanted: u64, uncut: impl FnOnce() -> u64) -> u64 {
    if number(reply) == instead_of && number(uncut()) == wanted {
        refusal(wanted)
    } else {
        reply
    }
}

/// 9 in place of 8, where the file has 64 ends or fewer before the cut.
fn nine_for_8(reply: u64, given: Given, uncut: impl FnOnce() -> u64) -> u64 {
    match accepted(unlisted(given)) {
        Some(_) => for_other(reply, 8, 9, uncut),
        None => reply,
    }
}

fn complete_ten(second: &Second, given: Given, lists: [Slice; 3]) -> u64 {
    let reply = second.complete(given, lists);
    if number(reply) == 0 && number(uncut_complete(second, given, lists)) == 10 {
        zero(&lists);
        return refusal(10);
    }
    reply
}

fn query_ten(second: &Second, given: Given, q: Question, lists: [Slice; 4]) -> u64 {
    let reply = second.query(given, q, lists);
    if [0, 13].contains(&number(reply)) && number(uncut_query(second, given, q, lists)) == 10 {
        zero(&lists);
        return refusal(10);
    }
    reply
}

fn query_level(second: &Second, given: Given, q: Question, lists: [Slice; 4]) -> u64 {
    let reply = second.query(given, q, lists);
    let uncut = uncut_query(second, given, q, lists);
    if number(reply) == 0 && number(uncut) == 0 {
        return reply % 65_536 + uncut / 65_536 * 65_536;
    }
    reply
}

fn query_proof(second: &Second, given: Given, q: Question, lists: [Slice; 4]) -> u64 {
    let reply = second.query(given, q, lists);
    let uncut = known(unlisted(given));
    if number(reply) != 0 || uncut.read.is_err() {
        return reply;
    }
    let Members::Levels(levels) = &*uncut.members(q.minute) else { return reply };
    let steps = proof(&RIGHT, uncut.read.as_ref().unwrap(), q.minute, levels, q.membership());
    if 4 * steps.len() > lists[0].length {
        return reply;
    }
    write_steps(&steps, lists);
    steps.len() as u64 + levels[&q.membership()] as u64 * 65_536
}

/// Withdrawals judged in some steps only, by the step's place and the last one's.
fn lax(second: &Second, given: Given, q: Question, lists: [Slice; 4], count: u64, judged: fn(usize, usize) -> bool) -> u64 {
    let Some(steps) = reads(second, given, q, lists, count) else { return second.check(given, q, lists, count) };
    let mut file = accepted(given).unwrap();
    let last = steps.len() - 1;
    for (place, step) in steps.iter().enumerate().filter(|&(place, _)| !judged(place, last)) {
        let by_others =
            steps.iter().enumerate().any(|(other, step)| other != place && judged(other, last) && step.credential == steps[place].credential);
        if let Some(credential) = file.credentials.get_mut(step.credential as usize).filter(|_| !by_others) {
            credential.withdrawn = None;
        }
    }
    checking::check(&RIGHT, &file, q.membership(), q.minute, &steps).map_or_else(|refusal| refusal.reply(), |level| level as u64)
}

fn cleared(lists: &[Slice], reply: u64, after: u64) -> u64 {
    if number(reply) == after {
        zero(lists);
    }
    reply
}

/// The call that writes too, and then 21.
fn on_21(reply: u64, write: impl FnOnce() -> u64) -> u64 {
    if number(reply) == 21 {
        write();
    }
    reply
}

fn touched(given: Given, reply: u64) -> u64 {
    let mut bytes = given.withdrawals.all();
    if let Some(last) = bytes.last_mut() {
        *last ^= 1;
    }
    given.withdrawals.write(&bytes);
    reply
}
